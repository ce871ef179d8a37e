"""Circuits by other formulas than the program's: sums settle them by cuts, and no circuit that differs is verified."""
import sys
import unittest
from dataclasses import replace
from pathlib import Path
from random import Random

sys.path.insert(0, str(Path(__file__).resolve().parent.parent / "examples"))

import sboxes
import sums
from revc import Bits, Netlist, Unsettled, lib, oracle
from speck32_64 import speck32_64
from test_files import ran_by_gates

SBOXES = [sboxes.by_circuit, sboxes.by_table, sboxes.by_choices, sboxes.by_monomials, sboxes.by_powers]
SLOW = ("by_powers", "by_monomials")  # the text and the circuit that wide cuts alone tell, slower than diagrams
MUTANTS = 60


@oracle
def long_in_a_row(a: Bits[128], b: Bits[128]):
    return a + b


@oracle
def long_by_prefixes(a: Bits[128], b: Bits[128]):
    return lib.add(a, b)


@oracle
def choosing(a: Bits[32], b: Bits[32], c: Bits[32]):
    """Choice and majority as SHA-256 has them."""
    return ((a & b) ^ (~a & c)) + ((a & b) ^ (a & c) ^ (b & c))


@oracle
def choosing_by_or(a: Bits[32], b: Bits[32], c: Bits[32]):
    return ((a & b) | (~a & c)) + ((a & b) | (c & (a | b)))


def mutant(netlist: Netlist, random: Random) -> Netlist:
    """A circuit with a gate left out, or two neighbours exchanged, or a line of a gate changed."""
    gates, at = list(netlist.gates), random.randrange(len(netlist.gates) - 1)
    how = random.randrange(3)
    if how == 0:
        del gates[at]
    elif how == 1:
        gates[at:at + 2] = gates[at + 1], gates[at]
    else:
        used = {*gates[at].targets, *(line for line, _ in gates[at].controls)}
        other = random.choice([line for line in range(netlist.lines) if line not in used])
        gates[at] = gates[at]._replace(targets=(other,))
    return replace(netlist, gates=tuple(gates))


class Formulas(unittest.TestCase):
    def test_sboxes(self) -> None:
        """Each formula's circuit beside each formula."""
        for circuit in (each.compile() for each in SBOXES):
            for text in SBOXES:
                by = "both" if (text.name, circuit.source.name) == SLOW else "sums"
                self.assertEqual(text.verify(circuit, by=by), "verified", (text.name, circuit.source.name))

    def test_choices(self) -> None:
        for one, other in ((choosing, choosing_by_or), (choosing_by_or, choosing)):
            self.assertEqual(one.verify(other.compile(), by="sums"), "verified")

    def test_sums_by_prefixes(self) -> None:
        """No cut of twelve sums tells them, wide ones do; a gate less, and they tell nothing."""
        netlist = sums.by_prefixes.compile("pebble").netlist
        self.assertEqual(sums.in_a_row.verify(netlist, by="sums"), "verified")
        half = len(netlist.gates) // 2
        with self.assertRaises(Unsettled):
            sums.in_a_row.verify(replace(netlist, gates=netlist.gates[:half] + netlist.gates[half + 1:]), by="sums")

    def test_long_sums_by_prefixes(self) -> None:
        self.assertEqual(long_in_a_row.verify(long_by_prefixes.compile("pebble"), by="sums"), "verified")

    def test_wide_flips(self) -> None:
        """The eager plan cleans lines by flips of many controls, of which the program has no products."""
        self.assertEqual(speck32_64.verify(speck32_64.compile("eager"), by="sums"), "verified")

    def test_mutants(self) -> None:
        random, differing = Random(12), 0
        netlist = sboxes.by_circuit.compile().netlist
        for _ in range(MUTANTS):
            wrong = mutant(netlist, random)
            differs = any(ran_by_gates(wrong, x) != x | entry << 8 for x, entry in enumerate(sboxes.SBOX))
            differing += differs
            try:
                self.assertFalse(sboxes.by_table.verify(wrong, by="sums") == "verified" and differs)
            except Unsettled:
                pass
        self.assertGreater(differing, MUTANTS // 2)


if __name__ == "__main__":
    unittest.main()
