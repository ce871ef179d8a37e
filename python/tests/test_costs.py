"""Costs by what one counts, the best circuit within limits, and the depths and T gates of any circuit."""
import subprocess
import sys
import tempfile
import unittest
from pathlib import Path
from random import Random
from typing import Dict, List

import revc
from revc import Circuit, ClaimFails, RevcError, Source, U3, U4, oracle
from revc.costs import COUNTS
from revc.netlists import read_text

HERE = Path(__file__).resolve().parent
EXAMPLES = HERE.parent.parent / "examples"


@oracle
def multiplied(a: U4, b: U4):
    return a * b


@oracle
def little(a: U3, b: U3):
    return a + b > 5


def longest(gates: List[List[int]], counted: int) -> int:
    """The length of the longest chain of gates that share a line one after another; gates of fewer lines count 0."""
    chains: List[int] = []
    for number, gate in enumerate(gates):
        before = [chains[other] for other in range(number) if set(gates[other]) & set(gate)]
        chains.append(max(before, default=0) + (len(gate) >= counted))
    return max(chains, default=0)


def stat(text: str, ending: str = ".real") -> Dict[str, int]:
    """What the command counts of a circuit's file."""
    with tempfile.TemporaryDirectory() as folder:
        path = Path(folder) / ("circuit" + ending)
        path.write_text(text)
        done = subprocess.run([sys.executable, "-m", "revc", "stat", str(path)], stdout=subprocess.PIPE, check=True)
    return {line.split()[0]: int(line.split()[1]) for line in done.stdout.decode().splitlines()}


class AndCounts(unittest.TestCase):
    def test_known_functions(self) -> None:
        majority = Source("main (a : bool) (b : bool) (c : bool) = a && b <> a && c <> b && c")
        self.assertEqual(majority.ands(), (3, 1, 1))
        self.assertEqual(str(majority.ands()), "3 ANDs, 1 would do; AND depth 1")
        chain = Source("main (a : bool[4]) = a.[0] && a.[1] && a.[2] && a.[3]")
        self.assertEqual(str(chain.ands(timeout=60)), "3 ANDs; AND depth 3")
        self.assertEqual(str(Source("main (a : bool) (b : bool) = a && b").ands()), "1 AND; AND depth 1")

    def test_assumed_claims(self) -> None:
        claimed = Source("main (a : bool) (b : bool) = { assert a; a && b }")
        self.assertEqual(claimed.ands(assume=1).ands, 1)
        with self.assertRaises(ClaimFails):
            claimed.ands()

    def test_costs_tell_them(self) -> None:
        costs = little.costs(plans=["lean"], points=1)
        self.assertEqual(costs.ands, little.ands())
        self.assertEqual(str(costs).splitlines()[-1], str(little.ands()))


class Tables(unittest.TestCase):
    def test_no_row_is_beaten(self) -> None:
        for by in ("lines", "depth", "t"):
            costs = little.costs(by=by, points=1)
            rows = [[getattr(row.cost, name) for name in COUNTS] for row in costs]
            for one in rows:
                for other in rows:
                    self.assertFalse(one != other and all(x <= y for x, y in zip(other, one)), (by, one, other))
            first = [getattr(row.cost, by) for row in costs]
            self.assertEqual(first, sorted(first), by)
            for row in costs:
                self.assertEqual(little.compile(row.plan, lines=row.lines).cost, row.cost)

    def test_counts_that_are_none(self) -> None:
        with self.assertRaisesRegex(RevcError, "by='ands': costs are counted by lines, gates, toffoli, toffoli_depth, depth, t"):
            little.costs(by="ands")


class Best(unittest.TestCase):
    def every(self, source: Source) -> List[Circuit]:
        """The circuit of each plan on each number of lines."""
        found = []
        for plan in revc.version().plans:
            for lines in range(source.inputs + source.outputs, 34):
                try:
                    found.append(source.compile(plan, lines=lines))
                except revc.Refused:
                    pass
        return found

    def test_it_is_the_best_of_all(self) -> None:
        """Of little programs nothing beats it, whatever one counts and has."""
        every = self.every(little)
        for by in ("toffoli", "toffoli_depth", "depth", "lines"):
            for lines in (16384, 12):
                best = little.best(by, lines=lines, points=10).cost
                self.assertLessEqual(best.lines, lines)
                least = min(getattr(each.cost, by) for each in every if each.cost.lines <= lines)
                self.assertEqual(getattr(best, by), least, (by, lines))

    def test_limits(self) -> None:
        costs = multiplied.costs()
        for row in costs:
            best = multiplied.best("lines", toffoli=row.cost.toffoli)
            self.assertLessEqual(best.cost.toffoli, row.cost.toffoli)
            self.assertLessEqual(best.cost.lines, row.cost.lines)
            best = multiplied.best("toffoli", lines=row.lines, depth=row.cost.depth)  # on fewer a plan may not be found again
            self.assertLessEqual(best.cost.depth, row.cost.depth)
            self.assertLessEqual(best.cost.lines, row.lines)
        with self.assertRaisesRegex(RevcError, r"no circuit of `multiplied` is within toffoli=1, lines=16384|lines=16384, toffoli=1"):
            multiplied.best("lines", toffoli=1)
        with self.assertRaisesRegex(RevcError, "by='width': costs are counted by"):
            multiplied.best("width")


class Stat(unittest.TestCase):
    def test_of_compiled_circuits(self) -> None:
        for circuit in (little.compile(), little.compile("eager")):
            cost = circuit.cost
            for text, ending in ((circuit.real, ".real"), (circuit.qasm, ".qasm")):
                found = stat(text, ending)
                self.assertEqual((found["toffoli_depth"], found["t"]), (cost.toffoli_depth, cost.t))
            self.assertEqual(cost.toffoli_depth, longest(circuit.gates, 3))
            self.assertEqual(cost.depth, longest(circuit.gates, 1))

    def test_of_other_circuits(self) -> None:
        """Wide gates count as `convert` splits them."""
        random = Random(4)
        for _ in range(4):
            gates = [random.sample("abcdefg", random.randrange(1, 5)) for _ in range(12)]
            text = "\n".join([".numvars 7", ".variables a b c d e f g", ".begin", *(f"t{len(g)} {' '.join(g)}" for g in gates),
                              ".end", ""])
            plain = read_text(text).split().gates
            found = stat(text)
            self.assertEqual(found["toffoli_depth"], longest([gate.lines for gate in plain], 3))
            self.assertEqual(found["t"], 7 * sum(len(gate.lines) == 3 for gate in plain))

    def test_of_no_gates(self) -> None:
        found = stat(".numvars 1\n.variables a\n.begin\n.end\n")
        self.assertEqual((found["toffoli_depth"], found["t"], found["depth"]), (0, 0, 0))


if __name__ == "__main__":
    unittest.main()
