"""Netlists of other tools: BLIF with tables and cells, and and-inverter graphs as text and as bytes."""
import tempfile
import unittest
from pathlib import Path
from random import Random
from typing import Callable, Dict, List, Tuple

from revc import RevcError, Source, load
from revc.network_files import network_of
from revc.networks import NetworkProgram

HEAD = ".model m\n.inputs a b c d\n.outputs y\n"

# What the cells of yosys are, of pins A, B, C, D and S.
CELLS: Dict[str, Tuple[str, Callable[..., int]]] = {
    "BUF": ("A", lambda a: a), "NOT": ("A", lambda a: 1 - a), "AND": ("AB", lambda a, b: a & b),
    "NAND": ("AB", lambda a, b: 1 - (a & b)), "OR": ("AB", lambda a, b: a | b), "NOR": ("AB", lambda a, b: 1 - (a | b)),
    "XOR": ("AB", lambda a, b: a ^ b), "XNOR": ("AB", lambda a, b: 1 - (a ^ b)), "ANDNOT": ("AB", lambda a, b: a & 1 - b),
    "ORNOT": ("AB", lambda a, b: a | 1 - b), "MUX": ("ABS", lambda a, b, s: b if s else a),
    "NMUX": ("ABS", lambda a, b, s: 1 - (b if s else a)), "AOI3": ("ABC", lambda a, b, c: 1 - (a & b | c)),
    "OAI3": ("ABC", lambda a, b, c: 1 - ((a | b) & c)), "AOI4": ("ABCD", lambda a, b, c, d: 1 - (a & b | c & d)),
    "OAI4": ("ABCD", lambda a, b, c, d: 1 - ((a | b) & (c | d)))}

LIBRARY = """
GATE inv 1 O=!a; PIN * INV 1 999 1 0 1 0
GATE "odd one" 5 O = a*!b + a'*b;  PIN * UNKNOWN 2 999 1.9 0 1.9 0
GATE deep 3 O=!((a + b) (c^d)) ; # a comment = 1;
GATE one 0 O=CONST1;
"""

# A netlist, and what the message says.
REFUSED: List[Tuple[bytes, str]] = [
    (b".inputs a\n.latch a b\n", "line 2: no `.latch a` here: a circuit here has no memory"),
    (HEAD.encode() + b".gate nand2 a=a b=b O=y\n", "line 4: no cell `nand2` is known"),
    (HEAD.encode() + b".subckt $_AND_ A=a B=b\n", r"line 4: the pins of `\$_AND_` are A=.. B=.. Y=.."),
    (HEAD.encode() + b".names a y\n11 1\n", "line 5: not a row of 1 inputs and their output"),
    (HEAD.encode(), "nothing drives y"),
    (b"aag 1 1 0\n", "line 1: a graph of AIGER begins with"),
    (b"aag 2 1 1 0 0\n2\n4 2\n", "1 latches: a circuit here has no memory"),
    (b"aag 1 1 0 1 0\n2\n", "line 3: 1 number expected"),
    (b"aag 1 1 0 1 0\n2\n4\n", "line 3: 4 is past the greatest variable, 1"),
    (b"aag 2 1 0 1 1\n2\n4\n4 5 2\n", r"\$2 rests on itself"),
    (b"aig 2 1 0 1 1\n4\n\x02", "the file ends within its ANDs"),
]

Gate = Tuple[int, int, int]


def program_of(netlist: bytes) -> Source:
    return Source(NetworkProgram(network_of(netlist)).text())


def graph_text(inputs: int, gates: List[Gate], outputs: List[int]) -> bytes:
    numbers = [*([2 * k + 2] for k in range(inputs)), *([each] for each in outputs), *gates]
    head = f"aag {inputs + len(gates)} {inputs} 0 {len(outputs)} {len(gates)}\n"
    return (head + "".join(" ".join(map(str, line)) + "\n" for line in numbers) + "i0 first\nc\ni1 none\n").encode()


def graph_bytes(inputs: int, gates: List[Gate], outputs: List[int]) -> bytes:
    head = f"aig {inputs + len(gates)} {inputs} 0 {len(outputs)} {len(gates)}\n"
    coded = bytearray()
    for target, one, other in gates:
        for number in (target - max(one, other), max(one, other) - min(one, other)):
            while number > 127:
                coded.append(number % 128 + 128)
                number //= 128
            coded.append(number)
    return (head + "".join(f"{each}\n" for each in outputs)).encode() + bytes(coded) + b"i0 first\n"


def ran(inputs: int, gates: List[Gate], outputs: List[int], word: int) -> List[int]:
    bits = {0: 0, **{2 * k + 2: word >> k & 1 for k in range(inputs)}}
    for target, one, other in gates:
        bits[target] = (bits[one & ~1] ^ one & 1) & (bits[other & ~1] ^ other & 1)
    return [bits[each & ~1] ^ each & 1 for each in outputs]


class Graphs(unittest.TestCase):
    def test_random(self) -> None:
        """Graphs with choices and XORs, as text and as bytes, on all inputs."""
        random = Random(4)
        for _ in range(30):
            inputs = random.randint(1, 4)
            gates: List[Gate] = []
            while len(gates) < 9:
                target = 2 * (inputs + len(gates)) + 2
                literals = [random.randrange(2, target) for _ in range(3)]
                if random.random() < 0.5 or len(gates) > 6:
                    gates.append((target, *sorted(literals[:2], reverse=True)))
                    continue
                bit, one, other = literals  # a choice between two, or an XOR
                other = one ^ 1 if random.random() < 0.5 else other
                gates += [(target, max(bit, one), min(bit, one)), (target + 2, max(bit ^ 1, other), min(bit ^ 1, other)),
                          (target + 4, target + 3, target + 1)]
            outputs = [random.randrange(2 * (inputs + len(gates)) + 2) for _ in range(3)]
            wanted = [ran(inputs, gates, outputs, word) for word in range(1 << inputs)]
            names = ["first", *(f"i{k}" for k in range(1, inputs))]
            rows = [{name: word >> k & 1 for k, name in enumerate(names)} for word in range(1 << inputs)]
            for form in (graph_text, graph_bytes):
                source = program_of(form(inputs, gates, outputs))
                found = source.compile().run_many(rows)
                self.assertEqual([[each >> k & 1 for k in range(3)] for each in found], wanted, source.text)

    def test_an_xor_is_one(self) -> None:
        gates = [(6, 4, 2), (8, 5, 3), (10, 9, 7)]
        for form in (graph_text, graph_bytes):
            self.assertIn(" <> ", program_of(form(2, gates, [10])).text)
            self.assertNotIn("&&", program_of(form(2, gates, [10])).text)


class Cells(unittest.TestCase):
    def test_yosys(self) -> None:
        """Each cell, as a `.gate` and as a `.subckt`."""
        nets = dict(zip("ABCDS", "abcda"))
        lines = [f"{'.gate' if k % 2 else '.subckt'} $_{name}_ {' '.join(f'{pin}={nets[pin]}' for pin in pins)} Y={name}\n"
                 for k, (name, (pins, _)) in enumerate(CELLS.items())]
        head = f".model m\n.inputs a b c d\n.outputs {' '.join(CELLS)}\n"
        source = program_of((head + "".join(lines) + ".end\n").encode())
        rows = [dict(zip("abcd", map(int, f"{word:04b}"))) for word in range(16)]
        for row, found in zip(rows, source.compile().run_many(rows)):
            wanted = [does(*(row[nets[pin]] for pin in pins)) for pins, does in CELLS.values()]
            self.assertEqual([found >> k & 1 for k in range(len(CELLS))], wanted, row)

    def test_a_library(self) -> None:
        netlist = (".model m\n.inputs a b c d\n.outputs x y z t\n.gate inv a=a O=x\n.gate odd a=a b=b O=y\n"
                   ".gate deep a=a b=b c=c d=d O=z\n.gate one O=t\n.end\n")
        with tempfile.TemporaryDirectory() as folder:
            library, file = Path(folder) / "cells.genlib", Path(folder) / "mapped.blif"
            library.write_text(LIBRARY.replace('"odd one"', "odd"))
            file.write_text(netlist)
            source = load(file, library)
        self.assertEqual(source.name, "mapped")
        for word in range(16):
            a, b, c, d = map(int, f"{word:04b}")
            wanted = 1 - a + 2 * (a ^ b) + 4 * (1 - ((a | b) & (c ^ d))) + 8
            self.assertEqual(source(a=a, b=b, c=c, d=d), wanted)


class Refusals(unittest.TestCase):
    def test_messages(self) -> None:
        for netlist, says in REFUSED:
            with self.assertRaisesRegex(RevcError, says):
                program_of(netlist)


if __name__ == "__main__":
    unittest.main()
