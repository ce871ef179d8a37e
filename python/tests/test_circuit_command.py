"""Commands on the files of other tools: maps, comparisons, forms, and names that do not fit."""
import contextlib
import csv
import io
import json
import os
import tempfile
import unittest
from pathlib import Path
from typing import List, Tuple

from revc.__main__ import main
from test_files import ADDER

PROGRAM = """from revc import Bits, add, oracle

@oracle
def adder(a: Bits[4], b: Bits[4]):
    return add(a, b, carry=True)
"""
MAP = "a=a, b=b, b=out[0:4], cout=out[4]"

# Words, and what they write.
GIVES: List[Tuple[List[str], str]] = [
    (["verify", "adder.py", "cuccaro.qasm", "--map", MAP], "verified\n"),
    (["run", "cuccaro.qasm", "a=7", "b=12", "cin=1"], "cin=1\na=7\nb=4\ncout=1\n"),
    (["run", "cuccaro.qasm", "x=7", "y=12", "--map", "a=x, b=y"], "x=7\ny=3\n"),
    (["stat", "cuccaro.qasm"], "lines 10\ngates 25\nx 0\ncx 17\nccx 8\n"),
    (["convert", "cuccaro.qasm", "-o", "c.real"], ""),
    (["tidy", "cuccaro.qasm", "--for", "depth", "-o", "c.qasm3"], ""),
    (["convert", "cuccaro.qasm", "--format", "qasm3", "-o", "c.qasm"], ""),
    (["equal", "cuccaro.qasm", "c.real"], "equal\n"),
    (["equal", "c.qasm", "c.qasm3"], "equal\n"),
    (["run", "c.real", "0" * 10], "0" * 10 + "\n"),
    (["compile", "adder.py", "-o", "own.qasm3", "--names"], ""),
    (["verify", "adder.py", "own.qasm3"], "verified\n"),
    (["compile", "adder.py", "--plan", "compact", "-o", "compact.qasm", "--names"], ""),
    (["equal", "own.qasm3", "compact.qasm", "--zeros", "out, work"], "equal\n"),
    (["equal", "own.qasm3", "compact.qasm", "--zeros", "out, work", "--map", "a=b, b=a"], "equal\n"),
    (["compile", "adder.py", "--format", "qasm3"], 'OPENQASM 3.0;\ninclude "stdgates.inc";\nqubit[8] inp;\nqubit[5] outp;\n'),
    (["phase", "adder.py", "--weights", "pi, pi/2, 3*pi/4, 0.1, 0", "--names", "--format", "qasm3"], "p(3*pi/4) out[2];\n"),
    (["draw", "cuccaro.qasm"], ">cout</text>"),
    (["draw", "cuccaro.qasm", "-o", "c.svg"], ""),
    (["costs", "adder.py", "--plan", "lean", "--points", "1", "-o", "costs.csv"], "Toffoli"),
]

# Words, the status, and what is said.
REFUSES: List[Tuple[List[str], int, str]] = [
    (["verify", "adder.py", "cuccaro.qasm"], 2, "where an output stands on the line of an input, say so by lines={..} (--map)"),
    (["verify", "adder.py", "cuccaro.qasm", "--map", "a=a, b=b, b=out"], 2, "`out` has 5 bits, and `b` 4 lines"),
    (["verify", "adder.py", "cuccaro.qasm", "--map", "a=a, b"], 2, "`b`: a map says which line is which bit, as"),
    (["verify", "adder.py", "cuccaro.qasm", "--map", "a=a, b=a"], 2, "the map has `a` twice: a and b"),
    (["verify", "adder.py", "cuccaro.qasm", "--map", "a=b, b=a, b=out[0:4], cin=out[4]"], 15,
     "the circuit calls that line `cin[0]`"),
    (["equal", "cuccaro.qasm", "own.qasm3"], 2, "is a line of one circuit alone, and may start as anything"),
    (["stat", "h.qasm"], 8, "h.qasm:1:31: `h`: it leads from the bits 0 and 1 to others"),
    (["verify", "adder.py", "h.qasm"], 8, "h.qasm:1:31: `h`"),
    (["compile", "adder.py", "-o", "z.txt"], 2, "z.txt: a circuit is written as .real, .qasm or .qasm3"),
    (["compile", "adder.py", "--format", "real", "-o", "z.qasm"], 2, "z.qasm: --format real is not what the name says"),
    (["convert", "cuccaro.qasm", "--format", "qasm", "-o", "z.real"], 2, "z.real: --format qasm is not what the name says"),
    (["draw", "cuccaro.qasm", "-o", "z.png"], 2, "z.png: a picture is written as .svg"),
    (["draw", "adder.py", "-o", "z.pdf"], 2, "z.pdf: a picture is written as .svg"),
    (["costs", "adder.py", "-o", "z.png"], 2, "z.png: costs are written as .csv, .json or .svg"),
    (["phase", "adder.py", "-o", "z.real"], 2, "z.real: a phase oracle is written as .qasm or .qasm3"),
    (["phase", "adder.py", "--weights", "pi, x"], 2, "x: an angle is a number in radians, or a part of pi as `3*pi/4`"),
    (["phase", "adder.py", "--weights", "pi pi"], 2, "pi pi: an angle is a number in radians"),
    (["text", "adder.py", "-o", "z.real"], 2, "z.real: a program is written as .revs"),
    (["run", "cuccaro.qasm", "a=16"], 2, "a=16 does not fit in 4 lines: 0 to 15"),
]


class Commands(unittest.TestCase):
    def setUp(self) -> None:
        folder = tempfile.TemporaryDirectory()
        self.addCleanup(folder.cleanup)
        self.addCleanup(os.chdir, os.getcwd())
        os.chdir(folder.name)
        for name, text in (("adder.py", PROGRAM), ("cuccaro.qasm", ADDER), ("h.qasm", "OPENQASM 2.0; qreg q[1]; x q; h q;")):
            Path(name).write_text(text)

    def called(self, words: List[str]) -> Tuple[int, str, str]:
        out, err = io.StringIO(), io.StringIO()
        with contextlib.redirect_stdout(out), contextlib.redirect_stderr(err):
            status = main(words)
        return status, out.getvalue(), err.getvalue()

    def gives(self, words: List[str]) -> str:
        status, out, err = self.called(words)
        self.assertEqual(status, 0, (words, err))
        return out

    def test_each(self) -> None:
        for words, wanted in GIVES:
            self.assertIn(wanted, self.gives(words), words)
        for words, wanted_status, wanted in REFUSES:
            status, out, err = self.called(words)
            self.assertEqual((status, out), (wanted_status, ""), (words, err))
            self.assertIn(wanted, err, words)
            self.assertFalse(any(Path(".").glob("z.*")), words)

    def test_costs_as_data(self) -> None:
        words = ["costs", "adder.py", "--plan", "lean", "--plan", "compact", "--points", "1"]
        rows = json.loads(self.gives([*words, "--json"]))
        table = list(csv.DictReader(io.StringIO(self.gives([*words, "--csv"]))))
        self.assertEqual([{name: str(value) for name, value in row.items()} for row in rows], table)
        for row in rows:
            self.assertEqual((row["program"], row["inputs"], row["outputs"], row["t"]), ("adder", 8, 5, 7 * row["toffoli"]))
            self.assertEqual(row["lines"], row["inputs"] + row["outputs"] + row["work"] + row["borrowed"])
        shown = self.gives([*words, "-o", "costs.json"])
        self.assertEqual(json.loads(Path("costs.json").read_text()), rows)
        self.assertEqual(len(shown.splitlines()), len(rows) + 2)  # the heads above, the ANDs below


if __name__ == "__main__":
    unittest.main()
