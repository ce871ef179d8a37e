"""The command `python3 -m revc`, as a shell has it."""
import io
import os
import subprocess
import sys
import tempfile
import unittest
from contextlib import redirect_stdout
from pathlib import Path
from typing import Tuple

from revc.__main__ import main

PACKAGE = Path(__file__).resolve().parent.parent
EXAMPLES = PACKAGE.parent / "examples"
ALU = """from revc import Bits, Switch, oracle

@oracle
def alu(op: Bits[2], a: Bits[4], b: Bits[4]):
    return Switch(op, {0: a + b, 1: a - b, 2: a & b, 3: a ^ b})
"""


class Command(unittest.TestCase):
    cache: tempfile.TemporaryDirectory  # of bytecode, so that not each call compiles the package

    @classmethod
    def setUpClass(cls) -> None:
        cls.cache = tempfile.TemporaryDirectory()
        cls.addClassCleanup(cls.cache.cleanup)

    def setUp(self) -> None:
        folder = tempfile.TemporaryDirectory()
        self.addCleanup(folder.cleanup)
        self.room = Path(folder.name)
        (self.room / "alu.py").write_text(ALU)

    def run_in(self, words: str, text: str = "") -> Tuple[int, str, str]:
        space = dict(os.environ, PYTHONPATH=str(PACKAGE), PYTHONPYCACHEPREFIX=self.cache.name, EXAMPLES=str(EXAMPLES))
        space.pop("PYTHONDONTWRITEBYTECODE", None)
        done = subprocess.run(f"{sys.executable} -m revc {words}", shell=True, cwd=self.folder, env=space,
                              input=text.encode(), stdout=subprocess.PIPE, stderr=subprocess.PIPE)
        return done.returncode, done.stdout.decode(), done.stderr.decode()

    @property
    def folder(self) -> str:
        return str(self.room)

    def gives(self, words: str, out: str, text: str = "") -> str:
        status, found, err = self.run_in(words, text)
        self.assertEqual(status, 0, err)
        self.assertIn(out, found)
        return err

    def refuses(self, words: str, says: str, status: int = 2, text: str = "") -> None:
        found, out, err = self.run_in(words, text)
        self.assertEqual((found, out), (status, ""))
        self.assertIn(says, err)

    def test_files(self) -> None:
        self.assertIn("25 lines (10 inputs, 4 outputs, 11 work)", self.gives("compile alu.py -o alu.qasm", ""))
        self.gives("stat alu.qasm", "lines 25\n")
        self.gives("convert alu.qasm -o alu.real", "")
        self.assertTrue((self.room / "alu.real").read_text().startswith(".version"))
        self.gives("text alu.py -o alu.revs", "")
        self.gives("verify alu.revs alu.real", "verified")
        self.gives("verify alu.py alu.qasm", "verified")
        self.gives("tidy alu.real -o tidied.real", "")
        self.gives("verify alu.py tidied.real", "verified")
        self.gives("check alu.revs", "claims 0")
        self.gives("ands $EXAMPLES/majority.revs", "3 ANDs, 1 would do; AND depth 1")
        self.gives("run alu.py op=1 a=3 b=5", "out=14")
        self.gives("run alu.revs op=0 a=3 b=0x5", "out=8")
        self.gives(f"run alu.real {'0' * 25}", "0" * 25)
        self.gives("draw alu.real -o alu.svg", "")
        self.gives("draw alu.py --columns 20", "<svg")
        self.gives("costs alu.py --plan lean --points 1 -o alu.svg", "Toffoli")
        self.gives("compile - --plan lean", "t3 x0 x1 y0", "main (a : bool) (b : bool) = a && b")
        self.gives("compile --plan pebble --format qasm $EXAMPLES/and.revs", "OPENQASM 2.0;")
        self.gives("phase $EXAMPLES/and.revs", "h outp[0];")
        self.gives("phase $EXAMPLES/and.revs --form z", "z outp[0];")

    def test_help(self) -> None:
        self.gives("--help", "compile")
        for each in "compile costs ands check run stat verify convert tidy draw phase text".split():
            out = io.StringIO()
            with self.assertRaises(SystemExit) as ended, redirect_stdout(out):
                main([each, "--help"])
            self.assertEqual(ended.exception.code, 0)
            self.assertIn("usage: revc " + each, out.getvalue())

    def test_refusals(self) -> None:
        self.refuses("compile alu.revs", "alu.revs: No such file or directory")
        self.refuses("compile alu.py --plan best", "no plan `best`: auto, eager, pebble, lean")
        self.refuses("compile alu.py --plans lean", "it takes no `--plans`: --assume, --borrow, --format, --gates,")
        self.refuses("compile alu.py -o alu.txt", "alu.txt: a circuit is written as .real, .qasm or .qasm3")
        self.refuses("compile alu.py --lines many", "argument --lines: invalid int value: 'many'")
        self.refuses("compil alu.py", "invalid choice: 'compil'")
        self.refuses("compile alu.py:adder", "alu.py has no oracle `adder`: alu")
        self.refuses("run alu.py 3 5", "3: numbers are given by name, as a=3 or a=0x5f")
        self.refuses("run alu.py op=1", "no number for `a`")
        self.run_in("compile alu.py -o alu.real")
        self.refuses("compile alu.real", "alu.real is a circuit, and a program is wanted: a .revs or .py file")
        self.refuses("stat alu.py", "alu.py is a program, and a circuit is wanted")
        self.refuses("check -", "a `;` is missing behind", 3, "main (a : bool) = {\n  let t = a\n  t }")
        (self.room / "wrong.py").write_text(ALU.replace("b: Bits[4]", "b: Bits[5]"))
        self.refuses("compile wrong.py", "`a` has 4 bits and `b` 5: widen(a, 5) or b[:4]\n")
        self.refuses("compile wrong.py", "wrong.py:5: return Switch(")


class Script(unittest.TestCase):
    def test_help(self) -> None:
        script = str(PACKAGE.parent / "revc")
        for words in ([script, "--help"], [script, "-h"], [script]):
            done = subprocess.run(words, stdout=subprocess.PIPE, stderr=subprocess.PIPE)
            for line in ("compile", "python3 -m revc"):
                self.assertIn(line, (done.stdout + done.stderr).decode())


if __name__ == "__main__":
    unittest.main()
