"""The scripts `./revc` and its table of words: what they say behind a refusal of the program, and what they pass on."""
import re
import shutil
import subprocess
import tempfile
import unittest
from pathlib import Path
from random import Random
from typing import List, Tuple

from revc import program
from revc.defaults import DEFAULTS
from revc.words import COMMANDS, OPTIONS, SIZE, wrong

HERE = Path(__file__).resolve().parent.parent.parent
AND = "main (a : bool) (b : bool) = a && b"

# Words, and what is said of them.
REFUSED = [
    ("frobnicate", "there is no command `frobnicate`: compile, check, ands, eval,"),
    ("compil", "there is no command `compil`: is it `compile`?"),
    ("costs", "`costs` is a command of `python3 -m revc`, which works on files"),
    ("compile --line 3", "`compile` takes no `--line`: is it `--lines`?"),
    ("compile --from real", "`compile` takes no `--from`: that is of run, stat, convert, tidy, verify; its options are --format,"),
    ("compile -o x.real", "`compile` takes no `-o`: it writes to standard output, so say > FILE"),
    ("compile --plan compct", "`--plan compct`: is it `compact`? There are auto, eager, pebble, lean, compact, shallow"),
    ("tidy --for dept", "`--for dept`: is it `depth`? There are gates, depth, order"),
    ("compile --lines 20000", "`--lines 20000`: a number from 1 to 16,384"),
    ("compile --gates=abc", "`--gates abc`: a number from 1 to 4,000,000"),
    ("compile --lines", "`--lines` wants a value: 1 to 16,384"),
    ("compile --lines 8 --lines 9", "`--lines` stands twice"),
    ("compile and.revs", "`compile` reads a program from standard input: write `< and.revs` in place of `and.revs`"),
    ("compile oracle.py", "`oracle.py` is a file of Python: python3 -m revc compile oracle.py"),
    ("stat ./revc", "`stat` reads a circuit from standard input: write `< ./revc` in place of `./revc`"),
    ("compile --help", "`--help` stands alone: ./revc --help"),
    ("eval", "`eval` wants BITS, a digit 0 or 1 for each input"),
    ("ands 3", "`ands` takes no `3`"),
    ("eval 10 11", "`eval` takes no `11`: it takes BITS alone"),
    ("gen 201", "`gen 201`: a number from 1 to 200"),
    ("arith mult 3", "`arith mult`: is it `mul`?"),
    ("arith mul 8", "`arith mul N` wants `--by C`, the constant"),
    ("arith add 8 --by 3", "`arith add` takes no `--by`: only `mul` has a constant"),
]
PASSED = [("eval 11", 0), ("compile --plan lean --lines 3", 0), ("compile --lines 2", 6), ("eval 1", 12), ("gen 3", 0),
          ("stat", 8), ("verify", 16)]


class Script(unittest.TestCase):
    def setUp(self) -> None:
        """A repository in which the program is built."""
        folder = tempfile.TemporaryDirectory()
        self.addCleanup(folder.cleanup)
        self.room = Path(folder.name)
        (self.room / "crates" / "revc" / "out").mkdir(parents=True)
        (self.room / "crates" / "revc" / "out" / "revc").symlink_to(program.program())
        (self.room / "python").symlink_to(HERE / "python")
        shutil.copy(HERE / "revc", self.room)

    def answer(self, words: str, place: str = "./revc") -> Tuple[int, str, str]:
        done = subprocess.run([place, *words.split()], cwd=self.room, input=AND.encode(), stdout=subprocess.PIPE,
                              stderr=subprocess.PIPE)
        return done.returncode, done.stdout.decode(), done.stderr.decode()

    def test_words_that_are_refused(self) -> None:
        for words, says in REFUSED[::5]:
            status, out, err = self.answer(words)
            self.assertEqual((status, out), (2, ""), words)
            own, said = err.split("\n", 1)
            self.assertEqual(own, "revc: bad command line", words)
            self.assertIn(says, said)
            self.assertEqual(said.count("\n"), 1, words)

    def test_words_that_are_taken(self) -> None:
        for words, status in PASSED:
            found = self.answer(words)
            self.assertEqual(found, self.answer(words, program.program()), words)
            self.assertEqual(found[0], status, words)

    def test_without_python(self) -> None:
        tools = self.room / "bin"
        tools.mkdir()
        for tool in ("bash", "env", "dirname", "readlink"):
            (tools / tool).symlink_to(str(shutil.which(tool)))
        done = subprocess.run(["./revc", "compil"], cwd=self.room, env={"PATH": str(tools)}, stderr=subprocess.PIPE)
        self.assertEqual((done.returncode, done.stderr.decode()), (2, "revc: bad command line\n"))

    def test_help_has_the_defaults(self) -> None:
        text = self.answer("--help")[1]
        for name, about in DEFAULTS.items():
            usual = "" if about.usual == about.own else f" ({about.usual})"
            self.assertRegex(text, rf"--{name} +{re.escape(about.range)}: {about.own}{re.escape(usual)}")


class Words(unittest.TestCase):
    def test_what_is_said(self) -> None:
        for words, says in REFUSED:
            self.assertFalse(self.takes(words.split()), words)
            self.assertIn(says, wrong(words.split()))

    def takes(self, words: List[str]) -> bool:
        return subprocess.run([program.program(), *words], stdin=subprocess.DEVNULL, stdout=subprocess.DEVNULL,
                              stderr=subprocess.DEVNULL).returncode != program.USAGE

    def test_the_table_is_the_program_s(self) -> None:
        """Of each command each option with its least and its greatest value, and beyond; of each number a step beyond."""
        plain = {"eval": ["1"], "run": ["1"], "gen": ["3"], "bench": ["3"], "arith": ["add", "3"]}
        for command in COMMANDS:
            for name in OPTIONS:
                values = [str(each) for each in (OPTIONS[name].takes[0], OPTIONS[name].takes[-1])]
                values += [str(int(values[0]) - 1), str(int(values[1]) + 1)] if values[0].isdigit() else ["x"]
                for value in values:
                    words = [command, *plain.get(command, []), f"--{name}", value]
                    self.assertEqual(wrong(words) == "", self.takes(words), words)
        for number in SIZE.takes:
            for size in (int(number) - 1, int(number), int(number) + 1):
                self.assertEqual(wrong(["gen", str(size)]) == "", self.takes(["gen", str(size)]))

    def test_random_words(self) -> None:
        random = Random(5)
        some = [*COMMANDS, "--lines", "--lines=30", "--plan", "lean", "--by", "both", "101", "7", "--", "-", "", "--nodes",
                "mul", "--from", "qasm", "--format=real", "--x", "-1", "--borrow=3", "0", "--write", "--by=3"]
        for _ in range(400):
            words = [random.choice(list(COMMANDS)), *random.choices(some, k=random.randrange(5))]
            self.assertEqual(wrong(words) == "", self.takes(words), words)


if __name__ == "__main__":
    unittest.main()
