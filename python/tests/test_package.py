"""What the package is to Python: its exceptions, types, versions, time limits, its log, its place and its wheel."""
import ast
import csv
import hashlib
import io
import logging
import os
import pickle
import subprocess
import sys
import tempfile
import time
import unittest
import zipfile
from base64 import urlsafe_b64encode
from email.parser import Parser
from pathlib import Path
from typing import Any, Callable, List, Tuple
from unittest import mock

import revc
import wheels
from revc import (Bits, Const, KindError, KnownLater, Mux, PlaceError, Refused, RevcError, Source, TimedOut, U1, U8, U64,
                  WidthError, oracle, program, require, table)

PACKAGE = Path(revc.__file__).resolve().parent

# What an author writes of 8 bits, the exception of this package, and Python's.
OF_PYTHON: List[Tuple[Callable[[Any], Any], type, type]] = [
    (lambda a: a + 300, WidthError, ValueError),
    (lambda a: a + a[:4], WidthError, ValueError),
    (lambda a: Const(9, 3), WidthError, ValueError),
    (lambda a: table(a, [1, 2]), WidthError, ValueError),
    (lambda a: Mux(a, a, a), WidthError, ValueError),
    (lambda a: a[8], PlaceError, IndexError),
    (lambda a: a[2:9], PlaceError, IndexError),
    (lambda a: a.put(-9, 1), PlaceError, IndexError),
    (lambda a: bool(a), KnownLater, TypeError),
    (lambda a: int(a), KnownLater, TypeError),
    (lambda a: [1, 2][a], KnownLater, TypeError),
    (lambda a: range(a), KnownLater, TypeError),
    (lambda a: {a}, KnownLater, TypeError),
    (lambda a: a in {1, 2}, KnownLater, TypeError),
    (lambda a: 3 in a, KnownLater, TypeError),
    (lambda a: a // a, KnownLater, TypeError),
    (lambda a: a + 1.5, KindError, TypeError),
    (lambda a: a / 2, KindError, TypeError),
    (lambda a: a << "1", KindError, TypeError),
]

AND = "main (a : bool) (b : bool) = a && b"
CLAIMED = "main (a : bool[2]) = { assert a.[0]; a }"
WRONG = ".numvars 3\n.variables a b c\n.begin\n.end\n"

# What is asked, the exception, and what it holds.
OF_THE_PROGRAM: List[Tuple[Callable[[], Any], str, dict]] = [
    (lambda: Source("main (a : bool) =\n a && b").compile(), "TextRefused", dict(line=2, column=7, kind="Unbound", status=3)),
    (lambda: Source(CLAIMED).check(), "ClaimFails", dict(number=1, inputs="00", status=4)),
    (lambda: Source(product_claim(12)).check(nodes=10), "NodesExceeded", dict(number=1, limit=10, status=5)),
    (lambda: product(8).verify(product(8).compile("lean"), nodes=10, by="diagrams"), "NodesExceeded",
     dict(number=None, limit=10, status=5)),
    (lambda: Source(AND).compile(lines=2), "LinesExceeded", dict(need=3, limit=2, status=6)),
    (lambda: Source("main (a : bool[3]) = a.[0] && a.[1] && a.[2]").compile(gates=1), "GatesExceeded", dict(limit=1, status=7)),
    (lambda: Source(AND).verify("nothing"), "CircuitRefused", dict(line=1, column=0, status=8)),
    (lambda: Source(AND).verify("OPENQASM 2.0; qreg q[3]; h q;"), "ReadError", dict(line=1, column=26, status=8)),
    (lambda: Source(AND).verify(WRONG), "CircuitDiffers", dict(line=3, inputs="11", status=15)),
    (lambda: Source(AND).verify(WRONG, by="sums"), "Unsettled", dict(status=17)),
]


def product(n: int) -> revc.Oracle:
    def times(a: Any, b: Any) -> Any:
        return a * b
    times.__annotations__ = {"a": Bits[n], "b": Bits[n]}
    return oracle(times)


def product_claim(n: int) -> str:
    def times(a: Any, b: Any) -> Any:
        require(a * b == b * a)
        return a
    times.__annotations__ = {"a": Bits[n], "b": Bits[n]}
    return oracle(times).text


class Exceptions(unittest.TestCase):
    def test_of_python(self) -> None:
        for number, (body, kind, of_python) in enumerate(OF_PYTHON):
            def one(a: U8) -> Any:
                return body(a)
            with self.assertRaises(kind, msg=str(number)) as refused:
                oracle(one)
            self.assertIsInstance(refused.exception, RevcError)
            self.assertIsInstance(refused.exception, of_python)

    def test_of_the_program(self) -> None:
        for ask, name, fields in OF_THE_PROGRAM:
            with self.assertRaises(getattr(revc, name)) as refused:
                ask()
            self.assertIsInstance(refused.exception, Refused)
            found = {field: getattr(refused.exception, field) for field in fields}
            self.assertEqual(found, fields, name)
            self.assertTrue(str(refused.exception).startswith(refused.exception.message), name)
            again = pickle.loads(pickle.dumps(refused.exception))
            self.assertEqual((type(again), vars(again), str(again)),
                             (type(refused.exception), vars(refused.exception), str(refused.exception)))

    def test_memory(self) -> None:
        self.assertIsInstance(revc.errors.refused("revc: out of memory", 11), revc.OutOfMemory)


class Types(unittest.TestCase):
    def test_widths(self) -> None:
        @oracle
        def typed(a: U1, b: U8, c: U64) -> U64:
            return c ^ 1
        self.assertEqual(typed.params, [("a", 1), ("b", 8), ("c", 64)])
        for n in range(1, 65):
            self.assertEqual(getattr(revc, f"U{n}").__metadata__, (n,))


class Limits(unittest.TestCase):
    def slow(self) -> Any:
        """A program that answers nothing in time."""
        folder = tempfile.TemporaryDirectory()
        self.addCleanup(folder.cleanup)
        place = Path(folder.name) / "revc"
        place.write_text("#!/bin/sh\nexec sleep 60\n")
        place.chmod(0o755)
        return mock.patch.dict(os.environ, REVC=str(place))

    def test_timeouts(self) -> None:
        source = Source(AND)
        circuit = source.compile()
        self.assertEqual(circuit.run(a=1, b=1), 1)
        calls: List[Callable[[], Any]] = [
            lambda: source.compile(timeout=0.2), lambda: source.check(timeout=0.2), lambda: source.verify(circuit, timeout=0.2),
            lambda: source.costs(["lean"], timeout=0.2), lambda: source.best(plans=["lean"], timeout=0.2),
            lambda: circuit.run_many([dict(a=1, b=1)], timeout=0.2), lambda: circuit.verify(timeout=0.2)]
        with self.slow():
            for call in calls:
                begun = time.monotonic()
                with self.assertRaises(TimedOut) as late:
                    call()
                self.assertIsInstance(late.exception, TimeoutError)
                self.assertIn("0.2 seconds", str(late.exception))
                self.assertLess(time.monotonic() - begun, 20)

    def test_what_was_found_until_then(self) -> None:
        costs = product(8).costs(["lean", "compact"], timeout=0.6, progress=lambda step: time.sleep(0.05))
        self.assertTrue(costs.is_late and costs)
        self.assertIn("cut short", str(costs))

    def test_progress(self) -> None:
        steps: List[revc.Step] = []
        with self.assertLogs("revc", logging.INFO) as log:
            Source(AND).costs(["lean"], points=1, progress=steps.append)
        self.assertEqual([step.number for step in steps], list(range(1, len(steps) + 1)))
        self.assertTrue(all(step.plan == "lean" and step.about >= step.number for step in steps))
        self.assertEqual(len([line for line in log.output if "compilation" in line]), len(steps))

    def test_a_bar_on_a_terminal_alone(self) -> None:
        for is_terminal in (False, True):
            err = io.StringIO()
            err.isatty = lambda: is_terminal  # type: ignore[method-assign]
            with mock.patch.object(sys, "stderr", err), mock.patch.object(revc.progress, "QUIET", -1):
                Source(AND).costs(["lean"], points=1)
            self.assertEqual("main [" in err.getvalue(), is_terminal)
            self.assertEqual(err.getvalue()[-1:], "\r" if is_terminal else "")


class Places(unittest.TestCase):
    def test_the_repository_is_known_by_its_crates(self) -> None:
        with tempfile.TemporaryDirectory() as folder, mock.patch.object(program, "HERE", Path(folder)):
            (Path(folder) / "revc").write_text("#!/bin/sh\nexit 3\n")
            (Path(folder) / "revc").chmod(0o755)
            with mock.patch.dict(os.environ, PATH=folder + "/none"):
                os.environ.pop("REVC")
                self.assertEqual(program.script(), "")
                with self.assertRaisesRegex(RevcError, "there is no program `revc`"):
                    program.program()
                (Path(folder) / "crates.txt").write_text("")
                self.assertEqual(program.program(), str(Path(folder) / "revc"))

    def test_the_command_of_the_package_is_not_the_program(self) -> None:
        with tempfile.TemporaryDirectory() as folder:
            (Path(folder) / "revc").write_text("#!/usr/bin/python3\nfrom revc.__main__ import main\n")
            (Path(folder) / "revc").chmod(0o755)
            self.assertFalse(program.is_program(str(Path(folder) / "revc")))

    def test_versions(self) -> None:
        digest = hashlib.sha256(Path(program.program()).read_bytes()).hexdigest()
        self.assertTrue(digest.startswith(revc.version().digest))
        self.assertIn("lean", revc.version().plans)
        done = subprocess.run([sys.executable, "-m", "revc", "--version"], stdout=subprocess.PIPE, check=True)
        self.assertIn(f"revc {revc.__version__}, for the program {program.program()}", done.stdout.decode())


class Wheels(unittest.TestCase):
    def test_wheel(self) -> None:
        with tempfile.TemporaryDirectory() as folder:
            name = wheels.build_wheel(folder)
            self.assertEqual(name, f"revc-{revc.__version__}-py3-none-any.whl")
            with zipfile.ZipFile(Path(folder) / name) as archive:
                files = {each: archive.read(each) for each in archive.namelist()}
            record = f"revc-{revc.__version__}.dist-info/RECORD"
            for path, digest, size in csv.reader(io.StringIO(files[record].decode())):
                if path != record:
                    hashed = urlsafe_b64encode(hashlib.sha256(files[path]).digest()).decode().rstrip("=")
                    self.assertEqual((digest, size), (f"sha256={hashed}", str(len(files[path]))))
            about = Parser().parsestr(files[record.replace("RECORD", "METADATA")].decode())
            self.assertEqual((about["Name"], about["Version"], about["Requires-Python"]), ("revc", revc.__version__, ">=3.9"))
            self.assertIn("Toffoli gates", about["Keywords"].split(","))
            self.assertEqual({str(path.relative_to(PACKAGE.parent)) for path in PACKAGE.rglob("*")
                              if path.suffix == ".py" or path.name == "py.typed"},
                             {path for path in files if path.startswith("revc/")})
            code = f"import sys; sys.path.insert(0, {str(Path(folder) / name)!r}); import revc; print(revc.__file__)"
            space = {key: value for key, value in os.environ.items() if key != "PYTHONPATH"}
            found = subprocess.run([sys.executable, "-c", code], env=space, cwd=folder, stdout=subprocess.PIPE, check=True)
            self.assertIn(name, found.stdout.decode())

    def test_one_that_stands_where_the_sources_do(self) -> None:
        with tempfile.TemporaryDirectory() as folder:
            with zipfile.ZipFile(Path(folder) / wheels.build_editable(folder)) as archive:
                self.assertEqual(archive.read("revc.pth").decode().strip(), str(PACKAGE.parent))


class Layers(unittest.TestCase):
    def test_modules(self) -> None:
        """Imports stand at the top, and modules and functions are short."""
        for path in sorted(PACKAGE.glob("*.py")):
            text = path.read_text()
            self.assertLess(text.count("\n"), 300, path.name)
            for each in ast.walk(ast.parse(text)):
                if isinstance(each, ast.FunctionDef):
                    where = f"{path.name}: {each.name}"
                    self.assertLess(each.end_lineno - each.lineno, 40, where)
                    self.assertFalse([one for one in ast.walk(each) if isinstance(one, (ast.Import, ast.ImportFrom))], where)


if __name__ == "__main__":
    unittest.main()
