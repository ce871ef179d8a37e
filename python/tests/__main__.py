"""Runs all tests, and prints `N passed, M failed` at the end: `python3 python/tests`. Each file runs in a process."""
import io
import os
import sys
import unittest
from concurrent.futures import ProcessPoolExecutor
from pathlib import Path
from typing import NamedTuple

HERE = Path(__file__).resolve().parent
LONGEST = "test_whole.py"  # begins first, so that all end at about the same time
sys.dont_write_bytecode = True
sys.path[:0] = [str(HERE), str(HERE.parent)]
# (tests call `python3 -m revc` too, from wherever they are run)
os.environ["PYTHONPATH"] = os.pathsep.join([str(HERE.parent), *filter(None, [os.environ.get("PYTHONPATH")])])


class Result(NamedTuple):
    """What came of a file: how many tests passed and failed, and what was said of it."""

    passed: int
    failed: int
    said: str


def run(file: str) -> Result:
    said = io.StringIO()
    suite = unittest.defaultTestLoader.discover(str(HERE), file)
    result = unittest.TextTestRunner(stream=said, verbosity=1).run(suite)
    failed = len(result.failures) + len(result.errors)
    return Result(result.testsRun - failed - len(result.skipped), failed, said.getvalue())


def main() -> int:
    files = sorted((path.name for path in HERE.glob("test_*.py")), key=lambda name: (name != LONGEST, name))
    passed = failed = 0
    with ProcessPoolExecutor(min(4, len(os.sched_getaffinity(0)))) as pool:
        for file, result in zip(files, pool.map(run, files)):
            passed, failed = passed + result.passed, failed + result.failed
            print(f"{file}: {result.passed} passed, {result.failed} failed", file=sys.stderr)
            if result.failed or not result.passed:
                print(result.said, file=sys.stderr)
                failed += not result.failed  # a file of no tests is a fault too
    print(f"{passed} passed, {failed} failed")
    return 1 if failed else 0


if __name__ == "__main__":
    sys.exit(main())
