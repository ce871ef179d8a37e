"""What is refused: by this package, with what to write instead, or by the program `revc`.

Each is a `RevcError`. Those of this package are also what Python calls them (a width is a `ValueError`, a place out of
range an `IndexError`, what is known later a `TypeError`); those of the program are `Refused`, with their numbers.
"""
import re
from typing import Callable, List, Optional, Tuple

NO_CIRCUIT = 8  # the status of a file that is no circuit


class RevcError(Exception):
    """What was refused, and what to write instead."""


class WidthError(RevcError, ValueError):
    """Widths that do not fit together, or a number that does not fit in a width."""


class PlaceError(RevcError, IndexError):
    """A place that a value does not have."""


class KindError(RevcError, TypeError):
    """A value of a kind that is not taken here, or an operation that Bits do not have."""


class KnownLater(KindError):
    """A value that is known only when the circuit runs, where Python wants to know it now."""


class TimedOut(RevcError, TimeoutError):
    """The `timeout` that the caller gave went by."""


class Refused(RevcError):
    """A refusal of the program `revc`: its own message first, then what it means and what helps.

    `status` is the status of the program, `message` its own line.
    """

    def __init__(self, explained: str, message: str, status: int):
        super().__init__(explained)
        self.message, self.status = message, status

    def __reduce__(self) -> Tuple[Callable[..., "Refused"], Tuple[str, int, str]]:
        return refused, (self.message, self.status, str(self))  # so that it comes out of another process as it is


class TextRefused(Refused):
    """The text is no program: at this line and column, counted from 1 (columns in bytes), for this kind of reason."""
    line: int
    column: int
    kind: str


class ClaimFails(Refused):
    """Claim `number`, counted from 1, does not hold on `inputs`, the least bits that break it."""
    number: int
    inputs: str


class NodesExceeded(Refused):
    """The claims (then `number` is which one), or the circuit that is verified, rest on more than `limit` functions."""
    number: Optional[int]
    limit: int


class LinesExceeded(Refused):
    """No circuit was found on `limit` lines. One line more is `need`, unless even that is too few; see the message."""
    need: int
    limit: int


class GatesExceeded(Refused):
    """No circuit was found within `limit` gates."""
    limit: int


class CircuitRefused(Refused):
    """The file is no circuit, or none that `verify` takes: at this line, and column where it is OpenQASM (else 0)."""
    line: int
    column: int


class ReadError(CircuitRefused, ValueError):
    """The file is no circuit for this package, which reads more than the program: at this line and column."""

    def __init__(self, explained: str, line: int, column: int):
        super().__init__(explained, explained.split("\n")[0], NO_CIRCUIT)
        self.line, self.column = line, column

    def __reduce__(self) -> Tuple[Callable[..., Refused], Tuple[str, int, int]]:  # type: ignore[override]
        return ReadError, (str(self), self.line, self.column)


class CircuitDiffers(Refused):
    """Line `line` of the circuit, counted from 1, ends with the wrong bit on `inputs`, the least bits on which it does."""
    line: int
    inputs: str


class Unsettled(Refused):
    """Sums of products do not say whether the circuit computes the program."""


class OutOfMemory(Refused):
    """The machine has no more memory for it."""


Fields = Callable[["re.Match[str]"], "dict[str, object]"]


def _numbers(*names: str) -> Fields:
    """The groups of a message as numbers under these names."""
    return lambda found: {name: int(group) if group else None for name, group in zip(names, found.groups())}


# The program's messages: the pattern of one, the class of its refusal, and what that holds.
KINDS: List[Tuple[str, type, Fields]] = [
    (r"claim (\d+) at \d+:\d+ fails on ([01]*)$", ClaimFails, lambda found: {"number": int(found[1]), "inputs": found[2]}),
    (r"(?:claim (\d+) at \d+:\d+|circuit) passes (\d+) nodes$", NodesExceeded, _numbers("number", "limit")),
    (r"circuit differs at line (\d+) on ([01]*)$", CircuitDiffers, lambda found: {"line": int(found[1]), "inputs": found[2]}),
    (r"lines (\d+) over (\d+)$", LinesExceeded, _numbers("need", "limit")),
    (r"more than (\d+) gates$", GatesExceeded, _numbers("limit")),
    (r"circuit (?:line|at) (\d+)(?::(\d+))?(?: over a limit)?$", CircuitRefused,
     lambda found: {"line": int(found[1]), "column": int(found[2] or 0)}),
    (r"(\d+):(\d+) (\w+)$", TextRefused,
     lambda found: {"line": int(found[1]), "column": int(found[2]), "kind": found[3]}),
    (r"circuit is not settled by sums", Unsettled, lambda found: {}),
    (r"out of memory$", OutOfMemory, lambda found: {}),
]


def refused(message: str, status: int, explained: str = "") -> Refused:
    """The refusal that a message of the program is, of the class that says which."""
    for pattern, kind, fields in KINDS:
        found = re.match("revc: " + pattern, message)
        if found:
            error: Refused = kind(explained or message, message, status)
            vars(error).update(fields(found))
            return error
    return Refused(explained or message, message, status)


def more(error: Refused, help_: str) -> Refused:
    """The same refusal, of its class and with its numbers, that says more."""
    return refused(error.message, error.status, f"{error}\n{help_}")
