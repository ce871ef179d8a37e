"""The gates of a `.real` file: RevLib's format, of which docs/FORMATS.md says what the program takes."""
import re
from itertools import takewhile
from typing import Dict, Iterator, List, NamedTuple, Union

from .errors import RevcError
from .gates import Gate

OPENQASM = re.compile(r"(?:\s|//[^\n]*|/\*.*?\*/)*(?:OPENQASM|include|qreg|qubit|gate|const)\b", re.DOTALL)


class GateList(NamedTuple):
    """A circuit as a file has it: `marks` says of each line the bit that it starts with, or `-` for any."""

    names: List[str]
    marks: str
    gates: List[Gate]


def words_of(line: str) -> str:
    """The words of a line; one that begins with `#` and all behind it are a comment."""
    if "#" in line:
        return " ".join(takewhile(lambda word: not word.startswith("#"), line.split()))
    return line.strip()


def gate_of(line: str, places: Dict[str, int]) -> Gate:
    """The gate that a line says. `places` are the lines of the circuit by their names."""
    kind, *names = line.split()
    targets = 2 if kind[0] == "f" else 1
    if kind[0] not in "tf" or not kind[1:].isdigit() or int(kind[1:]) != len(names) or len(names) < targets:
        raise RevcError(f"`{line}` is no gate")
    for name in names:
        if name.lstrip("-") not in places:
            raise RevcError(f"`{name}` is no line of `.variables`")
    lines = [places[name.lstrip("-")] for name in names]
    if len(set(lines)) < len(lines):
        raise RevcError(f"`{line}` has a line twice")
    if any(name.startswith("-") for name in names[-targets:]):
        raise RevcError(f"`{line}` has a minus at a line that it flips or swaps: only controls have one")
    bits = [not name.startswith("-") for name in names]
    return Gate(tuple(zip(lines, bits))[:-targets], tuple(lines[-targets:]))


class Reader:
    """Reads a `.real` text line by line."""

    def __init__(self) -> None:
        self.places: Dict[str, int] = {}
        self.marks = ""

    def header(self, words: List[str]) -> None:
        if words[0] == ".variables":
            self.places = {name: place for place, name in enumerate(words[1:])}
            if len(self.places) < len(words) - 1:
                raise RevcError("two lines have one name")
        elif words[0] == ".constants":
            self.marks = "".join(words[1:])

    def gates(self, text: str) -> Iterator[Gate]:
        known: Dict[str, Gate] = {}  # most gates of a circuit stand in it twice, to compute and to undo
        for number, line in enumerate(text.split("\n"), 1):
            gate = known.get(line)
            if gate is None:
                words = words_of(line)
                try:
                    if not words or words[0] == ".":
                        self.header(words.split() or [""])
                        continue
                    gate = known[line] = gate_of(words, self.places)
                except RevcError as reason:
                    raise RevcError(f"line {number}: {reason}") from None
            yield gate


def read_real(text: str) -> GateList:
    """The circuit of a `.real` text; a line that is no gate is refused with its number."""
    reader = Reader()
    gates = list(reader.gates(text))
    places, marks = reader.places, reader.marks
    if not places:
        raise RevcError("there is no line `.variables`: is it a `.real` file?")
    if marks and len(marks) != len(places):
        raise RevcError(f"`.constants` has {len(marks)} marks for {len(places)} lines")
    return GateList(list(places), marks or "-" * len(places), gates)


def form_of(text: Union[str, bytes]) -> str:
    """The format of a circuit's text."""
    start = text[:4000].decode(errors="replace") if isinstance(text, bytes) else text[:4000]
    return "qasm" if OPENQASM.match(start) else "real"
