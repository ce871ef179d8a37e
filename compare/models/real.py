"""A model of circuit files in RevLib's `.real` format: from the bytes to the circuit, its counts and its runs.

A text that is refused raises `Refused` with the rest of its line on standard error.
"""
from dataclasses import dataclass, field
from typing import Dict, List, NamedTuple, Optional

MOST_BYTES = 134_217_728
MOST_LINES = 16_384
MOST_GATES = 4_000_000
MOST_NAME_BYTES = 64
BLANKS = b" \t\r"
DIGITS = set(b"0123456789")
PASSED_OVER = {b".inputs", b".outputs", b".inputbus", b".outputbus"}
REPEATED = {b".inputbus", b".outputbus"}


class Refused(Exception):
    """Why a circuit text has no value."""


class Bad(Exception):
    """A line breaks a rule of form."""


class Over(Exception):
    """A line passes a limit."""


class Gate(NamedTuple):
    """A flip of one line or a swap of two, where each control line has its bit."""

    controls: list  # pairs of a line and a bit
    targets: List[int]

    @property
    def lines(self) -> List[int]:
        return [line for line, _ in self.controls] + self.targets


@dataclass
class Circuit:
    """The names of the lines, their marks, and the gates. A mark is a character, as in the text."""

    names: List[bytes] = field(default_factory=list)
    constants: str = ""
    garbage: str = ""
    gates: List[Gate] = field(default_factory=list)

    def run(self, bits: List[int]) -> List[int]:
        """The last bits of all lines."""
        bits = list(bits)
        for controls, targets in self.gates:
            if all(bits[line] == bit for line, bit in controls):
                if len(targets) == 1:
                    bits[targets[0]] ^= 1
                else:
                    bits[targets[0]], bits[targets[1]] = bits[targets[1]], bits[targets[0]]
        return bits

    @property
    def depth(self) -> int:
        depths = [0] * len(self.names)
        for gate in self.gates:
            depth = 1 + max(depths[line] for line in gate.lines)
            for line in gate.lines:
                depths[line] = depth
        return max(depths)


# ---- Reading


def words_of(line: bytes) -> List[bytes]:
    """The words of a line before its comment."""
    for blank in b"\t\r":
        line = line.replace(bytes([blank]), b" ")
    words = [word for word in line.split(b" ") if word]
    for number, word in enumerate(words):
        if word.startswith(b"#"):
            return words[:number]
    return words


def lines_of(text: bytes) -> List[bytes]:
    lines = text.split(b"\n")
    return lines if lines[-1] else lines[:-1]


class Reader:
    """What was read so far: the header, the gates, or all up to `.end`."""

    def __init__(self):
        self.part = "header"
        self.circuit = Circuit()
        self.said = set()
        self.count = 0  # the number of lines, once `.numvars` was read
        self.numbers: Dict[bytes, int] = {}

    def take(self, words: List[bytes]) -> None:
        """Takes the words of the next line, of which there are some, or raises `Bad` or `Over`."""
        getattr(self, "take_in_" + self.part)(words)

    def take_in_header(self, words: List[bytes]) -> None:
        word, rest = words[0], words[1:]
        takes = {b".version": self.version, b".numvars": self.numvars, b".variables": self.variables,
                 b".constants": self.constants, b".garbage": self.garbage, b".begin": self.begin}
        if word not in takes and word not in PASSED_OVER:
            raise Bad()
        if word in self.said and word not in REPEATED:
            raise Bad()
        if word in (b".variables", b".constants", b".garbage", b".begin") and b".numvars" not in self.said:
            raise Bad()
        if word == b".begin" and b".variables" not in self.said:
            raise Bad()
        self.said.add(word)
        if word in takes:
            takes[word](rest)

    def version(self, rest: List[bytes]) -> None:
        if rest not in ([b"1.0"], [b"2.0"]):
            raise Bad()

    def numvars(self, rest: List[bytes]) -> None:
        digits = rest[0].lstrip(b"0") if rest else b""
        if not digits or not set(digits) <= DIGITS:
            raise Bad()
        if len(digits) > 5 or int(digits) > MOST_LINES:
            raise Over()
        if len(rest) > 1:
            raise Bad()
        self.count = int(digits)

    def variables(self, rest: List[bytes]) -> None:
        for number, name in enumerate(rest):
            if number == self.count or name.startswith(b"-"):
                raise Bad()
            if len(name) > MOST_NAME_BYTES:
                raise Over()
            if name in self.numbers:
                raise Bad()
            self.numbers[name] = number
        if len(rest) < self.count:
            raise Bad()
        self.circuit.names = rest

    def constants(self, rest: List[bytes]) -> None:
        self.circuit.constants = self.marks(rest, b"-01")

    def garbage(self, rest: List[bytes]) -> None:
        self.circuit.garbage = self.marks(rest, b"-1")

    def marks(self, rest: List[bytes], allowed: bytes) -> str:
        if len(rest) != 1 or len(rest[0]) != self.count or not set(rest[0]) <= set(allowed):
            raise Bad()
        return rest[0].decode()

    def begin(self, rest: List[bytes]) -> None:
        if rest:
            raise Bad()
        self.circuit.constants = self.circuit.constants or "-" * self.count
        self.circuit.garbage = self.circuit.garbage or "-" * self.count
        self.part = "gates"

    def take_in_gates(self, words: List[bytes]) -> None:
        if words[0] == b".end":
            if len(words) > 1:
                raise Bad()
            self.part = "end"
            return
        kind, digits = words[0][:1], words[0][1:]
        if kind not in (b"t", b"f") or not 1 <= len(digits) <= 5 or not set(digits) <= DIGITS:
            raise Bad()
        count, targets = int(digits), 1 if kind == b"t" else 2
        if count < targets:
            raise Bad()
        if len(self.circuit.gates) == MOST_GATES:
            raise Over()
        self.circuit.gates.append(self.gate(words[1:], count, targets))

    def gate(self, rest: List[bytes], count: int, targets: int) -> Gate:
        taken = {}  # the lines so far, each with the bit that it would have as a control
        for number, name in enumerate(rest):
            if number == count:
                raise Bad()
            positive = not name.startswith(b"-")
            if not positive:
                name = name[1:]
                if number >= count - targets or name.startswith((b"-", b"#")):
                    raise Bad()
            if len(name) > MOST_NAME_BYTES:
                raise Over()
            if name not in self.numbers or self.numbers[name] in taken:
                raise Bad()
            taken[self.numbers[name]] = int(positive)
        if len(rest) < count:
            raise Bad()
        return Gate(list(taken.items())[: count - targets], list(taken)[count - targets :])

    def take_in_end(self, words: List[bytes]) -> None:
        raise Bad()


def circuit_of(text: bytes) -> Circuit:
    if len(text) > MOST_BYTES:
        raise Refused("circuit over %d bytes" % MOST_BYTES)
    reader, lines = Reader(), lines_of(text)
    for number, line in enumerate(lines, 1):
        words = words_of(line)
        try:
            if words:
                reader.take(words)
        except Bad:
            raise Refused("circuit line %d" % number) from None
        except Over:
            raise Refused("circuit line %d over a limit" % number) from None
    if reader.part != "end":
        raise Refused("circuit line %d" % (len(lines) + 1))
    return reader.circuit


# ---- Answers


def counts_of(circuit: Circuit) -> List[str]:
    """The lines that `stat` writes."""
    flips = [len(gate.controls) for gate in circuit.gates if len(gate.targets) == 1]
    numbers = {
        "lines": len(circuit.names),
        "gates": len(circuit.gates),
        "x": flips.count(0),
        "cx": flips.count(1),
        "ccx": flips.count(2),
        "wide": sum(controls > 2 for controls in flips),
        "swap": len(circuit.gates) - len(flips),
        "depth": circuit.depth,
    }
    return ["%s %d" % pair for pair in numbers.items()]


def bad_word(circuit: Circuit, words: List[str]) -> Optional[int]:
    """The number of the first word that is no word of bits for the lines without a constant."""
    free = circuit.constants.count("-")
    for number, word in enumerate(words, 1):
        if len(word) != free or not set(word) <= set("01"):
            return number
    return None


def line_of(circuit: Circuit, word: str) -> str:
    """The line that `run` writes for a word: the last bits of the lines that are no garbage."""
    given = iter(word)
    before = [int(next(given) if mark == "-" else mark) for mark in circuit.constants]
    return "".join(str(bit) for bit, mark in zip(circuit.run(before), circuit.garbage) if mark == "-")
