"""A model of circuit files in OpenQASM 2.0: from the bytes to the registers and gates, and the files that are written.

It is written from docs/FORMATS.md, and shares nothing with the compiler. A text that is refused raises `Refused` with the
rest of its line on standard error.
"""
import re
from typing import Dict, Iterator, List, NamedTuple, Sequence, Tuple

from models.plans import Plan
from models.real import MOST_BYTES, MOST_GATES, MOST_LINES, MOST_NAME_BYTES, Circuit, Gate, Refused

MOST_DIGITS = 9
REGISTERS = {b"inp": b"x", b"outp": b"y", b"work": b"w", b"dirty": b"b"}
HEAD = ["OPENQASM 2.0", 'include "qelib1.inc"']
GATES = {b"x": 1, b"cx": 2, b"ccx": 3}
NO_NAMES = set(b"barrier creg gate if include measure opaque qreg reset pi".split())
TOKEN = re.compile(rb"""(?P<gap>[ \t\r\n]|//[^\n]*)|(?P<id>[A-Za-z][A-Za-z0-9_]*)|(?P<version>2\.0)|(?P<number>[0-9]+)
|(?P<mark>"qelib1\.inc"|[;,\[\]])|(?P<stray>.)""".replace(b"\n|", b"|"), re.DOTALL)


# ---- Tokens


class Token(NamedTuple):
    kind: str
    word: bytes
    line: int
    column: int


def tokens_of(text: bytes) -> Iterator[Token]:
    """The tokens, and then one of the kind `end`."""
    line, start = 1, 0  # the number of the line, and where it begins
    for match in TOKEN.finditer(text):
        if match.lastgroup != "gap":
            yield Token(match.lastgroup, match[0], line, match.start() - start + 1)
        elif match[0] == b"\n":
            line, start = line + 1, match.end()
    yield Token("end", b"", line, len(text) - start + 1)


def bad(token: Token, limit: bool = False) -> Refused:
    return Refused("circuit at %d:%d%s" % (token.line, token.column, " over a limit" if limit else ""))


# ---- Reading


class Register(NamedTuple):
    first: int
    size: int


class Reader:
    """What the statements said so far."""

    def __init__(self, text: bytes):
        self.tokens = tokens_of(text)
        self.token = next(self.tokens)
        self.included = False
        self.bits = set()  # the names that `creg` declared
        self.registers: Dict[bytes, Register] = {}
        self.lines = 0
        self.gates: List[Gate] = []

    def take(self, *words: bytes) -> Token:
        """The token, which is one of these words."""
        token = self.token
        if token.word not in words:
            raise bad(token)
        self.token = next(self.tokens, token)
        return token

    def take_name(self) -> Token:
        if self.token.kind != "id":
            raise bad(self.token)
        if len(self.token.word) > MOST_NAME_BYTES:
            raise bad(self.token, limit=True)
        return self.take(self.token.word)

    def take_number(self) -> Tuple[Token, int]:
        if self.token.kind != "number":
            raise bad(self.token)
        if len(self.token.word) > MOST_DIGITS:
            raise bad(self.token, limit=True)
        token = self.take(self.token.word)
        return token, int(token.word)

    def read(self) -> None:
        for word in (b"OPENQASM", b"2.0", b";"):
            self.take(word)
        while self.token.kind != "end":
            self.statement()
        if not self.registers:
            raise bad(self.token)

    def statement(self) -> None:
        word = self.token.word
        if word == b"include" and not self.included:
            for wanted in (word, b'"qelib1.inc"', b";"):
                self.take(wanted)
            self.included = True
        elif word in (b"qreg", b"creg"):
            self.declaration(self.take(word).word == b"qreg")
        elif word == b"barrier":
            self.take(word)
            self.argument()
            while self.take(b",", b";").word == b",":
                self.argument()
        elif word == b"CX" or self.included and word in GATES:
            self.take(word)
            self.gate(GATES[word.lower()])
        else:
            raise bad(self.token)

    def declaration(self, is_quantum: bool) -> None:
        name = self.take_name()
        taken = name.word in self.bits or name.word in self.registers or name.word in NO_NAMES
        if taken or not name.word[:1].islower():
            raise bad(name)
        self.take(b"[")
        token, size = self.take_number()
        if size == 0:
            raise bad(token)
        if not is_quantum:
            self.bits.add(name.word)
        elif self.lines + size > MOST_LINES:
            raise bad(token, limit=True)
        else:
            self.registers[name.word] = Register(self.lines, size)
            self.lines += size
        self.take(b"]")
        self.take(b";")

    def argument(self) -> Tuple[bool, Sequence[int]]:
        """Whether an argument is a whole register, and its lines."""
        name = self.take_name()
        if name.word not in self.registers:
            raise bad(name)
        first, size = self.registers[name.word]
        if self.token.word != b"[":
            return True, range(first, first + size)
        self.take(b"[")
        token, index = self.take_number()
        if index >= size:
            raise bad(token)
        self.take(b"]")
        return False, [first + index]

    def gate(self, count: int) -> None:
        arguments = []
        for number in range(count):
            arguments.append(self.argument())
            if number < count - 1:
                self.take(b",")
        if self.token.word != b";":
            raise bad(self.token)
        sizes = {len(lines) for whole, lines in arguments if whole} or {1}
        if len(sizes) > 1:
            raise bad(self.token)
        spread = [[lines[place if whole else 0] for whole, lines in arguments] for place in range(*sizes)]
        if any(len(set(lines)) < count for lines in spread):
            raise bad(self.token)
        if len(self.gates) + len(spread) > MOST_GATES:
            raise bad(self.token, limit=True)
        self.gates += [Gate([(line, 1) for line in lines[:-1]], lines[-1:]) for lines in spread]
        self.take(b";")


def circuit_of(text: bytes) -> Circuit:
    """The circuit of a text: each line may start as anything, and each last bit is of use."""
    if len(text) > MOST_BYTES:
        raise Refused("circuit over %d bytes" % MOST_BYTES)
    reader = Reader(text)
    reader.read()
    names = [b"%s[%d]" % (name, place) for name, register in reader.registers.items() for place in range(register.size)]
    return Circuit(names, "-" * reader.lines, "-" * reader.lines, reader.gates)


def compiled_circuit_of(text: bytes) -> Circuit:
    """The circuit of a compiled file, with the names and marks that it has in a `.real` file."""
    reader = Reader(text)
    reader.read()
    circuit = Circuit(gates=reader.gates)
    if list(reader.registers) != [name for name in REGISTERS if name in reader.registers]:
        raise Refused("registers")
    for name, register in reader.registers.items():
        circuit.names += [REGISTERS[name] + b"%d" % place for place in range(register.size)]
        circuit.constants += ("-" if name in (b"inp", b"dirty") else "0") * register.size
        circuit.garbage += "-" * register.size
    return circuit


# ---- Files


def written(registers: Sequence[Tuple[str, int]], gates: Sequence[Gate]) -> bytes:
    registers = [(name, size) for name, size in registers if size > 0]
    places = ["%s[%d]" % (name, place) for name, size in registers for place in range(size)]
    words = {size: word.decode() for word, size in GATES.items()}
    lines = HEAD + ["qreg %s[%d]" % register for register in registers]
    lines += ["%s %s" % (words[len(gate.lines)], ",".join(places[line] for line in gate.lines)) for gate in gates]
    return "".join(line + ";\n" for line in lines).encode()


def file_of(inputs: int, outputs: int, plan: Plan, borrow: int) -> bytes:
    sizes = [inputs, outputs, plan.lines - inputs - outputs, borrow]
    return written(list(zip([name.decode() for name in REGISTERS], sizes)), plan.gates)


def converted(circuit: Circuit, gates: Sequence[Gate], added: int) -> bytes:
    return written([("q", len(circuit.names)), ("dirty", added)], gates)
