"""OpenQASM 2 and 3 read as a circuit of gates that permute bits."""
import re
from typing import Callable, Dict, List, Optional, Set

from .gates import Gate
from .qasm_gates import Gates, named
from .qasm_numbers import Numbers
from .qasm_tokens import Token, Tokens
from .real import GateList
from .transforms import moved

MOST_LINES = 16384
PLAIN = re.compile(r"\s*([A-Za-z]\w*)\s([^;@(){}=:/\"]*);")  # a gate on lines, and no comment
TYPES = ("int", "uint", "const")
BITS = ("creg", "bit", "bool", "float", "angle", "complex", "duration", "output")  # what they declare changes no line
REFUSED: Dict[str, str] = {
    "measure": "a circuit is compared by what its lines hold at the end: take the measurements out "
               "(Qiskit: circuit.remove_final_measurements())",
    "reset": "it throws away what a line holds, which no gate does: uncompute that, or take a new line",
    "if": "a measured bit chooses here: make it a control, as `cx c, t;` for `if (c) x t;`",
    "opaque": "a gate without a body does nothing that is known: give it a body by `gate`",
    "def": "a subroutine: make it a `gate`, or write its gates where it is called",
    "while": "a loop that a bit ends is no circuit: write its turns out",
    "input": "a number that is given later: put the number in",
    **dict.fromkeys(("cal", "defcal", "defcalgrammar"), "pulses are not read: take it out"),
    **dict.fromkeys(("box", "delay", "stretch"), "times are not read: take it out")}


class Reader:
    """Reads one file, statement by statement."""

    def __init__(self, text: str, name: str):
        self.tokens = Tokens(text, name)
        self.numbers = Numbers(self.tokens)
        self.known = Gates(self.tokens, self.numbers)
        self.names: List[str] = []
        self.line_of: Dict[str, int] = {}
        self.registers: Dict[str, List[int]] = {}
        self.measured: Set[str] = set()
        self.gates: List[Gate] = []
        self.statements: Dict[str, Callable[[], None]] = {
            "gate": self.known.define, "let": self.alias, "for": self.loop,
            **dict.fromkeys(("OPENQASM", "include", "barrier", "pragma"), self.skip),
            **dict.fromkeys(("qreg", "qubit"), self.lines), **dict.fromkeys(TYPES, self.number),
            **dict.fromkeys(BITS, self.bits)}

    def read(self) -> GateList:
        self.plain_gates()
        while self.tokens.next.kind != "end":
            self.statement()
            self.plain_gates()
        if not self.names:
            self.tokens.refuse("no lines are declared: `qreg q[4];`, in OpenQASM 3 `qubit[4] q;`", self.tokens.next)
        self.known.count(len(self.gates), self.tokens.next)
        return GateList(self.names, "-" * len(self.names), self.gates)

    def plain_gates(self) -> None:
        """Takes known gates on single lines, of which a file has most, without their tokens, up to another statement."""
        tokens = self.tokens
        found = PLAIN.match(tokens.text, tokens.at) if tokens.place == len(tokens.all) else None
        while found is not None and found[1] not in self.known.definitions:
            lines = [self.line_of.get(operand) for operand in "".join(found[2].split()).split(",")]
            gates = named(found[1], len(lines))
            if gates is None or None in lines or len(set(lines)) < len(lines):
                return  # which is read, or refused, by its tokens
            self.gates += moved(gates, [line for line in lines if line is not None])
            tokens.at = found.end()
            found = PLAIN.match(tokens.text, tokens.at)

    def statement(self) -> None:
        token = self.tokens.next
        if token.text in REFUSED:
            self.tokens.refuse(f"`{token.text}`: {REFUSED[token.text]}", token)
        if token.text in self.measured:
            self.tokens.refuse(f"`{token.text}` is no line, but a bit that is measured: {REFUSED['measure']}", token)
        if token.text in self.statements:
            self.tokens.take()
            self.statements[token.text]()
        elif not self.tokens.takes(";"):
            self.call()

    # ---- What changes no line

    def skip(self) -> None:
        while not self.tokens.takes(";"):
            if self.tokens.take().kind == "end":
                self.tokens.want(";")

    def bits(self) -> None:
        """`creg c[4];`, `bit[4] c;`."""
        self.size()
        self.measured.add(self.tokens.word("a name").text)
        while not self.tokens.takes(";"):
            token = self.tokens.take()
            if token.text == "measure":
                self.tokens.refuse(f"`measure`: {REFUSED['measure']}", token)
            if token.kind == "end":
                self.tokens.want(";")

    def number(self) -> None:
        """`const int n = 4;`, `uint[32] n = 4;`."""
        while self.tokens.next.text in TYPES:
            self.tokens.take()
        self.size()
        token = self.tokens.word("the name of a number")
        self.tokens.want("=")
        self.numbers.known[token.text] = self.numbers.value()
        self.tokens.want(";")

    # ---- Lines

    def lines(self) -> None:
        """`qreg q[4];`, `qubit[4] q;`, `qubit q;`."""
        size = self.size()
        token = self.tokens.word("a name for the lines")
        size = self.size() if size is None else size
        self.tokens.want(";")
        self.check_new(token)
        count = 1 if size is None else size
        if len(self.names) + count > MOST_LINES:
            self.tokens.refuse(f"the lines pass {MOST_LINES:,}, the most that a circuit has", token)
        self.registers[token.text] = list(range(len(self.names), len(self.names) + count))
        names = [token.text] if size is None else [f"{token.text}[{i}]" for i in range(count)]
        self.line_of.update((name, len(self.names) + i) for i, name in enumerate(names))
        self.names += names

    def check_new(self, token: Token) -> None:
        if token.text in self.registers:
            self.tokens.refuse(f"`{token.text}` is declared twice", token)

    def size(self) -> Optional[int]:
        """The `[4]` of a declaration, where one stands."""
        if not self.tokens.takes("["):
            return None
        token, value = self.tokens.next, self.numbers.value()
        self.tokens.want("]")
        if value < 1:
            self.tokens.refuse("a register has at least one line", token)
        return value

    def alias(self) -> None:
        """`let a = q[0:3] ++ r;`."""
        token = self.tokens.word("a name")
        self.tokens.want("=")
        lines = self.operand()
        while self.tokens.takes("++"):
            lines = lines + self.operand()
        self.tokens.want(";")
        self.check_new(token)
        self.registers[token.text] = lines

    def operand(self) -> List[int]:
        """The lines of `q`, `q[2]`, `q[0:3]`."""
        token = self.tokens.word("a register of lines")
        if token.text not in self.registers:
            what = "a measured bit and no line" if token.text in self.measured else "no register that is declared before"
            self.tokens.refuse(f"`{token.text}` is {what}", token)
        lines = self.registers[token.text]
        while self.tokens.takes("["):
            lines = [lines[place] for place in self.numbers.places(len(lines))]
        return lines

    # ---- Gates

    def call(self) -> None:
        """A gate on lines, or on registers of one size place by place."""
        modifiers = self.known.modifiers()
        name = self.tokens.word("a gate")
        if self.tokens.takes("("):
            self.known.skip_angles()
        if name.text not in self.known.definitions and self.tokens.next.kind != "word":
            self.known.plain(name, 0)
        operands = [self.operand()]
        while self.tokens.takes(","):
            operands.append(self.operand())
        self.tokens.want(";")
        gates = self.known.called(modifiers, name, len(operands))
        for lines in self.broadcast(operands, name):
            self.gates += moved(gates, lines)
        self.known.count(len(self.gates), name)

    def broadcast(self, operands: List[List[int]], name: Token) -> List[List[int]]:
        """The lines of each gate that a call stands for."""
        count = max(map(len, operands))
        if any(len(lines) not in (1, count) for lines in operands):
            sizes = ", ".join(str(len(lines)) for lines in operands)
            self.tokens.refuse(f"`{name.text}` is given registers of {sizes} lines: they have one size, or are single lines",
                               name)
        calls = [[lines[i if len(lines) > 1 else 0] for lines in operands] for i in range(count)]
        for lines in calls:
            if len(set(lines)) < len(lines):
                twice = next(self.names[line] for line in lines if lines.count(line) > 1)
                self.tokens.refuse(f"`{twice}` stands twice in one gate", name)
        return calls

    # ---- Loops

    def loop(self) -> None:
        """`for uint i in [0:3] { .. }`, or one statement in place of the block."""
        while self.tokens.next.text in TYPES:
            self.tokens.take()
        self.size()
        name = self.tokens.word("the name of a number").text
        self.tokens.want("in")
        values, first = self.numbers.loop(), self.tokens.place
        hidden = self.numbers.known.get(name)
        for value in values:
            self.tokens.place, self.numbers.known[name] = first, value
            self.turn()
        if not values:
            self.tokens.skip_block() if self.tokens.takes("{") else self.skip()
        self.numbers.known.pop(name, None)
        if hidden is not None:
            self.numbers.known[name] = hidden

    def turn(self) -> None:
        if not self.tokens.takes("{"):
            self.statement()
            return
        while not self.tokens.takes("}"):
            if self.tokens.next.kind == "end":
                self.tokens.want("}")
            self.statement()


def read_openqasm(text: str, name: str = "circuit") -> GateList:
    """The circuit of an OpenQASM 2 or 3 text; `name` is the file's, for refusals."""
    reader = Reader(text, name)
    try:
        return reader.read()
    except RecursionError:
        deep = reader.tokens.next
    reader.tokens.refuse("brackets or definitions stand too deep in each other here", deep)
