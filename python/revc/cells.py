"""Cells to which netlists are mapped: yosys's own, and those of a library in the form `genlib` of SIS and ABC."""
import itertools
import re
from typing import Callable, Dict, Iterator, List, NamedTuple, Sequence, Tuple

from .errors import RevcError

MOST_PINS = 8
TOKEN = re.compile(r"\s*([A-Za-z_][\w\[\].<>$]*|[01]|[!~'*&+|^()])")
GATE = re.compile(r"^\s*GATE\s+(\"[^\"]+\"|\S+)\s+\S+\s+(\S+?)\s*=([^;]*);", re.MULTILINE)

Value = Callable[[Dict[str, bool]], bool]


class Cell(NamedTuple):
    """A cell's output is `value` where its pins fit a row, each with `0`, `1` or `-`, and else the other bit."""

    pins: Tuple[str, ...]
    output: str
    rows: Tuple[str, ...]
    value: str


# ---- Expressions


class Expression:
    """An expression over pins: `!` or `~` before and `'` behind what is negated, `*`, `&` or nothing for AND, `^` for
    XOR, `+` or `|` for OR, each binding tighter than the next, and brackets."""

    def __init__(self, text: str):
        self.tokens = list(tokens_of(text))
        self.pins: Dict[str, None] = {}
        self.value = self.read("+|", self.exclusive)
        if self.tokens:
            raise RevcError(f"`{self.tokens[0]}` is not expected in `{text.strip()}`")

    def next(self) -> str:
        return self.tokens[0] if self.tokens else ""

    def read(self, marks: str, part: Callable[[], Value]) -> Value:
        """Parts with one of these marks between them, which stand for OR or XOR."""
        value = part()
        while self.next() and self.next() in marks:
            value = joined(self.tokens.pop(0), value, part())
        return value

    def exclusive(self) -> Value:
        return self.read("^", self.product)

    def product(self) -> Value:
        value = self.literal()
        while self.next() and self.next() not in ")+|^":
            if self.next() in "*&":
                self.tokens.pop(0)
            value = joined("*", value, self.literal())
        return value

    def literal(self) -> Value:
        if not self.tokens:
            raise RevcError("an expression ends too early")
        token = self.tokens.pop(0)
        if token in "!~":
            value = negated(self.literal())
        elif token == "(":
            value = self.read("+|", self.exclusive)
            if not self.tokens or self.tokens.pop(0) != ")":
                raise RevcError("a bracket is not closed")
        elif token in ("0", "1", "CONST0", "CONST1"):
            is_one = token.endswith("1")
            value = lambda bits: is_one
        elif token in "'*&+|^)":
            raise RevcError(f"`{token}` is not expected")
        else:
            self.pins[token] = None
            value = lambda bits: bits[token]
        while self.next() == "'":
            self.tokens.pop(0)
            value = negated(value)
        return value


def tokens_of(text: str) -> Iterator[str]:
    text, at = text.strip(), 0
    while at < len(text):
        match = TOKEN.match(text, at)
        if not match:
            raise RevcError(f"`{text[at:]}` is no expression")
        yield match[1]
        at = match.end()


def negated(value: Value) -> Value:
    return lambda bits: not value(bits)


def joined(mark: str, one: Value, other: Value) -> Value:
    if mark in "*&":
        return lambda bits: one(bits) and other(bits)
    if mark == "^":
        return lambda bits: one(bits) != other(bits)
    return lambda bits: one(bits) or other(bits)


# ---- Rows


def cell_of(output: str, text: str) -> Cell:
    """The cell of an expression, by the fewer rows of those for 1 and those for 0."""
    expression = Expression(text)
    pins = tuple(expression.pins)
    if len(pins) > MOST_PINS:
        raise RevcError(f"{len(pins)} pins, where a cell has up to {MOST_PINS}")
    words = ["".join(word) for word in itertools.product("01", repeat=len(pins))]
    ones = [word for word in words if expression.value({pin: bit == "1" for pin, bit in zip(pins, word)})]
    covers = [(cover_of(ones), "1"), (cover_of([word for word in words if word not in set(ones)]), "0")]
    rows, value = min(covers, key=lambda each: len(each[0])) if 0 < len(ones) < len(words) else covers[0]
    return Cell(pins, output, tuple(rows), value)


def cover_of(words: Sequence[str]) -> List[str]:
    """Rows that fit exactly these words, none of which can be left out: the widest first."""
    left, rows = set(words), []
    primes = sorted(primes_of(words), key=lambda row: (-row.count("-"), row))
    while left:
        row = max(primes, key=lambda prime: sum(fits(prime, word) for word in left))
        rows.append(row)
        left -= {word for word in left if fits(row, word)}
    return [row for row in rows if not all(any(fits(other, word) for other in rows if other != row)
                                           for word in words if fits(row, word))] or rows


def primes_of(words: Sequence[str]) -> List[str]:
    """The rows that fit these words alone, and are part of no such row."""
    found, rows = [], set(words)
    while rows:
        wider = {row[:at] + "-" + row[at + 1:]: None for row in rows for at, bit in enumerate(row)
                 if bit != "-" and row[:at] + "01"[bit == "0"] + row[at + 1:] in rows}
        found += [row for row in rows if not any(contains(other, row) for other in wider)]
        rows = set(wider)
    return found


def contains(row: str, part: str) -> bool:
    return all(one in ("-", other) for one, other in zip(row, part))


def fits(row: str, word: str) -> bool:
    return contains(row, word)


# ---- Libraries


def cells_of(text: str) -> Dict[str, Cell]:
    """The cells of a library: lines `GATE NAME AREA OUTPUT=EXPRESSION;`."""
    text = "\n".join(line.partition("#")[0] for line in text.splitlines())
    found = {}
    for name, output, expression in GATE.findall(text):
        try:
            found[name.strip('"')] = cell_of(output, expression)
        except RevcError as error:
            raise RevcError(f"the cell `{name}` of the library: {error}") from None
    if not found:
        raise RevcError("the library has no line `GATE NAME AREA OUTPUT=EXPRESSION;`")
    return found


YOSYS = {f"$_{name}_": cell_of("Y", expression) for name, expression in {
    "BUF": "A", "NOT": "!A", "AND": "A B", "NAND": "!(A B)", "OR": "A + B", "NOR": "!(A + B)", "XOR": "A ^ B",
    "XNOR": "!(A ^ B)", "ANDNOT": "A !B", "ORNOT": "A + !B", "MUX": "A !S + B S", "NMUX": "!(A !S + B S)",
    "AOI3": "!(A B + C)", "OAI3": "!((A + B) C)", "AOI4": "!(A B + C D)", "OAI4": "!((A + B) (C + D))"}.items()}
