"""A model of the language: from the bytes of a text to the run of its program on given bits.

It is written from docs/LANGUAGE.md, and shares nothing with the compiler. A text that is refused raises `Refused`.
"""
import re
from collections import Counter
from dataclasses import dataclass, field
from typing import List, Optional, Tuple, Union

MOST_BYTES = 1_048_576
MOST_NAME_BYTES = 64
MOST_DIGITS = 4
MOST_LEVELS = 100
MOST_INPUTS = 1_024
MOST_OUTPUTS = 1_024
MOST_PLACES = 4_096
MOST_DEPTH = 400
MOST_WORK = 16_777_216
MOST_WRITES = 262_144
MOST_CLAIMS = 4_096
MOST_NUMBER = 9_999

Place = Tuple[int, int]


class Refused(Exception):
    """Why a text has no value: the rest of its line on standard error."""

    def __init__(self, reason: str, place: Optional[Place] = None):
        super().__init__(reason if place is None else "%d:%d %s" % (*place, reason))


# ---- Tokens

WORDS = set("main let fun clean assert append rotate reg true false bool for in do revs".split())
TOKEN = re.compile(
    rb"(?P<blank>[ \t\r\n]+|//[^\n]*)"
    rb"|(?P<name>[A-Za-z_][A-Za-z0-9_]*)"
    rb"|(?P<number>[0-9]+)"
    rb"|(?P<sign><>|&&|<-|->|\.\.|[()\[\]{}:;=.+-])"
)


@dataclass
class Token:
    """The kind is `name`, `number`, `end`, or the word or sign itself."""

    kind: str
    text: str
    place: Place


def tokens_of(text: bytes) -> List[Token]:
    tokens, at, line, line_start = [], 0, 1, 0
    while at < len(text):
        place = (line, at - line_start + 1)
        found = TOKEN.match(text, at)
        if found is None:
            raise Refused("BadByte", place)
        kind, spelled, at = found.lastgroup, found.group().decode("latin-1"), found.end()
        if kind == "blank":
            if "\n" in spelled:
                line, line_start = line + spelled.count("\n"), found.start() + spelled.rindex("\n") + 1
            continue
        if kind == "name" and len(spelled) > MOST_NAME_BYTES:
            raise Refused("LongName", place)
        if kind == "number" and len(spelled) > MOST_DIGITS:
            raise Refused("LongNumber", place)
        if kind == "sign" or spelled in WORDS:
            kind = spelled
        tokens.append(Token(kind, spelled, place))
    return tokens + [Token("end", "", (line, len(text) - line_start + 1))]


# ---- Terms, each with the place of its first token; a bracketed one has the place of the term inside


@dataclass
class Used:
    place: Place
    name: str


@dataclass
class Constant:
    place: Place
    bit: int


@dataclass
class Register:
    place: Place
    operands: list


@dataclass
class Block:
    place: Place
    items: list  # pairs of a name, or None, and a term
    last: object


@dataclass
class Function:
    place: Place
    names: List[str]
    body: object


@dataclass
class Digits:
    place: Place
    number: int


@dataclass
class Step:
    """A unit of a number, which is added or taken away."""

    sign: int
    unit: Union[Digits, Used]


Number = List[Step]


@dataclass
class Part:
    """`.[first]`, or `.[first..last]`."""

    place: Place
    first: Number
    last: Optional[Number]


@dataclass
class Parts:
    place: Place
    base: object
    parts: List[Part]


@dataclass
class Apply:
    place: Place
    function: object
    arguments: list


@dataclass
class Append:
    place: Place
    left: object
    right: object


@dataclass
class Rotate:
    place: Place
    number: Number
    operand: object


@dataclass
class Claim:
    """`assert` claims the bit 1, and `clean` the bit 0."""

    place: Place
    word: str
    operand: object


@dataclass
class Chain:
    place: Place
    operator: str
    operands: list


@dataclass
class Assign:
    place: Place
    left: object
    right: object


@dataclass
class Loop:
    """A `for`, which stands among items alone; its place is that of the word."""

    place: Place
    name: str
    first: Number
    last: Number
    items: list


@dataclass
class Parameter:
    place: Place
    name: str
    width: Optional[int]

    @property
    def bits(self) -> int:
        return 1 if self.width is None else self.width


@dataclass
class Program:
    parameters: List[Parameter]
    body: object

    @property
    def inputs(self) -> int:
        return sum(parameter.bits for parameter in self.parameters)


# ---- Sentences: a method for each line of the grammar. Sums of numbers and loops are those of profile 2 alone.


class Parser:
    BASES = {"name", "true", "false", "reg", "(", "{"}

    def __init__(self, tokens: List[Token]):
        self.tokens = tokens
        self.at = 0
        self.has_loops = False

    @property
    def next(self) -> Token:
        return self.tokens[self.at]

    def take(self, kind: str) -> Token:
        if self.next.kind != kind:
            raise Refused("Syntax", self.next.place)
        self.at += 1
        return self.tokens[self.at - 1]

    def took(self, kind: str) -> bool:
        if self.next.kind != kind:
            return False
        self.at += 1
        return True

    def open(self, kind: str, level: int) -> int:
        """Takes a token that opens a level, and answers that level."""
        if self.next.kind == kind and level == MOST_LEVELS:
            raise Refused("Nesting", self.next.place)
        self.take(kind)
        return level + 1

    def number(self) -> Number:
        steps = [Step(1, self.unit())]
        while self.has_loops and self.next.kind in ("+", "-"):
            sign = 1 if self.take(self.next.kind).kind == "+" else -1
            steps.append(Step(sign, self.unit()))
        return steps

    def unit(self) -> Union[Digits, Used]:
        token = self.take("name" if self.has_loops and self.next.kind == "name" else "number")
        return Used(token.place, token.text) if token.kind == "name" else Digits(token.place, int(token.text))

    def names(self) -> List[Token]:
        names = []
        while self.next.kind == "name":
            names.append(self.take("name"))
        return names

    def profile(self) -> None:
        """A text that begins with `revs` is one of profile 2."""
        if self.took("revs"):
            self.has_loops = True
            if self.next.kind == "number" and int(self.next.text) != 2:
                raise Refused("Syntax", self.next.place)
            self.take("number")

    def program(self) -> Program:
        self.profile()
        self.take("main")
        parameters = [self.parameter()]
        while self.next.kind == "(":
            parameters.append(self.parameter())
        self.take("=")
        program = Program(parameters, self.expression(1))
        self.take("end")
        bits = 0
        for parameter in parameters:
            bits += parameter.bits
            if parameter.bits == 0 or bits > MOST_INPUTS:
                raise Refused("Inputs", parameter.place)
        return program

    def parameter(self) -> Parameter:
        self.take("(")
        name, width = self.take("name"), None
        self.take(":")
        self.take("bool")
        if self.took("["):
            width = int(self.take("number").text)
            self.take("]")
        self.take(")")
        return Parameter(name.place, name.text, width)

    def expression(self, level: int):
        place = self.next.place
        if self.next.kind == "fun":
            level = self.open("fun", level)
            names = [self.take("name")] + self.names()
            self.take("->")
            return Function(place, [name.text for name in names], self.expression(level))
        left = self.sum(level)
        return Assign(left.place, left, self.sum(level)) if self.took("<-") else left

    def sum(self, level: int):
        return self.chain("<>", self.product, level)

    def product(self, level: int):
        return self.chain("&&", self.application, level)

    def chain(self, operator: str, operand, level: int):
        operands = [operand(level)]
        while self.took(operator):
            operands.append(operand(level))
        return operands[0] if len(operands) == 1 else Chain(operands[0].place, operator, operands)

    def application(self, level: int):
        place = self.next.place
        for word in ("clean", "assert"):
            if self.took(word):
                return Claim(place, word, self.atom(level))
        if self.took("append"):
            return Append(place, self.atom(level), self.atom(level))
        if self.took("rotate"):
            return Rotate(place, self.number(), self.atom(level))
        function, arguments = self.atom(level), []
        while self.next.kind in self.BASES:
            arguments.append(self.atom(level))
        return Apply(function.place, function, arguments) if arguments else function

    def atom(self, level: int):
        base, parts = self.base(level), []
        while self.next.kind == ".":
            parts.append(self.part())
        return Parts(base.place, base, parts) if parts else base

    def part(self) -> Part:
        place = self.take(".").place
        self.take("[")
        first = self.number()
        last = self.number() if self.took("..") else None
        self.take("]")
        return Part(place, first, last)

    def base(self, level: int):
        place = self.next.place
        if self.next.kind == "name":
            return Used(place, self.take("name").text)
        if self.next.kind in ("true", "false"):
            return Constant(place, int(self.take(self.next.kind).kind == "true"))
        if self.next.kind == "reg":
            level = self.open("reg", level)
            self.take("[")
            operands = [self.expression(level)]
            while self.took(";"):
                operands.append(self.expression(level))
            self.take("]")
            return Register(place, operands)
        if self.next.kind == "(":
            level = self.open("(", level)
            inner = self.expression(level)
            self.take(")")
            return inner
        if self.next.kind == "{":
            return self.block(place, self.open("{", level))
        raise Refused("Syntax", self.next.place)

    def block(self, place: Place, level: int) -> Block:
        items = []
        while True:
            if self.is_at_item():
                items.append(self.item(level))
                continue
            term = self.expression(level)
            if not self.took(";"):
                self.take("}")
                return Block(place, items, term)
            items.append((None, term))

    def is_at_item(self) -> bool:
        """Whether an item begins here that is no expression."""
        return self.next.kind == "let" or self.has_loops and self.next.kind == "for"

    def item(self, level: int):
        if self.took("let"):
            return self.let(level)
        if self.next.kind == "for" and self.has_loops:
            return None, self.loop(level)
        term = self.expression(level)
        self.take(";")
        return None, term

    def loop(self, level: int) -> Loop:
        place = self.take("for").place
        name = self.take("name")
        self.take("in")
        first = self.number()
        self.take("..")
        last = self.number()
        self.take("do")
        level = self.open("{", level)
        items = [self.item(level)]
        while not self.took("}"):
            items.append(self.item(level))
        self.take(";")
        return Loop(place, name.text, first, last, items)

    def let(self, level: int):
        name, names = self.take("name"), self.names()
        self.take("=")
        value = self.expression(level)
        self.take(";")
        if names:
            value = Function(names[0].place, [each.text for each in names], value)
        return name.text, value


# ---- Scope


def check_scope(program: Program) -> None:
    """Raises the first place in text order at which the scope rule fails."""
    bound = Counter()
    for parameter in program.parameters:
        if bound[parameter.name]:
            raise Refused("TwoParams", parameter.place)
        bound[parameter.name] += 1
    check_names(program.body, bound)


def check_names(term, bound: Counter) -> None:
    """`bound` counts how often each name is bound around the term, or the unit of a number."""
    if isinstance(term, Used) and not bound[term.name]:
        raise Refused("Unbound", term.place)
    names = []
    if isinstance(term, Block):
        names = check_items(term.items, bound)
    elif isinstance(term, Loop):
        for unit in units(term.first) + units(term.last):
            check_names(unit, bound)
        bound[term.name] += 1
        names = [term.name] + check_items(term.items, bound)
    elif isinstance(term, Function):
        names = term.names
        bound.update(names)
    for inner in [term.last] if isinstance(term, Block) else subterms(term):
        check_names(inner, bound)
    bound.subtract(names)


def check_items(items: list, bound: Counter) -> List[str]:
    """The names that the items bind, each of which counts as bound from there on."""
    names = []
    for name, term in items:
        check_names(term, bound)
        if name is not None:
            names.append(name)
            bound[name] += 1
    return names


def units(number: Number) -> list:
    return [step.unit for step in number]


def subterms(term) -> list:
    """The terms and the units of numbers inside a term that has no items, in text order."""
    if isinstance(term, (Register, Chain)):
        return term.operands
    if isinstance(term, Apply):
        return [term.function] + term.arguments
    if isinstance(term, (Append, Assign)):
        return [term.left, term.right]
    if isinstance(term, Parts):
        return [term.base] + [unit for part in term.parts for unit in units(part.first) + units(part.last or [])]
    if isinstance(term, Rotate):
        return units(term.number) + [term.operand]
    if isinstance(term, Claim):
        return [term.operand]
    return [term.body] if isinstance(term, Function) else []


# ---- Running


@dataclass
class Bit:
    location: int


@dataclass
class Places:
    locations: List[int]


@dataclass
class Sum:
    """A number, as a value."""

    number: int


@dataclass
class Closure:
    names: List[str]
    body: object
    scope: object


UNIT = None


@dataclass
class Write:
    """A location that the run wrote: a constant, or the AND or XOR of two bits. A bit is named `x3` where it is that
    of input 3, and `w5` where it is that of write 5."""

    operator: str
    operands: tuple


@dataclass
class Claimed:
    """What the run claimed of a bit, named as in a write, and where; and whether it holds on the bits of the run."""

    word: str
    name: str
    place: Place
    holds: bool


@dataclass
class Run:
    """The run of a program on given bits. It raises `Refused` where it is stuck."""

    program: Program
    bits: List[int]
    writes: List[Write] = field(default_factory=list)
    claims: List[Claimed] = field(default_factory=list)
    work: int = 0

    def __post_init__(self):
        # For each location its bit and whose it is, or None where it was cleaned.
        self.store = [(bit, "x%d" % number) for number, bit in enumerate(self.bits)]
        scope, first = None, 0
        for parameter in self.program.parameters:
            places = list(range(first, first + parameter.bits))
            scope = (parameter.name, Bit(first) if parameter.width is None else Places(places), scope)
            first += parameter.bits
        body = self.program.body
        value = self.value(body, scope, 1)
        if not isinstance(value, (Bit, Places)):
            raise Refused("NoOutput", body.place)
        locations = [value.location] if isinstance(value, Bit) else value.locations
        if len(locations) > MOST_OUTPUTS:
            raise Refused("Outputs", body.place)
        self.outputs = [self.read(location, body.place) for location in locations]

    def count(self, work: int, place: Place) -> None:
        self.work += work
        if self.work > MOST_WORK:
            raise Refused("Work", place)

    def read(self, location: int, place: Place):
        if self.store[location] is None:
            raise Refused("Gone", place)
        return self.store[location]

    def write(self, bit: int, place: Place, operator: str, *operands: str) -> int:
        if len(self.writes) == MOST_WRITES:
            raise Refused("Writes", place)
        self.store.append((bit, "w%d" % len(self.writes)))
        self.writes.append(Write(operator, operands))
        return len(self.store) - 1

    def register(self, locations: List[int], place: Place) -> Places:
        if len(locations) > MOST_PLACES:
            raise Refused("Length", place)
        self.count(len(locations), place)
        return Places(locations)

    def bound(self, value, place: Place):
        """A register counts its length where it is bound."""
        if isinstance(value, Places):
            self.count(len(value.locations), place)
        return value

    def value(self, term, scope, depth: int):
        if depth > MOST_DEPTH:
            raise Refused("Depth", term.place)
        self.count(1, term.place)
        return getattr(self, "run_" + type(term).__name__.lower())(term, scope, depth + 1)

    def bit(self, term, scope, depth: int) -> int:
        value = self.value(term, scope, depth)
        if not isinstance(value, Bit):
            raise Refused("NotBit", term.place)
        return value.location

    def run_used(self, term: Used, scope, _):
        while scope[0] != term.name:
            scope = scope[2]
        return scope[1]

    def run_constant(self, term: Constant, *_):
        return Bit(self.write(term.bit, term.place, str(term.bit)))

    def run_register(self, term: Register, scope, depth):
        return self.register([self.bit(operand, scope, depth) for operand in term.operands], term.place)

    def run_block(self, term: Block, scope, depth):
        return self.value(term.last, self.items(term.items, scope, depth), depth)

    def items(self, items: list, scope, depth: int):
        """The scope behind the items."""
        for name, item in items:
            value = self.value(item, scope, depth)
            if name is not None:
                scope = (name, self.bound(value, item.place), scope)
        return scope

    def run_loop(self, term: Loop, scope, depth):
        first, last = self.number(term.first, scope), self.number(term.last, scope)
        for number in range(first, last + 1):
            self.count(1, term.place)
            self.items(term.items, (term.name, Sum(number), scope), depth)
        return UNIT

    def number(self, steps: Number, scope) -> int:
        total = 0
        for place, step in enumerate(steps):
            self.count(min(place, 1), step.unit.place)
            total += step.sign * self.unit(step.unit, scope)
            if abs(total) > MOST_NUMBER:
                raise Refused("Range", step.unit.place)
        return total

    def unit(self, unit: Union[Digits, Used], scope) -> int:
        if isinstance(unit, Digits):
            return unit.number
        value = self.run_used(unit, scope, 0)
        if not isinstance(value, Sum):
            raise Refused("NotNumber", unit.place)
        return value.number

    def run_function(self, term: Function, scope, _):
        return Closure(term.names, term.body, scope)

    def run_parts(self, term: Parts, scope, depth):
        value = self.value(term.base, scope, depth)
        for part in term.parts:
            if not isinstance(value, Places):
                raise Refused("NotRegister", part.place)
            places, first = value.locations, self.number(part.first, scope)
            if part.last is None:
                if not 0 <= first < len(places):
                    raise Refused("Index", part.place)
                value = Bit(places[first])
            else:
                last = self.number(part.last, scope)
                if not 0 <= first <= last < len(places):
                    raise Refused("Slice", part.place)
                value = self.register(places[first : last + 1], term.place)
        return value

    def run_apply(self, term: Apply, scope, depth):
        value = self.value(term.function, scope, depth)
        for operand in term.arguments:
            argument = self.value(operand, scope, depth)
            if not isinstance(value, Closure):
                raise Refused("NotFunction", operand.place)
            name, *names = value.names
            inner = (name, self.bound(argument, operand.place), value.scope)
            value = Closure(names, value.body, inner) if names else self.value(value.body, inner, depth)
        return value

    def run_append(self, term: Append, scope, depth):
        sides = [(side, self.value(side, scope, depth)) for side in (term.left, term.right)]
        for side, value in sides:
            if not isinstance(value, Places):
                raise Refused("NotRegister", side.place)
        return self.register(sides[0][1].locations + sides[1][1].locations, term.place)

    def run_rotate(self, term: Rotate, scope, depth):
        number, value = self.number(term.number, scope), self.value(term.operand, scope, depth)
        if not isinstance(value, Places):
            raise Refused("NotRegister", term.operand.place)
        if not 0 <= number < len(value.locations):
            raise Refused("Rotate", term.place)
        return self.register(value.locations[number:] + value.locations[:number], term.place)

    def run_claim(self, term: Claim, scope, depth):
        location = self.bit(term.operand, scope, depth)
        bit, name = self.read(location, term.operand.place)
        if len(self.claims) == MOST_CLAIMS:
            raise Refused("Claims", term.place)
        self.claims.append(Claimed(term.word, name, term.place, bit == (term.word == "assert")))
        if term.word == "clean":
            self.store[location] = None
        return UNIT

    def run_chain(self, term: Chain, scope, depth):
        first, *rest = term.operands
        location = self.bit(first, scope, depth)
        for operand in rest:
            other = self.bit(operand, scope, depth)
            (left, left_name), (right, right_name) = self.read(location, first.place), self.read(other, operand.place)
            bit = left & right if term.operator == "&&" else left ^ right
            location = self.write(bit, operand.place, term.operator, left_name, right_name)
        return Bit(location)

    def run_assign(self, term: Assign, scope, depth):
        left, right = self.bit(term.left, scope, depth), self.bit(term.right, scope, depth)
        self.read(left, term.left.place)
        self.store[left] = self.read(right, term.right.place)
        return UNIT


def program_of(text: bytes) -> Program:
    """The program of a text, its names bound."""
    if len(text) > MOST_BYTES:
        raise Refused("source over %d bytes" % MOST_BYTES)
    program = Parser(tokens_of(text)).program()
    check_scope(program)
    return program
