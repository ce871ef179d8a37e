"""Random texts: programs of each kind, programs at the limits, and broken texts."""
from random import Random
from typing import List, NamedTuple, Tuple

from cases.claim_programs import claimed
from cases.loop_programs import looped
from cases.plan_programs import planned

BIT, REGISTER, UNIT = "bit", "register", "unit"

NAMES = ["a", "b", "c", "x0", "_y", "Bool", "main1", "q" * 64]
WIDTHS = [0, 1, 3, 1024, 1025, 9999]
PARAMETERS = [[("a", None)], [("r", 3)], [("a", None), ("r", 2)], [("a", None), ("b", None)],
              [("a", None), ("b", None), ("r", 4)]]
FORMS = ["(#)", "reg [#]", "reg [#; #]", "{ # }", "{ let f = #; # }", "{ let g x y = #; #; # }", "fun x -> #",
         "fun x y -> #", "clean (#)", "assert (#)", "rotate 3 (#)", "append (#) (#)", "(#) (#)", "(#) <- (#)",
         "(#) <> (#)", "(#) && (#) && (#)"]
FOLDED = ["%s", "%s", "%s", "(%s && true)", "(false <> %s)", "(%s && true && true)", "(true && %s <> false)"]
ASIDES = ["", "", "", "let t = s <> r.[0]; ", "clean (s <> s); ", "let t = s && r.[0]; clean (t && (true <> s)); ",
          "assert (s <> s); ", "clean (s && r.[0]); "]
BLANKS = [" ", "  ", "\n", "\t\r\n", " // note\n", "\n\n "]
PIECES = "( ) [ ] { } <> && < & / a ; in . .. + = -> : bool // \xff 12345".split()
PIECES += [" 7 ", "\n", "let ", "fun ", "reg ", "z" * 65]


def head(parameters) -> str:
    """The text before a body, for pairs of a name and a width, or None for a bit."""
    texts = ["(%s : bool%s)" % (name, "" if width is None else "[%d]" % width) for name, width in parameters]
    return "main " + " ".join(texts) + " = "


# ---- Programs at the limits of a run, and a little below or above: each the text and the number of inputs


def at_depth(more: int) -> Tuple[str, int]:
    last = 397 + more
    functions = ["let f0 x = x;"] + ["let f%d x = f%d x;" % (k + 1, k) for k in range(last)]
    return head([("a", None)]) + "{ " + " ".join(functions) + " f%d a }" % last, 1


def at_work(more: int) -> Tuple[str, int]:
    items = "rotate 0 t; " * 4091 + "r; " * (1 + more)
    return head([("r", 1024)]) + "{ let s = append r r; let t = append s s; " + items + "r.[0] }", 1024


def at_writes(more: int) -> Tuple[str, int]:
    return head([("a", None)]) + "<>".join("a" * (262_145 + more)), 1


def at_claims(more: int) -> Tuple[str, int]:
    return head([("a", None)]) + "{ " + "assert a; " * (4096 + more) + "a }", 1


def at_outputs(more: int) -> Tuple[str, int]:
    return head([("r", 1022 + more)]) + "append r (reg [r.[0]; r.[1]])", 1022 + more


def at_length(more: int) -> Tuple[str, int]:
    places = "; ".join(["r.[0]"] * (2048 + more))
    return head([("r", 1024)]) + "{ let s = append r r; append s (reg [" + places + "]) }.[0]", 1024


LIMITS = [at_depth, at_work, at_writes, at_claims, at_outputs, at_length]


# ---- Random cases


class Case(NamedTuple):
    """A text, and the number of inputs that it was written with."""

    text: bytes
    inputs: int


class Scope(NamedTuple):
    """The names that a term may use: pairs of a name and its kind, a later one hiding an earlier one. A function's
    kind is the number of bits that it takes. The parameters that are registers have their widths here. A strict term
    has no claims, and each of its parts has the kind and the places that are wanted."""

    names: tuple
    widths: dict
    strict: bool = False

    def of_kind(self, kind) -> List[str]:
        return [name for name, its in self.names if its == kind]

    def functions(self) -> List[Tuple[str, int]]:
        return [(name, kind) for name, kind in self.names if isinstance(kind, int)]

    def bind(self, *pairs) -> "Scope":
        new = {name for name, _ in pairs}
        widths = {name: width for name, width in self.widths.items() if name not in new}
        return Scope(tuple(pair for pair in self.names if pair[0] not in new) + pairs, widths, self.strict)


class Programs:
    """Random cases from one seed."""

    def __init__(self, seed: int):
        self.random = Random(seed)

    def chance(self, probability: float) -> bool:
        return self.random.random() < probability

    def some(self, make, least: int, most: int) -> list:
        return [make() for _ in range(self.random.randint(least, most))]

    # ---- Cases

    def case(self, kinds: dict) -> Case:
        """A case of one of the kinds, each the name of a method here with its weight."""
        (kind,) = self.random.choices(list(kinds), kinds.values())
        text, inputs = getattr(self, kind)()
        text = self.spaced(text)
        return Case(self.broken(text) if self.chance(0.2) else text.encode(), inputs)

    def bits(self, inputs: int) -> str:
        return "".join(self.random.choice("01") for _ in range(inputs))

    def nodes(self, sizes: List[int]) -> List[str]:
        """Now and then a limit on nodes, mostly about as many as the claims up to one of them need."""
        if self.chance(0.4):
            return []
        limit = self.random.choice(sizes) + self.random.choice([-1, 0, 1]) if sizes else 1
        if self.chance(0.1):
            limit = self.random.choice([self.random.randint(1, 50), 1_000_000, 100_000])
        text = str(max(1, limit)).zfill(self.random.choice([0, 0, 0, 0, 7]))
        return ["--nodes=" + text] if self.chance(0.5) else ["--nodes", text]

    def word(self, inputs: int) -> str:
        """A word for so many inputs, now and then a wrong one."""
        bits = self.bits(inputs)
        if self.chance(0.04):
            return self.random.choice([bits + "1", bits[:-1], bits[:-1] + "x", ""])
        return bits

    def bits_head(self, names: List[str]) -> Tuple[str, int]:
        """Parameters of one bit, now and then a register of a length at a limit, and the number of inputs."""
        widths = [self.random.choice(WIDTHS) if self.chance(0.05) else None for _ in names]
        inputs = sum(1 if width is None else width for width in widths)
        return head(zip(names, widths)), min(inputs, 1024)

    def some_names(self) -> List[str]:
        names = self.random.sample(NAMES, self.random.randint(1, 5))
        return names + names[:1] if self.chance(0.03) else names

    # ---- Kinds of programs

    def plain(self) -> Tuple[str, int]:
        """Names, `&&`, `<>` and brackets."""
        names = self.some_names()
        front, inputs = self.bits_head(names)
        used = names if self.chance(0.95) else names + ["unbound"]
        return front + self.plain_term(used, self.random.randint(0, 5)), inputs

    def plain_term(self, names: List[str], depth: int) -> str:
        if depth == 0 or self.chance(0.3):
            return self.random.choice(names)
        if self.chance(0.25):
            return "(" + self.plain_term(names, depth - 1) + ")"

        def operand() -> str:
            term = self.plain_term(names, depth - 1)
            return "(" + term + ")" if self.chance(0.4) else term

        return self.random.choice([" <> ", " && ", "&&", "<>"]).join(self.some(operand, 2, 4))

    def loose(self) -> Tuple[str, int]:
        """Any sentence, whatever its values are."""
        names = self.some_names()
        front, inputs = self.bits_head(names)
        return front + self.loose_term(names, self.random.randint(1, 5)), inputs

    def loose_term(self, names: List[str], depth: int) -> str:
        leaves = names + ["true", "false", "a.[1]", "b.[0..2].[1]"]
        if depth == 0 or self.chance(0.2):
            return self.random.choice(leaves)
        pieces = self.random.choice(FORMS).split("#")
        return pieces[0] + "".join(self.loose_term(names, depth - 1) + piece for piece in pieces[1:])

    def deep(self) -> Tuple[str, int]:
        """Terms that open about as many levels as there may be."""
        opened = self.random.randint(95, 103)
        if self.chance(0.5):
            body = "(" * opened + "a" + ")" * (opened + self.random.choice([0, 0, -1, 1]))
        else:
            body = self.random.choice(["{ fun x -> reg [", "( fun x -> {", "reg [ fun y -> {"]) * (opened // 3)
        return head([("a", None)]) + body, 1

    def long(self) -> Tuple[str, int]:
        """A chain with about 4,096 inputs, outputs and nodes; some operands fold, and some nodes no output rests on."""
        inputs, outputs = self.random.randint(2, 1024), self.random.randint(1, 1024)
        nodes = 4096 + self.random.randint(-2, 2) - inputs - outputs
        pairs = [[form % name for form in FOLDED] for name in ("r.[0]", "r.[%d]" % (inputs - 1))]
        operands = (self.random.choice(pairs[number % 2]) for number in range(nodes + 1))
        chain = self.random.choice([" <> ", " && "]).join(operands)
        body = "{ let s = %s; %sreg [%s] }" % (chain, self.random.choice(ASIDES), "; ".join(["s"] * outputs))
        return head([("r", inputs)]) + body, inputs

    def wide(self) -> Tuple[str, int]:
        """About as many parameters as there may be."""
        count = self.random.choice([1, 2, 1023, 1024, 1025])
        return head(("p%d" % number, None) for number in range(count)) + "p0 <> p%d" % (count - 1), count

    def limit(self) -> Tuple[str, int]:
        """A run about as deep, long or large as it may be."""
        return self.random.choice(LIMITS)(self.random.randint(-2, 2))

    def typed(self) -> Tuple[str, int]:
        """The whole language, where most terms have the kind that is wanted of them."""
        front, inputs, scope = self.typed_head()
        return front + self.term(scope, self.random.choice([BIT, BIT, REGISTER]), self.random.randint(1, 6)), inputs

    def unclaimed(self) -> Tuple[str, int]:
        """The same without claims, and with more of it: a block whose value has one bit or some."""
        front, inputs, scope = self.typed_head()
        return front + self.block(scope._replace(strict=True), self.random.choice([BIT, REGISTER]), 5), inputs

    def claimed(self) -> Tuple[str, int]:
        """Claims, many of which hold on all inputs."""
        return claimed(self.random)

    def looped(self) -> Tuple[str, int]:
        """Loops and sums of numbers."""
        return looped(self.random)

    def planned(self) -> Tuple[str, int]:
        """Values whose plans differ, without claims."""
        return planned(self.random)

    def typed_head(self) -> Tuple[str, int, Scope]:
        parameters = self.random.choice(PARAMETERS)
        names = tuple((name, REGISTER if width else BIT) for name, width in parameters)
        scope = Scope(names, {name: width for name, width in parameters if width})
        return head(parameters), sum(width or 1 for _, width in parameters), scope

    # ---- Terms of a kind

    def term(self, scope: Scope, kind, depth: int) -> str:
        if not scope.strict and self.chance(0.02):
            kind = self.random.choice([BIT, REGISTER, UNIT, 1])
        if depth <= 0 or self.chance(0.15):
            return self.leaf(scope, kind)
        if self.chance(0.15):
            return self.block(scope, kind, depth)
        if self.chance(0.05):
            body = self.term(scope.bind(("u", BIT), ("v", REGISTER)), kind, depth - 1)
            return "(fun u v -> %s) %s %s" % (body, self.atom(scope, BIT, depth), self.atom(scope, REGISTER, depth))
        if kind == BIT:
            return self.bit(scope, depth)
        if kind == REGISTER:
            return self.register(scope, depth)
        if kind == UNIT:
            return self.action(scope, depth)
        return "fun x -> " + self.term(scope.bind(("x", BIT)), BIT, depth - 1)

    def leaf(self, scope: Scope, kind) -> str:
        names = scope.of_kind(kind)
        if names and not (kind == BIT and self.chance(0.1)):
            return self.random.choice(names)
        if kind == BIT:
            return self.random.choice(["true", "false"])
        if kind == REGISTER:
            return "reg [%s]" % "; ".join(self.some(lambda: self.leaf(scope, BIT), 1, 3))
        if kind == UNIT:
            return self.action(scope, 0)
        return "(fun q -> q)"

    def atom(self, scope: Scope, kind, depth: int) -> str:
        term = self.term(scope, kind, depth - 1)
        return term if term.isidentifier() else "(" + term + ")"

    def bit(self, scope: Scope, depth: int) -> str:
        functions = scope.functions()
        if functions and self.chance(0.2):
            name, arguments = self.random.choice(functions)
            surplus = not scope.strict and self.chance(0.05)
            return " ".join([name] + [self.atom(scope, BIT, depth) for _ in range(arguments + surplus)])
        if self.chance(0.3):
            return "%s.[%d]" % self.place(scope, depth)
        return self.random.choice([" <> ", " && "]).join(self.some(lambda: self.term(scope, BIT, depth - 1), 2, 3))

    def register(self, scope: Scope, depth: int) -> str:
        form = self.random.choice(["reg", "reg", "append", "rotate", "slice"])
        if form == "reg":
            return "reg [%s]" % "; ".join(self.some(lambda: self.term(scope, BIT, depth - 1), 1, 3))
        if form == "append":
            return "append %s %s" % (self.atom(scope, REGISTER, depth), self.atom(scope, REGISTER, depth))
        operand, place = self.place(scope, depth)
        if form == "rotate":
            return "rotate %d %s" % (place, operand)
        return "%s.[%d..%d]" % (operand, self.random.randint(0, place), place)

    def place(self, scope: Scope, depth: int) -> Tuple[str, int]:
        """A register and one of its places, or about one."""
        register, place = self.atom(scope, REGISTER, depth), 0
        if scope.widths and self.chance(0.4):
            register, width = self.random.choice(list(scope.widths.items()))
            place = self.random.randrange(width)
        elif self.chance(0.4):
            register, place = "(append %s %s)" % (register, self.atom(scope, REGISTER, depth)), 1
        return register, place if scope.strict else max(0, place + self.random.choice([0] * 9 + [1, 2, -1]))

    def action(self, scope: Scope, depth: int) -> str:
        if scope.strict or self.chance(0.5):
            return "%s <- %s" % (self.atom(scope, BIT, depth), self.atom(scope, BIT, depth))
        return self.random.choice(["clean ", "assert "]) + self.atom(scope, BIT, depth)

    def block(self, scope: Scope, kind, depth: int) -> str:
        items = []
        for _ in range(self.random.randint(1, 3)):
            form = self.random.choice(["value", "value", "function", "action", "action"])
            if form == "value":
                name, its = self.random.choice("pqtsar"), self.random.choice([BIT, BIT, REGISTER])
                items.append("let %s = %s;" % (name, self.term(scope, its, depth - 1)))
                scope = scope.bind((name, its))
            elif form == "function":
                name, names = self.random.choice("fg"), ["y", "z"][: self.random.randint(1, 2)]
                body = self.term(scope.bind(*((each, BIT) for each in names)), BIT, depth - 1)
                items.append("let %s %s = %s;" % (name, " ".join(names), body))
                scope = scope.bind((name, len(names)))
            else:
                items.append(self.term(scope, UNIT, depth - 1) + ";")
        return "{ " + " ".join(items + [self.term(scope, kind, depth - 1)]) + " }"

    # ---- Texts

    def spaced(self, text: str) -> str:
        """The same tokens, now and then with other blanks and comments between."""
        return text.replace(" ", self.random.choice(BLANKS)) if self.chance(0.3) else text

    def broken(self, text: str) -> bytes:
        """The text with bytes deleted, put in, changed, or cut off."""
        broken = bytearray(text.encode())
        for _ in range(self.random.randint(1, 3)):
            at = self.random.randint(0, len(broken))
            change = self.random.choice(["delete", "insert", "cut", "set"])
            if change == "delete":
                del broken[at : at + 1]
            elif change == "insert":
                broken[at:at] = self.random.choice(PIECES).encode("latin-1")
            elif change == "cut":
                del broken[at:]
            elif at < len(broken):
                broken[at] = self.random.randrange(256)
        return bytes(broken)
