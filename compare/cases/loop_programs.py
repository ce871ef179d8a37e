"""Random programs of profile 2: loops within loops, sums of numbers, functions of numbers, now and then an index that
runs out or a number that passes its range; programs at the limits; and texts of broken tokens.

A name of a number is written with the interval of its values, so that most indices are places of their registers.
"""
from random import Random
from typing import Dict, List, NamedTuple, Tuple

from models.language import Refused, tokens_of

PARAMETERS = [[("a", 1)], [("a", 3)], [("a", 4), ("b", 4)], [("a", 2), ("c", None)], [("a", 5), ("b", 2), ("c", None)]]
TOKENS = "for in do revs 2 main i a .. + - . [ ] { } ( ) ; = let <- <> && 0 1 9999 true rotate fun -> clean".split()
MOST_NESTED = 3


class Scope(NamedTuple):
    """The names that a term may use: the widths of registers, and the least and greatest value of numbers. A function
    of one number has the interval of the numbers that it takes, one of a number and a bit too."""

    bits: Tuple[str, ...]
    widths: Dict[str, int]
    numbers: Dict[str, Tuple[int, int]]
    functions: Dict[str, Tuple[int, int]]
    mixed: Dict[str, Tuple[int, int]]

    def with_bit(self, name: str) -> "Scope":
        return self.without(name)._replace(bits=self.without(name).bits + (name,))

    def with_width(self, name: str, width: int) -> "Scope":
        return self.without(name)._replace(widths={**self.without(name).widths, name: width})

    def with_number(self, name: str, least: int, most: int) -> "Scope":
        return self.without(name)._replace(numbers={**self.without(name).numbers, name: (least, most)})

    def without(self, name: str) -> "Scope":
        kinds = [{key: its for key, its in kind.items() if key != name} for kind in self[1:]]
        return Scope(tuple(each for each in self.bits if each != name), *kinds)


class Looped:
    """A block of items, some of which are loops."""

    def __init__(self, random: Random):
        self.random = random
        self.wrong = random.choice([0, 0, 0, 0.02, 0.05])  # how often a number is not what is wanted

    def chance(self, probability: float) -> bool:
        return self.random.random() < probability

    def program(self) -> Tuple[str, int]:
        parameters = self.random.choice(PARAMETERS)
        texts = ["(%s : bool%s)" % (name, "" if width is None else "[%d]" % width) for name, width in parameters]
        scope = Scope((), {}, {}, {}, {})
        for name, width in parameters:
            scope = scope.with_bit(name) if width is None else scope.with_width(name, width)
        items, scope = self.items(scope, self.random.randint(2, 5), 0)
        head = "revs %s main " % self.random.choice(["2", "2", "2", "02", "0002"])
        inputs = sum(width or 1 for _, width in parameters)
        return head + " ".join(texts) + " = { %s %s }" % (items, self.last(scope)), inputs

    def last(self, scope: Scope) -> str:
        registers = list(scope.widths)
        if registers and self.chance(0.6):
            return self.random.choice(registers)
        return self.bit(scope, 2)

    # ---- Numbers

    def number(self, scope: Scope, least: int, most: int) -> str:
        """A number from `least` to `most`, as far as intervals say it, or now and then another."""
        if self.chance(self.wrong):
            return self.strange(scope, least, most)
        fitting = [name for name, (low, high) in scope.numbers.items() if high - low <= most - least]
        if not fitting or self.chance(0.15):
            return self.digits(self.random.randint(least, most))
        name = self.random.choice(fitting)
        low, high = scope.numbers[name]
        if self.chance(0.3):
            total = self.random.randint(least + high, most + low)
            return "%s - %s" % (self.digits(total), name) if total >= 0 else self.offset(name, least - low)
        return self.offset(name, self.random.randint(least - low, most - high))

    def offset(self, name: str, more: int) -> str:
        if more == 0 and self.chance(0.7):
            return name
        if more < 0:
            return "%s - %d" % (name, -more)
        forms = ["%s + %d" % (name, more), "%d + %s" % (more, name), "%s - 1 + %d" % (name, more + 1)]
        return self.random.choice(forms)

    def digits(self, number: int) -> str:
        """A number, now and then as a sum."""
        if number < 0:
            return "0 - %d" % -number
        if self.chance(0.15):
            more = self.random.choice([1, 2, 9999 - number])
            return "%d - %d" % (number + more, more)
        return str(number) if self.chance(0.95) else str(number).zfill(self.random.randint(1, 4))

    def strange(self, scope: Scope, least: int, most: int) -> str:
        names = list(scope.numbers) + list(scope.widths) + list(scope.bits) + ["0"]
        name = self.random.choice(names)
        return self.random.choice(["%d" % (most + 1), "0 - 1", "%s + 9999" % name, "0 - 9999 - %s" % name, name,
                                   "%s - %s" % (name, self.random.choice(names)), "9999 + 1 - 9999", "unbound"])

    # ---- Terms

    def place(self, scope: Scope) -> str:
        name, width = self.random.choice(list(scope.widths.items()))
        if width > 1 and self.chance(0.1):
            return "(rotate %s %s).[%s]" % (self.number(scope, 0, width - 1), name, self.number(scope, 0, width - 1))
        if width > 1 and self.chance(0.15):
            first = self.random.randrange(width)
            last = self.random.randrange(first, width)
            slice_of = "%s.[%s..%s]" % (name, self.number(scope, first, first), self.number(scope, last, last))
            return "%s.[%s]" % (slice_of, self.number(scope, 0, last - first))
        return "%s.[%s]" % (name, self.number(scope, 0, width - 1))

    def leaf(self, scope: Scope) -> str:
        if scope.widths and self.chance(0.75):
            return self.place(scope)
        if self.chance(0.02) and scope.numbers:
            return self.random.choice(list(scope.numbers))
        return self.random.choice(scope.bits + ("true", "false"))

    def bit(self, scope: Scope, depth: int) -> str:
        if depth == 0 or self.chance(0.2):
            return self.leaf(scope)
        calls = self.calls(scope)
        if calls and self.chance(0.3):
            return "(%s)" % self.random.choice(calls) % self.bit(scope, depth - 1)
        operands = ["(%s)" % self.bit(scope, depth - 1) if self.chance(0.3) else self.leaf(scope)
                    for _ in range(self.random.randint(1, 3))]
        return self.random.choice([" <> ", " && "]).join(operands)

    def calls(self, scope: Scope) -> List[str]:
        """Functions on numbers that they take, which are names, since a number is no term; now and then on any name."""
        forms, is_wrong = [], self.chance(self.wrong)
        for functions, form in ((scope.functions, "%s %s%%.0s"), (scope.mixed, "%s %s (%%s)")):
            for name, (least, most) in functions.items():
                forms += [form % (name, number) for number, (low, high) in scope.numbers.items()
                          if is_wrong or least <= low and high <= most]
        return forms

    # ---- Items

    def items(self, scope: Scope, count: int, nested: int) -> Tuple[str, Scope]:
        texts = []
        for _ in range(count):
            makes = [self.action, self.loop, self.value, self.register, self.function, self.claim, self.renamed]
            weights = [6, 5 if nested < MOST_NESTED else 0, 2, 3 if nested == 0 else 1, 2, 1, 1]
            (make,) = self.random.choices(makes, weights)
            text, scope = make(scope, nested)
            texts.append(text)
        return " ".join(texts), scope

    def action(self, scope: Scope, nested: int) -> Tuple[str, Scope]:
        if not scope.widths:
            return self.register(scope, nested)
        target = self.place(scope)
        value = self.bit(scope, 2)
        return "%s <- %s;" % (target, "%s <> (%s)" % (target, value) if self.chance(0.5) else value), scope

    def loop(self, scope: Scope, nested: int) -> Tuple[str, Scope]:
        name, first = self.random.choice("ijkn"), self.random.choice([0, 0, 0, 1, 2])
        turns = self.random.choice([0, 1, 2, 3, 3, 4] if nested < 2 else [1, 2])
        ends = self.number(scope, first, first), self.number(scope, first + turns - 1, first + turns - 1)
        if scope.widths and self.chance(0.5):
            width = self.random.choice(list(scope.widths.values()))
            first, turns, ends = 0, width, ("0", self.digits(width - 1))
        inner = scope.with_number(name, first, first + max(turns, 1) - 1)
        items, _ = self.items(inner, self.random.randint(1, 3), nested + 1)
        return "for %s in %s .. %s do { %s };" % (name, *ends, items), scope

    def value(self, scope: Scope, nested: int) -> Tuple[str, Scope]:
        name = self.random.choice("pqa")
        return "let %s = %s;" % (name, self.bit(scope, 2)), scope.with_bit(name)

    def register(self, scope: Scope, nested: int) -> Tuple[str, Scope]:
        name, width = self.random.choice("tub"), self.random.randint(1, 4)
        pairs = list(scope.widths.items())
        if pairs and self.chance(0.3):
            (one, left), (other, right) = self.random.choice(pairs), self.random.choice(pairs)
            return "let %s = append %s %s;" % (name, one, other), scope.with_width(name, left + right)
        if pairs and self.chance(0.3):
            one, left = self.random.choice(pairs)
            return "let %s = rotate %s %s;" % (name, self.number(scope, 0, left - 1), one), scope.with_width(name, left)
        places = [self.random.choice(["false", "false", "true", self.leaf(scope)]) for _ in range(width)]
        return "let %s = reg [%s];" % (name, "; ".join(places)), scope.with_width(name, width)

    def function(self, scope: Scope, nested: int) -> Tuple[str, Scope]:
        interval = self.random.choice([(0, 0), (0, 1), (0, 2), (0, 3), (1, 3)])
        inner = scope.with_number("m", *interval)
        if self.chance(0.5):
            name = self.random.choice(["get", "at"])
            body, bare = self.bit(inner, 2), scope.without(name)
            return "let %s m = %s;" % (name, body), bare._replace(functions={**bare.functions, name: interval})
        body, bare = self.bit(inner.with_bit("y"), 2), scope.without("mix")
        return "let mix m y = %s;" % body, bare._replace(mixed={**bare.mixed, "mix": interval})

    def claim(self, scope: Scope, nested: int) -> Tuple[str, Scope]:
        leaf = self.leaf(scope)
        if self.chance(0.1):
            return "%s %s;" % (self.random.choice(["clean", "assert"]), leaf), scope
        if self.chance(0.5):
            return "clean (%s <> %s);" % (leaf, leaf), scope
        return "assert (true <> %s <> %s);" % (leaf, leaf), scope

    def renamed(self, scope: Scope, nested: int) -> Tuple[str, Scope]:
        if not scope.numbers:
            return self.value(scope, nested)
        name, (used, interval) = self.random.choice("zij"), self.random.choice(list(scope.numbers.items()))
        return "let %s = %s;" % (name, used), scope.with_number(name, *interval)


# ---- Programs at the limits, and a little below or above: each the text and the number of inputs


def at_levels(random: Random) -> Tuple[str, int]:
    """Loops within loops up to about level 100."""
    loops = 98 + random.randint(-2, 2)
    inside = random.choice(["a;", "(a);", "{ a };", "fun x -> x;", "reg [a];", "let b = a;"])
    return "revs 2 main (a : bool) = { " + "for i in 0 .. 0 do { " * loops + inside + " };" * loops + " a }", 1


def at_depth(random: Random) -> Tuple[str, int]:
    """A loop in a function, at about depth 400."""
    last = 395 + random.randint(-3, 3)
    inside = random.choice(["for i in 0 .. 0 do { x; };", "for i in 1 .. 0 do { x; };",
                            "for i in 0 .. 1 do { let y = x; };", "for i in 0 .. 0 do { for j in i .. 0 do { x; }; };"])
    functions = ["let f0 x = { %s x };" % inside] + ["let f%d x = f%d x;" % (k + 1, k) for k in range(last)]
    return "revs 2 main (a : bool) = { " + " ".join(functions) + " f%d a }" % last, 1


def at_work(random: Random) -> Tuple[str, int]:
    """Turns that make large registers, and then as many items as pass the limit, or do not."""
    item = random.choice(["rotate i t;", "let u = rotate 4095 - i t;", "t.[i - i..4095];",
                          "for j in i .. i do { rotate j t; };"])
    loop = "for i in 1 .. %d do { %s }; " % (random.randint(4080, 4093), item)
    more = "for i in 0 .. %d do { r; }; " % random.choice([random.randint(0, 40), 2000, 4000])
    lets = "let s = append r r; let t = append s s; "
    items = lets + loop + "rotate 1 + 2 t; " * random.randint(0, 4) + more
    return "revs 2 main (r : bool[1024]) = { %sr.[0] }" % items, 1024


def at_writes(random: Random) -> Tuple[str, int]:
    more = random.choice([0, 0, 1, 2])
    return ("revs 2 main (a : bool) = { for i in 1 .. 512 do { for j in 0 .. 510 do { a <> a; }; a <> a; }; %s a }"
            % ("true; " * more)), 1


def at_claims(random: Random) -> Tuple[str, int]:
    turns = 4096 + random.randint(-1, 2)
    return "revs 2 main (a : bool) = { let t = true; for i in 1 .. %d do { assert t; }; a }" % turns, 1


LIMITS = [at_levels, at_levels, at_depth, at_depth, at_claims, at_work, at_writes]


# ---- Texts


def broken(random: Random, text: str) -> str:
    """The text with a token left out, doubled, changed, or exchanged with the next one."""
    try:
        tokens = [token.text for token in tokens_of(text.encode())][:-1]
    except Refused:
        return text
    for _ in range(random.choice([1, 1, 1, 2])):
        at = random.randrange(len(tokens))
        change = random.choice(["leave out", "double", "change", "put in", "exchange"])
        if change == "leave out":
            del tokens[at]
        elif change == "double":
            tokens.insert(at, tokens[at])
        elif change == "change":
            tokens[at] = random.choice(TOKENS)
        elif change == "put in":
            tokens.insert(at, random.choice(TOKENS))
        else:
            tokens[at : at + 2] = tokens[at : at + 2][::-1]
    return " ".join(tokens)


def looped(random: Random) -> Tuple[str, int]:
    if random.random() < 0.02:
        return random.choice(LIMITS)(random)
    text, inputs = Looped(random).program()
    return (broken(random, text) if random.random() < 0.2 else text), inputs
