"""Random programs with claims, many of which hold on all inputs: temporaries that are given back, and equal terms.

A term is a leaf, which is its text, or a pair of an operator and its operands.
"""
from random import Random
from typing import List, Tuple

XOR, AND = " <> ", " && "
MOST_INPUTS = 7
TRUE, FALSE = "true", "false"
NAMES = ["a", "b", "r", "s", "x0"]


def term(operator: str, *operands):
    return operator, list(operands)


def shown(tree) -> str:
    """The text of a term. An operand that is an XOR, or of the term's own operator, stands in brackets."""
    if isinstance(tree, str):
        return tree
    operator, operands = tree
    texts = [shown(operand) for operand in operands]
    in_brackets = [not isinstance(each, str) and each[0] in (operator, XOR) for each in operands]
    return operator.join("(%s)" % text if inside else text for text, inside in zip(texts, in_brackets))


def negated(tree):
    return term(XOR, TRUE, tree)


class Claimed:
    """Random items of one block, over a program's inputs."""

    def __init__(self, random: Random):
        self.random = random
        self.count = 0
        self.parameters = self.some_parameters()
        self.inputs = sum(width or 1 for _, width in self.parameters)
        self.bits: List[str] = []
        for name, width in self.parameters:
            self.bits += [name] if width is None else ["%s.[%d]" % (name, place) for place in range(width)]

    def program(self) -> Tuple[str, int]:
        texts = ["(%s : bool%s)" % (name, "" if width is None else "[%d]" % width) for name, width in self.parameters]
        items = [self.item() for _ in range(self.random.randint(1, 5))]
        body = " ".join(items + [self.last()])
        return "main %s = { %s }" % (" ".join(texts), body), self.inputs

    def some_parameters(self):
        parameters, left = [], MOST_INPUTS
        for name in self.random.sample(NAMES, self.random.randint(1, 4)):
            width = self.random.choice([None, None, 1, 2, 3, 4])
            if (width or 1) <= left:
                parameters.append((name, width))
                left -= width or 1
        return parameters

    def chance(self, probability: float) -> bool:
        return self.random.random() < probability

    def fresh(self) -> str:
        self.count += 1
        return "t%d" % self.count

    # ---- Terms

    def tree(self, depth: int):
        if depth == 0 or self.chance(0.2):
            return self.random.choice(self.bits) if self.chance(0.9) else self.random.choice([TRUE, FALSE])
        operands = [self.tree(depth - 1) for _ in range(self.random.randint(2, 3))]
        return term(self.random.choice([XOR, AND]), *operands)

    def some_tree(self):
        return self.tree(self.random.randint(0, 3))

    def equal(self, tree, depth: int = 3):
        """A term with the same value on every input."""
        if depth == 0:
            return tree
        if isinstance(tree, str):
            return self.equal_leaf(tree) if self.chance(0.3) else tree
        operator, operands = tree
        operands = [self.equal(operand, depth - 1) for operand in operands]
        self.random.shuffle(operands)
        if len(operands) == 3 and self.chance(0.5):
            operands = [term(operator, *operands[:2]), operands[2]]
        if operator == AND and len(operands) == 2 and self.chance(0.5):
            return self.equal_product(*operands)
        return term(operator, *operands)

    def equal_leaf(self, leaf: str):
        other = self.random.choice(self.bits)
        return self.random.choice([
            term(XOR, leaf, FALSE), term(AND, TRUE, leaf), term(AND, leaf, leaf), term(XOR, other, leaf, other),
            negated(negated(leaf)), term(XOR, term(AND, leaf, other), term(AND, negated(other), leaf)),
        ])

    def equal_product(self, left, right):
        if not isinstance(right, str) and right[0] == XOR:
            return term(XOR, *(term(AND, left, operand) for operand in right[1]))
        neither = term(AND, negated(left), negated(right))
        return term(XOR, neither, TRUE, negated(left), negated(right))

    def rare(self):
        """A product of many inputs or their negations: it is 1 on few inputs."""
        bits = self.random.sample(self.bits, self.random.randint((len(self.bits) + 1) // 2, len(self.bits)))
        literals = [bit if self.chance(0.5) else negated(bit) for bit in bits]
        return term(AND, *literals) if len(literals) > 1 else literals[0]

    # ---- Items

    def item(self) -> str:
        kinds = [self.given_back, self.given_back, self.equals, self.equals, self.in_register, self.chained,
                 self.by_function, self.constant, self.change, self.rarely, self.any_claim]
        weights = [4, 4, 4, 4, 3, 3, 3, 1, 1, 2, 1]
        (kind,) = self.random.choices(kinds, weights)
        return kind()

    def claim_zero(self, text: str) -> str:
        """A claim that a term is 0 everywhere."""
        return self.random.choice(["clean (%s);", "assert (true <> (%s));"]) % text

    def given_back(self) -> str:
        name, tree = self.fresh(), self.some_tree()
        value, again = shown(tree), shown(self.equal(tree))
        if isinstance(tree, str):
            value += " <> false"  # a location of its own
        self.bits += [name] * self.chance(0.2)
        between = self.item() + " " if self.chance(0.2) else ""
        if name in self.bits:
            self.bits.remove(name)
        return "let %s = %s; %s%s <- %s <> (%s); clean %s;" % (name, value, between, name, name, again, name)

    def equals(self) -> str:
        tree = self.some_tree()
        return self.claim_zero(shown(term(XOR, tree, self.equal(tree))))

    def chained(self) -> str:
        """Two temporaries, the second made of the first, given back in the order of a stack, or of a queue."""
        first, second, tree, bit = self.fresh(), self.fresh(), self.some_tree(), self.random.choice(self.bits)
        made = "let %s = %s <> false; let %s = %s && %s;" % (first, shown(tree), second, first, bit)
        back = ["%s <- %s <> (%s && %s); clean %s;" % (second, second, bit, first, second),
                "%s <- %s <> (%s); clean %s;" % (first, first, shown(self.equal(tree)), first)]
        return " ".join([made] + (back if self.chance(0.9) else back[::-1]))

    def in_register(self) -> str:
        """Places of a register that are cleaned, now and then by another register of the same locations."""
        name, trees = self.fresh(), [self.tree(2), self.tree(2)]
        items = ["let %s = reg [%s];" % (name, "; ".join("%s <> false" % shown(tree) for tree in trees))]
        other, turn = name, 0
        if self.chance(0.4):
            other, turn = self.fresh(), 1
            items.append("let %s = rotate 1 %s;" % (other, name))
        for place in self.random.sample([0, 1], self.random.randint(1, 2)):
            here = "%s.[%d]" % (name, place)
            items.append("%s <- %s <> (%s);" % (here, here, shown(self.equal(trees[place]))))
            items.append("clean %s.[%d];" % (other, (place + turn) % 2))
        return " ".join(items)

    def by_function(self) -> str:
        """A function with claims of its own, applied more than once."""
        name, claims = self.fresh(), self.random.choice([
            "clean (x <> y <> (y <> x));", "assert (true <> (x && y) <> (y && x));", "clean (x && y && (true <> x));",
            "let t = x && y; t <- t <> (y && x); clean t;", "assert (true <> x && y);"])
        calls = []
        for _ in range(self.random.randint(1, 2)):
            calls.append("%s (%s) (%s);" % (name, shown(self.tree(1)), shown(self.tree(1))))
        return " ".join(["let %s x y = { %s x };" % (name, claims)] + calls)

    def constant(self) -> str:
        return self.random.choice(["clean false;", "clean (true && false);", "clean true;", "assert true;",
                                   "assert (true <> false);"])

    def change(self) -> str:
        return "%s <- %s;" % (self.random.choice(self.bits), shown(self.tree(1)))

    def rarely(self) -> str:
        """A claim that few inputs break."""
        tree, rare = self.some_tree(), self.rare()
        return self.claim_zero(shown(rare if self.chance(0.5) else term(XOR, tree, self.equal(tree), rare)))

    def any_claim(self) -> str:
        return self.random.choice(["clean (%s);", "assert (%s);"]) % shown(self.some_tree())

    def last(self) -> str:
        if self.chance(0.6):
            return shown(self.some_tree())
        return "reg [%s]" % "; ".join(shown(self.some_tree()) for _ in range(self.random.randint(1, 3)))


def claimed(random: Random) -> Tuple[str, int]:
    """A program's text, and the number of its inputs."""
    return Claimed(random).program()
