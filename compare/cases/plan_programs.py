"""Random programs whose plans differ, with products of many inputs and values of about 64 monomials, and random budgets
near to what their plans need."""
from random import Random
from typing import List, Optional, Sequence, Tuple

from models.graphs import Graph
from models.language import Run
from models.lean import lean_tries
from models.plans import LEAN_PLANS, Budget, Numbers, OverGates, OverLines, Row, Settled, split, tries, weight

PLANS = ["auto", "eager", "pebble"]
GREATEST = Budget(16_384, 4_000_000)
MOST_WRITES = 400  # of a program whose plans are all made to see what they need


class Planned:
    """A block of lets, each of a term over the inputs and the lets before it."""

    def __init__(self, random: Random):
        self.random = random
        self.inputs = random.choice([1, 2, 2, 3, 3, 4, 5, 6, 7, 8, 9, 13, 13, 14, 20])
        self.bits = ["x.[%d]" % number for number in range(self.inputs)]
        self.names: List[str] = []

    def chance(self, probability: float) -> bool:
        return self.random.random() < probability

    def program(self) -> Tuple[str, int]:
        lets = []
        for number in range(self.random.choice([1, 2, 3, 5, 8, 13, 21, 34])):
            lets.append("let t%d = %s;" % (number, self.term()))
            self.names.append("t%d" % number)
        outputs = [self.given() for _ in range(self.random.choice([1, 1, 1, 2, 3, 6]))]
        body = "reg [%s]" % "; ".join(outputs) if len(outputs) > 1 or self.chance(0.2) else outputs[0]
        return "main (x : bool[%d]) = { %s %s }" % (self.inputs, " ".join(lets), body), self.inputs

    def given(self) -> str:
        """An output: mostly one of the last lets."""
        if self.chance(0.1):
            return self.random.choice(self.bits + ["true", "false"])
        return self.random.choice(self.names[-4:] if self.chance(0.7) else self.names)

    def operand(self) -> str:
        if self.names and self.chance(0.6):
            name = self.random.choice(self.names[-3:] if self.chance(0.7) else self.names)
        else:
            name = self.random.choice(self.bits)
        return "(true <> %s)" % name if self.chance(0.2) else name

    def some(self, least: int, most: int) -> List[str]:
        return [self.operand() for _ in range(self.random.randint(least, most))]

    def term(self) -> str:
        makes = [self.chain, self.nested, self.literals, self.sums, self.copied]
        (make,) = self.random.choices(makes, [8, 4, 2, 1, 1])
        return make()

    def chain(self) -> str:
        return self.random.choice([" <> ", " && "]).join(self.some(2, 3))

    def nested(self) -> str:
        """A sum of products."""
        return " <> ".join(" && ".join(self.some(1, 3)) for _ in range(self.random.randint(2, 3)))

    def literals(self) -> str:
        """A product of many inputs or their negations."""
        least = 1 if self.chance(0.5) else (3 * self.inputs + 3) // 4
        bits = self.random.sample(self.bits, self.random.randint(least, self.inputs))
        return " && ".join("(true <> %s)" % bit if self.chance(0.3) else bit for bit in bits)

    def sums(self) -> str:
        """A product of sums of two inputs, and now and then one term more: with six sums, 64 monomials and more."""
        bits = self.random.sample(self.bits, self.inputs)
        pairs = ["(%s <> %s)" % pair for pair in zip(bits[0::2], bits[1::2])] or bits
        product = " && ".join(pairs)
        return product + " <> " + self.random.choice(bits + ["true"]) if self.chance(0.5) else product

    def copied(self) -> str:
        """The same value as a node of its own."""
        return "%s <> false" % self.operand()


def planned(random: Random) -> Tuple[str, int]:
    return Planned(random).program()


# ---- Options


def needs(run: Run, plan: str, borrow: int) -> List[Row]:
    """What the plans that are tried take, before and after the split, and the rows that are enough by the numbers."""
    taken, settled, makes = [], Settled(len(run.bits), Graph(run)), []
    if len(run.writes) <= MOST_WRITES:
        makes = lean_tries(settled, GREATEST) if plan in LEAN_PLANS else tries(settled, GREATEST, plan)
    for make in makes:
        try:
            made = make()
            taken.append(Row(made.lines, sum(map(weight, made.gates))))
            taken.append(Row(made.lines, len(split(made.gates, made.lines + borrow, GREATEST.gates))))
        except (OverLines, OverGates):
            pass
    return taken + Numbers(run).rows(plan)


class Budgets:
    """Random options of `compile`, near to what a run's plans need."""

    def __init__(self, random: Random, plans: Sequence[str] = (*PLANS, "pebble")):
        self.random, self.plans = random, plans

    def chance(self, probability: float) -> bool:
        return self.random.random() < probability

    def options(self, run: Optional[Run], has_format: bool = True) -> List[str]:
        plan = self.random.choice(self.plans)
        borrow = self.random.choice([0, 1, 1, 2, 3, 5, 64]) if self.chance(0.3) else 0
        values = {"plan": plan} if plan != "auto" or self.chance(0.3) else {}
        if borrow or self.chance(0.05):
            values["borrow"] = borrow
        if has_format and self.chance(0.2):
            values["format"] = self.random.choice(["qasm", "qasm", "real"])
        rows = needs(run, plan, borrow) if run else [Row(8, 30)]
        row = self.random.choice(rows)
        if self.chance(0.8 if plan == "pebble" else 0.6):
            values["lines"] = self.near(row.lines + borrow, GREATEST.lines)
        elif run and self.chance(0.1):
            values["lines"] = self.near(len(run.bits) + len(run.outputs) + borrow, GREATEST.lines)
        if self.chance(0.4):
            row = row if self.chance(0.7) else self.random.choice(rows)
            values["gates"] = self.near(row.gates, GREATEST.gates)
        return self.words(values)

    def near(self, number: int, most: int) -> int:
        """Mostly the number itself or one less."""
        change = self.random.choice([0, 0, 0, -1, -1, 1])
        if self.chance(0.15):
            number = self.random.randint(1, 2 * number + 1)
        return max(1, min(most, number + change))

    def words(self, values: dict) -> List[str]:
        pairs, words = list(values.items()), []
        self.random.shuffle(pairs)
        for name, value in pairs:
            words += ["--%s=%s" % (name, value)] if self.chance(0.5) else ["--" + name, str(value)]
        return words
