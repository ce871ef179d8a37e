"""A model of claims settled on all inputs, by truth tables.

The variables are the inputs on which some claim rests, in their order: place 0 of every parameter, then place 1 of each
that has one, and so on. A function of them is a number with a bit for each assignment, the assignments in the order of
the variables, 0 before 1: so the first variable is the greatest digit of an assignment's number.
"""
from typing import Dict, Iterable, Iterator, List, NamedTuple, Optional, Set, Tuple

from models.language import Program, Run, Write

MOST_VARIABLES = 10


class TooWide(Exception):
    """There are more variables than truth tables are made for."""


def variable_order(program: Program) -> List[str]:
    """The inputs in the order of the variables."""
    firsts, first = [], 0
    for parameter in program.parameters:
        firsts.append((first, parameter.bits))
        first += parameter.bits
    widest = max(bits for _, bits in firsts)
    return ["x%d" % (first + place) for place in range(widest) for first, bits in firsts if place < bits]


class Tables:
    """The functions of some variables."""

    def __init__(self, variables: List[str], most: int = MOST_VARIABLES):
        if len(variables) > most:
            raise TooWide()
        self.variables = variables
        self.true, self.false = (1 << (1 << len(variables))) - 1, 0
        self.inputs = [self.variable(self.step(number)) for number in range(len(variables))]

    def step(self, number: int) -> int:
        """How far apart the assignments are that differ in this variable alone."""
        return 1 << (len(self.variables) - 1 - number)

    def variable(self, step: int) -> int:
        return (((1 << step) - 1) << step) * (self.true // ((1 << 2 * step) - 1))

    def fixed(self, function: int, number: int, bit: int) -> int:
        """The function with a variable fixed to a bit."""
        step, ones = self.step(number), self.inputs[number]
        if bit:
            return function & ones | (function & ones) >> step
        return function & ~ones | (function & ~ones) << step

    def restrictions(self, function: int) -> Set[int]:
        """What comes from a function by fixing the first j variables, for each j, but the constants."""
        found, fixed = {function}, {function}
        for number in range(len(self.variables)):
            fixed = {self.fixed(each, number, bit) for each in fixed for bit in (0, 1)}
            found |= fixed
        return found - {0, self.true}

    def least(self, function: int) -> Dict[str, int]:
        """The least assignment on which a function is 1."""
        number = (function & -function).bit_length() - 1
        return {name: number // self.step(place) % 2 for place, name in enumerate(self.variables)}


def rests_on(run: Run, names: Iterable[str], known: Set[str]) -> Set[str]:
    """The inputs and writes on which some bits rest, but those that are known, with all that these rest on."""
    found, waiting = set(), list(names)
    while waiting:
        name = waiting.pop()
        if name in known or name in found:
            continue
        found.add(name)
        if name[0] == "w":
            waiting.extend(run.writes[int(name[1:])].operands)
    return found


def value_of(write: Write, tables: Tables, functions: Dict[str, int]) -> int:
    """The function of a write, by those of its operands."""
    if not write.operands:
        return tables.true if int(write.operator) else tables.false
    left, right = (functions[operand] for operand in write.operands)
    return left & right if write.operator == "&&" else left ^ right


def functions_of(run: Run, bases: Set[str]) -> Tuple[Tables, Dict[str, int]]:
    """The tables, and the function of each of these inputs and writes."""
    tables = Tables([name for name in variable_order(run.program) if name in bases])
    functions = dict(zip(tables.variables, tables.inputs))
    for number in sorted(int(name[1:]) for name in bases if name[0] == "w"):
        functions["w%d" % number] = value_of(run.writes[number], tables, functions)
    return tables, functions


class Settled(NamedTuple):
    """A claim: how many functions the claims so far rest on, and the least input that breaks it, in the parameters'
    order, or None where it holds on all inputs."""

    size: int
    broken: Optional[str]


def settled(run: Run) -> Iterator[Settled]:
    """The claims of a run in their order."""
    tables, functions = functions_of(run, rests_on(run, [claim.name for claim in run.claims], set()))
    known, members = set(), set()
    for claim in run.claims:
        for name in rests_on(run, [claim.name], known):
            members |= tables.restrictions(functions[name])
            known.add(name)
        breaks, broken = functions[claim.name] ^ (tables.true if claim.word == "assert" else 0), None
        if breaks:
            least = tables.least(breaks)
            broken = "".join(str(least.get("x%d" % number, 0)) for number in range(run.program.inputs))
        yield Settled(len(members), broken)
