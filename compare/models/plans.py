"""A model of the plans of circuits: which gates each plan has for a program's graph, which plan is taken within a
budget, and the numbers of lines and gates that are enough.

It is written from docs/LANGUAGE.md and docs/PLANS.md, and shares nothing with the compiler. The lines of a circuit
are numbers: the inputs, the outputs, the work lines, and the borrowed lines. A base is an input's number, or the number
of inputs and that of a node.
"""
import heapq
from functools import partial
from typing import Callable, Dict, FrozenSet, List, NamedTuple, Optional, Sequence, Set, Tuple

from models.graphs import Graph
from models.language import Run
from models.real import Gate

MOST_MONOMIALS = 64
MOST_COUNTED = 512  # of a write, for the eager numbers
LEAN_PLANS = ("compact", "lean", "shallow")  # those that have the row of the lean graph, and no other
THRIFTY_PLANS = ("compact", "lean")  # those whose Toffoli gates are few where that row fits


class Budget(NamedTuple):
    lines: int
    gates: int
    borrow: int = 0


class OverLines(Exception):
    def __init__(self, need: int):
        super().__init__(need)
        self.need = need


class OverGates(Exception):
    pass


# ---- Settled graphs, by numbers


class Node(NamedTuple):
    operator: str
    operands: Tuple[int, ...]


class Settled:
    """A program's graph. An output is that of a base, or a constant where the base is None."""

    def __init__(self, inputs: int, graph: Graph):
        numbers = {"x%d" % number: number for number in range(inputs)}
        numbers.update(("w%d" % number, inputs + number) for number in range(len(graph.nodes)))
        self.inputs = inputs
        self.nodes = [Node(node.operator, tuple(numbers[each] for each in node.operands)) for node in graph.nodes]
        self.outputs = [(numbers.get(output), output) for output in graph.outputs]
        self.last_uses = list(range(len(self.nodes)))
        for number, node in enumerate(self.nodes):
            for below in self.below(number):
                self.last_uses[below] = number
        self.given = {base - inputs for base, _ in self.outputs if base is not None and base >= inputs}
        for number in self.given:
            self.last_uses[number] = len(self.nodes)

    def below(self, number: int) -> List[int]:
        """The nodes that are operands of a node."""
        return [base - self.inputs for base in self.nodes[number].operands if base >= self.inputs]

    def cut(self, at: int, low: int) -> Set[int]:
        """The nodes from `low` to below `at` that are an output, or an operand of a node from `at` on."""
        return {number for number in range(low, at) if self.last_uses[number] >= at}

    def toggle(self, number: int, target: int, line: Callable[[int], int]) -> List[Gate]:
        """The gates that put a node on a line or take it off, by the lines of bases."""
        node = self.nodes[number]
        lines = [line(base) for base in node.operands]
        if node.operator == "&&":
            return [flip(target, *lines)]
        return [flip(target, each) for each in lines] + [flip(target)] * (node.operator == "not")

    def copies(self, line: Callable[[int], int]) -> List[Gate]:
        """The gates that put the outputs on their lines."""
        copies = []
        for target, (base, constant) in enumerate(self.outputs, self.inputs):
            if base is not None:
                copies.append(flip(target, line(base)))
            elif constant:
                copies.append(flip(target))
        return copies


# ---- Polynomials, each a set of monomials, and a monomial the set of its inputs as the bits of a number

Poly = FrozenSet[int]


def product(left: Poly, right: Poly) -> Poly:
    monomials: Set[int] = set()
    for one in left:
        for other in right:
            monomials ^= {one | other}
    return frozenset(monomials)


def value_of(operator: str, operands: Sequence[Optional[Poly]], most: int) -> Optional[Poly]:
    """The polynomial of a step, where those of its operands are known and it has at most so many monomials."""
    if None in operands:
        return None
    if operator == "not":
        value = operands[0] ^ {0}
    elif operator == "<>":
        value = operands[0] ^ operands[1]
    else:
        value = product(*operands)
    return value if len(value) <= most else None


class Cube(NamedTuple):
    """The inputs that are positive in it, and those that are negative, as the bits of two numbers."""

    positive: int
    negative: int

    def literals(self) -> List[Tuple[int, int]]:
        """The inputs in rising order, each with the bit that it has to have."""
        return [(place, self.positive >> place & 1) for place in places(self.positive | self.negative)]


def places(number: int) -> List[int]:
    return [place for place in range(number.bit_length()) if number >> place & 1]


def differing(one: Cube, other: Cube) -> int:
    """The inputs whose states differ."""
    return one.positive ^ other.positive | one.negative ^ other.negative


def joined(one: Cube, other: Cube) -> Cube:
    """The cube with the third state where two differ in one input: there are three, and each has a digit at most."""
    at, same = differing(one, other), Cube(one.positive & other.positive, one.negative & other.negative)
    states = {(cube.positive & at, cube.negative & at) for cube in (one, other)}
    (third,) = {(0, 0), (at, 0), (0, at)} - states
    return Cube(same.positive | third[0], same.negative | third[1])


def merge(poly: Poly) -> List[Cube]:
    cubes = [Cube(monomial, 0) for monomial in sorted(poly, key=places)]
    while True:
        pair = close_pair(cubes)
        if pair is None:
            return cubes
        one, other = (cubes[place] for place in pair)
        cubes = [cube for place, cube in enumerate(cubes) if place not in pair]
        if one != other:
            cubes.append(joined(one, other))


def close_pair(cubes: List[Cube]) -> Optional[Tuple[int, int]]:
    """The places of the first two cubes that differ in one input at most."""
    for first, one in enumerate(cubes):
        for second in range(first + 1, len(cubes)):
            states = differing(one, cubes[second])
            if states & (states - 1) == 0:
                return first, second
    return None


# ---- Forward parts: nodes are put on work lines and taken off


def weight(gate: Gate) -> int:
    controls = len(gate.controls)
    return (1 if controls <= 2 else 4 * (controls - 2)) + 2 * sum(bit == 0 for _, bit in gate.controls)


def flip(target: int, *controls: int) -> Gate:
    return Gate([(line, 1) for line in controls], [target])


class Plan(NamedTuple):
    """A circuit's gates, and how many lines it has without the borrowed ones."""

    gates: List[Gate]
    lines: int


class Forward:
    def __init__(self, settled: Settled, budget: Budget):
        self.settled, self.budget = settled, budget
        self.ends = settled.inputs + len(settled.outputs)
        if self.ends + budget.borrow > budget.lines:
            raise OverLines(self.ends + budget.borrow)
        self.room = budget.lines - self.ends - budget.borrow
        self.held: Dict[int, int] = {}  # the line of each held node
        self.given_back: List[int] = []
        self.peak = 0
        self.gates: List[Gate] = []
        self.weights = 0

    def line(self, base: int) -> int:
        return base if base < self.settled.inputs else self.held[base - self.settled.inputs]

    def is_ready(self, number: int) -> bool:
        """Whether each operand is an input or held."""
        return all(below in self.held for below in self.settled.below(number))

    def take(self) -> int:
        if len(self.held) == self.room:
            raise OverLines(self.budget.lines + 1)
        if self.given_back:
            return heapq.heappop(self.given_back)
        self.peak += 1
        return self.ends + self.peak - 1

    def give(self, number: int) -> None:
        heapq.heappush(self.given_back, self.held.pop(number))

    def put(self, gates: List[Gate]) -> None:
        self.gates += gates
        self.weights += 2 * sum(map(weight, gates))
        if self.weights > self.budget.gates:
            raise OverGates()

    def toggle(self, number: int) -> None:
        assert self.is_ready(number)
        was_held = number in self.held
        if not was_held:
            self.held[number] = self.take()
        self.put(self.settled.toggle(number, self.held[number], self.line))
        if was_held:
            self.give(number)

    def clear(self, number: int, cubes: List[Cube]) -> None:
        self.put([Gate(cube.literals(), [self.held[number]]) for cube in cubes])
        self.give(number)

    def finish(self) -> Plan:
        """The gates, the outputs copied to their lines, and the gates reversed."""
        copies = self.settled.copies(self.line)
        if self.weights + len(copies) > self.budget.gates:
            raise OverGates()
        return Plan(self.gates + copies + self.gates[::-1], self.ends + self.peak)


# ---- The eager plan


def eager(settled: Settled, budget: Budget) -> Plan:
    forward = Forward(settled, budget)
    known: List[Optional[Poly]] = [frozenset([1 << number]) for number in range(settled.inputs)]
    for number, node in enumerate(settled.nodes):
        known.append(value_of(node.operator, [known[base] for base in node.operands], MOST_MONOMIALS))
        forward.toggle(number)
        for below in sorted(settled.below(number), reverse=True):
            if below in forward.held and settled.last_uses[below] == number and below not in settled.given:
                clean(forward, below, known[settled.inputs + below])
    return forward.finish()


def clean(forward: Forward, number: int, value: Optional[Poly]) -> None:
    if forward.is_ready(number):
        forward.toggle(number)
    elif value is not None:
        forward.clear(number, merge(value))


# ---- Pebbling by halves, down to blocks of so many nodes


class Pebbling:
    def __init__(self, settled: Settled, block: int, budget: Budget):
        self.settled, self.block = settled, block
        self.forward = Forward(settled, budget)

    def plan(self) -> Plan:
        self.rise(0, len(self.settled.nodes), set(self.settled.given))
        return self.forward.finish()

    def resting(self, numbers: Set[int], low: int) -> Set[int]:
        """The nodes, and all from `low` on that they rest on."""
        found, waiting = set(numbers), list(numbers)
        while waiting:
            fresh = {below for below in self.settled.below(waiting.pop()) if below >= low} - found
            found |= fresh
            waiting += fresh
        return found

    def toggle(self, numbers: List[int]) -> None:
        for number in numbers:
            self.forward.toggle(number)

    def halves(self, low: int, high: int) -> Tuple[int, Set[int]]:
        """Where the upper half begins, and the nodes of the lower one that are needed from there on."""
        middle = low + (high - low + 1) // 2
        return middle, self.settled.cut(middle, low)

    def change(self, low: int, high: int, held: Set[int], wanted: Set[int]) -> None:
        """Of the nodes of a range those that are held go over to those that are wanted."""
        if held == wanted:
            return
        if high - low <= self.block:
            touched = self.resting(held ^ wanted, low)
            self.toggle(sorted(touched - held))
            self.toggle(sorted((held | touched) - wanted, reverse=True))
            return
        middle, needed = self.halves(low, high)
        (held_left, held_right), (left, right) = parted(held, middle), parted(wanted, middle)
        self.change(low, middle, held_left, left | needed)
        self.change(middle, high, held_right, right)
        self.change(low, middle, left | needed, left)

    def rise(self, low: int, high: int, wanted: Set[int]) -> None:
        """The wanted nodes of a range of which none is held, with what they rest on in the last block."""
        if high - low <= self.block:
            self.toggle(sorted(self.resting(wanted, low)))
            return
        middle, needed = self.halves(low, high)
        left, right = parted(wanted, middle)
        self.change(low, middle, set(), left | needed)
        self.rise(middle, high, right)


def parted(numbers: Set[int], middle: int) -> Tuple[Set[int], Set[int]]:
    left = {number for number in numbers if number < middle}
    return left, numbers - left


def pebble(settled: Settled, block: int, budget: Budget) -> Plan:
    return Pebbling(settled, block, budget).plan()


def blocks_of(nodes: int) -> List[int]:
    """The block sizes that are tried: the least power of two that covers all nodes, and its halves."""
    block = 1
    while block < nodes:
        block *= 2
    return [1 << power for power in reversed(range(block.bit_length()))]


# ---- Splitting flips of many controls (Barenco and others 1995, Lemmas 7.2 and 7.3)


def split(gates: List[Gate], lines: int, limit: int) -> List[Gate]:
    narrow: List[Gate] = []
    for gate in gates:
        narrow += split_gate(gate, lines)
        if len(narrow) > limit:
            raise OverGates()
    return narrow


class NoIdle(Exception):
    """A flip of three or more controls uses every line."""


def split_gate(gate: Gate, lines: int) -> List[Gate]:
    if len(gate.targets) == 2:
        first, second = gate.targets
        outer = [flip(first, second)]
        return outer + split_controls(gate.controls + [(first, 1)], second, lines) + outer
    return split_controls(gate.controls, gate.targets[0], lines)


def split_controls(literals: List[Tuple[int, int]], target: int, lines: int) -> List[Gate]:
    controls = [line for line, _ in literals]
    negative = [flip(line) for line, bit in literals if bit == 0]
    if len(controls) <= 2:
        return negative + [flip(target, *controls)] + negative
    used = {target, *controls}
    idle = [line for line in reversed(range(lines)) if line not in used]
    if not idle:
        raise NoIdle()
    return negative + split_flip(controls, target, idle) + negative


def split_flip(controls: List[int], target: int, idle: List[int]) -> List[Gate]:
    """A flip of 3 or more positive controls, by the idle lines in their order."""
    count = len(controls)
    if len(idle) >= count - 2:
        return ladder(controls, target, idle)
    first, (front, back) = idle[0], (controls[: (count + 1) // 2], controls[(count + 1) // 2 :])
    upper = narrow_or_ladder(back + [first], target, sorted(front, reverse=True))
    lower = narrow_or_ladder(front, first, sorted(back + [target], reverse=True))
    return upper + lower + upper + lower


def narrow_or_ladder(controls: List[int], target: int, idle: List[int]) -> List[Gate]:
    return [flip(target, *controls)] if len(controls) <= 2 else ladder(controls, target, idle)


def ladder(controls: List[int], target: int, idle: List[int]) -> List[Gate]:
    count = len(controls)
    targets = idle[: count - 2] + [target]
    steps = [flip(targets[0], controls[0], controls[1])]
    steps += [flip(targets[place + 1], controls[place + 2], targets[place]) for place in range(count - 2)]
    up_and_down = [steps[:0:-1] + steps, steps[-2:0:-1] + steps[:-1]]
    return up_and_down[0] + up_and_down[1]


# ---- The choice of a plan


def tries(settled: Settled, budget: Budget, plan: str) -> List[Callable[[], Plan]]:
    """What makes the plans that are tried, in their order."""
    makes = [] if plan == "pebble" else [partial(eager, settled, budget)]
    if plan != "eager":
        makes += [partial(pebble, settled, block, budget) for block in blocks_of(len(settled.nodes))]
    return makes


def choose(settled: Settled, budget: Budget, plan: str) -> Plan:
    """The first plan that fits, split on all lines and the borrowed ones, or the refusal of the last one."""
    refusal = None
    for make in tries(settled, budget, plan):
        try:
            made = make()
            return Plan(split(made.gates, made.lines + budget.borrow, budget.gates), made.lines)
        except (OverLines, OverGates) as over:
            refusal = over
    raise refusal


# ---- The numbers of lines and gates that are enough


class Row(NamedTuple):
    lines: int
    gates: int

    def fits(self, budget: Budget) -> bool:
        return self.lines + budget.borrow <= budget.lines and self.gates <= budget.gates


def width_of(run: Run) -> int:
    """The greatest number of writes that are needed at one place: below it, an output or an operand from there on."""
    count = len(run.writes)
    last_uses = list(range(count))
    for number, write in enumerate(run.writes):
        for operand in write.operands:
            if operand[0] == "w":
                last_uses[int(operand[1:])] = number
    for _, output in run.outputs:
        if output[0] == "w":
            last_uses[int(output[1:])] = count
    steps = [0] * (count + 2)  # write i is needed at the places from i + 1 to its last use
    for number, last in enumerate(last_uses):
        steps[number + 1] += 1
        steps[last + 1] -= 1
    needed, most = 0, 0
    for step in steps[: count + 1]:
        needed += step
        most = max(most, needed)
    return most


def monomials_of(run: Run) -> List[int]:
    """How many monomials each write has. One with too many to be counted, and each that rests on it, is taken to have
    more than are known, so that the eager numbers are never too small."""
    values = {"x%d" % number: frozenset([1 << number]) for number in range(len(run.bits))}
    for number, write in enumerate(run.writes):
        if write.operands:
            operands = [values[operand] for operand in write.operands]
            values["w%d" % number] = value_of(write.operator, operands, MOST_COUNTED)
        else:
            values["w%d" % number] = frozenset([0] * int(write.operator))
    written = (values["w%d" % number] for number in range(len(run.writes)))
    return [MOST_COUNTED + 1 if value is None else len(value) for value in written]


class Numbers:
    """The rows of the numbers of a run's writes."""

    def __init__(self, run: Run):
        inputs, outputs, writes = len(run.bits), len(run.outputs), len(run.writes)
        width, ends, blocks, monomials = width_of(run), inputs + outputs, blocks_of(writes), monomials_of(run)
        levels = len(blocks) - 1
        self.plain = Row(ends + writes, 4 * writes + outputs)
        self.fine = Row(ends + outputs + width * levels, 4 * 3**levels + outputs)
        self.blocks = [
            Row(ends + outputs + width * level + min(block, writes), 8 * block * 3**level + outputs)
            for level, block in enumerate(blocks)
        ]
        held = min(writes, width + 1) if all(count <= MOST_MONOMIALS for count in monomials) else writes
        steps = sum(4 + min(count, MOST_MONOMIALS) * (10 * inputs + 1) for count in monomials)
        self.eager = Row(ends + held, outputs + 2 * steps)
        self.lean = Row(ends + writes, 58 * writes + 5 * outputs)

    def rows(self, plan: str) -> List[Row]:
        """The rows of which one that fits is enough under a plan."""
        if plan in LEAN_PLANS or plan == "eager":
            return [self.eager if plan == "eager" else self.lean]
        pebbled = [self.plain, self.fine, *self.blocks]
        return pebbled + [self.eager] if plan == "auto" else pebbled
