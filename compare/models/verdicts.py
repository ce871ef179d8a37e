"""A model of `verify`: whether a foreign circuit computes a program's outputs and leaves its other lines as they were,
by the truth tables of its lines.

The variables are the inputs in the order of `claims`, then the output lines where these may hold any bits, and then the
borrowed lines. A line's content is a function of them; the first lines are the inputs, then come the outputs, which
begin at 0 or hold any bits, and the work lines, which begin at 0, and the last ones are borrowed.
"""
from functools import partial
from typing import Callable, Dict, Iterable, List, NamedTuple, Optional, Set, Tuple

from models.assumptions import premise
from models.claims import Tables, value_of, variable_order
from models.graphs import Graph
from models.language import MOST_BYTES as MOST_PROGRAM
from models.language import Run
from models.real import MOST_BYTES as MOST_CIRCUIT
from models.real import Circuit, Gate

MARKS = (b"---", b"---\r")
MOST_BYTES = MOST_PROGRAM + max(map(len, MARKS)) + 1 + MOST_CIRCUIT
MOST_VARIABLES = 14


def parted(source: bytes) -> Optional[Tuple[bytes, bytes]]:
    """What stands before the parting line, and what behind it: it is the first line that is a mark, and has an end."""
    start, end = 0, source.find(b"\n")
    while end >= 0:
        if source[start:end] in MARKS:
            return source[:start], source[end + 1 :]
        start, end = end + 1, source.find(b"\n", end + 1)
    return None


def is_narrow(gate: Gate) -> bool:
    """Whether a gate is a flip with at most two controls, all positive."""
    return len(gate.targets) == 1 and len(gate.controls) <= 2 and all(bit == 1 for _, bit in gate.controls)


def first_wide(circuit: Circuit) -> Optional[int]:
    """The number of the first gate that is not narrow, counted from 1."""
    return next((number for number, gate in enumerate(circuit.gates, 1) if not is_narrow(gate)), None)


# ---- How many functions


Function = Tuple[int, int]  # how many variables are left, the first of which matters, and the table over them


def add_restrictions(table: int, variables: int, found: Set[Function]) -> None:
    """What comes from a function by fixing the first variables, for each number of them, but the constants."""
    if table in (0, (1 << (1 << variables)) - 1) or (variables, table) in found:
        return
    half = 1 << variables - 1
    low, high = table & (1 << half) - 1, table >> half
    if low != high:
        found.add((variables, table))
        add_restrictions(high, variables - 1, found)
    add_restrictions(low, variables - 1, found)


def count_of(tables: Iterable[int], variables: int) -> int:
    found: Set[Function] = set()
    for table in set(tables):
        add_restrictions(table, variables, found)
    return len(found)


# ---- Verdicts


class Verdict(NamedTuple):
    """How many functions the lines and the program's writes come to, and how many with its nodes in place of its
    writes; the first line that differs, counted from 1, and the least bits on which it does, where one differs."""

    most: int
    least: int
    line: Optional[int]
    bits: str


def nodes_of(graph: Graph, tables: Tables, functions: Dict[str, int]) -> Dict[str, int]:
    """The functions of a graph's nodes."""
    values = dict(functions)
    for number, node in enumerate(graph.nodes):
        operands = [values[operand] for operand in node.operands]
        if node.operator == "not":
            value = operands[0] ^ tables.true
        else:
            value = operands[0] & operands[1] if node.operator == "&&" else operands[0] ^ operands[1]
        values["w%d" % number] = value
    return values


class Places(NamedTuple):
    """Where a circuit puts the outputs, by the word of `--outputs`, and how many lines are borrowed."""

    outputs: str
    borrow: int

    @property
    def is_any(self) -> bool:
        return self.outputs == "any"

    @property
    def is_in_place(self) -> bool:
        return self.outputs == "inputs"

    def output_lines(self, inputs: int, outputs: int) -> int:
        """How many output lines there are; in place the first outputs stand on the lines of the inputs."""
        return outputs - inputs if self.is_in_place else outputs

    def ports(self, inputs: List[int], held: List[int], outputs: List[int]) -> List[int]:
        """What input lines and output lines should hold behind the gates, bits or functions."""
        return outputs if self.is_in_place else inputs + [bit ^ output for bit, output in zip(held, outputs)]


class Contents:
    """What a circuit of narrow gates leaves on its lines and what a run wants there, as functions of the inputs, the
    output lines where these may hold any bits, and the borrowed lines; and all functions on the way. The circuit has as
    many lines as the run wants, or more."""

    def __init__(self, run: Run, circuit: Circuit, places: Places, functions_of: Callable[[List[str]], Tables]):
        inputs = ["x%d" % number for number in range(len(run.bits))]
        count = places.output_lines(len(inputs), len(run.outputs))
        held = ["y%d" % number for number in range(count if places.is_any else 0)]
        borrowed = ["b%d" % number for number in range(places.borrow)]
        self.names = inputs + held + borrowed
        self.functions = functions_of(variable_order(run.program) + held + borrowed)
        self.variables = dict(zip(self.functions.variables, self.functions.inputs))
        self.writes = dict(self.variables)
        for number, write in enumerate(run.writes):
            self.writes["w%d" % number] = value_of(write, self.functions, self.writes)
        outputs, zero = [self.writes[name] for _, name in run.outputs], self.functions.false
        work = [zero] * (len(circuit.names) - len(inputs) - count - len(borrowed))
        kept, back = [self.variables[name] for name in inputs], [self.variables[name] for name in borrowed]
        before = [self.variables[name] for name in held] or [zero] * count
        self.wanted, self.contents = places.ports(kept, before, outputs) + work + back, kept + before + work + back
        self.seen = set(self.contents + self.wanted)
        for controls, (target,) in circuit.gates:
            flips = self.functions.true
            for line, _ in controls:
                flips &= self.contents[line]
            self.contents[target] ^= flips
            self.seen.add(self.contents[target])

    def difference(self, looked: Optional[int] = None) -> Tuple[Optional[int], str]:
        """The first line that differs, counted from 1, and the least bits on which it does, where one differs on an
        input that is looked at."""
        for number, (content, right) in enumerate(zip(self.contents, self.wanted), 1):
            apart = content ^ right if looked is None else (content ^ right) & looked
            if apart != self.functions.false:
                bits = self.functions.least(apart)
                return number, "".join(str(bits[name]) for name in self.names)
        return None, ""


def verdict_on(run: Run, circuit: Circuit, places: Places, assumed: int = 0) -> Verdict:
    """The verdict on a circuit of narrow gates, which has as many lines as the run wants, or more, on the inputs on which
    so many of the first claims hold."""
    on = Contents(run, circuit, places, partial(Tables, most=MOST_VARIABLES))
    met, steps = premise(run, assumed), dict(on.variables)
    for number, write in enumerate(met.writes):
        steps["w%d" % number] = value_of(write, on.functions, steps)
    looked = steps[met.outputs[0][1]]
    ends = {line & looked for line in on.contents + on.wanted}
    nodes = [*nodes_of(Graph(run), on.functions, on.variables).values(),
             *nodes_of(Graph(met), on.functions, on.variables).values()]
    most, least = (count_of({*on.seen, *ends, *each}, len(on.names)) for each in (steps.values(), nodes))
    return Verdict(most, least, *on.difference(looked))
