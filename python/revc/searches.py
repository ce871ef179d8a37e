"""Searches for circuits under plans and numbers of lines, and what helps where a budget was too small."""
from typing import Iterator, List, Optional, Sequence, Tuple

from . import program
from .circuits import Circuit
from .counting import Ands
from .defaults import GATES, LINES, NODES
from .errors import GatesExceeded, LinesExceeded, TimedOut
from .program import Deadline
from .progress import Meter, Told
from .revs import RevsText

PATIENCE = 5.0  # seconds for the least numbers of lines and gates that a refusal names
HALVINGS = 10  # about how many compilations find the least number of lines


class Search:
    """Compiles a program under plans and numbers of lines. After `seconds` it is late, and nothing more is found."""

    def __init__(self, source: RevsText, seconds: Optional[float] = None, about: int = 0, told: Told = None,
                 quiet: bool = False):
        self.source, self.deadline, self.is_late = source, Deadline(seconds), False
        self.meter = Meter(source.name, about, told, quiet)

    def at(self, plan: str, lines: int, gates: int = GATES, borrow: int = 0) -> Optional[Circuit]:
        """The circuit on at most so many lines and of so many gates, or nothing."""
        self.meter.step(plan, lines)
        words = ["compile", "--plan", plan, "--lines", str(lines), "--gates", str(gates), "--nodes", str(NODES)]
        words += (["--borrow", str(borrow)] if borrow else []) + self.source.granted
        try:
            return Circuit(self.source, self.source.ask(words, deadline=self.deadline), words, borrow)
        except TimedOut:
            self.is_late = True
        except (LinesExceeded, GatesExceeded):
            pass
        return None

    def ands(self) -> Optional[Ands]:
        """The ANDs of the program, or nothing where that takes too long."""
        try:
            return self.source.ands(timeout=self.deadline.left())
        except TimedOut:
            self.is_late = True
        return None

    def least(self, plan: str, limit: int, found: Circuit, gates: int = GATES) -> Tuple[int, Circuit]:
        """The fewest lines that were found to be enough, and the circuit that comes of them, given one that came of `limit`.

        A plan that searches may not find a circuit again within the very lines that this has, so the limit is kept apart.
        """
        low, high = self.source.inputs + self.source.outputs - 1, found.lines
        while high - low > 1 and not self.is_late:
            middle = (low + high) // 2
            circuit = self.at(plan, middle, gates)
            if circuit is None:
                low = middle
            else:
                limit, found, high = middle, circuit, min(middle, circuit.lines)
        if found.lines < limit and self.at(plan, found.lines, gates) is not None:
            limit = found.lines
        return limit, found

    def circuits(self, plan: str, points: int, most: int = LINES) -> Iterator[Tuple[int, Circuit]]:
        """Circuits of a plan, each with the limit that gives it: on `most` lines, on the fewest, and on some between."""
        first = self.at(plan, most)
        if first is None:
            return
        yield most, first
        fewest, least = self.least(plan, most, first)
        yield fewest, least
        step = (first.lines / least.lines) ** (1 / (points + 1))
        for lines in sorted({int(least.lines * step ** i) for i in range(1, points + 1)}):
            circuit = None if self.is_late else self.at(plan, lines)
            if circuit is not None:
                yield lines, circuit


def all_plans() -> List[str]:
    """The plans that give circuits of their own: `auto` is one of two others."""
    return [each for each in program.plans() if each != "auto"]


def every_circuit(search: Search, plans: Optional[Sequence[str]], points: int,
                  most: int = LINES) -> Iterator[Tuple[str, int, Circuit]]:
    """The circuits of all plans, or of these, each with its plan and the limit that gives it."""
    try:
        for plan in plans or all_plans():
            for lines, circuit in search.circuits(plan, points, most):
                yield plan, lines, circuit
    finally:
        search.meter.close()


# ---- What helps


def lines_that_fit(source: RevsText, plan: str, lines: int, gates: int, borrow: int, patience: float = PATIENCE) -> str:
    """What helps where a circuit does not fit: the least number of lines under this plan and the others."""
    least = source.inputs + source.outputs + borrow
    if least > lines:
        return f"inputs, outputs and borrowed lines alone are {least}: give lines={least + 1} or more (--lines)"
    search, found = Search(source, patience, quiet=True), []
    for each in [plan] + [other for other in all_plans() if other != plan]:
        circuit = None if search.is_late else search.at(each, LINES, gates)
        if circuit is None:
            continue
        fewest, _ = search.least(each, LINES, circuit, gates)
        found.append(f"{fewest} under `{each}`" if found else f"{fewest} lines under `{each}`")
    if not found:
        return "try more lines, and costs() for all that can be had"
    late = " at most (the search was cut short)" if search.is_late else ""
    return f"it takes {', '.join(found)}{late}: give as many (lines, --lines); costs() says what each costs"


def gates_that_fit(source: RevsText, plan: str, lines: int, borrow: int, patience: float = PATIENCE) -> str:
    """What helps where a circuit has too many gates: how many are enough under this plan and the others."""
    search, found = Search(source, patience, quiet=True), []
    for each in [plan] + [other for other in all_plans() if other != plan]:
        enough = None if search.is_late else least_gates(search, each, lines, borrow)
        if enough:
            found.append((each != plan, enough, each))
    if not found:
        return (f"no plan was found to do with {GATES:,} gates, the most there are, on {lines:,} lines: give more lines, or "
                "make several programs of it")
    enough = ", ".join(f"{count:,} under `{each}`" for _, count, each in sorted(found))
    return f"gates that are enough on {lines:,} lines: {enough}: give as many (gates, --gates)"


def least_gates(search: Search, plan: str, lines: int, borrow: int) -> Optional[int]:
    """A number of gates that is enough, within a hundredth of the least; often that of the circuit on any gates."""
    circuit = search.at(plan, lines, GATES, borrow)
    if circuit is None:
        return None
    low, middle, high = 0, len(circuit.gates), GATES  # a plan may want more on its way than it ends with
    while high - low > high // 100 and not search.is_late:
        circuit = search.at(plan, lines, middle, borrow)
        if circuit is not None:
            return middle
        low, middle = middle, (middle + high) // 2
    return high
