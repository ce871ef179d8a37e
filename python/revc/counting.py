"""What a circuit costs, counted from its gates."""
from html import escape
from typing import Dict, Iterable, NamedTuple, Sequence, Tuple

T_GATES = 7  # of a Toffoli gate, without measurements


class Cost(NamedTuple):
    """What a circuit costs: lines by role, gates by kind, and depths in gates; `t` counts 7 T gates a Toffoli gate."""

    inputs: int
    outputs: int
    work: int
    borrowed: int
    gates: int
    toffoli: int
    toffoli_depth: int
    t: int
    cx: int
    x: int
    depth: int

    @property
    def lines(self) -> int:
        return self.inputs + self.outputs + self.work + self.borrowed

    def as_dict(self) -> Dict[str, int]:
        """Each count by its name, the lines in all first."""
        return {"lines": self.lines, **self._asdict()}

    def _repr_html_(self) -> str:
        """What a notebook shows: each count under its name."""
        counts = self.as_dict()
        return html_table([name.replace("_", " ") for name in counts], [[f"{count:,}" for count in counts.values()]])

    def __str__(self) -> str:
        def several(count: int, word: str) -> str:
            return f"{count:,} {word}{'s' * (count > 1)}"
        roles = [several(self.inputs, "input"), several(self.outputs, "output"), f"{self.work:,} work"]
        roles += [f"{self.borrowed:,} borrowed"] if self.borrowed else []
        return (f"{self.lines:,} lines ({', '.join(roles)}), {self.gates:,} gates: {self.toffoli:,} Toffoli (depth "
                f"{self.toffoli_depth:,}; {self.t:,} T), {self.cx:,} CX, {self.x:,} X; depth {self.depth:,}")


class Ands(NamedTuple):
    """The ANDs of a program, by the command `ands`.

    `ands` are those that its run writes, `left` as many as are enough: so many has a graph of XORs and ANDs that computes the
    same, as far as a search finds one. `depth` is the most of the first one behind the other, where constants are folded.
    """

    ands: int
    left: int
    depth: int

    def __str__(self) -> str:
        fewer = f", {self.left:,} would do" if self.left < self.ands else ""
        return f"{self.ands:,} AND{'s' * (self.ands != 1)}{fewer}; AND depth {self.depth:,}"


def depths(gates: Sequence[Sequence[int]], lines: int) -> Tuple[int, int]:
    """The depth of gates, each the list of its lines, and the same with Toffoli gates alone counted."""
    all_, toffoli = [0] * lines, [0] * lines
    for gate in gates:
        deep, deep3 = max([all_[i] for i in gate]) + 1, max([toffoli[i] for i in gate]) + (len(gate) > 2)
        for i in gate:
            all_[i], toffoli[i] = deep, deep3
    return max(all_, default=0), max(toffoli, default=0)


def t_gates(gates: Sequence[Sequence[int]]) -> int:
    """How many T gates the Toffoli gates among X, CX and Toffoli gates take."""
    return T_GATES * sum(len(gate) == 3 for gate in gates)


def cost_of(gates: Sequence[Sequence[int]], inputs: int, outputs: int, borrowed: int, lines: int) -> Cost:
    """The cost of X, CX and Toffoli gates, each the list of its lines, on so many lines."""
    sizes = [0, 0, 0, 0]
    for gate in gates:
        sizes[len(gate)] += 1
    depth, toffoli_depth = depths(gates, lines)
    return Cost(inputs, outputs, lines - inputs - outputs - borrowed, borrowed, len(gates), sizes[3], toffoli_depth,
                T_GATES * sizes[3], sizes[2], sizes[1], depth)


def html_table(heads: Sequence[str], rows: Iterable[Sequence[str]]) -> str:
    """A table for a notebook; its cells are text."""
    def row(cells: Sequence[str], tag: str) -> str:
        return "<tr>" + "".join(f"<{tag}>{escape(cell)}</{tag}>" for cell in cells) + "</tr>"
    return "<table>" + row(heads, "th") + "".join(row(each, "td") for each in rows) + "</table>"
