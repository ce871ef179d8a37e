"""What is taken where nothing is said: one table for this package, `python3 -m revc` and `./revc`.

The program's own values are fixed, since it is proved with them; where they differ, its help says so.
"""
from typing import Dict, NamedTuple, Tuple, Union

Value = Union[int, str]


class Default(NamedTuple):
    """`usual` is taken by this package, `own` by the program; `takes` are all values, or the least and the most."""

    usual: Value
    own: Value
    takes: Tuple[Value, ...]
    says: str

    @property
    def range(self) -> str:
        """What it takes, as it is said: `1 to 16,384`, or `both, sums, diagrams`."""
        least, most = self.takes[0], self.takes[-1]
        if isinstance(least, int) and isinstance(most, int):
            return f"{least:,} to {most:,}"
        return ", ".join(map(str, self.takes))

    def allows(self, value: object) -> bool:
        least, most = self.takes[0], self.takes[-1]
        if isinstance(least, int) and isinstance(most, int):
            return isinstance(value, int) and not isinstance(value, bool) and least <= value <= most
        return value in self.takes


PLANS = ("auto", "eager", "pebble", "lean", "compact", "shallow")  # of this and of later programs
WAYS = ("both", "sums", "diagrams")
AIMS = ("gates", "depth", "order")
LINES, GATES, NODES = 16384, 4000000, 1000000

DEFAULTS: Dict[str, Default] = {
    "plan": Default("lean", "auto", PLANS, "how the circuit is made"),
    "lines": Default(LINES, 4096, (1, LINES), "the most lines of the circuit, those that it borrows included"),
    "gates": Default(GATES, 1000000, (1, GATES), "the most gates of the circuit"),
    "borrow": Default(0, 0, (0, 64), "lines that are borrowed: they may hold anything, and come back unchanged"),
    "nodes": Default(NODES, 100000, (1, NODES), "the most functions on which claims, or a circuit that is verified, rest"),
    "assume": Default(0, 0, (0, 4096), "claims, from the first on, that are taken for granted"),
    "by": Default("both", "diagrams", WAYS, "how `verify` decides: by sums of products, by diagrams, or by both in turn"),
    "for": Default("gates", "gates", AIMS, "for what `tidy` works: few gates, and then depth, or depth by order alone"),
}
PLAN, WAY = "lean", "both"
