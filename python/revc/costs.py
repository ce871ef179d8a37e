"""What all can be had of a program, as a table: plans, and for each the circuits from the least number of lines up."""
import csv
import io
import json
from pathlib import Path
from typing import Dict, List, NamedTuple, Optional, Sequence, Tuple, Union, overload

from .charts import chart
from .circuit_texts import ending_of
from .circuits import Circuit
from .counting import Cost, html_table
from .defaults import LINES
from .drawing import Picture
from .errors import RevcError, TimedOut
from .progress import Told
from .revs import RevsText
from .searches import HALVINGS, Search, all_plans, every_circuit

# The counts that a table shows, by what `by` calls them.
COUNTS = {"lines": "lines", "gates": "gates", "toffoli": "Toffoli", "toffoli_depth": "Toffoli depth", "depth": "depth",
          "t": "T"}
# What stands at the side of a picture, where that is not the head of its column.
DRAWN = {"toffoli": "Toffoli gates", "t": "T gates"}
BY = "toffoli"


class Row(NamedTuple):
    """A circuit that can be had: `circuit = source.compile(plan, lines=lines)`."""

    plan: str
    lines: int
    cost: Cost

    @property
    def call(self) -> str:
        """The options that give the circuit."""
        return f"plan={self.plan!r}" + ("" if self.lines == LINES else f", lines={self.lines}")

    def as_dict(self) -> Dict[str, Union[str, int]]:
        """The plan and what to give as `lines`, called `compile_lines`, and each count of the circuit."""
        return {"plan": self.plan, "compile_lines": self.lines, **self.cost.as_dict()}


def counts(cost: Cost) -> Tuple[int, ...]:
    return tuple(getattr(cost, name) for name in COUNTS)


def ordered(cost: Cost, by: str) -> Tuple[int, ...]:
    """The least of `by` first, then the fewest Toffoli gates and lines."""
    return (getattr(cost, by), cost.toffoli, cost.lines, *counts(cost))


def check_count(by: str) -> None:
    if by not in COUNTS:
        raise RevcError(f"by={by!r}: costs are counted by {', '.join(COUNTS)}")


def is_beaten(one: Tuple[int, ...], others: Sequence[Tuple[int, ...]]) -> bool:
    return any(other != one and all(x <= y for x, y in zip(other, one)) for other in others)


class Costs(List[Row]):
    """The circuits that no other one beats in all of the counts that are shown, as a list of rows.

    Each row has `plan`, `lines` (what to give to `compile`), `cost` (all counts) and `call`. `print` and notebooks show
    them as a table, the least of `by` first; `draw` shows what `by` counts against lines. `ands` are the program's ANDs.
    `is_late` says that `timeout` seconds were over before all was tried.
    """

    def __init__(self, source: RevsText, plans: Optional[Sequence[str]] = None, points: int = 6, by: str = BY,
                 progress: Told = None, timeout: Optional[float] = None):
        super().__init__()
        check_count(by)
        search = Search(source, timeout, (points + HALVINGS) * len(plans or all_plans()), progress)
        self.ands = search.ands()
        found: Dict[Tuple[int, ...], Row] = {}
        for plan, lines, circuit in every_circuit(search, plans, points):
            found.setdefault(counts(circuit.cost), Row(plan, lines, circuit.cost))
        self.name, self.by, self.is_late = source.name, by, search.is_late
        if self.is_late and not found:
            raise TimedOut(f"no circuit of `{source.name}` within {timeout} seconds (timeout)")
        unbeaten = [row for one, row in found.items() if not is_beaten(one, list(found))]
        self += sorted(unbeaten, key=lambda row: ordered(row.cost, by))

    def cells(self) -> List[List[str]]:
        return [[row.plan, *(f"{count:,}" for count in counts(row.cost)), row.call] for row in self]

    def __str__(self) -> str:
        table = [["plan", *COUNTS.values(), "compile(..)"], *self.cells()]
        wide = [max(map(len, column)) for column in zip(*table)]
        lines = ["  ".join(word.ljust(n) if k in (0, len(wide) - 1) else word.rjust(n)
                           for k, (word, n) in enumerate(zip(row, wide))).rstrip() for row in table]
        lines += [str(self.ands)] if self.ands else []
        return "\n".join(lines + (["(cut short: not all was tried)"] if self.is_late else []))

    def _repr_html_(self) -> str:
        """What a notebook shows."""
        return html_table(["plan", *COUNTS.values(), "compile(..)"], self.cells())

    def as_dicts(self) -> List[Dict[str, Union[str, int]]]:
        """Each row with all of its counts, below the name of the program."""
        return [{"program": self.name, **row.as_dict()} for row in self]

    def json(self, *others: "Costs") -> str:
        """The rows, and those of others behind them, as a JSON list of objects."""
        return json.dumps([row for each in (self, *others) for row in each.as_dicts()], indent=1) + "\n"

    def csv(self, *others: "Costs") -> str:
        """The rows, and those of others, as a table with commas, below a line of names."""
        out, rows = io.StringIO(), [row for each in (self, *others) for row in each.as_dicts()]
        table = csv.DictWriter(out, list(rows[0]) if rows else ["program"], lineterminator="\n")
        table.writeheader()
        table.writerows(rows)
        return out.getvalue()

    def save(self, path: str, *others: "Costs") -> None:
        """Write the table to a file, as `.csv`, `.json` or the picture `.svg` by its name."""
        kind = ending_of(path, (".csv", ".json", ".svg"), "costs are written")
        text = {".csv": self.csv, ".json": self.json}.get(kind)
        Path(path).write_text(text(*others) if text else self.draw(None, *others))

    @overload
    def draw(self, path: str, *others: "Costs") -> None: ...

    @overload
    def draw(self, path: None = None, *others: "Costs") -> Picture: ...

    def draw(self, path: Optional[str] = None, *others: "Costs") -> Optional[Picture]:
        """What `by` counts against lines as SVG, of this program and of others; or it is written to the file `path`.

        Toffoli gates where `by` is "lines".
        """
        by = BY if self.by == "lines" else self.by
        curves = [(each.name, [(row.cost.lines, getattr(row.cost, by)) for row in each]) for each in (self, *others)]
        picture = Picture(chart(curves, DRAWN.get(by, COUNTS[by])))
        return picture.write(path) if path else picture


def best_circuit(source: RevsText, by: str, most: Dict[str, int], plans: Optional[Sequence[str]], points: int,
                 progress: Told, timeout: Optional[float]) -> Circuit:
    """The circuit of the least `by` among those that have at most so much of each count in `most`."""
    for name in (by, *most):
        check_count(name)
    search = Search(source, timeout, (points + HALVINGS) * len(plans or all_plans()), progress)
    best: Optional[Circuit] = None
    near: Optional[Cost] = None  # of those that have too much of something
    for _, _, circuit in every_circuit(search, plans, points, min(most.get("lines", LINES), LINES)):
        if all(getattr(circuit.cost, name) <= limit for name, limit in most.items()):
            if best is None or ordered(circuit.cost, by) < ordered(best.cost, by):
                best = circuit
        elif near is None or ordered(circuit.cost, by) < ordered(near, by):
            near = circuit.cost
    if best is None and near is None and search.is_late:
        raise TimedOut(f"no circuit of `{source.name}` within {timeout} seconds (timeout)")
    if best is None:
        wanted = ", ".join(f"{name}={limit}" for name, limit in most.items())
        late = ", as far as was tried before the timeout" if search.is_late else ""
        raise RevcError(f"no circuit of `{source.name}` is within {wanted}{late}: "
                        + (f"the least {COUNTS[by]} otherwise: {near}" if near else "costs() shows all that can be had"))
    return best
