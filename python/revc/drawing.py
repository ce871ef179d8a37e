"""A circuit as a picture: SVG, with the lines, their names, and the gates in columns."""
from pathlib import Path
from typing import Iterator, List, Sequence, Tuple
from xml.sax.saxutils import escape

from .gates import Gate
from .real import GateList

STEP, PITCH = 20, 24  # from column to column, and from line to line
DOT, RING = 4, 7  # how great a control and a target are
LETTER = 8  # how wide a letter is
MARGIN = 12
COLUMNS = 60  # gates side by side in a picture, then it goes on below
SHOWN_GATES, SHOWN_LINES = 1500, 200  # up to which a notebook shows the picture of a circuit
STYLE = ("line, circle { stroke: #1b1b1b; stroke-width: 1.4 } .open, .target { fill: #ffffff }"
         " text { font: 13px monospace; fill: #1b1b1b }")


def span(gate: Gate) -> Tuple[int, int]:
    """The uppermost and the lowest line of a gate."""
    return min(gate.lines), max(gate.lines)


def columns_of(gates: List[Gate], lines: int) -> List[int]:
    """The column of each gate: the first behind all gates before it that it overlaps."""
    free, columns = [0] * lines, []
    for first, last in map(span, gates):
        column = max(free[first:last + 1])
        free[first:last + 1] = [column + 1] * (last + 1 - first)
        columns.append(column)
    return columns


class Picture(str):
    """The text of an SVG file, which a notebook shows as a picture."""

    def _repr_svg_(self) -> str:
        return str(self)

    def write(self, path: str) -> None:
        Path(path).write_text(self)


class Drawing:
    """The parts of a picture: the names at the left, the gates in columns, the names at the right. After so many
    `columns` the lines go on below; `names` are shown in place of the file's names, for the first lines."""

    def __init__(self, circuit: GateList, names: Sequence[str] = (), columns: int = 0):
        self.circuit = circuit
        self.names = list(names) + circuit.names[len(names):]
        self.columns = columns_of(circuit.gates, len(circuit.names))
        wide = max(self.columns, default=-1) + 1
        self.fold = min(columns or wide, wide) or 1
        self.rows = max(1, -(-wide // self.fold))
        self.left = MARGIN + LETTER * (max(map(len, self.names)) + 3)
        self.right = self.left + STEP * (self.fold + 1)

    def x(self, column: int) -> int:
        return self.left + STEP * (column % self.fold + 1)

    def y(self, line: int, row: int = 0) -> int:
        return MARGIN + PITCH // 2 + PITCH * (line + row * (len(self.names) + 1))

    def wires(self) -> Iterator[str]:
        """The lines, with their names, and with the bit of those that start with one."""
        for row in range(self.rows):
            for line, (name, mark) in enumerate(zip(self.names, self.circuit.marks)):
                y, label = self.y(line, row), name if mark == "-" or row else f"{name} {mark}"
                yield segment(self.left, y, self.right, y)
                yield text(self.left - 6, y, label, "end")
                yield text(self.right + 6, y, name, "start")

    def gate(self, gate: Gate, column: int) -> Iterator[str]:
        x, row, (first, last) = self.x(column), column // self.fold, span(gate)
        if first != last:
            yield segment(x, self.y(first, row), x, self.y(last, row))
        for line, is_one in gate.controls:
            yield circle(x, self.y(line, row), DOT, "dot" if is_one else "open")
        for line in gate.targets:
            yield from (target if len(gate.targets) == 1 else cross)(x, self.y(line, row))

    def parts(self) -> Iterator[str]:
        yield from self.wires()
        for gate, column in zip(self.circuit.gates, self.columns):
            yield from self.gate(gate, column)

    def svg(self) -> Picture:
        width = self.right + LETTER * (max(map(len, self.names)) + 1) + MARGIN
        height = 2 * MARGIN + PITCH * (self.rows * (len(self.names) + 1) - 1)
        front = [f'<svg xmlns="http://www.w3.org/2000/svg" width="{width}" height="{height}" '
                 f'viewBox="0 0 {width} {height}">', f"<style>{STYLE}</style>",
                 f'<rect width="{width}" height="{height}" fill="#ffffff"/>']
        return Picture("\n".join(front + list(self.parts()) + ["</svg>", ""]))


def segment(x1: int, y1: int, x2: int, y2: int) -> str:
    return f'<line x1="{x1}" y1="{y1}" x2="{x2}" y2="{y2}"/>'


def circle(x: int, y: int, radius: int, kind: str) -> str:
    return f'<circle class="{kind}" cx="{x}" cy="{y}" r="{radius}"/>'


def text(x: int, y: int, words: str, anchor: str) -> str:
    return f'<text x="{x}" y="{y + 4}" text-anchor="{anchor}">{escape(words)}</text>'


def target(x: int, y: int) -> Iterator[str]:
    yield circle(x, y, RING, "target")
    yield segment(x - RING, y, x + RING, y)
    yield segment(x, y - RING, x, y + RING)


def cross(x: int, y: int) -> Iterator[str]:
    yield segment(x - DOT, y - DOT, x + DOT, y + DOT)
    yield segment(x - DOT, y + DOT, x + DOT, y - DOT)
