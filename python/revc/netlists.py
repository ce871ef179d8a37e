"""Circuits as values: gates on lines that have names. They come from files, or of programs from `compile`."""
from dataclasses import dataclass, replace
from functools import cached_property
from pathlib import Path
from typing import Dict, List, Mapping, Optional, Protocol, Tuple, Union, overload

from . import program
from .counting import Cost, cost_of
from .defaults import AIMS
from .drawing import COLUMNS, SHOWN_GATES, SHOWN_LINES, Drawing, Picture
from .errors import RevcError, WidthError
from .circuit_texts import FILES, ending_of, qasm_text, real_text
from .gates import Gate
from .line_names import base_of, cut, lines_of, pieces, registers
from .openqasm import read_openqasm
from .real import GateList, form_of, read_real
from .transforms import controlled, is_plain, moved

SPARE = "spare"  # the line that a split may add, which holds anything and comes back


class HasNetlist(Protocol):
    """A `Netlist`, or a compiled circuit."""

    @property
    def netlist(self) -> "Netlist":
        """The circuit as a value."""


@dataclass(frozen=True)
class Netlist:
    """A circuit as a value: X gates and swaps with any controls, on lines with names.

    `names` are those of the lines, as `a[0]`; of each line `marks` say the bit that it starts with, or `-` where it may
    hold anything, and `garbage` by `1` that what it ends with does not matter, else `-`.
    """

    names: Tuple[str, ...]
    gates: Tuple[Gate, ...]
    marks: str = ""
    garbage: str = ""

    def __post_init__(self) -> None:
        object.__setattr__(self, "marks", self.marks or "-" * len(self.names))
        object.__setattr__(self, "garbage", self.garbage or "-" * len(self.names))

    @property
    def netlist(self) -> "Netlist":
        return self

    @property
    def lines(self) -> int:
        return len(self.names)

    @cached_property
    def registers(self) -> Dict[str, List[int]]:
        """The lines of each register by its name, place 0 first."""
        return registers(self.names)

    def __repr__(self) -> str:
        sizes = [name if self.names[lines[0]] == name else f"{name}[{len(lines)}]" for name, lines in self.registers.items()]
        return f"<{', '.join(sizes[:8])}{', ..' * (len(sizes) > 8)}: {self.lines:,} lines, {len(self.gates):,} gates>"

    @property
    def cost(self) -> Cost:
        """What it costs by X, CX and CCX gates. Lines that may start as anything count as inputs, others as work lines."""
        plain = self.split()
        free = plain.marks.count("-")
        return cost_of([gate.lines for gate in plain.gates], free, 0, 0, plain.lines)

    # ---- Files

    @property
    def real(self) -> str:
        """The `.real` file, with all gates as they are."""
        return real_text(self.names, self.gates, self.marks, self.garbage)

    @property
    def qasm(self) -> str:
        """OpenQASM 2.0, of X, CX and CCX gates; others are split."""
        plain = self.split()
        return qasm_text(plain.names, plain.gates)

    @property
    def qasm3(self) -> str:
        """OpenQASM 3, with all gates as they are (`ctrl(3) @ x`)."""
        return qasm_text(self.names, self.gates, 3)

    def save(self, path: str) -> None:
        """Write the file: `.real`, `.qasm`, `.qasm3` or the picture `.svg` by its name."""
        kind = ending_of(path, (*FILES, ".svg"), "a circuit is written")
        Path(path).write_text(self.draw() if kind == ".svg" else getattr(self, kind[1:]))

    @overload
    def draw(self, path: str, columns: int = COLUMNS) -> None: ...

    @overload
    def draw(self, path: None = None, columns: int = COLUMNS) -> Picture: ...

    def draw(self, path: Optional[str] = None, columns: int = COLUMNS) -> Optional[Picture]:
        """The circuit as SVG, in rows of so many columns; or it is written to the file `path`."""
        picture = Drawing(GateList(list(self.names), self.marks, list(self.gates)), columns=columns).svg()
        return picture.write(path) if path else picture

    def _repr_svg_(self) -> Optional[str]:
        """What a notebook shows of a small circuit."""
        return self.draw() if len(self.gates) <= SHOWN_GATES and self.lines <= SHOWN_LINES else None

    def split(self) -> "Netlist":
        """The same by X, CX and CCX gates, which `revc convert` makes of it.

        It takes other lines for them as they are. Only where a gate uses them all a line `spare` is added.
        """
        return self if all(map(is_plain, self.gates)) else self.by("convert")

    def tidy(self, aim: str = "gates") -> "Netlist":
        """The same by X, CX and CCX gates of which none cancel, which `revc tidy` makes of it; for `depth` these in an order
        of a smaller depth, for `order` all gates of `split()` in such an order."""
        if aim not in AIMS:
            raise RevcError(f"tidy({aim!r}): {', '.join(AIMS)}")
        return self.by("tidy", "--for", aim)

    def by(self, *words: str) -> "Netlist":
        """What a command of the program makes of it, `convert` or `tidy`."""
        text = program.call([*words, "--from", "real", "--to", "real"], self.real.encode()).decode()
        names, _, gates = read_real(text)
        added = len(names) - self.lines
        return replace(self, names=self.names + (SPARE,) * added, gates=tuple(gates), marks=self.marks + "-" * added,
                       garbage=self.garbage + "-" * added)

    # ---- Running

    def run(self, lines: Optional[Mapping[str, str]] = None, **numbers: int) -> Dict[str, int]:
        """What the registers hold at the end, for numbers in some of them; other lines start at their mark or at 0.

        `lines` are registers of your own, as {"a": "q[0:4]", "sum": "q[4:8]"}.
        """
        places = {name: lines_of(piece, self.registers) for name, piece in (lines or {}).items()} or self.registers
        bits = [mark.replace("-", "0") for mark in self.marks]
        for name, number in numbers.items():
            if name not in places:
                raise RevcError(f"the circuit has no register `{name}`: it has {', '.join(places)}")
            if not 0 <= number < 1 << len(places[name]):
                raise WidthError(f"{name}={number} does not fit in {len(places[name])} lines: 0 to "
                                 f"{(1 << len(places[name])) - 1}")
            for place, line in enumerate(places[name]):
                if self.marks[line] not in ("-", str(number >> place & 1)):
                    raise RevcError(f"`{name}`: the line {self.names[line]} always starts at {self.marks[line]}")
                bits[line] = str(number >> place & 1)
        word = "".join(bit for bit, mark in zip(bits, self.marks) if mark == "-")
        text = real_text(self.names, self.gates, self.marks, "-" * self.lines)
        last = program.call(["run", "--", word], text.encode()).decode().strip()
        return {name: int("".join(last[line] for line in reversed(each)), 2) for name, each in places.items()}

    # ---- Circuits of circuits

    def inverse(self) -> "Netlist":
        """The circuit backwards, which undoes it. What a line starts with is open."""
        return Netlist(self.names, self.gates[::-1])

    def controlled(self, count: int = 1, name: str = "control") -> "Netlist":
        """The circuit where `count` new lines in front, the register `name`, are all 1, and nothing where not.

        Each gate takes so many more controls, but for gates at both ends that undo each other; wide ones are split.
        """
        if count < 1:
            raise RevcError(f"controlled({count}): a circuit takes 1 control or more")
        if name in self.registers or any(base_of(each)[0] == name for each in self.names):
            raise RevcError(f"the circuit has lines of the name `{name}`: give another name, as name=\"c\"")
        place = range(count, count + self.lines)
        gates = controlled(moved(self.gates, place), [(line, True) for line in range(count)])
        new = (name,) if count == 1 else tuple(f"{name}[{i}]" for i in range(count))
        return Netlist(new + self.names, tuple(gates), "-" * count + self.marks, "-" * count + self.garbage).split()

    def then(self, other: HasNetlist) -> "Netlist":
        """This circuit and then another one, on lines of the same names; lines that only one of them has are added."""
        other = other.netlist
        known = {key_of(name): line for line, name in enumerate(self.names)}
        added = [line for line, name in enumerate(other.names) if key_of(name) not in known]
        known.update((key_of(other.names[line]), self.lines + count) for count, line in enumerate(added))
        place = [known[key_of(name)] for name in other.names]
        garbage = list(self.garbage) + ["-"] * len(added)
        for line, mark in zip(place, other.garbage):
            garbage[line] = mark
        return Netlist(self.names + tuple(other.names[line] for line in added), self.gates + tuple(moved(other.gates, place)),
                       self.marks + "".join(other.marks[line] for line in added), "".join(garbage))

    def on(self, lines: Optional[Mapping[str, str]] = None, **named: str) -> "Netlist":
        """The same on lines of other names: on(a="q[0:4]", out="flag"). Lines that are not named keep their names."""
        names: List[str] = list(self.names)
        for piece, wanted in {**(lines or {}), **named}.items():
            own = lines_of(piece, self.registers)
            new = [name for part in pieces(wanted) for name in new_names(part, len(own))]
            if len(new) != len(own):
                raise WidthError(f"`{piece}` has {len(own)} lines, and `{wanted}` {len(new)}")
            for line, name in zip(own, new):
                names[line] = name
        seen: Dict[Tuple[str, int], str] = {}
        for line, name in enumerate(names):
            if key_of(name) in seen:
                raise RevcError(f"`{self.names[line]}` and `{seen[key_of(name)]}` come both on the line `{name}`")
            seen[key_of(name)] = self.names[line]
        return replace(self, names=tuple(names))


def key_of(name: str) -> Tuple[str, int]:
    """A line's name, where `flag` is `flag[0]` and `q3` is `q[3]`."""
    base, place = base_of(name)
    return base, place or 0


def new_names(piece: str, count: int) -> List[str]:
    """The names of lines that need not be there: `q` stands for as many as are wanted, `q[0:4]` for four."""
    piece = piece.strip()
    if not piece.endswith("]"):
        return [piece] if count == 1 else [f"{piece}[{i}]" for i in range(count)]
    name, _, places = piece[:-1].partition("[")
    numbers = [int(part) for part in places.split(":") if part.strip().lstrip("-").isdigit()]
    return [f"{name.strip()}[{i}]" for i in cut(list(range(max(map(abs, numbers), default=0) + count + 1)), name, places)]


def read_text(text: str, name: str = "circuit") -> Netlist:
    """The circuit of a `.real` or OpenQASM text; `name` is what refusals call it."""
    if form_of(text) == "qasm":
        names, marks, gates = read_openqasm(text, name)
        return Netlist(tuple(names), tuple(gates))
    try:
        names, marks, gates = read_real(text)
    except RevcError as reason:
        raise RevcError(f"{name}: {reason}") from None
    garbage = next((line.split()[1] for line in text.split(".begin", 1)[0].split("\n") if line.split()[:1] == [".garbage"]
                    and len(line.split()) == 2), "")
    return Netlist(tuple(names), tuple(gates), marks, garbage)


def read(path: Union[str, Path]) -> Netlist:
    """The circuit in a `.real` or OpenQASM file, of whatever tool."""
    try:
        text = Path(path).read_text()
    except (OSError, UnicodeDecodeError) as error:
        raise RevcError(f"{path} is no circuit's file: {error}") from None
    return read_text(text, str(path))
