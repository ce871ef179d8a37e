"""The names of lines, `a[3]` or `a3`, and the registers that they make; pieces of registers, `a[0:4]`."""
import re
from typing import Dict, List, Mapping, Optional, Sequence, Tuple

from .errors import RevcError

Named = Sequence[Tuple[str, int]]  # names and widths
NAME = re.compile(r"(.*?)(?:\[(\d+)\]|(?<=[A-Za-z_])(\d+))?", re.DOTALL)
PIECE = re.compile(r"\s*([^\[\]\s]+)\s*(?:\[([^\[\]]*)\])?\s*")


def base_of(name: str) -> Tuple[str, Optional[int]]:
    """The register that a line's name says, and the place where it says one."""
    found = NAME.fullmatch(name)
    place = found and (found[2] or found[3])
    return (found[1], int(place)) if found and place else (name, None)


def registers(names: Sequence[str]) -> Dict[str, List[int]]:
    """The lines of each register: `a[0]`, `a[1]`, .. are one, and so are `a0`, `a1`, .., where the places rise from 0."""
    found: Dict[str, List[int]] = {}
    for line, name in enumerate(names):
        base, place = base_of(name)
        if place is None or place != len(found.get(base, [])):
            base = name
        if base == name and base in found:
            raise RevcError(f"two lines have the name `{name}`")
        found.setdefault(base, []).append(line)
    return found


def lines_by_role(params: Named, results: Named, work: int, borrowed: int) -> List[str]:
    """The names of a compiled circuit's lines, as `a[0]`: parameters, results, `work` and `dirty`, each another one."""
    names: List[str] = []
    known = set()
    for name, width in [*params, *results, ("work", work), ("dirty", borrowed)]:
        while name in known:
            name += "_"
        known.add(name)
        names += [f"{name}[{place}]" for place in range(width)]
    return names


def pieces(text: str) -> List[str]:
    """The parts of `q[0:4], r[2]`."""
    return [part for part in re.split(r",(?![^\[]*\])", text) if part.strip()]


def lines_of(piece: str, known: Mapping[str, Sequence[int]], what: str = "the circuit") -> List[int]:
    """The lines of `q`, `q[3]`, `q[0:4]`, `q[::-1]` or several with commas, as Python cuts lists."""
    lines: List[int] = []
    for part in pieces(piece):
        found = PIECE.fullmatch(part)
        if found is None:
            raise RevcError(f"`{part.strip()}` is no piece of a register: write q, q[3], q[0:4] or q[::-1]")
        name, places = found[1], found[2]
        if name not in known:
            base, place = base_of(name)
            if places is not None or place is None or base not in known or place >= len(known[base]):
                raise RevcError(f"{what} has no register `{name}`: it has {listed(known)}")
            name, places = base, str(place)
        lines += cut(list(known[name]), name, places)
    return lines


def cut(lines: List[int], name: str, places: Optional[str]) -> List[int]:
    """The lines at `3` or `0:4` or `::-1`, and all of them where nothing is said."""
    if places is None:
        return lines
    parts = [part.strip() for part in places.split(":")]
    try:
        numbers = [int(part) if part else None for part in parts]
    except ValueError:
        numbers = []
    if len(numbers) == 1 and numbers[0] is not None and -len(lines) <= numbers[0] < len(lines):
        return [lines[numbers[0]]]
    if len(numbers) in (2, 3) and numbers[2:] != [0]:
        piece = lines[slice(*numbers)]
        last = numbers[1]
        if piece and (last is None or last <= len(lines)):
            return piece
    raise RevcError(f"`{name}[{places}]`: `{name}` has {len(lines)} lines; places count from 0, and `[0:4]` takes 0 to 3")


def listed(known: Mapping[str, Sequence[int]]) -> str:
    """The registers with their sizes, for a message."""
    some = [f"{name}[{len(lines)}]" for name, lines in list(known.items())[:12]]
    return ", ".join(some) + (", .." if len(known) > 12 else "")
