"""Which line of a circuit stands for which bit of a program."""
from typing import Dict, List, Mapping, NamedTuple, Optional, Sequence, Tuple

from .errors import RevcError, WidthError
from .circuit_texts import qasm_name
from .line_names import Named, lines_of, pieces

Lines = Mapping[str, str]  # from a parameter, a result, `out` or `borrowed` to lines of the circuit
OUT, BORROWED = "out", "borrowed"
OWN = (("x", "y"), ("inp", "outp"))  # what the program calls inputs and outputs


class Signature(NamedTuple):
    """A program's name, and the names and widths of its parameters and results."""

    name: str
    params: Named
    out: Named

    def places(self) -> Dict[str, List[int]]:
        """The places of each name among the inputs and the outputs behind them; `out` is all outputs."""
        found: Dict[str, List[int]] = {}
        at = 0
        for name, width in [*self.params, *self.out]:
            found.setdefault(name, list(range(at, at + width)))
            at += width
        inputs = sum(width for _, width in self.params)
        found.setdefault(OUT, list(range(inputs, at)))
        return found

    @property
    def inputs(self) -> int:
        return sum(width for _, width in self.params)

    def bit(self, place: int) -> str:
        """The name of an input or output bit, for a message."""
        for name, places in self.places().items():
            if place in places:
                return f"{name}[{places.index(place)}]" if len(places) > 1 else name
        return str(place)


class LineMap(NamedTuple):
    """Lines of a circuit: those of the inputs, those of the outputs, all others that are not borrowed, and these."""

    inputs: List[int]
    outputs: List[int]
    work: List[int]
    borrowed: List[int]

    @property
    def order(self) -> List[int]:
        """All lines as `verify` wants them."""
        return self.inputs + self.outputs + self.work + self.borrowed

    @property
    def is_in_place(self) -> bool:
        """Whether an output stands where an input was."""
        return bool(set(self.inputs) & set(self.outputs))


def pairs_of(text: str) -> List[Tuple[str, str]]:
    """The two sides of each `q[0:4]=a` of a map in one text."""
    found = []
    for part in pieces(text):
        left, sign, right = (each.strip() for each in part.partition("="))
        if not sign or not left or not right:
            raise RevcError(f"`{part.strip()}`: a map says which line is which bit, as \"q[0:4]=a, q[4]=out\"")
        found.append((left, right))
    return found


def lines_from(text: str) -> Dict[str, str]:
    """The map of the command, `q[0]=a[0], q[1]=a[1], q[2]=out`, by the names of the program."""
    return by_left([(name, line) for line, name in pairs_of(text)])


def by_left(pairs: Sequence[Tuple[str, str]]) -> Dict[str, str]:
    found: Dict[str, str] = {}
    for left, right in pairs:
        if left in found:
            raise RevcError(f"the map has `{left}` twice: {found[left]} and {right}")
        found[left] = right
    return found


def mapped(lines: Lines, signature: Signature, registers: Mapping[str, List[int]], count: int) -> LineMap:
    """The lines that a map names, of a circuit with these registers and so many lines in all. Of parameters and results that
    it leaves out the lines are those of registers of their names."""
    places = signature.places()
    of_place: Dict[int, int] = {}
    borrowed: List[int] = []
    for name, piece in lines.items():
        found = lines_of(piece, registers)
        if name == BORROWED and name not in places:
            borrowed = found
            continue
        wanted = lines_of(name, places, f"`{signature.name}`")
        if len(wanted) != len(found):
            raise WidthError(f"`{name}` has {len(wanted)} bits, and `{piece}` {len(found)} lines")
        of_place.update(zip(wanted, found))
    for name in places:
        register = named(name, len(places[name]), registers)
        if register is not None and not any(place in of_place for place in places[name]):
            of_place.update(zip(places[name], registers[register]))
    return checked(signature, of_place, borrowed, registers, count)


def named(name: str, width: int, registers: Mapping[str, List[int]]) -> Optional[str]:
    """The register of this name and width, also where it is written as OpenQASM wants it."""
    return next((each for each in (name, qasm_name(name)) if len(registers.get(each, [])) == width), None)


def checked(signature: Signature, of_place: Mapping[int, int], borrowed: List[int], registers: Mapping[str, List[int]],
            count: int) -> LineMap:
    """The map with all other lines as work lines; each bit has a line, and no line two parts but in place."""
    total = signature.inputs + sum(width for _, width in signature.out)
    missing = [signature.bit(place) for place in range(total) if place not in of_place]
    if missing:
        raise RevcError(f"the map has no line for {', '.join(missing[:6])}{', ..' * (len(missing) > 6)}: say which, as "
                        f"lines={{\"{missing[0]}\": \"{next(iter(registers))}[0]\"}} (--map)")
    inputs = [of_place[place] for place in range(signature.inputs)]
    outputs = [of_place[place] for place in range(signature.inputs, total)]
    for each in (inputs, outputs + borrowed, inputs + borrowed):
        if len(set(each)) < len(each):
            line = next(line for line in each if each.count(line) > 1)
            name = next(name for name, found in registers.items() if line in found)
            raise RevcError(f"the map takes `{name}[{registers[name].index(line)}]` twice")
    apart = {*inputs, *outputs, *borrowed}
    return LineMap(inputs, outputs, [line for line in range(count) if line not in apart], borrowed)


def is_own_order(signature: Signature, registers: Mapping[str, List[int]]) -> bool:
    """Whether the registers are those of a file that the program `revc` wrote, whose names say nothing of parameters."""
    inputs = signature.inputs
    outputs = list(range(inputs, inputs + sum(width for _, width in signature.out)))
    return any(registers.get(one) == list(range(inputs)) and registers.get(other) == outputs for one, other in OWN)


def found_by_names(signature: Signature, registers: Mapping[str, List[int]]) -> Optional[Dict[str, str]]:
    """The map by registers that have the names and widths of the parameters and of the results, or nothing.

    The outputs are the registers of all results, or one that is called `out` or `outp`.
    """
    if is_own_order(signature, registers):
        return None
    found: Dict[str, str] = {}
    for name, width in signature.params:
        register = named(name, width, registers)
        if register is None:
            return None
        found[name] = register
    results = {name: named(name, width, registers) for name, width in signature.out}
    known = {name: register for name, register in results.items() if register is not None and name not in found}
    if len(known) == len(signature.out):
        return {**found, **known}
    for name in (OUT, "outp"):
        if name not in found and len(registers.get(name, [])) == sum(width for _, width in signature.out):
            return {**found, OUT: name}
    return None
