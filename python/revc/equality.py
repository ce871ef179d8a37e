"""Two circuits that do the same: one of them is made a program, which `verify` holds against the other."""
from typing import Dict, Iterator, List, Mapping, NamedTuple, Optional, Sequence

from .defaults import NODES, WAY
from .errors import CircuitDiffers, RevcError, refused
from .gates import Gate
from .line_names import base_of, lines_of, registers
from .netlists import HasNetlist, Netlist, key_of
from .revs import RevsText
from .transforms import flip, moved, ran
from .verifying import MOST, Asks, asking

LONGEST = 1048576  # bytes of a program
HEAD = "let n a = a <- true <> a; let c a b = b <- b <> a; let t a b c = c <- c <> a && b;"
COUNTED = ("n", "c", "t")  # the functions of these, by the number of controls


class Pair(NamedTuple):
    """One line in both circuits, or in one of them; the bit it starts with, or `-`, and whether its end is compared."""

    one: Optional[int]
    other: Optional[int]
    mark: str
    is_compared: bool


class Circuits(NamedTuple):
    """Two circuits and the lines that they share."""

    one: Netlist
    other: Netlist
    pairs: List[Pair]

    def names(self, pairs: Sequence[Pair]) -> List[str]:
        return [self.one.names[pair.one] if pair.one is not None else self.other.names[pair.other or 0] for pair in pairs]

    @property
    def free(self) -> List[Pair]:
        return [pair for pair in self.pairs if pair.mark == "-"]

    @property
    def compared(self) -> List[Pair]:
        return [pair for pair in self.pairs if pair.is_compared]


# ---- Which line is which


def shared(one: Netlist, other: Netlist, lines: Mapping[str, str], zeros: str) -> Circuits:
    """The lines of two circuits, by a map and, where it says nothing, by their names; or in order, where there is no map
    and no name in common. `zeros` are registers of either that start at 0."""
    starts = [starting_at_zero(netlist, zeros, (one, other)) for netlist in (one, other)]
    twin = twins(one, other, lines)
    pairs = [pair_of(one, other, starts, line, twin.get(line)) for line in range(one.lines)]
    matched = set(twin.values())
    pairs += [pair_of(one, other, starts, None, line) for line in range(other.lines) if line not in matched]
    return Circuits(one, other, pairs)


def starting_at_zero(netlist: Netlist, zeros: str, both: Sequence[Netlist]) -> List[str]:
    """The marks of a circuit's lines, with 0 at those that are named."""
    marks = list(netlist.marks)
    for piece in filter(str.strip, zeros.split(",")):
        name = piece.split("[")[0].strip()
        if name in netlist.registers or name in netlist.names:
            for line in lines_of(piece, netlist.registers):
                marks[line] = "0"
        elif not any(name in each.registers or name in each.names for each in both):
            raise RevcError(f"neither circuit has a register `{name}`, which is said to start at 0: they have "
                            f"{', '.join(both[0].registers)} and {', '.join(both[1].registers)}")
    return marks


def twins(one: Netlist, other: Netlist, lines: Mapping[str, str]) -> Dict[int, int]:
    """For lines of the first circuit the same line in the other one."""
    found: Dict[int, int] = {}
    for left, right in lines.items():
        mine, its = (lines_of(piece, each.registers, f"the {which} circuit")
                     for piece, each, which in ((left, one, "first"), (right, other, "second")))
        if len(mine) != len(its):
            raise RevcError(f"`{left}` has {len(mine)} lines and `{right}` {len(its)}")
        found.update(zip(mine, its))
    taken = set(found.values())
    by_name = {key_of(name): line for line, name in enumerate(other.names) if line not in taken}
    named = {line: by_name[key_of(name)] for line, name in enumerate(one.names)
             if line not in found and key_of(name) in by_name}
    if found or named:
        return {**found, **named}
    if one.lines != other.lines:
        raise RevcError(f"the circuits have {one.lines} and {other.lines} lines, and no name in common: say which line is "
                        "which by lines={\"q[0:4]\": \"a\", ..} (--map \"q[0:4]=a, ..\")")
    return {line: line for line in range(one.lines)}


def pair_of(one: Netlist, other: Netlist, starts: Sequence[Sequence[str]], mine: Optional[int], its: Optional[int]) -> Pair:
    marks = {starts[i][line] for i, line in enumerate((mine, its)) if line is not None} - {"-"}
    name = one.names[mine] if mine is not None else other.names[its or 0]
    if len(marks) > 1:
        raise RevcError(f"`{name}` starts at 0 in one circuit and at 1 in the other")
    if not marks and None in (mine, its):
        raise RevcError(f"`{name}` is a line of one circuit alone, and may start as anything: if it starts at 0, say so by "
                        f"zeros=\"{base_of(name)[0]}\" (--zeros); else say by lines=.. (--map) which line of the other it is")
    garbage = [netlist.garbage[line] for netlist, line in ((one, mine), (other, its)) if line is not None]
    return Pair(mine, its, marks.pop() if marks else "-", "1" not in garbage)


# ---- A program and a circuit


def program_of(circuits: Circuits) -> RevsText:
    """The first circuit as a program: from the lines that start as anything to what the compared ones end with."""
    begins: Dict[int, str] = {}
    for at, pair in enumerate(circuits.free):
        if pair.one is not None:
            begins[pair.one] = f"x.[{at}]"
    for pair in circuits.pairs:
        if pair.one is not None and pair.mark != "-":
            begins[pair.one] = "true" if pair.mark == "1" else "false"
    lets = "".join(f"let l{line} = {begins[line]};\n" for line in range(circuits.one.lines))
    gates = "\n".join(text for gate in circuits.one.gates for text in statements(gate))
    ends = "; ".join(("false", "true")[int(pair.mark)] if pair.one is None else f"l{pair.one}" for pair in circuits.compared)
    text = f"main (x : bool[{len(circuits.free)}]) = {{ {HEAD}\n{lets}{gates}\nreg [{ends}] }}\n"
    if len(text) > LONGEST:
        raise RevcError(f"the smaller circuit has {len(circuits.one.gates):,} gates, more than a program of {LONGEST:,} bytes "
                        "holds: verify each of both against a program")
    return RevsText(text, "circuit", [(name, 1) for name in circuits.names(circuits.free)],
                    [(name, 1) for name in circuits.names(circuits.compared)])


def statements(gate: Gate) -> Iterator[str]:
    """What a gate does, as items of a block."""
    if len(gate.targets) == 2:  # a swap is three flips, of which one has the controls
        low, high = gate.targets
        yield f"c l{high} l{low};"
        yield from statements(Gate((*gate.controls, (low, True)), (high,)))
        yield f"c l{high} l{low};"
    elif len(gate.controls) < 3 and all(bit for _, bit in gate.controls):
        yield f"{COUNTED[len(gate.controls)]} {' '.join(f'l{line}' for line in gate.lines)};"
    else:
        met = " && ".join(f"l{line}" if bit else f"(true <> l{line})" for line, bit in gate.controls)
        yield f"l{gate.targets[0]} <- l{gate.targets[0]} <> {met};"


def circuit_of(circuits: Circuits) -> Netlist:
    """The second circuit on copies of the inputs, as `verify` wants it: inputs, outputs, and lines whose end is garbage."""
    inputs, compared = len(circuits.free), circuits.compared
    place: List[int] = [0] * circuits.other.lines
    for at, pair in enumerate(compared):
        if pair.other is not None:
            place[pair.other] = inputs + at
    seen = {pair.other for pair in compared}
    aside = any(line not in seen for line in range(circuits.other.lines))
    if aside:  # then all its lines are work lines, and what is compared is copied before it is undone
        place = list(range(inputs + len(compared), inputs + len(compared) + circuits.other.lines))
    starts = [flip(at, place[pair.other]) for at, pair in enumerate(circuits.free) if pair.other is not None]
    starts += [flip(place[pair.other]) for pair in circuits.pairs if pair.other is not None and pair.mark == "1"]
    body = starts + moved(circuits.other.gates, place)
    back = body[::-1] if aside else []
    ends = [flip(inputs + at) for at, pair in enumerate(compared) if pair.other is None and pair.mark == "1"]
    if aside:
        ends += [flip(place[pair.other], inputs + at) for at, pair in enumerate(compared) if pair.other is not None]
    count = inputs + len(compared) + (circuits.other.lines if aside else 0)
    return Netlist(tuple(f"l{line}" for line in range(count)), tuple(body + ends + back))


# ---- The answer


def equal(one: HasNetlist, other: HasNetlist, lines: Optional[Mapping[str, str]] = None, zeros: str = "", nodes: int = NODES,
          by: str = WAY, timeout: Optional[float] = None) -> str:
    """Prove that two circuits end with the same bits, whatever their lines start with: "equal", or a refusal.

    Lines are the same where `lines` says so, as {"q[0:4]": "a"}, or their names, or, where there is neither, their order.
    A line that starts at a known bit, by a mark of its file or by `zeros` ("work, out"), starts so in both; a line of one
    circuit alone has to, and has to end so. Lines that a file marks as garbage are not compared.
    """
    asks, one, other = asking(nodes, by, timeout), one.netlist, other.netlist
    circuits = shared(one, other, lines or {}, zeros)
    if not 0 < len(circuits.free) <= MOST:
        raise RevcError(f"the circuits have {len(circuits.free):,} lines that start as anything: 1 to {MOST:,} are taken")
    if not circuits.compared:
        raise RevcError("no line of the circuits is compared: by the marks of their files all are garbage")
    swapped = len(one.gates) > len(other.gates)
    if swapped:
        circuits = Circuits(other, one, [Pair(pair.other, pair.one, pair.mark, pair.is_compared) for pair in circuits.pairs])
    for at in range(0, len(circuits.compared), MOST):
        some = set(circuits.compared[at:at + MOST])
        prove(circuits._replace(pairs=[pair._replace(is_compared=pair in some) for pair in circuits.pairs]), asks, swapped)
    return "equal"


def prove(circuits: Circuits, asks: Asks, swapped: bool) -> None:
    """Asks `verify` about the lines that are compared, at most 1,024; `swapped` is for what is said of a difference."""
    ready = circuit_of(circuits)
    plain = ready.split()
    try:
        asks(program_of(circuits), plain.real, plain.lines - ready.lines)
    except CircuitDiffers as refusal:
        place = refusal.line - 1 - len(circuits.free)
        raise refused(refusal.message, refusal.status, differing(circuits, place, refusal.inputs, swapped)) from None


def differing(circuits: Circuits, place: int, bits: str, swapped: bool) -> str:
    """Which line differs, on which bits, and how."""
    pair, ends = circuits.compared[place], []
    for netlist, number in ((circuits.one, 0), (circuits.other, 1)):
        start = [0] * netlist.lines
        for each, bit in zip(circuits.free, bits):
            if each[number] is not None:
                start[each[number]] = int(bit)
        for each in circuits.pairs:
            if each[number] is not None and each.mark == "1":
                start[each[number]] = 1
        ends.append(ran(netlist.gates, start)[pair[number]] if pair[number] is not None else int(pair.mark))
    ends = ends[::-1] if swapped else ends
    (name,), names = circuits.names([pair]), circuits.names(circuits.free)
    on = " ".join(f"{each}={int(''.join(bits[line] for line in reversed(lines)), 2)}"
                  for each, lines in registers(names).items())
    return f"the circuits differ: `{name}` ends with {ends[0]} in the first and {ends[1]} in the second on {on}"
