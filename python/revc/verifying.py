"""Circuits of other tools against programs: their lines are brought into the order that `verify` wants."""
import re
from dataclasses import replace
from typing import Callable, Dict, List, Optional, Sequence, Union

from .defaults import NODES, WAY
from .errors import CircuitDiffers, CircuitRefused, Refused, RevcError, more
from .line_names import registers
from .maps import LineMap, Lines, Signature, found_by_names, mapped
from .netlists import SPARE, Netlist, read_text
from .program import Deadline
from .real import form_of
from .revs import RevsText
from .transforms import flip, moved

MOST = 1024  # bits that a program takes or puts out
NO_PLAIN_GATE = 14  # the status of a circuit with a gate that is not X, CX or CCX
REGISTER = re.compile(r"\bqreg\s+(\w+)\s*\[\s*(\d+)\s*\]\s*;")
Asks = Callable[[RevsText, str, int], str]  # `verify` of a `.real` text, of which so many lines, the last, are borrowed


def asking(nodes: int = NODES, by: str = WAY, timeout: Optional[float] = None, inplace: bool = False) -> Asks:
    """`verify` with its options; the time is that of all calls."""
    deadline = Deadline(timeout)
    return lambda program, text, borrowed: RevsText.verify(program, text, nodes, borrowed, by, deadline.left(), inplace)


def verify_text(program: RevsText, text: str, lines: Optional[Lines], borrow: int, asks: Asks, name: str = "circuit") -> str:
    """Prove that the circuit of a `.real` or OpenQASM text computes a program on every input; `name` is for refusals.

    A text that the program `revc` reads, with its lines in order, is given to it as it is; others are read here first.
    """
    if lines is None and is_in_order(program, text):
        try:
            return asks(program, text, borrow)
        except Refused as refusal:
            is_read_here = isinstance(refusal, CircuitRefused) and form_of(text) == "qasm"
            if not is_read_here and refusal.status != NO_PLAIN_GATE:
                raise
    return verify_netlist(program, read_text(text, name), lines, borrow, asks)


def is_in_order(program: RevsText, text: str) -> bool:
    """Whether no names of a text's head put its lines into another order than that in which they stand, and no line starts
    at 1, which the program `revc` does not look at."""
    if re.search(r"^\.constants\s.*1", text, re.MULTILINE):
        return False
    if form_of(text) == "qasm":
        names = [f"{name}[{place}]" for name, size in REGISTER.findall(text) for place in range(min(int(size), 16384))]
    else:
        names = next((line.split()[1:] for line in text.split("\n") if line.startswith(".variables")), [])
    try:
        found: Dict[str, List[int]] = registers(names)
    except RevcError:  # the program says what is wrong
        return True
    signature = Signature(program.name, program.params, program.out)
    lines = found_by_names(signature, found)
    return lines is None or mapped(lines, signature, found, len(names)).order == list(range(len(names)))


def verify_netlist(program: RevsText, netlist: Netlist, lines: Optional[Lines], borrow: int, asks: Asks) -> str:
    """Prove that a circuit computes a program on every input, with its lines as a map says, or by names, or in order."""
    signature = Signature(program.name, program.params, program.out)
    lines = found_by_names(signature, netlist.registers) if lines is None else lines
    if lines is None:
        found = in_turn(signature, netlist, borrow)
    else:
        found = mapped(lines, signature, netlist.registers, netlist.lines)
    return (verify_in_place if found.is_in_place else verify_apart)(program, netlist, found, asks)


def in_turn(signature: Signature, netlist: Netlist, borrow: int) -> LineMap:
    """The lines as they stand: inputs, outputs, work lines, and so many borrowed ones."""
    lines, inputs = list(range(netlist.lines)), signature.inputs
    outputs = inputs + sum(width for _, width in signature.out)
    if outputs + borrow > len(lines):
        raise RevcError(f"the circuit has {len(lines)} lines, and `{signature.name}` has {outputs} inputs and outputs: where "
                        "an output stands on the line of an input, say so by lines={..} (--map)")
    return LineMap(lines[:inputs], lines[inputs:outputs], lines[outputs:len(lines) - borrow], lines[len(lines) - borrow:])


# ---- Outputs on lines of their own


def verify_apart(program: RevsText, netlist: Netlist, lines: LineMap, asks: Asks) -> str:
    started = with_starts(netlist, lines.inputs + lines.borrowed, lines.work)
    return said(program, in_order(started, lines.order), len(lines.borrowed), asks)


def in_order(netlist: Netlist, order: Sequence[int]) -> Netlist:
    """The same circuit with its lines in another order, by their numbers."""
    place = [0] * netlist.lines
    for at, line in enumerate(order):
        place[line] = at
    return Netlist(tuple(netlist.names[line] for line in order), tuple(moved(netlist.gates, place)))


def with_starts(netlist: Netlist, given: Sequence[int], back: Sequence[int]) -> Netlist:
    """The circuit with an X at the front of each line that starts at 1, since `verify` starts all but inputs at 0, and one
    at the end where the line is one of `back`. The lines `given` have to be free."""
    for line in given:
        if netlist.marks[line] != "-":
            raise RevcError(f"`{netlist.names[line]}` starts at {netlist.marks[line]} by a mark of the file, and is mapped to "
                            "what may hold anything: take the mark out, or map another line")
    ones = [line for line in range(netlist.lines) if netlist.marks[line] == "1"]
    return replace(netlist, marks="", gates=tuple(map(flip, ones)) + netlist.gates
                   + tuple(flip(line) for line in ones if line in back))


def said(program: RevsText, ready: Netlist, borrowed: int, asks: Asks) -> str:
    """What `verify` says of a circuit whose lines are in order."""
    plain = replace(ready, names=tuple(f"l{line}" for line in range(ready.lines))).split()
    try:
        return asks(program, plain.real, borrowed + plain.lines - ready.lines)
    except CircuitDiffers as refusal:
        name = (*ready.names, SPARE)[refusal.line - 1]
        raise more(refusal, f"the circuit calls that line `{name}`") from None


# ---- Outputs in place of inputs


def verify_in_turn(program: RevsText, circuit: Union[str, Netlist], borrow: int, asks: Asks) -> str:
    """Asks `verify`, in place, about a circuit whose lines are in order: inputs, further outputs, work and borrowed lines."""
    netlist = read_text(circuit, "circuit") if isinstance(circuit, str) else circuit
    inputs, outputs = (sum(width for _, width in each) for each in (program.params, program.out))
    lines = list(range(netlist.lines))
    last = max(netlist.lines - borrow, 0)
    started = with_starts(netlist, lines[:inputs] + lines[last:], lines[max(inputs, outputs):last])
    return said(program, started, borrow, asks)


def verify_in_place(program: RevsText, netlist: Netlist, lines: LineMap, asks: Asks) -> str:
    """The circuit, a copy of some lines onto new ones, and the circuit backwards computes a program of these lines: one
    call for the outputs, and one for each 1,024 of the other lines, which have to keep their bits or end at 0."""
    started = with_starts(netlist, lines.inputs + lines.borrowed, lines.work)
    said(program, copied(started, lines.inputs, lines.outputs, lines.borrowed), len(lines.borrowed), asks)
    over = set(lines.outputs)
    rest = [line for line in lines.inputs + lines.borrowed + lines.work if line not in over]
    given = lines.inputs + lines.borrowed
    if len(given) > MOST:
        raise RevcError(f"inputs and borrowed lines are {len(given)}: at most {MOST:,} where outputs stand in place")
    for at in range(0, len(rest), MOST):
        some = rest[at:at + MOST]
        kept = keeping(program, [given.index(line) if line in given else None for line in some],
                       [netlist.names[line] for line in some], len(lines.borrowed))
        said(kept, copied(started, given, some, []), 0, asks)
    return "verified"


def copied(netlist: Netlist, inputs: Sequence[int], outputs: Sequence[int], borrowed: Sequence[int]) -> Netlist:
    """The circuit, a copy of the lines `outputs` onto new ones, and the circuit backwards; in the order of `verify`."""
    given = {*inputs, *borrowed}
    work = [line for line in range(netlist.lines) if line not in given]
    order = [*inputs, *range(netlist.lines, netlist.lines + len(outputs)), *work, *borrowed]
    copies = tuple(flip(line, netlist.lines + at) for at, line in enumerate(outputs))
    names = netlist.names + tuple(netlist.names[line] for line in outputs)
    place = [0] * len(names)
    for at, line in enumerate(order):
        place[line] = at
    gates = moved(netlist.gates + copies + netlist.gates[::-1], place)
    return Netlist(tuple(names[line] for line in order), tuple(gates))


def keeping(program: RevsText, inputs: Sequence[Optional[int]], names: Sequence[str], borrowed: int) -> RevsText:
    """A program that puts out some of its inputs, as they are, and zeros; it has the parameters of another one."""
    params = [*program.params, *([("borrowed", borrowed)] if borrowed else [])]
    total = sum(width for _, width in params)
    bits = ["false" if place is None else f"x.[{place}]" for place in inputs]
    return RevsText(f"main (x : bool[{total}]) = reg [{'; '.join(bits)}]\n", program.name, params,
                    [(name, 1) for name in names])
