"""Lists of gates that are made of gates: on other lines, and under controls."""
from typing import Iterable, List, Sequence

from .gates import Control, Gate


def flip(*lines: int) -> Gate:
    """The X of the last line, with the others as controls."""
    return Gate(tuple((line, True) for line in lines[:-1]), lines[-1:])


def swap(*lines: int) -> Gate:
    """The swap of the last two lines, with the others as controls."""
    return Gate(tuple((line, True) for line in lines[:-2]), lines[-2:])


def is_plain(gate: Gate) -> bool:
    """Whether it is X, CX or CCX, all controls positive."""
    return len(gate.targets) == 1 and len(gate.controls) < 3 and all(bit for _, bit in gate.controls)


def moved(gates: Iterable[Gate], place: Sequence[int]) -> List[Gate]:
    """The same gates with line i at place[i]."""
    return [Gate(tuple((place[line], bit) for line, bit in gate.controls), tuple(place[line] for line in gate.targets))
            for gate in gates]


def controlled(gates: Sequence[Gate], controls: Sequence[Control]) -> List[Gate]:
    """What the gates do where all controls are met, and nothing where not.

    Gates at the front that stand at the end in reverse order undo each other, and need no control.
    """
    around, count = 0, len(gates)
    while 2 * around < count - 1 and gates[around] == gates[count - 1 - around]:
        around += 1
    inner = [Gate(tuple(controls) + gate.controls, gate.targets) for gate in gates[around:count - around]]
    return [*gates[:around], *inner, *gates[count - around:]]


def ran(gates: Iterable[Gate], bits: Sequence[int]) -> List[int]:
    """What lines that start with these bits end with."""
    now = list(bits)
    for gate in gates:
        if all(now[line] == bit for line, bit in gate.controls):
            if len(gate.targets) == 1:
                now[gate.targets[0]] ^= 1
            else:
                low, high = gate.targets
                now[low], now[high] = now[high], now[low]
    return now
