"""The gates of a circuit on many rows at once: a number of Python's for each line, with a bit for each row."""
from typing import Any, Dict, List, Sequence

from revc import Circuit


def planes(numbers: Sequence[int], width: int) -> List[int]:
    """For each place of numbers the bits that they have there, the first number's highest."""
    text = "".join(format(number, f"0{width}b") for number in numbers)
    return [int(text[width - 1 - place::width], 2) for place in range(width)]


def results(circuit: Circuit, rows: Sequence[Dict[str, int]]) -> List[Any]:
    """What a circuit puts out for rows of numbers, which have to fit; it has to leave its other lines as it should."""
    source, every = circuit.source, (1 << len(rows)) - 1
    start = [plane for name, width in source.params for plane in planes([row[name] for row in rows], width)]
    lines = start + [0] * (circuit.lines - len(start))
    for *controls, target in circuit.gates:
        met = every
        for control in controls:
            met &= lines[control]
        lines[target] ^= met
    low, high = len(start), len(start) + source.outputs
    assert lines[:low] == start and not any(lines[high:]), "the circuit is not clean"
    columns = [format(plane, f"0{len(rows)}b") for plane in lines[low:high]]
    return [source.value("".join(bits)) for bits in zip(*columns)]
