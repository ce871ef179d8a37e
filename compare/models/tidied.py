"""`tidy`: fewer flips with the same line map, by its recipe as it is told, and nothing cleverer.

A flip is a pair of its controls, in their order, and its target. The recipe has two steps. While a pair of flips
cancels, the one with the least first place, and then the least second place, goes out. Then the first block that is
longer than its elimination is replaced by it, and all begins again.
"""
from collections import Counter
from itertools import product
from typing import Dict, List, Optional, Tuple

Flip = Tuple[Tuple[int, ...], int]
MOST_BLOCK_LINES = 64


def are_alike(one: Flip, other: Flip) -> bool:
    return one[1] == other[1] and set(one[0]) == set(other[0])


def are_free(one: Flip, other: Flip) -> bool:
    return one[1] not in other[0] and other[1] not in one[0]


def first_pair(flips: List[Flip]) -> Optional[Tuple[int, int]]:
    for i, first in enumerate(flips):
        for j in range(i + 1, len(flips)):
            if are_alike(first, flips[j]):
                return i, j
            if not are_free(first, flips[j]):
                break
    return None


def lines_of(flips: List[Flip]) -> List[int]:
    return sorted({line for controls, target in flips for line in controls + (target,)})


def is_block(flips: List[Flip]) -> bool:
    return all(len(controls) == 1 for controls, _ in flips) and len(lines_of(flips)) <= MOST_BLOCK_LINES


def blocks_of(flips: List[Flip]) -> List[Tuple[int, int]]:
    """Where each block begins, and where it ends."""
    blocks = []
    start = 0
    while start < len(flips):
        end = start
        while end < len(flips) and is_block(flips[start : end + 1]):
            end += 1
        if end > start:
            blocks.append((start, end))
        start = max(end, start + 1)
    return blocks


def elimination(block: List[Flip]) -> List[Flip]:
    lines = lines_of(block)
    rows = {line: {line} for line in lines}
    for (control,), target in block:
        rows[target] = rows[target] ^ rows[control]
    noted: List[Flip] = []

    def add(line: int, onto: int) -> None:
        rows[onto] = rows[onto] ^ rows[line]
        noted.append(((line,), onto))

    for column in lines:
        if column not in rows[column]:
            add(next(line for line in lines if line > column and column in rows[line]), column)
        for line in lines:
            if line != column and column in rows[line]:
                add(column, line)
    return noted[::-1]


def tidied(flips: List[Flip]) -> List[Flip]:
    flips = list(flips)
    while True:
        while pair := first_pair(flips):
            i, j = pair
            del flips[j], flips[i]
        for start, end in blocks_of(flips):
            shorter = elimination(flips[start:end])
            if len(shorter) < end - start:
                flips[start:end] = shorter
                break
        else:
            return flips


def is_tidy(flips: List[Flip]) -> bool:
    blocks = (flips[start:end] for start, end in blocks_of(flips))
    return first_pair(flips) is None and all(len(block) <= len(elimination(block)) for block in blocks)


def depths(flips: List[Flip]) -> Tuple[int, int]:
    """The depth, and the Toffoli depth: on the way of each flip along shared lines the most flips, and the most CCX."""
    on: Dict[int, Tuple[int, int]] = {}
    for controls, target in flips:
        before = [on.get(line, (0, 0)) for line in controls + (target,)]
        depth = max(each for each, _ in before) + 1, max(each for _, each in before) + (len(controls) == 2)
        on.update({line: depth for line in controls + (target,)})
    return max((each for each, _ in on.values()), default=0), max((each for _, each in on.values()), default=0)


def is_reordered(old: List[Flip], new: List[Flip]) -> bool:
    """Whether flips are the same, each as often, and neither deeper nor of a greater Toffoli depth."""
    return Counter(old) == Counter(new) and all(here <= most for here, most in zip(depths(new), depths(old)))


def line_map(flips: List[Flip], bits: Tuple[bool, ...]) -> Tuple[bool, ...]:
    now = list(bits)
    for controls, target in flips:
        if all(now[control] for control in controls):
            now[target] = not now[target]
    return tuple(now)


def is_tidied(lines: int, old: List[Flip], new: List[Flip]) -> bool:
    """What is promised of any answer, on few lines."""
    return (
        len(new) <= len(old)
        and is_tidy(new)
        and all(line_map(new, bits) == line_map(old, bits) for bits in product((False, True), repeat=lines))
    )
