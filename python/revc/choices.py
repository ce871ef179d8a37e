"""Choices by a value among several others."""
from typing import List, Mapping, Optional, Sequence

from .errors import RevcError, WidthError
from .operations import Mux, as_bits, number, said
from .tables import table
from .trace import one_name
from .values import Bits, Operand

Cases = Mapping[Optional[int], Operand]  # None is for all numbers that have no case


@one_name
def Switch(x: Bits, cases: Cases) -> Bits:
    """The case of the value of x. The case None is for all others. Of constants alone it is a table."""
    check_cases(x, cases)
    values = [each for each in cases.values() if isinstance(each, Bits)]
    if x.width <= 10 and all(number(each) is not None for each in values):
        known = {key: number(each) if isinstance(each, Bits) else each for key, each in cases.items()}
        return table(x, [known.get(key, known.get(None)) for key in range(1 << x.width)],
                     values[0].width if values else None)
    if not values:
        raise WidthError("Switch(..): give one of the numbers a width: Const(value, n)")
    get = {key: as_bits(each, values[0].width, values[0]) for key, each in cases.items()}
    keys = sorted(key for key in get if key is not None)
    muxes, dry = count_muxes(x.width, keys), values[0].width
    if None in get and len(keys) * (x.width - 1 + dry) < muxes * dry:  # few cases of many: each by a comparison
        out = get[None]
        for key in keys:
            out = Mux(x == key, get[key], out)
        return out

    def tree(low: int, i: int, keys: List[int]) -> Bits:
        if not keys or i == 0:
            return get[keys[0] if keys else None]
        half = low + (1 << i - 1)
        zero = tree(low, i - 1, [key for key in keys if key < half])
        one = tree(half, i - 1, [key for key in keys if key >= half])
        return zero if zero is one else Mux(x[i - 1], one, zero)
    return tree(0, x.width, keys)


def check_cases(x: Bits, cases: Cases) -> None:
    for key in cases:
        if key is not None and (not isinstance(key, int) or not 0 <= key < 1 << x.width):
            raise WidthError(f"Switch: {said(x)} has {x.width} bits and is never {key!r}")
    if None not in cases and len(cases) < 1 << x.width:
        missing = next(key for key in range(1 << x.width) if key not in cases)
        raise RevcError(f"Switch: there is no case for {missing}; None: .. is for all others")


def count_muxes(width: int, keys: Sequence[int], low: int = 0) -> int:
    """How many choices a tree makes, by the bits of a number of `width` bits, whose cases have these keys."""
    if not keys or width == 0:
        return 0
    half = low + (1 << width - 1)
    below, above = [key for key in keys if key < half], [key for key in keys if key >= half]
    return 1 + count_muxes(width - 1, below, low) + count_muxes(width - 1, above, half)
