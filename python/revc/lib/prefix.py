"""Sums, differences and comparisons with few ANDs one behind the other. `+`, `-` and `<` take fewer, all in a row."""
from typing import List, Union

from ..arithmetic import library
from ..errors import RevcError
from ..operations import Cat, both, like, offset, unsigned
from ..trace import one_name
from ..values import Bits, Operand
from .carries import Carries, best_form, least_depth

Depth = Union[int, str]


def budget(depth: Depth, n: int, title: str) -> int:
    """The most ANDs one behind the other: for "log" it is log2 n + 1, rounded up."""
    if depth == "log":
        return (n - 1).bit_length() + 1
    if not isinstance(depth, int) or isinstance(depth, bool) or depth < 1:
        raise RevcError(f'{title}: a depth is "log", which is log2 n + 1, or a number from 1 up, and not {depth!r}')
    return depth


def carries(x: List[Bits], y: List[Bits], depth: int, is_all: bool, title: str) -> List[Bits]:
    """The carries out of the places of x + y, all or the last one alone, at this depth."""
    n = len(x)
    form = best_form(n, min(depth, n), is_all)
    if form is None:
        raise RevcError(f"{title}: a depth of {depth} is less than there is: give {least_depth(n, is_all)} or more")
    found = Carries(x, y, form)
    return found.all() if is_all else [found.last()]


@one_name
def add(x: Operand, y: Operand, carry: bool = False, depth: Depth = "log") -> Bits:
    """x + y at their width, with `carry` one bit wider, by the fewest ANDs that are known at a depth.

    `depth` is how many ANDs are one behind the other at most: a number, or "log" for log2 n + 1. The Toffoli depth of a
    circuit is at most twice that under the plan `shallow`, where there are lines enough.
    """
    kind, y = both(x, y, "+")
    x, y = unsigned(kind, y, carry)
    n = x.width
    most, places = budget(depth, n, "add"), n if carry else n - 1
    if not places:
        return like(kind, x ^ y)

    def body(x: Bits, y: Bits) -> Bits:
        found = carries(list(x[:places]), list(y[:places]), most, True, "add")
        sums = [x[0] ^ y[0]] + [x[i] ^ y[i] ^ found[i - 1] for i in range(1, n)]
        return Cat(sums + found[n - 1:])
    return like(kind, library(f"add{'c' * carry}{n}_{most}", [x, y], body))


@one_name
def sub(x: Operand, y: Operand, borrow: bool = False, depth: Depth = "log") -> Bits:
    """x - y at their width, with `borrow` one bit wider, which is 1 where x < y; `depth` as in `add`."""
    x, y = both(x, y, "-")
    total = add(~x, y, borrow, depth)  # x - y is not (not x + y), and the borrow is that sum's carry
    return Cat(~total[:x.width], total[x.width]) if borrow else ~total


@one_name
def less(x: Operand, y: Operand, depth: Depth = "log") -> Bits:
    """Whether x < y, by the fewest ANDs that are known at a depth; `depth` as in `add`."""
    x, y = map(offset, both(x, y, "<"))
    n, most = x.width, budget(depth, x.width, "less")

    def body(x: Bits, y: Bits) -> Bits:
        return carries(list(~x), list(y), most, False, "less")[0]
    return library(f"lt{n}_{most}", [x, y], body)
