"""Carries of a sum at a logarithmic depth, by prefixes.

Blocks of places say all at once whether they give a carry by themselves, and whether they pass one on. Such pairs are
joined by halves, and then carries go down into the blocks (R. Brent, H. Kung: A regular layout for parallel adders, 1982;
J. Sklansky: Conditional-sum addition logic, 1960). The sizes of the blocks are tried out, so that few ANDs are left at the
depth that is asked for: the first block, which no carry enters, and the last one take an AND for each place, others three.
"""
import functools
import itertools
from typing import Any, Dict, Iterator, List, NamedTuple, Optional, Protocol, Sequence, Tuple


class Bit(Protocol):
    """A bit of a circuit, or a Level."""

    def __and__(self, other: Any) -> Any: ...

    def __xor__(self, other: Any) -> Any: ...


Pair = Tuple[Bit, Bit]  # whether places give a carry, and whether they pass one on
LARGEST = 8  # places of a block that is neither the first nor the last one


class Form(NamedTuple):
    """How many places the blocks have; and whether carries go down by halves, which takes fewer ANDs, or at once."""

    first: int
    between: int
    last: int
    is_halved: bool = True

    def blocks(self, n: int) -> List[Tuple[int, int]]:
        """From which place to which each block goes, of n places."""
        if self.first + self.last > n:
            return [(0, n)]
        starts = [0, *range(self.first, n - self.last, self.between), n - self.last]
        return list(zip(starts, starts[1:] + [n]))


class Level:
    """A bit of which only its depth is known, the ANDs on the longest path to it; `ands` are the depths of all ANDs."""

    def __init__(self, depth: int, ands: List[int]):
        self.depth, self.ands = depth, ands

    def __and__(self, other: "Level") -> "Level":
        depth = max(self.depth, other.depth) + 1
        self.ands.append(depth)
        return Level(depth, self.ands)

    def __xor__(self, other: "Level") -> "Level":
        return self if self.depth >= other.depth else other


def joined(high: Pair, carry: Bit) -> Bit:
    """The carry out of places into which a carry comes."""
    return high[0] ^ (high[1] & carry)


def chain(x: Sequence[Bit], y: Sequence[Bit], carry: Optional[Bit] = None) -> List[Bit]:
    """The carries out of places, one behind the other, where `carry`, or none, comes into the first."""
    out = []
    for a, b in zip(x, y):
        carry = a & b if carry is None else ((a ^ carry) & (b ^ carry)) ^ carry
        out.append(carry)
    return out


def passes(x: Sequence[Bit], y: Sequence[Bit]) -> List[Bit]:
    """Whether all places from the first up to each pass on a carry."""
    out = [x[0] ^ y[0]]
    for a, b in zip(x[1:], y[1:]):
        out.append(out[-1] & (a ^ b))
    return out


def middle(low: int, high: int) -> int:
    """Where a range is cut: the lower part is the greatest power of two below its size."""
    return low + (1 << (high - low - 1).bit_length() - 1)


class Carries:
    """The carries of x + y, lists of bits from the lowest up."""

    def __init__(self, x: Sequence[Bit], y: Sequence[Bit], form: Form):
        self.x, self.y, self.form, self.blocks = x, y, form, form.blocks(len(x))
        self.given: List[List[Bit]] = [chain(x[low:high], y[low:high]) for low, high in self.blocks[:-1]]
        self.passed: List[List[Bit]] = [passes(x[low:high], y[low:high]) for low, high in self.blocks[1:-1]]
        self.pairs: Dict[Tuple[int, int], Pair] = {}
        self.carries: Dict[int, Bit] = {}

    def pair(self, i: int, j: int) -> Pair:
        """The pair of the blocks i to j - 1, of which none is the first or the last one."""
        if (i, j) not in self.pairs:
            if j - i == 1:
                self.pairs[i, j] = self.given[i][-1], self.passed[i - 1][-1]
            else:
                k = middle(i, j)
                low, high = self.pair(i, k), self.pair(k, j)
                self.pairs[i, j] = joined(high, low[0]), high[1] & low[1]
        return self.pairs[i, j]

    def out_of(self, j: int) -> Bit:
        """The carry out of the blocks 0 to j - 1."""
        if j not in self.carries:
            k = middle(0, j) if j > 1 else 0
            self.carries[j] = self.given[0][-1] if j == 1 else joined(self.pair(k, j), self.out_of(k))
        return self.carries[j]

    def halved(self, i: int, j: int, carry: Optional[Bit]) -> List[Bit]:
        """The carries out of the blocks i to j - 2, where `carry`, or none, comes into block i."""
        if j - i == 1:
            return []
        k = middle(i, j)
        between = self.out_of(k) if carry is None else joined(self.pair(i, k), carry)
        return self.halved(i, k, carry) + [between] + self.halved(k, j, between)

    def prefixes(self, i: int, j: int) -> List[Pair]:
        """The pairs of the blocks from i up to each one below j."""
        if j - i == 1:
            return [self.pair(i, j)]
        k = middle(i, j)
        low, high = self.prefixes(i, k), self.prefixes(k, j)
        return low + [(joined(each, low[-1][0]), each[1] & low[-1][1]) for each in high]

    def at_once(self, j: int) -> List[Bit]:
        """The carries out of the blocks 0 to j - 1."""
        if j == 1:
            return [self.given[0][-1]]
        k = middle(0, j)
        low = self.at_once(k)
        return low + [joined(each, low[-1]) for each in self.prefixes(k, j)]

    def all(self) -> List[Bit]:
        """The carry out of each place."""
        if len(self.blocks) == 1:
            return chain(self.x, self.y)
        count = len(self.blocks)
        out_of = self.halved(0, count, None) if self.form.is_halved else self.at_once(count - 1)
        out = list(self.given[0])
        for given, passed, into, out_of_it in zip(self.given[1:], self.passed, out_of, out_of[1:]):
            out += [joined(each, into) for each in zip(given[:-1], passed)] + [out_of_it]
        low = self.blocks[-1][0]
        return out + chain(self.x[low:], self.y[low:], out_of[-1])

    def last(self) -> Bit:
        """The carry out of the last place."""
        if len(self.blocks) == 1:
            return chain(self.x, self.y)[-1]
        (low, high), count = self.blocks[-1], len(self.blocks)
        given, passed = chain(self.x[low:], self.y[low:]), passes(self.x[low:], self.y[low:])
        self.given.append(given)
        self.passed.append(passed)
        return self.out_of(count)


def measured(n: int, form: Form, is_all: bool) -> Tuple[int, int]:
    """How many ANDs the carries of n places take, all or the last one alone, and their depth."""
    ands: List[int] = []
    bits = [Level(0, ands)] * n
    carries = Carries(bits, bits, form)
    depth = max(each.depth for each in carries.all()) if is_all else carries.last().depth
    return len(ands), depth


def forms(n: int, depth: int, is_all: bool) -> Iterator[Tuple[int, Form]]:
    """Forms that may have this depth, each with a number of ANDs below which it is not."""
    for first in range(1, min(n - 1, depth) + 1):
        for between in range(1, LARGEST + 1):
            for last in range(1, min(n - first, depth if is_all else LARGEST) + 1):
                inner = n - first - last
                blocks = -(-inner // between) + (1 if is_all else 2)  # whose carries are joined
                known = max(first, between - 1 if inner >= between else 1) + (blocks - 1).bit_length()
                if known + (last if is_all else 0) <= depth:
                    ands = first + (3 * inner - blocks + 1 + last if is_all else 2 * (n - first))
                    yield ands, Form(first, between, last)
                    if is_all:
                        yield ands, Form(first, between, last, False)


@functools.lru_cache(maxsize=None)
def best_form(n: int, depth: int, is_all: bool) -> Optional[Form]:
    """The form of the fewest ANDs for the carries of n places at this depth, if there is one."""
    best, fewest = (Form(n, 1, 1), n) if n <= depth else (None, 1 << 30)
    for least, form in sorted(forms(n, depth, is_all)):
        if least >= fewest:
            break
        ands, found = measured(n, form, is_all)
        if found <= depth and ands < fewest:
            best, fewest = form, ands
    return best


def least_depth(n: int, is_all: bool) -> int:
    """The least depth that a form has."""
    return next(depth for depth in itertools.count((n - 1).bit_length()) if best_form(n, depth, is_all))
