"""Functions that keep their inputs' lines: each with its inverse, and the circuit in place that `compile_in_place` gives.

    python3 python/examples/in_place.py
"""
import sys
from pathlib import Path
from typing import Any, Callable, Iterator, List, NamedTuple, Optional, Tuple

sys.dont_write_bytecode = True
sys.path[:0] = [str(Path(__file__).resolve().parent.parent)]

from revc import U1, Bits, Mux, Oracle, assume, lib, oracle, table

PRESENT = [12, 5, 6, 11, 9, 0, 10, 13, 3, 14, 15, 8, 4, 7, 1, 2]


class Placed(NamedTuple):
    """A function with its title, its inverse where one is wanted, and what it is by Python's own arithmetic."""

    oracle: Oracle
    title: str
    compute: Callable[..., Any]
    inverse: Optional[Oracle] = None
    below: int = 0  # what its numbers are below, where that is less than their bits say

    def most(self, width: int) -> int:
        """What a parameter of so many bits is below."""
        return min(self.below or 1 << width, 1 << width)


def sums(n: int) -> Placed:
    @oracle
    def added(a: Bits[n], b: Bits[n]):
        return a, a + b
    return Placed(added, f"a, b to a, a + b, of {n} bits", lambda a, b: (a, (a + b) % (1 << n)))


def sums_modulo(m: int) -> Placed:
    n = (m - 1).bit_length()

    @oracle
    def added(a: Bits[n], b: Bits[n]):
        assume(a < m)
        assume(b < m)
        return a, lib.mod_add(a, b, m)

    @oracle
    def taken(a: Bits[n], s: Bits[n]):
        return a, lib.mod_sub(s, a, m)
    return Placed(added, f"a, b to a, (a + b) mod {m}", lambda a, b: (a, (a + b) % m), taken, m)


def doubled(m: int) -> Placed:
    n = (m - 1).bit_length()

    @oracle
    def once(c: U1, x: Bits[n]):
        assume(x < m)
        return c, Mux(c, lib.mod_double(x, m), x)

    @oracle
    def back(c: U1, y: Bits[n]):
        return c, Mux(c, lib.mod_halve(y, m), y)
    return Placed(once, f"c, x to c, x or 2x mod {m} by c", lambda c, x: (c, x * 2 % m if c else x), back, m)


@oracle
def present(x: Bits[4]):
    return lib.present_sbox(x)


@oracle
def present_back(x: Bits[4]):
    return table(x, [PRESENT.index(y) for y in range(16)])


@oracle
def aes(x: Bits[8]):
    return lib.aes_sbox(x)


@oracle
def aes_back(x: Bits[8]):
    return lib.aes_sbox_inverse(x)


IN_PLACE: List[Placed] = [
    *[sums(n) for n in (8, 16, 32, 64)], sums_modulo(21), sums_modulo(2 ** 16 - 15), doubled(21),
    Placed(present, "S-box of PRESENT", lambda x: PRESENT[x], present_back),
    Placed(aes, "S-box of AES", lambda x: aes(x=x), aes_back),
]


def counted() -> Iterator[Tuple[str, str]]:
    for each in IN_PLACE:
        yield each.title, str(each.oracle.compile_in_place(each.inverse).cost)


if __name__ == "__main__":
    for title, cost in counted():
        print(f"{title}: {cost}")
