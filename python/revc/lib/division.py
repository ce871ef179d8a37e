"""Quotients by a value. Those by a number that is known, as `divmod` of Python's has them, take fewer ANDs.

The first steps restore: y is taken away where it is not greater, and what is left has as many bits as there were steps.
Then y is taken away, or added where the last step took too much, in one sum a step, and at the end once more at most.
"""
from typing import List, Tuple

from ..arithmetic import library, quotient
from ..errors import KindError, WidthError
from ..operations import Cat, Const, Mux, add, is_bits, said, sub, widen
from ..trace import one_name
from ..values import Bits, Operand


def ands(n: int, w: int, steps: int) -> int:
    """The ANDs of a quotient of n bits by w with so many restoring steps."""
    restoring = steps * (steps + 2) - (steps == w) + (w - 2 if steps < w else 0)
    return restoring + ((n - steps) * w + 2 * w - 1 if steps < n else 0)


def restored(x: Bits, y: Bits, steps: int) -> Tuple[List[Bits], Bits]:
    """The first bits of the quotient, the highest first, and what is left of so many bits of x."""
    n, bits, rest = x.width, [], Const(0, 1)
    above = [] if steps == y.width else [y[steps:].any()]  # whether y has a 1 in place i or above it, i falling
    for i in range(steps - 1, 0, -1):
        above.append(y[i] | above[-1] if above else y[i])
    for step in range(1, steps + 1):
        rest = Cat(x[n - step], rest)[:step]
        difference = sub(rest, y[:step], borrow=True)
        fits = ~difference[step]
        bits.append(fits & ~above[-step] if step <= len(above) else fits)
        rest = Mux(bits[-1], difference[:step], rest)
    return bits, rest


def turned(x: Bits, y: Bits, bits: List[Bits], rest: Bits) -> Bits:
    """The further bits of the quotient, behind those that are there; what is left of x at the end."""
    w, keeps = y.width, Const(1, 1)  # whether the last step took no more than there was
    rest = widen(rest, w)
    for i in range(x.width - len(bits) - 1, -1, -1):
        turn = Cat([keeps] * (w + 1))
        rest = add(Cat(keeps, x[i], rest), Cat(keeps, widen(y, w + 1) ^ turn))[1:]  # keeps + keeps carries into the sum
        keeps = ~rest[w]
        bits.append(keeps)
        rest = rest[:w]
    return add(rest, y & Cat([~keeps] * w))


@one_name
def divmod(x: Bits, y: Operand) -> Tuple[Bits, Bits]:
    """The quotient of x by y, at the width of x, and the remainder, at that of y.

    What they are where y is 0 is not said: `require(y != 0)` has it proved that this does not happen.
    """
    if not is_bits(x):
        raise WidthError(f"divmod({x!r}, {said(y)}): give the number a width: Const({x!r}, n)")
    if x.is_signed or is_bits(y) and y.is_signed:
        raise KindError(f"divmod({said(x)}, {said(y)}): Signed numbers are divided by their sizes: divmod(abs(..), abs(..)), "
                        "and the sign is put back")
    if not is_bits(y) or y.node.kind == "const":
        return quotient(x, y)
    n, w = x.width, y.width
    steps = min(range(1, min(n, w) + 1), key=lambda steps: ands(n, w, steps))

    def body(x: Bits, y: Bits) -> Bits:
        bits, rest = restored(x, y, steps)
        rest = turned(x, y, bits, rest) if steps < n else widen(rest, w)
        return Cat(*bits[::-1], rest)
    out = library(f"divmod{n}_{w}", [x, y], body)
    return out[:n], out[n:]
