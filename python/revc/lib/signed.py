"""Signed numbers, in two's complement. Their sums, comparisons and choices are those of Bits, and cost as much."""
from typing import List, NoReturn

from ..arithmetic import library, summed
from ..errors import KindError
from ..operations import Cat, Const, Mux, add, is_bits, plain, said, spelled, widen
from ..trace import one_name
from ..values import Bits, Operand


class Signed(Bits):
    """A number of `width` bits from -2^(n - 1) up to below 2^(n - 1), in two's complement, place 0 lowest.

    `+ - & | ^ ~ <<` keep the width and wrap, `>>` keeps the sign, `*` has the sum of both widths; comparisons have one
    bit. Both sides have one width and are Signed; a number of Python's takes the width of the value beside it. Places and
    slices are Bits, `widen` copies the sign, and `abs(a)` is Bits, since it may be 2^(n - 1).
    """
    is_signed = True

    @property
    def sign(self) -> Bits:
        """1 where the number is less than 0."""
        return self[-1]

    def as_unsigned(self) -> Bits:
        """The same bits as an unsigned number."""
        return plain(self)

    @one_name
    def __abs__(self) -> Bits:
        n = self.width

        def body(x: Bits) -> Bits:
            return add(x ^ Cat([x[n - 1]] * n), widen(x[n - 1], n))
        return plain(self) if n == 1 else library(f"abs{n}", [self], body)

    @one_name
    def __rshift__(self, k: Operand) -> "Signed":
        n, sign = self.width, self[-1]

        def moved(x: Bits, places: int) -> Bits:
            places = min(places, n)
            return x if places == 0 else Cat(x[places:] if places < n else [], [sign] * places)
        if not is_bits(k):
            if not isinstance(k, int) or k < 0:
                raise KindError(f"{said(self)} >> {k!r}: a shift is a whole number from 0 up, or Bits")
            return Signed(moved(plain(self), k).node)
        out, few = plain(self), (n - 1).bit_length()
        for i, bit in enumerate(k[:few] if 0 < few < k.width else k if few else []):
            out = Mux(bit, moved(out, 1 << i), out)
        return Signed((Mux(k[few:].any(), Cat([sign] * n), out) if few < k.width else out).node)

    @one_name
    def __mul__(self, other: Operand) -> "Signed":
        if not is_bits(other):
            other = as_signed(Const(other, other.bit_length() + 1) if isinstance(other, int) else other)
        if not other.is_signed:
            raise KindError(f"{said(self)} * {said(other)}: {said(self)} is Signed and {said(other)} is not: "
                            f"as_signed({spelled(other)}) or {spelled(self)}.as_unsigned()")
        return Signed(product(plain(self), plain(other)).node)

    __rmul__ = __mul__

    def __divmod__(self, other: object) -> NoReturn:
        raise KindError(f"divmod({said(self)}, ..): Signed numbers are divided by their sizes: divmod(abs(..), abs(..)), "
                        "and the sign is put back")

    __floordiv__ = __mod__ = __rdivmod__ = __rfloordiv__ = __rmod__ = __divmod__


def product(x: Bits, y: Bits) -> Bits:
    """The product of signed numbers (C. Baugh, B. Wooley: A two's complement parallel array multiplication algorithm, 1973).

    A product of two places with one sign among them counts less than 0: -p is not p less 1.
    """
    n, m = x.width, y.width

    def body(x: Bits, y: Bits) -> Bits:
        columns: List[List[Bits]] = [[] for _ in range(n + m)]
        less = 0
        for i in range(n):
            for j in range(m):
                p = x[i] & y[j]
                is_less = (i == n - 1) != (j == m - 1)
                columns[i + j].append(~p if is_less else p)
                less += is_less << i + j
        for k in range(n + m):
            columns[k] += [Const(1, 1)] if -less >> k & 1 else []
        return Cat(summed(columns)[:n + m])
    return library(f"smul{n}_{m}", [x, y], body)


def as_signed(x: Bits) -> Signed:
    """The bits of x as a signed number: its highest place is the sign."""
    if not is_bits(x):
        raise KindError(f"as_signed({x!r}): Bits are wanted: as_signed(Const({x!r}, n))")
    return Signed(x.node)
