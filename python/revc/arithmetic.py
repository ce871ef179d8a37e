"""Products, quotients by constants and counts: made of other operations, as functions of the text."""
import itertools
from typing import Any, Callable, List, Sequence, Tuple

from .errors import KindError, KnownLater, WidthError
from .operations import Cat, Const, Mux, add, bits, call, number, said, scope, spelled, sub, widen
from .trace import Node, current, one_name
from .values import Bits, Operand, means

KARATSUBA = 16  # bits from which three products of half the width are cheaper than four


def library(title: str, args: Sequence[Bits], body: Callable[..., Bits], key: Any = None) -> Bits:
    """A function of the library, traced once for each program and key."""
    program = current()
    key = title if key is None else key
    if key not in program.library:
        def traced(nodes: List[Node]) -> Any:
            return [body(*map(Bits, nodes)).node], None
        params = [("xyz"[i], each.width) for i, each in enumerate(args)]
        name, results, _ = program.function(title, params, traced, top=True)
        program.library[key] = name, sum(each.width for each in results)
    name, width = program.library[key]
    return bits(scope().add("call", name, [each.node for each in args], width))


# ---- Products


@means("*")
def product(x: Bits, y: Operand) -> Bits:
    """The whole product: as many bits as both factors have, or as x and a number have."""
    if not isinstance(y, Bits):
        if not isinstance(y, int) or y < 0:
            raise WidthError(f"{said(x)} * {y!r}: a constant factor is a whole number from 0 up")
        return times(x, y, max(y.bit_length(), 1))
    if number(y) is not None:
        return times(x, y.node.data, y.width)
    if number(x) is not None:
        return times(y, x.node.data, x.width)
    if x.width == 1 or y.width == 1:
        one, many = (x, y) if x.width == 1 else (y, x)
        zero = Const(0, many.width)
        return widen(one & many if many.width == 1 else Mux(one, many, zero), x.width + y.width)
    if x.node is y.node:
        return library(f"square{x.width}", [x], square)
    if x.width == y.width >= KARATSUBA:
        return library(f"mul{x.width}_{x.width}", [x, y], karatsuba)
    return call("mul", (x.width, y.width), [x, y], x.width + y.width)


def karatsuba(x: Bits, y: Bits) -> Bits:
    """Three products of half the width for four (Karatsuba, Ofman 1962)."""
    n, half = x.width, x.width // 2
    k = n - half
    low, high = x[:half] * y[:half], x[half:] * y[half:]
    both = add(widen(x[:half], k), x[half:], carry=True) * add(widen(y[:half], k), y[half:], carry=True)
    width = 2 * k + 1  # so many bits has what is between the two
    middle = both[:width] - widen(low, width) - widen(high, width)
    return Cat(low[:half], Cat(low[half:], high) + widen(middle, 2 * n - half))


def square(x: Bits) -> Bits:
    """Each product of two places once, one column higher."""
    columns: List[List[Bits]] = [[] for _ in range(2 * x.width)]
    for i in range(x.width):
        columns[2 * i].append(x[i])
        for j in range(i):
            columns[i + j + 1].append(x[i] & x[j])
    return Cat(*summed(columns))[:2 * x.width]


def signed_digits(c: int) -> List[Tuple[int, int]]:
    """c as a sum of d * 2^k with d = 1 or -1, no two k beside each other: as (k, d)."""
    found, k = [], 0
    while c:
        if c & 1:
            d = 2 - (c & 3)
            found.append((k, d))
            c -= d
        c, k = c >> 1, k + 1
    return found


def times(x: Bits, c: int, width: int) -> Bits:
    """x times c, a number of `width` bits."""
    n, whole = x.width, x.width + width
    if c & c - 1 == 0:
        k = c.bit_length() - 1
        return Const(0, whole) if not c else widen(Cat(Const(0, k), x) if k else x, whole)
    low = (c & -c).bit_length() - 1
    if low:
        return Cat(Const(0, low), times(x, c >> low, width - low))
    digits = signed_digits(c)
    plain = [(k, 1) for k in range(width) if c >> k & 1]
    if not any(d < 0 for _, d in digits) or (len(digits) - 1) * n + digits[-1][0] - 2 >= (len(plain) - 1) * n:
        digits = plain

    def total(x: Bits, places: List[int]) -> Bits:
        acc = Cat(Const(0, places[0]), x) if places[0] else x
        for k in places[1:]:
            over = max(acc.width - k, n)
            high = widen(acc, max(acc.width, k + 1))[k:]
            below = widen(acc, k)[:k] if acc.width < k else acc[:k]
            acc = Cat(below, add(widen(high, over), widen(x, over), carry=True))
        return acc

    def body(x: Bits) -> Bits:
        def fitted(value: Bits) -> Bits:
            return value[:whole] if value.width > whole else widen(value, whole)
        plus, minus = [[k for k, d in digits if d == sign] for sign in (1, -1)]
        return sub(fitted(total(x, plus)), fitted(total(x, minus))) if minus else fitted(total(x, plus))
    return library(f"times{c}_{n}", [x], body, ("times", c, n, width)) if n > 1 else body(x)


# ---- Quotients


@means("divmod")
def quotient(x: Bits, d: Operand) -> Tuple[Bits, Bits]:
    """Quotient by a constant d, at the width of x, and remainder, at the width of d - 1."""
    if isinstance(d, Bits):
        known = number(d)
        if known is None:
            raise KnownLater(f"divmod({said(x)}, {said(d)}): only by a number that is known now: by a value "
                             "revc.lib has divmod(a, b); of few values make a table")
        d = known
    if not isinstance(d, int) or d < 1:
        raise KindError(f"divmod({said(x)}, {d!r}): by a whole number from 1 up")
    n = x.width
    if d == 1:
        return x, Const(0, 1)
    if d >= 1 << n:
        return Const(0, n), widen(x, (d - 1).bit_length())
    low = (d & -d).bit_length() - 1
    if low:
        if d == 1 << low:
            return widen(x[low:], n), x[:low]
        q, r = quotient(x[low:], d >> low)
        return widen(q, n), Cat(x[:low], r)
    w, steps = d.bit_length(), n - d.bit_length() + 1

    def body(x: Bits) -> Bits:
        r, q = x[steps:], []
        for i in range(steps - 1, -1, -1):
            r = Cat(x[i], r)
            t = sub(r, Const(d, r.width), borrow=r.width == w)
            q.append(~t[w])
            r = add(t[:w], Cat(*[t[w] if d >> k & 1 else Const(0, 1) for k in range(w)]))
        return Cat(*q[::-1], r)
    out = library(f"div{d}_{n}", [x], body)
    return widen(out[:steps], n), out[steps:]


@means("//")
def quotient_alone(x: Bits, d: Operand) -> Bits:
    return quotient(x, d)[0]


@means("%")
def remainder_alone(x: Bits, d: Operand) -> Bits:
    return quotient(x, d)[1]


@means("rdivmod")
def quotient_by_value(x: Bits, other: int) -> Tuple[Bits, Bits]:
    raise KnownLater(f"{other!r} by {said(x)}: only by a number that is known now: by a value revc.lib has "
                     f"divmod(Const({other!r}, n), {spelled(x)}); of few values make a table")


# ---- Counts


def summed(columns: List[List[Bits]]) -> List[Bits]:
    """The bits of the sum of all bits, column k worth 2^k each, by full adders, one AND each; the least first."""
    out, count, at = [], itertools.count(1), 0
    while at < len(columns):
        column = list(columns[at])
        while len(column) > 1:
            three = column[:3] if len(column) > 2 else column + [Const(0, 1)]
            full = call("full", "", three, 2).named(f"f{next(count)}")
            column = column[3:] + [full[0]]
            if at + 1 == len(columns):
                columns.append([])
            columns[at + 1].append(full[1])
        out.append(column[0] if column else Const(0, 1))
        at += 1
    return out


@one_name
def popcount(x: Bits) -> Bits:
    """How many bits of x are 1: as many ANDs as x has bits, less the 1s in this number."""
    return x if x.width == 1 else library(f"popcount{x.width}", [x], lambda x: Cat(*summed([list(x)])))
