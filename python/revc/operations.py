"""The operations on `Bits`, each of as few ANDs as are known for it: what the operators do, and functions."""
from typing import Callable, Sequence, Tuple

from . import texts
from .errors import KindError, WidthError
from .places import Cat, Const, as_bits, cut, pair, widen
from .trace import current, one_name
from .values import Bits, Operand, bits, is_bits, like, means, number, plain, said, scope, spelled

__all__ = ["Cat", "Const", "Mux", "add", "as_bits", "bits", "bitwise", "call", "cut", "equal", "inverse", "is_bits", "less",
           "like", "number", "of_all", "of_bits", "offset", "pair", "plain", "rotated", "said", "scope", "shifted", "spelled",
           "sub", "widen"]


def call(kind: str, key: texts.Key, args: Sequence[Bits], width: int) -> Bits:
    name = texts.operation(current(), kind, key)
    return bits(scope().add("call", name, [each.node for each in args], width))


def of_bits(kind: str, *args: Bits) -> Bits:
    """The XOR or the AND of bits."""
    return bits(scope().add(kind, None, [each.node for each in args], 1))


# ---- Bit by bit


@means("~")
def inverse(x: Bits) -> Bits:
    if number(x) is not None:
        return Const(~x.node.data & (1 << x.width) - 1, x.width)
    return of_bits("xor", Const(1, 1), x) if x.width == 1 else call("inv", x.width, [x], x.width)


def bitwise(kind: str, x: Bits, y: Bits) -> Bits:
    if x.width > 1:
        return call(kind, x.width, [x, y], x.width)
    return ~(~x & ~y) if kind == "or" else of_bits(kind, x, y)


def equal(x: Bits, y: Bits) -> Bits:
    x, y = plain(x), plain(y)
    return ~(x ^ y) if x.width == 1 else call("eq", x.width, [x, y], 1)


def offset(x: Bits) -> Bits:
    """Signed numbers as unsigned ones in the same order, by another sign; unsigned ones as they are."""
    if not x.is_signed:
        return x
    top, known = Const(1 << x.width - 1, x.width), number(x)
    return plain(x) ^ top if known is None else Const(known ^ 1 << x.width - 1, x.width)


def less(x: Bits, y: Bits) -> Bits:
    """x < y. A constant on the left goes to the right, where its low places cost least."""
    x, y = offset(x), offset(y)
    if number(x) is not None and number(y) is None:  # k < y where not y < k + 1
        most = (1 << x.width) - 1
        return Const(0, 1) if x.node.data == most else ~less(y, Const(x.node.data + 1, x.width))
    return ~x & y if x.width == 1 else call("lt", x.width, [x, y], 1)


def of_all(kind: str, x: Bits) -> Bits:
    return plain(x) if x.width == 1 else call(kind, x.width, [x], 1)


@means("&")
def and_of(x: Bits, y: Operand) -> Bits:
    return bitwise("and", *pair(x, y, "&"))


@means("^")
def xor_of(x: Bits, y: Operand) -> Bits:
    return bitwise("xor", *pair(x, y, "^"))


@means("|")
def or_of(x: Bits, y: Operand) -> Bits:
    return bitwise("or", *pair(x, y, "|"))


# ---- Comparisons


@means("==")
def equal_to(x: Bits, y: Operand) -> Bits:
    return equal(*pair(x, y, "=="))


@means("!=")
def unequal_to(x: Bits, y: Operand) -> Bits:
    return ~equal(*pair(x, y, "!="))


@means("<")
def less_than(x: Bits, y: Operand) -> Bits:
    return less(*pair(x, y, "<"))


@means(">=")
def not_less_than(x: Bits, y: Operand) -> Bits:
    return ~less(*pair(x, y, ">="))


@means(">")
def greater_than(x: Bits, y: Operand) -> Bits:
    return less(*pair(x, y, ">")[::-1])


@means("<=")
def not_greater_than(x: Bits, y: Operand) -> Bits:
    return ~less(*pair(x, y, "<=")[::-1])


@means("all")
def all_of(x: Bits) -> Bits:
    return of_all("all", x)


@means("any")
def any_of(x: Bits) -> Bits:
    return plain(x) if x.width == 1 else ~of_all("none", x)


@means("xor")
def parity_of(x: Bits) -> Bits:
    return of_all("parity", x)


# ---- Sums


def both(x: Operand, y: Operand, sign: str) -> Tuple[Bits, Bits]:
    """Both sides at one width, which one of them says, in their order."""
    if isinstance(x, Bits):
        return pair(x, y, sign)
    if isinstance(y, Bits):
        return as_bits(x, y.width, y), y
    raise WidthError(f"{x!r} {sign} {y!r}: give one of the numbers a width: Const({x!r}, n)")


def unsigned(x: Bits, y: Bits, carry: bool) -> Tuple[Bits, Bits]:
    """Both sides of a sum as unsigned numbers; Signed ones have no carry out of their highest place."""
    if x.is_signed and carry:
        raise KindError(f"{said(x)} is Signed, and no carry is part of its sums: widen both sides by a bit")
    return plain(x), plain(y)


@one_name
def add(x: Operand, y: Operand, carry: bool = False) -> Bits:
    """x + y at their width, with `carry` one bit wider."""
    kind, y = both(x, y, "+")
    x, y = unsigned(kind, y, carry)
    x, y = (y, x) if number(x) is not None else (x, y)
    if number(y) == 0 and not carry:
        return like(kind, x)
    if x.width == 1:
        return Cat(x ^ y, x & y) if carry else like(kind, x ^ y)
    return like(kind, call("addc" if carry else "add", x.width, [x, y], x.width + carry))


@one_name
def sub(x: Operand, y: Operand, borrow: bool = False) -> Bits:
    """x - y at their width, with `borrow` one bit wider, which is 1 where x < y."""
    kind, y = both(x, y, "-")
    x, y = unsigned(kind, y, borrow)
    if number(x) is not None and number(y) is None:  # k - y is not (y + not k), and the borrow is that sum's carry
        total = add(y, ~x, carry=borrow)
        return Cat(~total[:x.width], total[x.width]) if borrow else like(kind, ~total)
    if number(y) == 0 and not borrow:
        return like(kind, x)
    if x.width == 1:
        return Cat(x ^ y, ~x & y) if borrow else like(kind, x ^ y)
    return like(kind, call("subc" if borrow else "sub", x.width, [x, y], x.width + borrow))


@means("+")
def plus(x: Bits, y: Operand) -> Bits:
    return add(*pair(x, y, "+"))


@means("-")
def minus(x: Bits, y: Operand) -> Bits:
    return sub(*pair(x, y, "-"))


@means("from")
def minus_from(x: Bits, y: int) -> Bits:
    return sub(as_bits(y, x.width, x), x)


# ---- Choices and moves


@one_name
def Mux(c: Bits, x: Operand, y: Operand) -> Bits:
    """x where the bit c is 1, else y."""
    if not isinstance(c, Bits):
        raise WidthError(f"Mux({c!r}, ..): the choice is a bit of the circuit; by a known one Python's `if` chooses")
    if c.width != 1:
        raise WidthError(f"Mux({spelled(c)}, ..): the choice is one bit and not {c.width}: take {spelled(c)}.any(), or one "
                         "place of it")
    if not is_bits(x) and not is_bits(y):
        raise WidthError(f"Mux(.., {x!r}, {y!r}): give one of the numbers a width: Const({x!r}, n)")
    kind, y = both(x, y, "Mux")
    c, x, y = plain(c), plain(kind), plain(y)
    return like(kind, (c & (x ^ y)) ^ y if x.width == 1 else call("mux", x.width, [c, x, y], x.width))


def shifted(x: Bits, k: Operand, sign: str, move: Callable[[Bits, int], Bits]) -> Bits:
    if isinstance(k, Bits):
        for i in range(k.width):
            over = 1 << i >= x.width
            x = Mux(k[i], Const(0, x.width) if over else move(x, 1 << i), x)
        return x
    if not isinstance(k, int) or k < 0:
        raise KindError(f"{said(x)} {sign} {k!r}: a shift is a whole number from 0 up, or Bits")
    return x if k == 0 else Const(0, x.width) if k >= x.width else move(x, k)


@means("rotate")
def rotated(x: Bits, k: Operand, sign: int) -> Bits:
    x = plain(x)
    if isinstance(k, Bits):
        for i in range(k.width):
            x = Mux(k[i], rotated(x, 1 << i, sign), x)
        return x
    if not isinstance(k, int):
        raise KindError(f"{said(x)} rotated by {k!r}: a whole number or Bits is wanted")
    k = -sign * k % x.width
    if not k or number(x) is not None:
        return x if not k else Cat(x[k:], x[:k])
    return bits(scope().add("rotate", k, [x.node], x.width))


@means("<<")
def left(x: Bits, k: Operand) -> Bits:
    return shifted(plain(x), k, "<<", lambda x, n: Cat(Const(0, n), x[:x.width - n]))


@means(">>")
def right(x: Bits, k: Operand) -> Bits:
    return shifted(plain(x), k, ">>", lambda x, n: Cat(x[n:], Const(0, n)))
