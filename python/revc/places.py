"""Constants, widths and places: what costs no gate."""
import operator
from typing import List, Optional, Sequence, Tuple, Union

from .errors import KindError, KnownLater, PlaceError, RevcError, WidthError
from .trace import WIDEST, Node, one_name, pack
from .values import Bits, Operand, bits, like, means, said, scope, spelled

# ---- Numbers and widths


def Const(value: int, width: Optional[int] = None) -> Bits:
    """The number `value` in `width` bits, as many as it needs where nothing is said. A negative one is two's complement."""
    try:
        value = operator.index(value)
    except TypeError:
        raise KindError(f"Const({said(value)}): a whole number that is known now is wanted") from None
    width = max(value.bit_length(), 1) if width is None else width
    if not isinstance(width, int) or not 1 <= width <= WIDEST:
        raise WidthError(f"Const({value}, {width!r}): a width is a number from 1 to 4,096")
    if not -(1 << width - 1) <= value < 1 << width:
        raise WidthError(f"{value} does not fit in {width} bits: it takes {value.bit_length() + (value < 0)}")
    return bits(Node("const", value & (1 << width) - 1, (), width, None))


def as_bits(value: Operand, width: int, beside: Optional[Bits] = None) -> Bits:
    """A value of this width: Bits that have it, or a number of Python's that fits."""
    if isinstance(value, Bits):
        if value.width != width:
            raise WidthError(f"{said(value)} has {value.width} bits where {width} are wanted")
        return value
    try:
        value = operator.index(value)
    except TypeError:
        raise KindError(f"{value!r} is neither Bits nor a whole number") from None
    is_signed = beside is not None and beside.is_signed
    if not -(1 << width - 1) <= value < 1 << width - is_signed:
        if beside is None:
            raise WidthError(f"{value} does not fit in {width} bits")
        raise WidthError(f"{value} does not fit in the {width} bits of {said(beside)}: widen({spelled(beside)}, "
                         f"{value.bit_length() + (value < 0 or is_signed)})")
    return Const(value, width) if beside is None else like(beside, Const(value, width))


def pair(x: Bits, y: Operand, sign: str) -> Tuple[Bits, Bits]:
    """Both sides of an operator, at one width."""
    if not isinstance(y, Bits):
        if sign[0] in "=<>" and isinstance(y, int) and y < 0 and not x.is_signed:
            raise WidthError(f"{said(x)} {sign} {y}: Bits are numbers from 0 up; as_signed(..) of "
                             "revc.lib has those below")
        y = as_bits(y, x.width, x)
    if x.width != y.width:
        small, great = (x, y) if x.width < y.width else (y, x)
        raise WidthError(f"{said(x)} {sign} {said(y)}: {said(small)} has {small.width} bits and {said(great)} {great.width}: "
                         f"widen({spelled(small)}, {great.width}) or {spelled(great)}[:{small.width}]")
    if x.is_signed != y.is_signed:
        signed, other = (x, y) if x.is_signed else (y, x)
        raise KindError(f"{said(x)} {sign} {said(y)}: {said(signed)} is Signed and {said(other)} is not: "
                        f"as_signed({spelled(other)}) or {spelled(signed)}.as_unsigned()")
    return x, y


# ---- Places


def cut(node: Node, low: int, high: int) -> Node:
    """The places low to high - 1, without a cut of a cut."""
    if node.kind == "reg" and node.width == 1:
        return node.args[0]  # a register of one place stands only where an append wants one
    if (low, high) == (0, node.width):
        return node
    if node.kind == "const":
        return Const(node.data >> low & (1 << high - low) - 1, high - low).node
    if node.kind == "slice":
        return cut(node.args[0], node.data[0] + low, node.data[0] + high)
    if node.kind in ("append", "reg"):
        at = 0
        for part in node.args:
            if at <= low and high <= at + part.width:
                return cut(part, low - at, high - at)
            at += part.width
    return scope().add("slice", (low, high), [node], high - low)


@one_name
def Cat(*parts: Union[Bits, Sequence[Bits]]) -> Bits:
    """The parts, or lists of parts, beside each other, the first lowest."""
    flat = [each for part in parts for each in (part if isinstance(part, (list, tuple)) else [part])]
    for each in flat:
        if not isinstance(each, Bits):
            raise KindError(f"Cat(.., {each!r}, ..): give the number a width: Const({each!r}, n)")
    if not flat:
        raise RevcError("Cat() of no parts has no bits")
    if all(each.node.kind == "const" for each in flat):
        value, at = 0, 0
        for each in flat:
            value, at = value | each.node.data << at, at + each.width
        return Const(value, at)
    return bits(pack(scope(), [each.node for each in flat]))


@one_name
def widen(x: Bits, width: int) -> Bits:
    """x with zeros above it, or copies of its sign where it is Signed, so that it has `width` bits."""
    if width < x.width:
        raise WidthError(f"widen({spelled(x)}, {width}): it has {x.width} bits: {spelled(x)}[:{width}] takes the lowest")
    if width == x.width:
        return x
    return like(x, Cat(x, [x[-1]] * (width - x.width))) if x.is_signed else Cat(x, Const(0, width - x.width))


@means("[]")
def place_of(x: Bits, place: Union[int, slice]) -> Bits:
    """x[3] or x[4:8], with the bounds of Python, but that no place may be past the end."""
    if isinstance(place, slice):
        low, high, step = place.indices(x.width)
        if step != 1:
            return Cat(*[x[i] for i in range(low, high, step)])
        if place.stop is not None and place.stop > x.width:
            raise PlaceError(f"{said(x)} has {x.width} bits: it has no place {place.stop - 1}")
        if high <= low:
            raise WidthError(f"{said(x)} has {x.width} bits: [{place.start}:{place.stop}] takes none")
        return bits(cut(x.node, low, high))
    if isinstance(place, Bits):
        raise KnownLater(f"{said(place)} is no place that is known now: use Switch, or ({said(x)} >> {said(place)})[0]")
    at = index(x, place)
    return bits(cut(x.node, at, at + 1))


def index(x: Bits, place: int) -> int:
    """A place counted from 0, of one that may be counted from the end."""
    if not -x.width <= place < x.width:
        raise PlaceError(f"{said(x)} has {x.width} bits: it has no place {place}")
    return place % x.width


@means("put")
def put(x: Bits, place: int, bit: Operand) -> Bits:
    at = index(x, place)
    below = [x[:at]] if at else []
    above = [x[at + 1:]] if at + 1 < x.width else []
    return Cat(*below, as_bits(bit, 1), *above)


@means("split")
def split(x: Bits, width: int) -> List[Bits]:
    if width < 1 or x.width % width:
        raise WidthError(f"{said(x)} has {x.width} bits, which are no words of {width}")
    return [x[i:i + width] for i in range(0, x.width, width)]
