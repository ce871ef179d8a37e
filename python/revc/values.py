"""`Bits`: unsigned numbers of a fixed number of bits. They never change; each operation gives a new value.

What its operators do stands in the layers above, which enter it here by `means`.
"""
from typing import Any, Callable, Dict, Iterator, List, NoReturn, Optional, Tuple, Type, TypeVar, Union, cast

from .errors import KindError, KnownLater, WidthError
from .trace import WIDEST, Node, Scope, current, one_name

Operand = Union["Bits", int]  # a number takes the width of the value beside it
Function = TypeVar("Function", bound=Callable[..., Any])

MEANS: Dict[str, Callable[..., Any]] = {}
KEEP = {"~", "&", "^", "|", "+", "-", "from", "<<", "rotate", "put"}  # whose results are Signed where the value is


def means(sign: str) -> Callable[[Function], Function]:
    """Makes a function what an operator of `Bits` does; of the nodes that it takes the last has the author's name."""
    def enter(function: Function) -> Function:
        MEANS[sign] = one_name(function)
        return function
    return enter


def apply(sign: str, *args: Any) -> "Bits":
    found = cast("Bits", MEANS[sign](*args))
    return like(args[0], found) if sign in KEEP else found


class Width:
    """`Bits[n]`, the annotation of a parameter of n bits; `kind` is its class."""

    def __init__(self, width: int, kind: "Type[Bits]"):
        if not isinstance(width, int) or isinstance(width, bool) or not 1 <= width <= WIDEST:
            raise WidthError(f"{kind.__name__}[{width!r}]: a width is a number from 1 to 4,096")
        self.width, self.kind = width, kind

    def __repr__(self) -> str:
        return f"{self.kind.__name__}[{self.width}]"

    def __call__(self, *args: object) -> NoReturn:
        raise KindError(f"{self!r} is a type: write Const(value, {self.width}) for a number")


class Bits:
    """An unsigned number of `width` bits, place 0 lowest; a bit has width 1.

    `+ - & | ^ ~` keep the width and wrap, `*` has the sum of both widths, comparisons have one bit. Both sides have one
    width; a number of Python's takes the width of the value beside it.
    """
    __array_priority__ = 1000  # before numpy's arrays
    is_signed = False

    def __init__(self, node: Node):
        self.node = node

    def __class_getitem__(cls, width: int) -> Width:
        return Width(width, cls)

    @property
    def width(self) -> int:
        return self.node.width

    def __len__(self) -> int:
        return self.node.width

    def __repr__(self) -> str:
        return f"<{said(self)}: {Width(self.width, type(self))}>"

    def named(self, name: str) -> "Bits":
        """The same value, called `name` in the text."""
        if self.node.name is None:
            self.node.hint = name
        return self

    # ---- What is refused, with what helps

    def __bool__(self) -> NoReturn:
        name = self.node.name or self.node.hint or "c"
        raise KnownLater(
            f"{said(self)} is known only when the circuit runs: use Mux({name}, x, y) for `if`, & for `and`, | for `or`, ~ "
            "for `not`, require for `assert`, (a < b) & (b < c) for `a < b < c`, (x == a) | (x == b) for `x in [a, b]`")

    def __index__(self) -> NoReturn:
        raise KnownLater(f"{said(self)} is no number of Python's: use Switch or table for an entry that a value chooses, or "
                         "give a width by a number")

    __int__ = __index__

    def __hash__(self) -> NoReturn:
        raise KnownLater(f"{said(self)} is no key: Switch(x, {{0: .., 1: ..}}) chooses by a value")

    def __setitem__(self, place: object, value: object) -> NoReturn:
        raise KindError(f"values do not change: write x = x.put(place, bit), or Cat of its parts, for {said(self)}")

    def __contains__(self, item: object) -> NoReturn:
        raise KnownLater("`in` asks for a known answer: use (x == a) | (x == b), or x[0] | x[1] of bits")

    def __truediv__(self, other: object) -> NoReturn:
        raise KindError(f"{said(self)} / ..: Bits are whole numbers: use // or divmod, by a number that is known now")

    def __rlshift__(self, other: object) -> NoReturn:
        raise WidthError(f"{other!r} shifted by {said(self)}: give the number a width: Const({other!r}, n)")

    __rrshift__ = __rlshift__

    def __pow__(self, other: object) -> NoReturn:
        raise KindError(f"{said(self)} ** {other!r}: write x * x, which costs about half of a product")

    # ---- Places

    def __getitem__(self, place: Union[int, slice]) -> "Bits":
        return apply("[]", self, place)

    def __iter__(self) -> Iterator["Bits"]:
        return iter([self[i] for i in range(self.width)])

    def put(self, place: int, bit: Operand) -> "Bits":
        """The same bits but for one place."""
        return apply("put", self, place, bit)

    def split(self, width: int) -> List["Bits"]:
        """Words of `width` bits, the lowest first."""
        return cast(List["Bits"], MEANS["split"](self, width))

    # ---- Bit by bit

    def __invert__(self) -> "Bits":
        return apply("~", self)

    def __and__(self, other: Operand) -> "Bits":
        return apply("&", self, other)

    def __xor__(self, other: Operand) -> "Bits":
        return apply("^", self, other)

    def __or__(self, other: Operand) -> "Bits":
        return apply("|", self, other)

    __rand__, __rxor__, __ror__ = __and__, __xor__, __or__

    # ---- Numbers

    def __add__(self, other: Operand) -> "Bits":
        return apply("+", self, other)

    __radd__ = __add__

    def __sub__(self, other: Operand) -> "Bits":
        return apply("-", self, other)

    def __rsub__(self, other: int) -> "Bits":
        return apply("from", self, other)

    def __neg__(self) -> "Bits":
        return apply("from", self, 0)

    def __mul__(self, other: Operand) -> "Bits":
        return apply("*", self, other)

    __rmul__ = __mul__

    def __divmod__(self, other: Operand) -> Tuple["Bits", "Bits"]:
        return cast(Tuple["Bits", "Bits"], MEANS["divmod"](self, other))

    def __floordiv__(self, other: Operand) -> "Bits":
        return apply("//", self, other)

    def __mod__(self, other: Operand) -> "Bits":
        return apply("%", self, other)

    def __rdivmod__(self, other: int) -> Tuple["Bits", "Bits"]:
        return cast(Tuple["Bits", "Bits"], MEANS["rdivmod"](self, other))

    def __rfloordiv__(self, other: int) -> "Bits":
        return divmod(other, self)[0]

    def __rmod__(self, other: int) -> "Bits":
        return divmod(other, self)[1]

    __rtruediv__ = __rfloordiv__

    # ---- Moving places

    def __lshift__(self, k: Operand) -> "Bits":
        return apply("<<", self, k)

    def __rshift__(self, k: Operand) -> "Bits":
        return apply(">>", self, k)

    def rotate_left(self, k: Operand) -> "Bits":
        """Place i goes to place i + k. `k` may be a value: an AND for each of its bits and each place."""
        return apply("rotate", self, k, 1)

    def rotate_right(self, k: Operand) -> "Bits":
        """Place i goes to place i - k."""
        return apply("rotate", self, k, -1)

    # ---- Comparisons

    def __eq__(self, other: Operand) -> "Bits":  # type: ignore[override]
        return apply("==", self, other)

    def __ne__(self, other: Operand) -> "Bits":  # type: ignore[override]
        return apply("!=", self, other)

    def __lt__(self, other: Operand) -> "Bits":
        return apply("<", self, other)

    def __ge__(self, other: Operand) -> "Bits":
        return apply(">=", self, other)

    def __gt__(self, other: Operand) -> "Bits":
        return apply(">", self, other)

    def __le__(self, other: Operand) -> "Bits":
        return apply("<=", self, other)

    # ---- All bits at once

    def all(self) -> "Bits":
        """1 where each bit is 1."""
        return apply("all", self)

    def any(self) -> "Bits":
        """1 where some bit is 1."""
        return apply("any", self)

    def xor(self) -> "Bits":
        """1 where an odd number of bits is 1."""
        return apply("xor", self)


# ---- Values and what they are called


def scope() -> Scope:
    return current().scope


def bits(node: Node) -> Bits:
    return Bits(node)


def is_bits(value: object) -> bool:
    return isinstance(value, Bits)


def said(value: object) -> str:
    """A value in a sentence: its name, `this value`, or a number of Python's as it is."""
    return value.node.said if isinstance(value, Bits) else repr(value)


def spelled(value: Bits) -> str:
    """A value as it stands in a piece of code that helps."""
    return value.node.name or value.node.hint or "(..)"


def like(x: Bits, y: Bits) -> Bits:
    """The bits of y as a value of the class of x."""
    return y if type(x) is type(y) else type(x)(y.node)


def plain(x: Bits) -> Bits:
    """The bits of a value, which may be Signed, as an unsigned number."""
    return Bits(x.node) if x.is_signed else x


def number(value: Bits) -> Optional[int]:
    """The number that a constant is."""
    return cast(int, value.node.data) if value.node.kind == "const" else None
