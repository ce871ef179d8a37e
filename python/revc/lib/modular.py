"""Sums, products and powers modulo a number that is known, of numbers that are less than it.

Products by a number and powers cut a value into windows: a table has what each is worth modulo m, and these are summed
first and brought below m at the end.
"""
from typing import Callable, Iterator, List, NamedTuple, Sequence, Tuple, Union

from ..arithmetic import library
from ..errors import KindError, WidthError
from ..operations import Cat, Const, add, is_bits, number, said, spelled, sub, widen
from ..tables import table
from ..trace import one_name
from ..values import Bits

Number = Union[Bits, int]
WINDOW = 8  # bits of a table that is looked for


class Term(NamedTuple):
    """A value of a sum, and the least number above all that it can be."""

    value: Bits
    bound: int


def residue(x: Number, m: int, width: int, title: str) -> Bits:
    """x as one of the numbers below m, in as many bits as these have."""
    if not isinstance(m, int) or isinstance(m, bool) or m < 2:
        raise KindError(f"{title}: the modulus is a number from 2 up that is known now, and not {said(m)}")
    w = (m - 1).bit_length()
    if not is_bits(x):
        return Const(as_known(x, title) % m, w)
    if x.is_signed:
        raise KindError(f"{title}: {said(x)} is Signed, and numbers below {m} are not: {spelled(x)}.as_unsigned()")
    if x.width != width or width < w:
        raise WidthError(f"{title}: {said(x)} has {x.width} bits, and numbers below {m} have {w}: both sides have one width "
                         "of so many bits or more")
    return x[:w]


def as_known(x: Number, title: str) -> int:
    if not isinstance(x, int):
        raise KindError(f"{title}: {said(x)} is neither Bits nor a whole number")
    return x


def both(x: Number, y: Number, m: int, title: str) -> Tuple[Bits, Bits]:
    """Both sides of an operation, of which one is Bits at least."""
    if not is_bits(x) and not is_bits(y):
        raise KindError(f"{title}: of numbers that are known Python computes it: one side has to be Bits")
    width = (x if is_bits(x) else y).width
    one = residue(x, m, width, title)
    return one, one if x is y else residue(y, m, width, title)


def traced(title: str, args: Sequence[Bits], body: Callable[..., Bits], wide: int) -> Bits:
    """A function of the text, into which numbers that are known among its arguments are written; its value widened."""
    known = [number(each) for each in args]

    def filled(*given: Bits) -> Bits:
        rest = iter(given)
        return body(*[next(rest) if value is None else each for each, value in zip(args, known)])
    name = title + "".join(f"_{value}" for value in known if value is not None)
    return widen(library(name, [each for each in args if number(each) is None], filled, (title, *known)), wide)


def masked(bit: Bits, m: int, width: int) -> Bits:
    """m where the bit is 1, else 0."""
    return Cat([bit if m >> i & 1 else Const(0, 1) for i in range(width)])


def mended(difference: Bits, m: int) -> Bits:
    """A difference with its borrow, and m added where it is less than 0."""
    w = difference.width - 1
    return add(difference[:w], masked(difference[w], m, w))


# ---- Sums


@one_name
def mod_add(x: Number, y: Number, m: int) -> Bits:
    """(x + y) % m of numbers below m, as wide as they are."""
    one, other = both(x, y, m, "mod_add")
    one, other = (other, one) if number(one) is not None else (one, other)
    w = one.width

    def body(x: Bits, y: Bits) -> Bits:
        if m == 1 << w:
            return x + y
        total = add(x, y - Const(m, w), carry=True)  # x + y - m, with a carry where it is not below 0
        return mended(Cat(total[:w], ~total[w]), m)
    return traced(f"modadd{m}", [one, other], body, (x if is_bits(x) else y).width)


@one_name
def mod_sub(x: Number, y: Number, m: int) -> Bits:
    """(x - y) % m of numbers below m, as wide as they are."""
    one, other = both(x, y, m, "mod_sub")
    return traced(f"modsub{m}", [one, other], lambda x, y: mended(sub(x, y, borrow=True), m),
                  (x if is_bits(x) else y).width)


@one_name
def mod_double(x: Bits, m: int) -> Bits:
    """(2 * x) % m of a number below m, as wide as it is."""
    one, _ = both(x, x, m, "mod_double")
    w = one.width
    return traced(f"moddouble{m}", [one], lambda x: mended(Cat(Const(0, 1), x) - Const(m, w + 1), m), x.width)


@one_name
def mod_halve(x: Bits, m: int) -> Bits:
    """The number whose double modulo an odd m is x, of a number below m, as wide as it is: the inverse of `mod_double`."""
    one, _ = both(x, x, m, "mod_halve")
    if m % 2 == 0:
        raise KindError(f"mod_halve: modulo {m} two numbers have one double: only an odd modulus has halves")
    w = one.width
    return traced(f"modhalve{m}", [one], lambda x: widen(x[1:], w) + masked(x[0], (m + 1) // 2, w), x.width)


# ---- Products


def plus(one: Term, other: Term) -> Term:
    bound = one.bound + other.bound - 1
    width, most = max(one.value.width, other.value.width), (bound - 1).bit_length()
    total = add(widen(one.value, width), widen(other.value, width), carry=most > width)
    return Term(total[:most], bound)


def summed(terms: Sequence[Term]) -> Term:
    """The sum, by halves."""
    if len(terms) == 1:
        return terms[0]
    return plus(summed(terms[:len(terms) // 2]), summed(terms[len(terms) // 2:]))


def reduced(term: Term, m: int) -> Bits:
    """The value modulo m, by differences with m times powers of two."""
    value, bound = term
    while bound > m:
        k = ((bound - 1) // m).bit_length() - 1
        high = value[k:]
        high = mended(sub(high, Const(m, high.width), borrow=True), m)
        bound = max(m << k, bound - (m << k))
        value = (Cat(value[:k], high) if k else high)[:(bound - 1).bit_length()]
    return widen(value, (m - 1).bit_length())


def windows(x: Bits, size: int) -> Iterator[Tuple[int, Bits]]:
    """Pieces of x of at most so many bits, each with its place."""
    return ((at, x[at:min(at + size, x.width)]) for at in range(0, x.width, size))


def residues(x: Bits, factor: int, m: int, bound: int, size: int) -> List[Term]:
    """The windows of x, which is below `bound`, times a factor, modulo m."""
    out = []
    for at, piece in windows(x, size):
        entries = [(v << at) * factor % m if v << at < bound else None for v in range(1 << piece.width)]
        out.append(Term(table(piece, entries, (m - 1).bit_length()), m))
    return out


def table_ands(size: int, width: int) -> int:
    """What a table of any numbers takes at most."""
    return min((1 << size - j) - (size - j) - 1 + ((1 << j) - 1) * width for j in range(size))


def residue_ands(n: int, terms: int, w: int, size: int) -> int:
    """About what the residues of n bits take beside `terms` others: their tables, the sum, and the last differences."""
    full, rest = divmod(n, size)
    count = full + (rest > 0) + terms
    tables = full * table_ands(size, w) + (table_ands(rest, w) if rest else 0)
    return tables + (count - 1) * (w + 1) + 2 * w * (count - 1).bit_length()


@one_name
def mod_mul(x: Number, y: Number, m: int) -> Bits:
    """(x * y) % m of numbers below m, as wide as they are; one of them may be known."""
    one, other = both(x, y, m, "mod_mul")
    one, other = (other, one) if number(one) is not None else (one, other)
    w, factor = one.width, number(other)
    known = 0 if factor is not None else w  # places of the product that are not looked up
    size = min(range(1, WINDOW + 1), key=lambda size: residue_ands(w, known > 0, w, size))

    def body(x: Bits, y: Bits) -> Bits:
        if factor is not None:
            return reduced(summed(residues(x, factor, m, m, size)), m)
        whole = x * y
        high = residues(whole[w:], 1 << w, m, ((m - 1) ** 2 >> w) + 1, size)
        return reduced(summed([Term(whole[:w], 1 << w), *high]), m)
    return traced(f"modmul{m}", [one] if one is other else [one, other],
                  (lambda x: body(x, x)) if one is other else body, (x if is_bits(x) else y).width)


@one_name
def mod_exp(base: int, exponent: Bits, m: int) -> Bits:
    """(base ** exponent) % m of a base that is known, in as many bits as numbers below m have; by tables of powers."""
    if is_bits(base) or not is_bits(exponent):
        raise KindError("mod_exp(base, exponent, m): the base is a number that is known now, and the exponent Bits")
    w = residue(base, m, 0, "mod_exp").width
    product = 2 * w * w - w + residue_ands(w, 1, w, 4)
    size = min(range(1, WINDOW + 1), key=lambda size: (exponent.width // size * table_ands(size, w)
                                                       + -(-exponent.width // size) * product))

    def body(exponent: Bits) -> Bits:
        factors = [table(piece, [pow(base, v << at, m) for v in range(1 << piece.width)], w)
                   for at, piece in windows(exponent, size)]
        while len(factors) > 1:
            factors = [mod_mul(*two, m) if len(two) > 1 else two[0]
                       for two in (factors[i:i + 2] for i in range(0, len(factors), 2))]
        return factors[0]
    return library(f"modexp{m}_{base}_{exponent.width}", [exponent], body)
