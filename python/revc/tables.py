"""Tables by polynomials: which variables come last, and which sums are multiplied by them, so that few ANDs are left.

A table of m bits over k variables is a space V of polynomials, each written as a number whose bit e is the coefficient
of the product of the variables in e. With f = A + x B for each f of V, one AND for each B of a basis of these B (1 aside:
x itself costs none) gives V from the A and B, which are polynomials in fewer variables. What is left over a set of
variables does not depend on the order in which the others went, so that the best order comes from the sets of variables,
each once. This is never dearer than a tree of Mux, which is the same with no basis.
"""
import random
from typing import Dict, List, Optional, Sequence, Tuple

from .arithmetic import library
from .completions import Entries, completed
from .errors import KnownLater, WidthError
from .operations import Cat, Const, of_bits, said, spelled
from .spans import Span, basis
from .trace import current, one_name
from .values import Bits

ORDERED = 8  # variables up to which the best order is looked for
CHANGES = {3: 20, 4: 200, 5: 60}  # how many other linear variables are tried


def polynomial(column: Sequence[int], k: int) -> int:
    """The polynomial of a column of bits over k variables."""
    value = list(column)
    for i in range(k):
        for e in range(1 << k):
            if e >> i & 1:
                value[e] ^= value[e ^ 1 << i]
    return sum(bit << e for e, bit in enumerate(value))


def masks(k: int) -> List[int]:
    """For each variable the products in which it is."""
    return [sum(1 << e for e in range(1 << k) if e >> i & 1) for i in range(k)]


def parts(f: int, mask: int, i: int) -> Tuple[int, int]:
    """A and B of f = A + x B, x being variable i and `mask` its products."""
    return f & ~mask, (f & mask) >> (1 << i)


def linear(k: int) -> int:
    """The terms that cost no AND: 1 and each variable."""
    return 1 | sum(1 << (1 << i) for i in range(k))


def best_order(fs: Sequence[int], k: int) -> Tuple[int, List[int]]:
    """The fewest ANDs over all orders of the variables, and the order, the last variable first."""
    mask, free, whole = masks(k), linear(k), (1 << k) - 1
    left: Dict[int, List[int]] = {whole: basis(fs, free)}
    best: Dict[int, Tuple[int, List[int]]] = {whole: (0, [])}
    for size in range(k, 0, -1):
        for variables in [each for each in best if bin(each).count("1") == size]:
            for i in range(k) if k <= ORDERED else [size - 1]:
                if not variables >> i & 1:
                    continue
                ab = [parts(f, mask[i], i) for f in left[variables]]
                cost = best[variables][0] + len(basis([b for _, b in ab], 1))
                rest = variables ^ 1 << i
                if rest not in best or cost < best[rest][0]:
                    best[rest] = cost, best[variables][1] + [i]
                if rest not in left:
                    left[rest] = basis([each for two in ab for each in two], free)
    return best[0]


def invertible(k: int, chance: random.Random) -> List[int]:
    """Rows of an invertible matrix of k by k bits."""
    while True:
        rows = [chance.randrange(1, 1 << k) for _ in range(k)]
        span = Span()
        if all(span.add(row) for row in rows):
            return rows


def columns(values: Sequence[int], m: int, k: int, matrix: Sequence[int]) -> List[int]:
    """The polynomials of the m bits of a table, over the variables that are the sums in the rows of `matrix`."""
    moved = [0] * (1 << k)
    for e, value in enumerate(values):
        moved[sum((bin(row & e).count("1") & 1) << i for i, row in enumerate(matrix))] = value
    return [polynomial([value >> j & 1 for value in moved], k) for j in range(m)]


def checked(x: Bits, values: Entries, width: Optional[int]) -> int:
    """The bits of the entries of a table that x chooses from."""
    if len(values) != 1 << x.width:
        raise WidthError(wrong_length(x, len(values)))
    if not all(value is None or isinstance(value, int) for value in values):
        raise KnownLater(f"table({said(x)}, ..): entries are numbers that are known now, or None where they may be anything; "
                         "of others make a Switch")
    known = [value for value in values if value is not None] or [0]
    m = width or max(max(known).bit_length(), 1)
    if min(known) < 0 or max(known) >> m:
        raise WidthError(f"table: {min(known) if min(known) < 0 else max(known)} does not fit in {m} bits")
    return m


def best_change(values: Sequence[int], m: int, k: int) -> Tuple[List[int], List[int]]:
    """The linear variables and their order of the fewest ANDs that are found."""
    matrix = [1 << i for i in range(k)]
    fs = columns(values, m, k, matrix)
    best, chance = best_order(fs, k), random.Random(1)
    least = len(basis(fs, linear(k)))  # so many ANDs at least
    for _ in range(CHANGES.get(k, 0)):
        if best[0] == least:
            break
        trial = invertible(k, chance)
        found = best_order(columns(values, m, k, trial), k)
        if found[0] < best[0]:
            best, matrix = found, trial
    return matrix, best[1]


@one_name
def table(x: Bits, values: Entries, width: Optional[int] = None) -> Bits:
    """The entry of `values`, a list of 2^n numbers, that x says; of `width` bits, or as many as the greatest needs.

    Where an entry is None it may be anything: what saves ANDs is taken.
    """
    k, values = x.width, list(values)
    m = checked(x, values, width)
    key = ("table", k, m, tuple(values))
    if key in current().library:
        return library("", [x], lambda x: x, key)
    if None in values:
        same = [1 << i for i in range(k)]
        values = completed(values, m, k, lambda each: best_order(columns(each, m, k, same), k)[0])
    matrix, order = best_change(values, m, k)

    def body(x: Bits) -> Bits:
        variables = [added([x[j] for j in range(k) if row >> j & 1]) for row in matrix]
        return Cat(*computed(variables, columns(values, m, k, matrix), order, k))
    return library(f"table{k}_{m}", [x], body, key)


def wrong_length(x: Bits, entries: int) -> str:
    """What is wrong with a table that has not an entry for each number of x, and what helps."""
    wanted = 1 << x.width
    says = f"table({said(x)}, ..): {entries} entries, and a number of {x.width} bits chooses among {wanted}: "
    if entries > wanted:
        return says + f"give it {(entries - 1).bit_length()} bits, widen({spelled(x)}, {(entries - 1).bit_length()})"
    return says + (f"pad it, values + [0] * {wanted - entries}, or say what all others are, "
                   f"Switch({spelled(x)}, {{.., None: 0}})")


def added(terms: List[Bits]) -> Bits:
    return terms[0] if len(terms) == 1 else of_bits("xor", *terms)


def computed(x: List[Bits], fs: List[int], order: List[int], k: int) -> List[Bits]:
    """The polynomials fs of the variables x, from the last variable of the order up."""
    mask, free = masks(k), linear(k)
    levels, left = [], basis(fs, free)
    for i in order:
        ab = [parts(f, mask[i], i) for f in left]
        levels.append((i, basis([b for _, b in ab], 1)))
        left = basis([each for two in ab for each in two], free)
    known, values = Span(), [Const(1, 1)]
    known.add(1, 1)

    def learn(f: int, value: Bits) -> None:
        if known.add(f, 1 << len(values)):
            values.append(value)

    def express(f: int) -> Bits:
        rest, how = known.reduced(f)
        assert rest == 0
        terms = [value for j, value in enumerate(values) if how >> j & 1]
        return added(terms) if terms else Const(0, 1)

    for i, factors in reversed(levels):
        todo = [(b << (1 << i), express(b)) for b in factors]
        learn(1 << (1 << i), x[i])
        for f, value in todo:
            learn(f, of_bits("and", x[i], value).named(f"p{len(values)}"))
    return [express(f) for f in fs]
