"""Numbers that are known now, chosen by a value."""
from typing import Optional

from ..completions import Entries
from ..errors import KindError, WidthError
from ..operations import Const, is_bits
from ..tables import table
from ..trace import one_name
from ..values import Bits


@one_name
def lookup(x: Bits, values: Entries, width: Optional[int] = None) -> Bits:
    """The entry of `values` that x says, where x is less than their number; of `width` bits, or as many as needed.

    An entry may be None where it may be anything, and those behind the last one may be. For L entries of m bits it takes
    never more ANDs than L - 1 less the bits of L - 1 (unary iteration, or all products), and never more than
    2^(k - j) + j - k - 1 + (2^j - 1) m for any j, k being the bits of x (select and swap).
    """
    if not is_bits(x):
        raise KindError(f"lookup({x!r}, ..): a number that is known now takes an entry of a list by Python's values[{x!r}]")
    values = list(values)
    count = len(values)
    if not 1 <= count <= 1 << x.width:
        raise WidthError(f"lookup(..): {count} entries, and a number of {x.width} bits chooses among {1 << x.width}")
    k = (count - 1).bit_length()
    known = [value for value in values if value is not None] or [0]
    if len(set(known)) == 1:
        return Const(known[0], width or max(known[0].bit_length(), 1))
    return table(x[:k], values + [None] * ((1 << k) - count), width)
