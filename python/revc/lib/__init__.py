"""Functions that designers write again and again, each with the fewest ANDs that are known for it.

    from revc import Bits, oracle
    from revc.lib import aes_sbox

    @oracle
    def subbed(x: Bits[8]):
        return aes_sbox(x)

docs/PYTHON.md has a table of them, with their ANDs and depths. Some have the names of Python's own (`max`, `min`,
`divmod`) or of others of the package (`add`, `sub`): `from revc import lib` and `lib.max(a, b)` keep both.
"""
from ..arithmetic import popcount
from .boxes import aes_sbox, aes_sbox_inverse, ascon_sbox, keccak_chi, present_sbox
from .division import divmod
from .lookup import lookup
from .modular import mod_add, mod_double, mod_exp, mod_halve, mod_mul, mod_sub
from .order import max, min, sort
from .prefix import add, less, sub
from .signed import Signed, as_signed

__all__ = ["Signed", "add", "aes_sbox", "aes_sbox_inverse", "as_signed", "ascon_sbox", "divmod", "keccak_chi", "less",
           "lookup", "max", "min", "mod_add", "mod_double", "mod_exp", "mod_halve", "mod_mul", "mod_sub", "popcount",
           "present_sbox", "sort", "sub"]
