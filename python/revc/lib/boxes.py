"""The nonlinear layers of ciphers and hashes, with the fewest ANDs that are known for them.

Where a box works on several bits it takes either one number, as its specification numbers the table, or a list of
words of one width, on each place of which it works: so a whole state of bits in slices goes in at once.
"""
from typing import Dict, List, Sequence, Union

from ..arithmetic import library
from ..errors import WidthError
from ..operations import Cat, is_bits, said
from ..trace import one_name
from ..values import Bits

Words = Union[Bits, Sequence[Bits]]

# J. Boyar, R. Peralta: A new combinational logic minimization technique with applications to cryptology, 2010. U0 is
# the highest bit of the input and S0 of the output; + is XOR, x AND and # XNOR.
AES_TOP = """
Y14 = U3 + U5; Y13 = U0 + U6; Y9 = U0 + U3; Y8 = U0 + U5; T0 = U1 + U2; Y1 = T0 + U7; Y4 = Y1 + U3; Y12 = Y13 + Y14; Y2
= Y1 + U0; Y5 = Y1 + U6; Y3 = Y5 + Y8; T1 = U4 + Y12; Y15 = T1 + U5; Y20 = T1 + U1; Y6 = Y15 + U7; Y10 = Y15 + T0; Y11 =
Y20 + Y9; Y7 = U7 + Y11; Y17 = Y10 + Y11; Y19 = Y10 + Y8; Y16 = T0 + Y11; Y21 = Y13 + Y16; Y18 = U0 + Y16; T2 = Y12 x
Y15; T3 = Y3 x Y6; T4 = T3 + T2; T5 = Y4 x U7; T6 = T5 + T2; T7 = Y13 x Y16; T8 = Y5 x Y1; T9 = T8 + T7; T10 = Y2 x Y7;
T11 = T10 + T7; T12 = Y9 x Y11; T13 = Y14 x Y17; T14 = T13 + T12; T15 = Y8 x Y10; T16 = T15 + T12; T17 = T4 + T14; T18 =
T6 + T16; T19 = T9 + T14; T20 = T11 + T16; T21 = T17 + Y20; T22 = T18 + Y19; T23 = T19 + Y21; T24 = T20 + Y18; T25 = T21
+ T22; T26 = T21 x T23; T27 = T24 + T26; T28 = T25 x T27; T29 = T28 + T22; T30 = T23 + T24; T31 = T22 + T26; T32 = T31 x
T30; T33 = T32 + T24; """
# The last two coordinates of the inverse in the field of 16 elements: by two more ANDs, or after both others.
AES_FEWEST = """
T34 = T23 + T33; T35 = T27 + T33; T36 = T24 x T35; T37 = T36 + T34; T38 = T27 + T36; T39 = T29 x T38; T40 = T25 + T39; """
AES_LOWEST = """
T34 = T21 x T24; T35 = T25 x T34; T36 = T25 + T26; T40 = T35 + T36; T38 = T22 x T23; T39 = T30 x T38; T28 = T30 + T26;
T37 = T39 + T28; """
AES_BOTTOM = """
T41 = T40 + T37; T42 = T29 + T33; T43 = T29 + T40; T44 = T33 + T37; T45 = T42 + T41; Z0 = T44 x Y15; Z1 = T37 x Y6; Z2 =
T33 x U7; Z3 = T43 x Y16; Z4 = T40 x Y1; Z5 = T29 x Y7; Z6 = T42 x Y11; Z7 = T45 x Y17; Z8 = T41 x Y10; Z9 = T44 x Y12;
Z10 = T37 x Y3; Z11 = T33 x Y4; Z12 = T43 x Y13; Z13 = T40 x Y5; Z14 = T29 x Y2; Z15 = T42 x Y9; Z16 = T45 x Y14; Z17 =
T41 x Y8; T46 = Z15 + Z16; T47 = Z10 + Z11; T48 = Z5 + Z13; T49 = Z9 + Z10; T50 = Z2 + Z12; T51 = Z2 + Z5; T52 = Z7 +
Z8; T53 = Z0 + Z3; T54 = Z6 + Z7; T55 = Z16 + Z17; T56 = Z12 + T48; T57 = T50 + T53; T58 = Z4 + T46; T59 = Z3 + T54; T60
= T46 + T57; T61 = Z14 + T57; T62 = T52 + T58; T63 = T49 + T58; T64 = Z4 + T59; T65 = T61 + T62; T66 = Z1 + T63; S0 =
T59 + T63; S6 = T56 # T62; S7 = T48 # T60; T67 = T64 + T65; S3 = T53 + T66; S4 = T51 + T66; S5 = T47 + T65; S1 = T64 #
S3; S2 = T55 # T67"""


def run(statements: str, x: Bits) -> Bits:
    """The statements on U0 .., the bits of x from the highest down, up to S0 .., those of the result."""
    n = x.width
    values: Dict[str, Bits] = {f"U{i}": x[n - 1 - i] for i in range(n)}
    for statement in statements.split(";"):
        name, _, left, sign, right = statement.split()
        a, b = values[left], values[right]
        values[name] = (a & b if sign == "x" else a ^ b if sign == "+" else ~(a ^ b)).named(name.lower())
    return Cat([values[f"S{i}"] for i in reversed(range(n))])


def of_width(x: Bits, width: int, title: str) -> Bits:
    if not is_bits(x) or x.width != width:
        raise WidthError(f"{title}({said(x)}): a number of {width} bits is wanted")
    return x


def aes_box(x: Bits, low_depth: bool) -> Bits:
    middle, title = (AES_LOWEST, "aes_sbox_low") if low_depth else (AES_FEWEST, "aes_sbox")
    return library(title, [x], lambda x: run(AES_TOP + middle + AES_BOTTOM, x))


@one_name
def aes_sbox(x: Bits, low_depth: bool = False) -> Bits:
    """The S-box of AES (FIPS 197): 8 bits to 8, by 32 ANDs at a depth of 6; with `low_depth` 34 at a depth of 4."""
    return aes_box(of_width(x, 8, "aes_sbox"), low_depth)


@one_name
def aes_sbox_inverse(x: Bits, low_depth: bool = False) -> Bits:
    """The number that `aes_sbox` takes to x, by as many ANDs: the S-box between two inverses of its affine map."""
    of_width(x, 8, "aes_sbox_inverse")

    def before_the_map(x: Bits) -> Bits:
        return x.rotate_left(1) ^ x.rotate_left(3) ^ x.rotate_left(6) ^ 0x05
    return before_the_map(aes_box(before_the_map(x), low_depth))


@one_name
def present_sbox(x: Bits) -> Bits:
    """The S-box of PRESENT: 4 bits to 4, by 4 ANDs.

    The form is that of N. Courtois, D. Hulme, T. Mourouzis: Solving circuit optimisation problems in cryptography and
    cryptanalysis, 2011.
    """
    of_width(x, 4, "present_sbox")

    def body(x: Bits) -> Bits:
        d, c, b, a = x
        s = b ^ c
        t = a ^ (b & s)
        y0 = d ^ t
        u, v = b ^ (s & t), s ^ y0
        y1 = v ^ (d | u)
        w = ~(u ^ d)
        return Cat(y0, y1, t ^ (v | w), y1 ^ w)
    return library("present_sbox", [x], body)


def in_words(x: Words, count: int, title: str) -> List[Bits]:
    """The words that a box works on, of one width; those of a number are its bits."""
    words = list(x) if is_bits(x) or isinstance(x, (list, tuple)) else []
    if not words or not all(is_bits(each) for each in words) or len({each.width for each in words}) != 1:
        raise WidthError(f"{title}: words of one width are wanted, or a number")
    if count and len(words) != count:
        raise WidthError(f"{title}: {count} words are wanted, or a number of {count} bits, and not {len(words)}")
    return words


@one_name
def ascon_sbox(x: Words) -> Words:
    """The S-box of Ascon (NIST SP 800-232): a number of 5 bits, or five words from x0 up; 5 ANDs for each place.

    In its table x0 is the highest bit, so a number of 5 bits holds it in place 4.
    """
    words = in_words(x, 5, "ascon_sbox")
    a, b, c, d, e = words[::-1] if is_bits(x) else words
    a, c, e = a ^ e, c ^ b, e ^ d
    t = [~one & two for one, two in ((a, b), (b, c), (c, d), (d, e), (e, a))]
    a, b, c, d, e = a ^ t[1], b ^ t[2], c ^ t[3], d ^ t[4], e ^ t[0]
    out = [a ^ e, b ^ a, ~c, d ^ c, e]
    return Cat(out[::-1]) if is_bits(x) else out


@one_name
def keccak_chi(x: Words) -> Words:
    """The map chi of Keccak (FIPS 202) on a row of an odd number of bits, or of words: an AND for each place of each."""
    row = in_words(x, 0, "keccak_chi")
    n = len(row)
    if n < 3 or n % 2 == 0:
        raise WidthError(f"keccak_chi: a row has an odd number of places from 3 up, and not {n}: of others it has no inverse")
    out = [row[i] ^ (~row[(i + 1) % n] & row[(i + 2) % n]) for i in range(n)]
    return Cat(out) if is_bits(x) else out
