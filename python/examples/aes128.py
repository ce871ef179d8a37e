"""AES-128 (FIPS 197): key and text to the cipher text, byte 0 lowest.

The S-box is the circuit of Boyar and Peralta with 34 ANDs (A depth-16 circuit for the AES S-box, 2011, whose first part is
their A new combinational logic minimization technique with applications to cryptology, 2010): U0 is the highest bit of
its input and S0 of its output; + is XOR, x AND, and # XNOR.
"""
from revc import Bits, Cat, Const, function, oracle

SBOX = """
T1 = U0 + U3; T2 = U0 + U5; T3 = U0 + U6; T4 = U3 + U5; T5 = U4 + U6; T6 = T1 + T5; T7 = U1 + U2; T8 = U7 + T6; T9 =
U7 + T7; T10 = T6 + T7; T11 = U1 + U5; T12 = U2 + U5; T13 = T3 + T4; T14 = T6 + T11; T15 = T5 + T11; T16 = T5 + T12;
T17 = T9 + T16; T18 = U3 + U7; T19 = T7 + T18; T20 = T1 + T19; T21 = U6 + U7; T22 = T7 + T21; T23 = T2 + T22; T24 =
T2 + T10; T25 = T20 + T17; T26 = T3 + T16; T27 = T1 + T12; M1 = T13 x T6; M2 = T23 x T8; M3 = T14 + M1; M4 = T19 x
U7; M5 = M4 + M1; M6 = T3 x T16; M7 = T22 x T9; M8 = T26 + M6; M9 = T20 x T17; M10 = M9 + M6; M11 = T1 x T15; M12 =
T4 x T27; M13 = M12 + M11; M14 = T2 x T10; M15 = M14 + M11; M16 = M3 + M2; M17 = M5 + T24; M18 = M8 + M7; M19 = M10
+ M15; M20 = M16 + M13; M21 = M17 + M15; M22 = M18 + M13; M23 = M19 + T25; M24 = M22 + M23; M25 = M22 x M20; M26 =
M21 + M25; M27 = M20 + M21; M28 = M23 + M25; M29 = M28 x M27; M30 = M26 x M24; M31 = M20 x M23; M32 = M27 x M31; M33
= M27 + M25; M34 = M21 x M22; M35 = M24 x M34; M36 = M24 + M25; M37 = M21 + M29; M38 = M32 + M33; M39 = M23 + M30;
M40 = M35 + M36; M41 = M38 + M40; M42 = M37 + M39; M43 = M37 + M38; M44 = M39 + M40; M45 = M42 + M41; M46 = M44 x
T6; M47 = M40 x T8; M48 = M39 x U7; M49 = M43 x T16; M50 = M38 x T9; M51 = M37 x T17; M52 = M42 x T15; M53 = M45 x
T27; M54 = M41 x T10; M55 = M44 x T13; M56 = M40 x T23; M57 = M39 x T19; M58 = M43 x T3; M59 = M38 x T22; M60 = M37
x T20; M61 = M42 x T1; M62 = M45 x T4; M63 = M41 x T2; L0 = M61 + M62; L1 = M50 + M56; L2 = M46 + M48; L3 = M47 +
M55; L4 = M54 + M58; L5 = M49 + M61; L6 = M62 + L5; L7 = M46 + L3; L8 = M51 + M59; L9 = M52 + M53; L10 = M53 + L4;
L11 = M60 + L2; L12 = M48 + M51; L13 = M50 + L0; L14 = M52 + M61; L15 = M55 + L1; L16 = M56 + L0; L17 = M57 + L1;
L18 = M58 + L8; L19 = M63 + L4; L20 = L0 + L1; L21 = L1 + L7; L22 = L3 + L12; L23 = L18 + L2; L24 = L15 + L9; L25 =
L6 + L10; L26 = L7 + L9; L27 = L8 + L10; L28 = L11 + L14; L29 = L11 + L17; S0 = L6 + L24; S1 = L16 # L26; S2 = L19 #
L28; S3 = L6 + L21; S4 = L20 + L22; S5 = L25 + L29; S6 = L13 # L27; S7 = L6 # L23"""


@function
def sbox(x: Bits[8]):
    v = {"U%d" % i: x[7 - i] for i in range(8)}
    for statement in SBOX.split(";"):
        name, _, a, sign, b = statement.split()
        v[name] = (v[a] & v[b] if sign == "x" else v[a] ^ v[b] if sign == "+" else ~(v[a] ^ v[b])).named(name)
    return Cat([v["S%d" % i] for i in reversed(range(8))])


def doubled(x):
    """x times 2 in the field of 256 elements."""
    return (x << 1) ^ Cat([x[7] if 0x1b >> i & 1 else Const(0, 1) for i in range(8)])


@function
def mixed_column(a, b, c, d):
    s = [a, b, c, d]
    return [doubled(s[i] ^ s[(i + 1) % 4]) ^ s[(i + 1) % 4] ^ (s[(i + 2) % 4] ^ s[(i + 3) % 4]) for i in range(4)]


def encrypted(key, texts):
    """The bytes of the cipher texts, of those of a key and of several texts; the round keys are computed once."""
    k, constant = list(key), 1
    states = [[x ^ y for x, y in zip(text, k)] for text in texts]
    for i in range(10):
        for j in range(16):
            k[j] = k[j] ^ (k[j - 4] if j > 3 else sbox(k[12 + (j + 1) % 4]) ^ (constant if j == 0 else 0))
        constant = constant << 1 ^ (0x11b if constant & 0x80 else 0)
        states = [encryption_round(s, k, i == 9) for s in states]
    return states


def encryption_round(s, k, is_last):
    s = [sbox(x) for x in s]
    s = [s[5 * j % 16] for j in range(16)]
    if not is_last:
        s = [x for c in range(4) for x in mixed_column(*s[4 * c:4 * c + 4])]
    return [x ^ y for x, y in zip(s, k)]


@oracle
def aes128(key: Bits[128], text: Bits[128]):
    return encrypted(key.split(8), [text.split(8)])[0]
