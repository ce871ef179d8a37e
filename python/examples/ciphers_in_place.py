"""Ciphers in place: key and text to the last round key and the cipher text, on the lines of key and text.

Behind each S-box its inverse is computed aside, so that `compile_in_place` finds that what it puts out leads back to what it
replaces. PRESENT is that of Bogdanov et al. (PRESENT: an ultra-lightweight block cipher, 2007) with a key of 80 bits.

    python3 python/examples/ciphers_in_place.py
"""
import sys
from pathlib import Path
from typing import List, Tuple

sys.dont_write_bytecode = True
sys.path[:0] = [str(Path(__file__).resolve().parent.parent)]

from aes128 import mixed_column
from revc import Bits, Cat, Oracle, aside, function, lib, oracle, table

BACK = [[12, 5, 6, 11, 9, 0, 10, 13, 3, 14, 15, 8, 4, 7, 1, 2].index(y) for y in range(16)]


@function
def nibble(x: Bits[4]):
    """PRESENT's S-box."""
    y = lib.present_sbox(x)
    aside(table(y, BACK))
    return y


def present80(rounds: int = 31) -> Oracle:
    @oracle
    def present(key: Bits[80], text: Bits[64]):
        k, s = key, text
        for i in range(1, rounds + 1):
            s = Cat([nibble(x) for x in (s ^ k[16:]).split(4)])
            s = Cat([s[4 * (j % 16) + j // 16] for j in range(64)])
            k = k.rotate_left(61)
            k = Cat(k[:76], nibble(k[76:])) ^ (i << 15)
        return k, s ^ k[16:]
    return present


@function
def byte(x: Bits[8]):
    """AES's S-box."""
    y = lib.aes_sbox(x)
    aside(lib.aes_sbox_inverse(y))
    return y


def aes128(rounds: int = 10) -> Oracle:
    """The last of ten rounds is without its mixed columns."""
    @oracle
    def aes(key: Bits[128], text: Bits[128]):
        k, constant = key.split(8), 1
        s = [x ^ y for x, y in zip(text.split(8), k)]
        for i in range(rounds):
            for j in range(16):
                k[j] = k[j] ^ (k[j - 4] if j > 3 else lib.aes_sbox(k[12 + (j + 1) % 4]) ^ (constant if j == 0 else 0))
            constant = constant << 1 ^ (0x11b if constant & 0x80 else 0)
            s = [byte(x) for x in s]
            s = [s[5 * j % 16] for j in range(16)]
            if i < 9:
                s = [x for c in range(4) for x in mixed_column(*s[4 * c:4 * c + 4])]
            s = [x ^ y for x, y in zip(s, k)]
        return Cat(k), Cat(s)
    return aes


CIPHERS: List[Tuple[str, Oracle]] = [
    ("PRESENT-80, key and text to the last round key and the cipher text", present80()),
    ("AES-128, the same", aes128()),
]


if __name__ == "__main__":
    for title, cipher in CIPHERS:
        print(f"{title}: {cipher.compile_in_place().cost}")
