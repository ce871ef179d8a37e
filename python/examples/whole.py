"""The whole ciphers and hashes of docs/GALLERY.md: what they are by published vectors, or by Python's own arithmetic.

    python3 python/examples/whole.py     (writes the texts of examples/whole)
"""
import hashlib
import sys
from pathlib import Path
from random import Random
from typing import Any, Callable, Dict, Iterator, List, NamedTuple, Sequence, Tuple

sys.dont_write_bytecode = True
sys.path[:0] = [str(Path(__file__).resolve().parent), str(Path(__file__).resolve().parent.parent)]

from aes128 import aes128
from arithmetic import add_modulo, factors16, multiply32, weight64
from ascon_p12 import ascon_p12
from chacha20 import chacha20
from keccak import keccak_f200, keccak_f800
from revc import Oracle
from sha256 import START, sha256_compression, sha256_preimage
from simon64_128 import simon64_128
from speck32_64 import speck32_64

FOLDER = Path(__file__).resolve().parent.parent.parent / "examples" / "whole"
RANDOM = 1000  # inputs of a function of Python's own arithmetic

Vector = Tuple[Dict[str, int], Any]


class Whole(NamedTuple):
    """A program with its title, and what it answers: `vectors` are published, `compute` is Python's own arithmetic."""

    oracle: Oracle
    title: str
    vectors: Sequence[Vector] = ()
    compute: Callable[..., Any] = None  # type: ignore[assignment]
    below: int = 0  # what its inputs are below, where that is less than their bits say
    right: Sequence[Dict[str, int]] = ()  # inputs among the random ones, where these seldom give 1
    lines: Sequence[int] = ()  # of the compact circuits that docs/GALLERY.md shows beside those on all lines

    def budgets(self) -> List[Tuple[str, int]]:
        """Plans and lines that docs/GALLERY.md shows; 0 is all lines."""
        return [("compact", lines) for lines in (0, *self.lines)] + [("lean", 0), ("shallow", 0)]

    def cases(self) -> List[Vector]:
        return list(self.vectors) or list(self.random_cases())

    def random_cases(self) -> Iterator[Vector]:
        random = Random(1)
        for _ in range(RANDOM - len(self.right)):
            row = {name: random.randrange(self.below or 1 << width) for name, width in self.oracle.params}
            yield row, self.compute(**row)
        for row in self.right:
            yield row, self.compute(**row)


def lowest_first(text: str) -> int:
    """Bytes in hexadecimal as a number, the first one lowest."""
    return int.from_bytes(bytes.fromhex(text), "little")


def in_bytes(text: str) -> List[int]:
    return list(bytes.fromhex(text))


def words(data: bytes, size: int = 4, order: str = "big") -> List[int]:
    return [int.from_bytes(data[at:at + size], order) for at in range(0, len(data), size)]  # type: ignore[arg-type]


def joined(values: Sequence[int], width: int) -> int:
    return sum(value << width * i for i, value in enumerate(values))


def little_words(text: str) -> List[int]:
    return words(bytes.fromhex(text), 4, "little")


def hashed_block(message: bytes) -> Vector:
    """A message of at most 55 bytes: its one block, and its digest as `hashlib` has it."""
    block = message + b"\x80" + bytes(55 - len(message)) + (8 * len(message)).to_bytes(8, "big")
    return (dict(state=joined(START, 32), block=joined(words(block), 32)), words(hashlib.sha256(message).digest()))


def begins(message: bytes) -> Vector:
    """16 bytes, and whether their digest begins as the sought one."""
    right = hashlib.sha256(message).digest()[:8] == hashlib.sha256(b"a secret of 16 b").digest()[:8]
    return dict(message=joined(words(message), 32)), int(right)


MODULUS = (1 << 32) - 5
KEY, PLAIN = "000102030405060708090a0b0c0d0e0f", "00112233445566778899aabbccddeeff"
PRIMES = [dict(x=65519, y=65521), dict(x=65521, y=65519)]

WHOLE = [
    Whole(speck32_64, "Speck32/64, whole", [(dict(text=0x6574694c, key=0x1918111009080100), 0xa86842f2)],
          lines=(217,)),
    Whole(simon64_128, "Simon64/128, whole", [
        (dict(text=0x656b696c20646e75, key=0x1b1a1918131211100b0a090803020100), 0x44c8fc20b9dfa07a)]),
    Whole(ascon_p12, "Ascon-p12", [(dict(state=0x00400c0000000100), [
        0xee9398aadb67f03d, 0x8bb21831c60f1002, 0xb48a92db98d5da62, 0x43189921b8f8e3e8, 0x348fa5c9d525e140])],
          lines=(2432, 2176)),
    Whole(keccak_f200, "Keccak-f[200]", [
        (dict(state=0), in_bytes("3c2826841cb35c171eaae9b811134ceaa3852c69d2c5abafea"))],
          lines=(2112, 1320)),
    Whole(keccak_f800, "Keccak-f[800]", [(dict(state=0), [
        0xe531d45d, 0xf404c6fb, 0x23a0bf99, 0xf1f8452f, 0x51ffd042, 0xe539f578, 0xf00b80a7, 0xaf973664, 0xbf5af34c,
        0x227a2424, 0x88172715, 0x9f685884, 0xb15cd054, 0x1bf4fc0e, 0x6166fa91, 0x1a9e599a, 0xa3970a1f, 0xab659687,
        0xafab8d68, 0xe74b1015, 0x34001a98, 0x4119eff3, 0x930a0e76, 0x87b28070, 0x11efe996])],
          lines=(8992, 7141)),
    Whole(aes128, "AES-128", [
        (dict(key=lowest_first(KEY), text=lowest_first(PLAIN)), in_bytes("69c4e0d86a7b0430d8cdb78070b4c55a")),
        (dict(key=lowest_first("2b7e151628aed2a6abf7158809cf4f3c"), text=lowest_first("3243f6a8885a308d313198a2e0370734")),
         in_bytes("3925841d02dc09fbdc118597196a0b32"))],
          lines=(2285, 1236, 1024)),
    Whole(chacha20, "ChaCha20, the block function", [
        (dict(key=lowest_first("".join("%02x" % i for i in range(32))), counter=1,
              nonce=lowest_first("000000090000004a00000000")),
         [0xe4e7f110, 0x15593bd1, 0x1fdd0f50, 0xc47120a3, 0xc7f4d1c7, 0x0368c033, 0x9aaa2204, 0x4e6cd4c3,
          0x466482d2, 0x09aa9f07, 0x05d7c214, 0xa2028bd9, 0xd19c12b5, 0xb94e16de, 0xe883d0cb, 0x4e3c50a2]),
        (dict(key=0, counter=0, nonce=0), little_words(
            "76b8e0ada0f13d90405d6ae55386bd28bdd219b8a08ded1aa836efcc8b770dc7"
            "da41597c5157488d7724e03fb8d84a376a43b8f41518a11cc387b669b2ee6586"))]),
    Whole(sha256_compression, "SHA-256, the compression function", [hashed_block(b"abc"), hashed_block(b""),
                                                                    hashed_block(bytes(range(55)))],
          lines=(3168, 1600)),
    Whole(sha256_preimage, "SHA-256 of 16 bytes: are 64 bits of the digest the sought ones?", [
        begins(b"a secret of 16 b"), begins(b"a secret of 16 c"), begins(bytes(16))],
          lines=(3120, 1000)),
    Whole(multiply32, "multiplication, 32 by 32 bits", compute=lambda x, y: x * y,
          lines=(1109, 561)),
    Whole(add_modulo, "addition modulo 2^32 - 5, of numbers below", compute=lambda x, y: (x + y) % MODULUS, below=MODULUS,
          lines=(128,)),
    Whole(factors16, "x * y == 65519 * 65521, of 16 bits each", compute=lambda x, y: int(x * y == 65519 * 65521),
          right=PRIMES,
          lines=(342, 163)),
    Whole(weight64, "Hamming weight of 64 bits", compute=lambda x: bin(x).count("1"),
          lines=(117, 112)),
]


def main() -> None:
    FOLDER.mkdir(exist_ok=True)
    for each in WHOLE:
        (FOLDER / (each.oracle.name + ".revs")).write_text(each.oracle.text)
    print("texts: %d" % len(WHOLE))


if __name__ == "__main__":
    main()
