"""What compact circuits of known functions come to at most."""
from pathlib import Path
from typing import Callable, List, NamedTuple, Optional

from cases import long_texts
from models.adders import adder_text

EXAMPLES = Path(__file__).resolve().parent.parent.parent / "examples"


class Size(NamedTuple):
    lines: int
    gates: int
    toffoli: int


class Sized(NamedTuple):
    """A program, and what its compact circuit comes to at most, on so many lines, or as many as there are."""

    title: str
    text: Callable[[], bytes]
    most: Size
    lines: Optional[int] = None

    def words(self) -> List[str]:
        lines = 16_384 if self.lines is None else self.lines
        return ["compile", "--plan", "compact", "--gates", "4000000", "--lines", str(lines)]


def example(name: str) -> Callable[[], bytes]:
    return (EXAMPLES / (name + ".revs")).read_bytes


def sum_of_32() -> bytes:
    return adder_text(32)


def product_of_16() -> bytes:
    return long_texts.multiplier(16)


def eight_rounds() -> bytes:
    return long_texts.sha256(8)


def keccak_800(rounds: int) -> Callable[[], bytes]:
    return lambda: long_texts.keccak(rounds, 32)


SIZES = [
    Sized("the sum of two 32-bit numbers", sum_of_32, Size(97, 251, 32)),
    Sized("multiplier4", example("multiplier4"), Size(36, 142, 48)),
    Sized("a multiplier, 16 by 16 bits", product_of_16, Size(528, 3_310, 960)),
    Sized("a multiplier, 16 by 16 bits", product_of_16, Size(299, 6_634, 1_432), 300),
    Sized("a multiplier, 16 by 16 bits", product_of_16, Size(179, 9_140, 1_672), 190),
    Sized("a multiplier, 16 by 16 bits", product_of_16, Size(149, 9_844, 1_732), 150),
    Sized("speck", example("speck"), Size(80, 209, 15)),
    Sized("sha256", example("sha256"), Size(724, 3_620, 430)),
    Sized("the S-box of AES", long_texts.aes_sbox, Size(29, 346, 50)),
    Sized("AES-128", long_texts.aes, Size(3_338, 207_185, 13_240)),
    Sized("AES-128", long_texts.aes, Size(2_042, 234_073, 17_848), 2_048),
    Sized("AES-128", long_texts.aes, Size(1_565, 241_923, 19_544), 1_570),
    Sized("AES-128", long_texts.aes, Size(1_180, 488_647, 28_260), 1_280),
    Sized("eight rounds of SHA-256", eight_rounds, Size(1_145, 40_990, 4_642)),
    Sized("eight rounds of SHA-256", eight_rounds, Size(2_040, 54_493, 7_375), 2_048),
    Sized("the compression of SHA-256", long_texts.sha256, Size(15_389, 699_080, 57_966)),
    Sized("the compression of SHA-256", long_texts.sha256, Size(7_851, 858_669, 73_040), 8_192),
    Sized("the compression of SHA-256", long_texts.sha256, Size(4_892, 922_562, 78_960), 5_000),
    Sized("a round of Keccak-f[800]", keccak_800(1), Size(1_728, 10_564, 800)),
    Sized("22 rounds of Keccak-f[800]", keccak_800(22), Size(11_829, 503_482, 34_400)),
]
