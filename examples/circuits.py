"""The programs of this folder: what each computes, by Python's own arithmetic, and the options of `compile` that fit.

A number stands for a register or a bit, the lowest digit at place 0.
"""
from pathlib import Path
from typing import Callable, List, NamedTuple, Sequence, Tuple

HERE = Path(__file__).resolve().parent
PRESENT = [0xC, 5, 6, 0xB, 9, 0, 0xA, 0xD, 3, 0xE, 0xF, 8, 4, 7, 1, 2]  # the published table of its S-box

GRAIN = [[1], [4], [0, 3], [2, 3], [3, 4], [0, 1, 2], [0, 2, 3], [0, 2, 4], [1, 2, 4], [2, 3, 4]]  # its published sum


class Circuit(NamedTuple):
    """A program: the widths of its parameters and of its outputs, and the outputs for the parameters' numbers."""

    name: str
    inputs: Sequence[int]
    outputs: Sequence[int]
    compute: Callable[..., Tuple[int, ...]]
    title: str = ""  # in the table of docs/GALLERY.md, where it stands there
    lines: Sequence[int] = ()  # budgets that are tried too, beside those without a limit
    unrolled: str = ""  # the program that its loops stand for, and whose circuits it has

    @property
    def text(self) -> bytes:
        return (HERE / (self.name + ".revs")).read_bytes()

    @property
    def bits(self) -> int:
        return sum(self.inputs)

    def answer(self, word: str) -> str:
        """The output bits for the input bits."""
        return digits(self.compute(*numbers(word, self.inputs)), self.outputs)

    def options(self) -> List[List[str]]:
        plans = [["--plan", plan] for plan in ("compact", "lean", "shallow", "eager", "pebble")]
        return plans + [["--plan", "pebble", "--lines", str(lines)] for lines in self.lines]


# ---- Numbers and bits


def numbers(word: str, widths: Sequence[int]) -> List[int]:
    """The numbers whose digits stand one behind the other, each with the lowest first."""
    found, at = [], 0
    for width in widths:
        found.append(int(word[at:at + width][::-1], 2))
        at += width
    return found


def digits(values: Sequence[int], widths: Sequence[int]) -> str:
    return "".join(format(value, "0%db" % width)[::-1] for value, width in zip(values, widths))


def rotated_right(value: int, count: int, width: int) -> int:
    return (value >> count | value << width - count) % (1 << width)


def parity(value: int) -> int:
    return bin(value).count("1") % 2


# ---- What the programs compute


def majority(*bits: int) -> Tuple[int]:
    return (int(2 * sum(bits) > len(bits)),)


def multiplied(a: int, b: int) -> Tuple[int]:
    return (a * b,)


def added(*values: int) -> Tuple[int]:
    return (sum(values),)


def compared(a: int, b: int) -> Tuple[int, int]:
    return int(a < b), int(a == b)


def chi(row: int) -> Tuple[int]:
    return (row ^ ~rotated_right(row, 1, 5) & rotated_right(row, 2, 5),)


def chi_of_rows(state: int) -> Tuple[int]:
    return (sum(chi(state >> at & 31)[0] << at for at in range(0, 100, 5)),)


def present(nibble: int) -> Tuple[int]:
    return (PRESENT[nibble],)


def grain(x: int) -> Tuple[int]:
    return (sum(all(x >> place & 1 for place in product) for product in GRAIN) % 2,)


def speck(x: int, y: int, key: int) -> Tuple[int, int]:
    x = (rotated_right(x, 7, 16) + y) % (1 << 16) ^ key
    return x, rotated_right(y, 14, 16) ^ x


def sha256(a: int, b: int, c: int, d: int, e: int, f: int, g: int, h: int, m: int) -> Tuple[int, ...]:
    def turned(value: int, *counts: int) -> int:
        first, second, third = (rotated_right(value, count, 32) for count in counts)
        return first ^ second ^ third

    t1 = h + m + turned(e, 6, 11, 25) + (e & f | ~e & g)
    t2 = turned(a, 2, 13, 22) + (a & b | a & c | b & c)
    return (t1 + t2) % (1 << 32), a, b, c, (d + t1) % (1 << 32), e, f, g


CIRCUITS = [
    Circuit("and", [1, 1], [1], lambda a, b: (a & b,)),
    Circuit("xor", [1, 1], [1], lambda a, b: (a ^ b,)),
    Circuit("carry", [1, 1, 1], [1], majority),
    Circuit("parity8", [1] * 8, [1], lambda *bits: (sum(bits) % 2,)),
    Circuit("adder", [1, 1, 1], [2], added),
    Circuit("rotated", [3], [3, 1], lambda r: (rotated_right(r, 1, 3), parity(r))),
    Circuit("claimed", [1, 1, 1], [1], lambda a, b, c: (a & b ^ c,)),
    Circuit("weight7", [7], [3], lambda x: (bin(x).count("1"),)),
    Circuit("sat3", [3], [1], lambda x: (int(x in (0b000, 0b101, 0b011)),)),
    Circuit("grain", [5], [1], grain),
    Circuit("majority", [1, 1, 1], [1], majority, "majority of three bits", [7]),
    Circuit("comparator", [3, 3], [1, 1], compared, "comparator of three bits", [16]),
    Circuit("adder8", [8, 8], [9], added, "ripple adder of eight bits", [54, 46]),
    Circuit("multiplier4", [4, 4], [8], multiplied, "multiplier, four by four bits", [67, 54]),
    Circuit("chi5", [5], [5], chi, "a row of Keccak's chi", [20]),
    Circuit("chi100", [100], [100], chi_of_rows, "Keccak's chi, five by five lanes of four bits", [400, 350]),
    Circuit("adder_loop", [8, 8], [9], added, unrolled="adder8"),
    Circuit("multiplier_loop", [4, 4], [8], multiplied, unrolled="multiplier4"),
    Circuit("chi_loop", [100], [100], chi_of_rows, unrolled="chi100"),
    Circuit("present", [4], [4], present, "S-box of PRESENT", [32, 26]),
    Circuit("speck", [16, 16, 16], [16, 16], speck, "a round of Speck32/64", [156, 142]),
    Circuit("sha256", [32] * 9, [32] * 8, sha256, "a round of SHA-256", [1312, 994, 831]),
]
