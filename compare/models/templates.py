"""A model of the programs that compute with numbers: their texts, and what they compute.

The texts are written from the table of their lines alone; that of `add` is the adder's.
"""
import random
from typing import List

from models.adders import adder_text, bits_of
from models.language import Run, program_of

KINDS = ["add", "sub", "less", "inc", "mul"]
MOST_BITS = 200
MOST_FACTOR = 9_999
MOST_TRIED = 4  # bits of the programs that are tried on all inputs
SOME_FACTORS = [1, 2, 3, 10, 255, 256, 4_096, 9_998, MOST_FACTOR]


def joined(lines: List[str]) -> bytes:
    return "".join(line + "\n" for line in lines).encode()


def register(name: str, bits: int) -> str:
    """The bits of all places, and what goes out of the last."""
    return "reg [%s]" % "; ".join(["%s%d" % (name, place) for place in range(bits)] + ["c%d" % bits])


def difference_lines(bits: int, with_bits: bool) -> List[str]:
    lines = [
        "main (a : bool[%d]) (b : bool[%d]) = {" % (bits, bits),
        "let lend x y c = ((true <> x) && y) <> (c && (true <> x <> y));",
    ]
    if with_bits:
        lines.append("let d0 = a.[0] <> b.[0];")
    lines.append("let c1 = (true <> a.[0]) && b.[0];")
    for place in range(1, bits):
        if with_bits:
            lines.append("let d{0} = a.[{0}] <> b.[{0}] <> c{0};".format(place))
        lines.append("let c{1} = lend a.[{0}] b.[{0}] c{0};".format(place, place + 1))
    return lines


def increment_lines(bits: int) -> List[str]:
    lines = ["main (a : bool[%d]) = {" % bits, "let s0 = true <> a.[0];", "let c1 = a.[0];"]
    for place in range(1, bits):
        lines.append("let s{0} = a.[{0}] <> c{0};".format(place))
        lines.append("let c{1} = a.[{0}] && c{0};".format(place, place + 1))
    return lines + [register("s", bits), "}"]


def plus_lines(bits: int) -> List[str]:
    lines = ["let plus p q = {", "let s0 = p.[0] <> q.[0];", "let c1 = p.[0] && q.[0];"]
    for place in range(1, bits):
        lines.append("let s{0} = p.[{0}] <> q.[{0}] <> c{0};".format(place))
        lines.append("let c{1} = carry p.[{0}] q.[{0}] c{0};".format(place, place + 1))
    return lines + [register("s", bits), "};"]


def digit_line(bits: int, place: int, digit: str) -> str:
    if digit == "0":
        return "let r{1} = append r{0} reg [false];".format(place, place + 1)
    if place == 0:
        return "let r1 = plus r0 a;"
    return "let r{1} = append r{0}.[0..{2}] (plus r{0}.[{0}..{3}] a);".format(
        place, place + 1, place - 1, bits + place - 1)


def product_lines(bits: int, factor: int) -> List[str]:
    digits = bin(factor)[:1:-1]
    return [
        "main (a : bool[%d]) = {" % bits,
        "let carry x y c = (x && y) <> (c && (x <> y));",
        *plus_lines(bits),
        "let r0 = reg [%s];" % "; ".join(["false"] * bits),
        *[digit_line(bits, place, digit) for place, digit in enumerate(digits)],
        "r%d" % len(digits),
        "}",
    ]


def template_text(kind: str, bits: int, factor: int) -> bytes:
    """The program of a kind for numbers of so many bits; only `mul` has a factor."""
    if kind == "add":
        return adder_text(bits)
    if kind == "sub":
        return joined(difference_lines(bits, True) + [register("d", bits), "}"])
    if kind == "less":
        return joined(difference_lines(bits, False) + ["c%d" % bits, "}"])
    if kind == "inc":
        return joined(increment_lines(bits))
    return joined(product_lines(bits, factor))


def inputs_of(kind: str, bits: int) -> int:
    return bits if kind in ("inc", "mul") else 2 * bits


def wanted(kind: str, bits: int, factor: int, word: int) -> List[int]:
    """The outputs that the kind promises for the inputs of this word, its first bit the least."""
    one, other = word & (1 << bits) - 1, word >> bits
    if kind == "add":
        return bits_of(one + other, bits + 1)
    if kind == "sub":
        return bits_of((one - other) % (1 << bits), bits) + [int(one < other)]
    if kind == "less":
        return [int(one < other)]
    if kind == "inc":
        return bits_of(word + 1, bits + 1)
    return bits_of(factor * word, bits + factor.bit_length())


def computes(kind: str, bits: int, factor: int, words: List[int]) -> bool:
    """Whether the program gives on each of these words what its kind promises, and claims nothing."""
    program = program_of(template_text(kind, bits, factor))
    for word in words:
        run = Run(program, bits_of(word, inputs_of(kind, bits)))
        if [bit for bit, _ in run.outputs] != wanted(kind, bits, factor, word) or run.claims:
            return False
    return True


def words_of(kind: str, bits: int, count: int = 1) -> List[int]:
    """All words of few bits; else those of zeros and ones, and so many random ones."""
    inputs = inputs_of(kind, bits)
    if bits <= MOST_TRIED:
        return list(range(1 << inputs))
    source = random.Random("%s %d" % (kind, bits))
    return [0, (1 << inputs) - 1] + [source.getrandbits(inputs) for _ in range(count)]


def templates_differ(worked) -> int:
    """How many texts differ from those that were worked out, and how many programs do not compute what their kind
    promises: all sizes up to a few bits with many factors, and some larger ones."""
    different = sum(template_text(*case) != text.encode() for *case, text in worked)
    tried = [(kind, bits, 0) for kind in KINDS if kind != "mul" for bits in range(1, MOST_BITS + 1)]
    tried += [("mul", bits, factor) for bits in range(1, MOST_TRIED + 1) for factor in [*range(1, 40), *SOME_FACTORS]]
    tried += [("mul", bits, bits * 49 + 1) for bits in [7, 64, MOST_BITS]]
    different += sum(not computes(*case, words_of(case[0], case[1])) for case in tried)
    print("templates: %d texts and %d programs, different: %d" % (len(worked), len(tried), different))
    return different
