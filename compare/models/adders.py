"""A model of the programs that are made from a number: ripple-carry adders."""
from typing import List

from models.language import Run, program_of

MOST_BITS = 200
MOST_TRIED = 4  # bits of the adders that are tried on all inputs


def adder_text(bits: int) -> bytes:
    """The program that adds two numbers of so many bits, whose places are counted from the least bit."""
    lines = [
        "main (a : bool[%d]) (b : bool[%d]) = {" % (bits, bits),
        "let carry x y c = (x && y) <> (c && (x <> y));",
        "let s0 = a.[0] <> b.[0];",
        "let c1 = a.[0] && b.[0];",
    ]
    for place in range(1, bits):
        lines.append("let s{0} = a.[{0}] <> b.[{0}] <> c{0};".format(place))
        lines.append("let c{1} = carry a.[{0}] b.[{0}] c{0};".format(place, place + 1))
    outputs = ["s%d" % place for place in range(bits)] + ["c%d" % bits]
    lines += ["reg [%s]" % "; ".join(outputs), "}"]
    return "".join(line + "\n" for line in lines).encode()


def bits_of(number: int, count: int) -> List[int]:
    return [number >> place & 1 for place in range(count)]


def adds(bits: int, one: int, other: int) -> bool:
    """Whether the adder gives the sum of these two numbers, by as many writes as it should."""
    run = Run(program_of(adder_text(bits)), bits_of(one, bits) + bits_of(other, bits))
    outputs = [bit for bit, _ in run.outputs]
    return outputs == bits_of(one + other, bits + 1) and len(run.writes) == 6 * bits - 4


def sums_differ() -> int:
    """How many sums the adders do not give: all of few bits, and of every size one whose carry goes through it."""
    tried = [(bits, one, other) for bits in range(1, MOST_TRIED + 1)
             for one in range(1 << bits) for other in range(1 << bits)]
    tried += [(bits, (1 << bits) - 1, 1) for bits in range(1, MOST_BITS + 1)]
    different = sum(not adds(*case) for case in tried)
    print("adders: %d sums, different: %d" % (len(tried), different))
    return different
