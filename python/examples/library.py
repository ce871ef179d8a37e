"""What the functions of `revc.lib` cost, counted: ANDs, and in brackets how many are one behind the other at most.

    python3 python/examples/library.py
"""
from typing import List, Tuple

from revc import Bits, Oracle, lib, oracle

PRIMES = {8: 251, 16: 65521, 32: 4294967291}  # the greatest of so many bits

# What to write, and for which widths of a, b, c and d it is counted. m is a prime of so many bits, k is m // 3, and
# `digits` are the segments that show a digit, of ten entries.
ROWS: List[Tuple[str, List[int]]] = [
    ("aes_sbox(a)", [8]), ("aes_sbox(a, low_depth=True)", [8]), ("aes_sbox_inverse(a)", [8]),
    ("present_sbox(a)", [4]), ("ascon_sbox(a)", [5]), ("keccak_chi(a)", [5]),
    ("add(a, b)", [8, 16, 32]), ("add(a, b, depth=6)", [8, 16, 32]), ("add(a, b, carry=True)", [8, 16, 32]),
    ("less(a, b)", [8, 16, 32]), ("less(a, b, depth=6)", [8, 16, 32]),
    ("divmod(a, b)", [8, 16, 32]),
    ("mod_add(a, b, m)", [8, 16, 32]), ("mod_add(a, k, m)", [8, 16, 32]), ("mod_sub(a, b, m)", [8, 16, 32]),
    ("mod_double(a, m)", [8, 16, 32]), ("mod_mul(a, k, m)", [8, 16, 32]), ("mod_mul(a, b, m)", [8, 16, 32]),
    ("mod_exp(k, a, m)", [8, 16]),
    ("max(a, b)", [8, 16, 32]), ("sort(a, b, c, d)", [8, 16, 32]), ("popcount(a)", [8, 16, 32]),
    ("abs(as_signed(a))", [8, 16, 32]), ("as_signed(a) * as_signed(b)", [8, 16]),
    ("lookup(a, range(0, 500, 5))", [8]), ("lookup(a, digits)", [4]),
]
DIGITS = [0x3f, 0x06, 0x5b, 0x4f, 0x66, 0x6d, 0x7d, 0x07, 0x7f, 0x6f]


def written(text: str, n: int) -> Oracle:
    """The oracle of a row, with as many parameters of n bits as it names."""
    known = dict(vars(lib), m=PRIMES.get(n), k=PRIMES.get(n, 0) // 3, digits=DIGITS)
    names = [name for name in "abcd" if f"{name}," in text or f"{name})" in text]
    function = eval(f"lambda {', '.join(names)}: {text}", known)
    function.__annotations__ = {name: Bits[n] for name in names}
    return oracle(function)


def counted(source: Oracle) -> Tuple[int, int]:
    """The ANDs that a text is left with, and how many of them are one behind the other at most.

    Pebbling takes two Toffoli gates for each AND; the outputs are copied before any is undone, so their depth is the text's.
    """
    circuit = source.compile("pebble")
    depths = [0] * circuit.lines
    for *controls, target in circuit.gates:
        behind = max([depths[line] for line in controls], default=0) + (len(controls) == 2)
        depths[target] = max(depths[target], behind)
    return circuit.cost.toffoli // 2, max(depths[source.inputs:source.inputs + source.outputs])


def main() -> None:
    print(f"{'What to write':34}{'at 8 bits':>13}{'16':>13}{'32':>13}")
    for text, widths in ROWS:
        cells = [f"{ands:,} ({depth})" for ands, depth in (counted(written(text, n)) for n in widths)]
        print(f"{text + (f'  [{widths[0]} bits]' if widths[0] < 8 else ''):34}" + "".join(f"{cell:>13}" for cell in cells))


if __name__ == "__main__":
    main()
