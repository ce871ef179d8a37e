"""Programs that compute with numbers."""
from typing import List

from .texts import Row


CASES: List[Row] = [
    ("arith mul 2 --by 3 | eval 11", "", 0, "1001\n"),
    ("arith sub 2 | eval 1001", "", 0, "111\n"),
    ("arith inc 2 | eval 11", "", 0, "001\n"),
    ("arith add 2 | eval 1111", "", 0, "011\n"),
    ("arith less 1 --write qasm | run --from qasm 01000 11000", "", 0, "01100\n11000\n"),
    ("arith mul 4 --by=11 --write real | run 1101", "", 0, "110110011110000000000\n"),
]

# Twice a number of one bit: the digit 0 adds nothing, and the digit 1 adds one place up.
TWICE = (
    "main (a : bool[1]) = {\nlet carry x y c = (x && y) <> (c && (x <> y));\nlet plus p q = {\n"
    "let s0 = p.[0] <> q.[0];\nlet c1 = p.[0] && q.[0];\nreg [s0; c1]\n};\nlet r0 = reg [false];\n"
    "let r1 = append r0 reg [false];\nlet r2 = append r1.[0..0] (plus r1.[1..1] a);\nr2\n}\n"
)
# The difference of two numbers of two bits.
TWO_BITS_LESS = (
    "main (a : bool[2]) (b : bool[2]) = {\nlet lend x y c = ((true <> x) && y) <> (c && (true <> x <> y));\n"
    "let d0 = a.[0] <> b.[0];\nlet c1 = (true <> a.[0]) && b.[0];\nlet d1 = a.[1] <> b.[1] <> c1;\n"
    "let c2 = lend a.[1] b.[1] c1;\nreg [d0; d1; c2]\n}\n"
)
# The adder of one bit: there is no place above 0.
ONE_BIT = (
    "main (a : bool[1]) (b : bool[1]) = {\nlet carry x y c = (x && y) <> (c && (x <> y));\nlet s0 = a.[0] <> b.[0];\n"
    "let c1 = a.[0] && b.[0];\nreg [s0; c1]\n}\n"
)

SMALL: List[Row] = [
    ("arith mul 1 --by 2", "", 0, TWICE),
    ("arith sub 2", "", 0, TWO_BITS_LESS),
    ("gen 1", "", 0, ONE_BIT),
]
