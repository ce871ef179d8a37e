"""Plans and budgets."""
from typing import List

from .texts import COMPARATOR, FULL_ADDER, MAJORITY, PRODUCT, TURNED, Row

QASM_FILE = (
    "OPENQASM 2.0;\ninclude \"qelib1.inc\";\nqreg inp[2];\nqreg outp[1];\nqreg work[1];\nccx inp[0],inp[1],work[0];\n"
    "cx work[0],outp[0];\nccx inp[0],inp[1],work[0];\n"
)
BORROWING_QASM_FILE = (
    "OPENQASM 2.0;\ninclude \"qelib1.inc\";\nqreg inp[2];\nqreg outp[1];\nqreg work[1];\nqreg dirty[1];\n"
    "ccx inp[0],inp[1],work[0];\ncx work[0],outp[0];\nccx inp[0],inp[1],work[0];\n"
)
CHAIN_FILE = (
    ".version 2.0\n.numvars 5\n.variables x0 x1 y0 w0 w1\n.inputs x0 x1 y0 w0 w1\n.outputs x0 x1 y0 w0 w1\n"
    ".constants --000\n.garbage -----\n.begin\nt3 x1 x0 w0\nt2 x0 w1\nt2 w0 w1\nt2 w1 y0\nt2 w0 w1\nt2 x0 w1\n"
    "t3 x1 x0 w0\n.end\n"
)
BRACKETS_FILE = (
    ".version 2.0\n.numvars 6\n.variables x0 x1 y0 w0 w1 w2\n.inputs x0 x1 y0 w0 w1 w2\n.outputs x0 x1 y0 w0 w1 w2\n"
    ".constants --0000\n.garbage ------\n.begin\nt2 x0 w0\nt2 x1 w0\nt2 x1 w1\nt2 x0 w1\nt3 w0 w1 w2\nt2 w2 y0\n"
    "t3 w0 w1 w2\nt2 x0 w1\nt2 x1 w1\nt2 x1 w0\nt2 x0 w0\n.end\n"
)
# The first node is cleaned by its operands, and gives its line to the third; the second by its two
# monomials, ab and c.
THREE = "main (a : bool) (b : bool) (c : bool) = { let t = a && b; let u = t <> c; u && a }"
THREE_FILE = (
    ".version 2.0\n.numvars 6\n.variables x0 x1 x2 y0 w0 w1\n.inputs x0 x1 x2 y0 w0 w1\n.outputs x0 x1 x2 y0 w0 w1\n"
    ".constants ---000\n.garbage ------\n.begin\nt3 x0 x1 w0\nt2 w0 w1\nt2 x2 w1\nt3 x0 x1 w0\nt3 w1 x0 w0\n"
    "t3 x0 x1 w1\nt2 x2 w1\nt2 w0 y0\nt2 x2 w1\nt3 x0 x1 w1\nt3 w1 x0 w0\nt3 x0 x1 w0\nt2 x2 w1\nt2 w0 w1\n"
    "t3 x0 x1 w0\n.end\n"
)
# Four nodes, each made of the one before.
CHAIN = "main (x : bool) (y : bool) = { let t = x && y; let u = t <> x; let v = u && y; v <> x }"
# Three nodes, each made of the one before.
FACTORS_OF_FOUR = "main (a : bool[4]) = a.[0] && a.[1] && a.[2] && a.[3]"
# The last node takes two nodes before it, one of which is made of the other.
TAKEN_BACK = "main (a : bool) (b : bool) = { let t = a <> b; let u = t && b; u <> t }"
SIXTY_FIVE = "main (a : bool[65]) = a.[0]"
# The factors behind the first one of the product of 65 inputs.
FACTORS = (
    " && a.[1] && a.[2] && a.[3] && a.[4] && a.[5] && a.[6] && a.[7] && a.[8] && a.[9]\n"
    "&& a.[10] && a.[11] && a.[12] && a.[13] && a.[14] && a.[15] && a.[16] && a.[17] && a.[18] && a.[19]\n"
    "&& a.[20] && a.[21] && a.[22] && a.[23] && a.[24] && a.[25] && a.[26] && a.[27] && a.[28] && a.[29]\n"
    "&& a.[30] && a.[31] && a.[32] && a.[33] && a.[34] && a.[35] && a.[36] && a.[37] && a.[38] && a.[39]\n"
    "&& a.[40] && a.[41] && a.[42] && a.[43] && a.[44] && a.[45] && a.[46] && a.[47] && a.[48] && a.[49]\n"
    "&& a.[50] && a.[51] && a.[52] && a.[53] && a.[54] && a.[55] && a.[56] && a.[57] && a.[58] && a.[59]\n"
    "&& a.[60] && a.[61] && a.[62] && a.[63] && a.[64]"
)
# The value of `t` has 64 monomials.
KNOWN = (
    "main (a : bool[6]) (b : bool[6]) (c : bool) (d : bool) = {\n"
    "let t = (a.[0] <> b.[0]) && (a.[1] <> b.[1]) && (a.[2] <> b.[2]) && (a.[3] <> b.[3])\n"
    "&& (a.[4] <> b.[4]) && (a.[5] <> b.[5]); t && d }"
)
# The value of `t` has 65 monomials.
UNKNOWN = (
    "main (a : bool[6]) (b : bool[6]) (c : bool) (d : bool) = {\n"
    "let t = (a.[0] <> b.[0]) && (a.[1] <> b.[1]) && (a.[2] <> b.[2]) && (a.[3] <> b.[3])\n"
    "&& (a.[4] <> b.[4]) && (a.[5] <> b.[5]) <> c; t && d }"
)
PRODUCT_EAGER = "lines 4\ngates 3\nx 0\ncx 1\nccx 2\nwide 0\nswap 0\ndepth 3\n"
CARRY = "main (x : bool) (y : bool) (c : bool) = (x && y) <> (c && (x <> y))"
CARRY_EAGER = "lines 7\ngates 23\nx 0\ncx 13\nccx 10\nwide 0\nswap 0\ndepth 22\n"
CARRY_PEBBLED = "lines 8\ngates 13\nx 0\ncx 9\nccx 4\nwide 0\nswap 0\ndepth 11\n"
MAJORITY_EAGER = "lines 7\ngates 25\nx 0\ncx 9\nccx 16\nwide 0\nswap 0\ndepth 20\n"
MAJORITY_PEBBLED = "lines 9\ngates 15\nx 0\ncx 9\nccx 6\nwide 0\nswap 0\ndepth 11\n"
FULL_ADDER_EAGER = "lines 9\ngates 36\nx 0\ncx 26\nccx 10\nwide 0\nswap 0\ndepth 32\n"
FULL_ADDER_PEBBLED = "lines 11\ngates 22\nx 0\ncx 18\nccx 4\nwide 0\nswap 0\ndepth 15\n"
COMPARATOR_EAGER = "lines 14\ngates 308\nx 118\ncx 64\nccx 126\nwide 0\nswap 0\ndepth 201\n"
COMPARATOR_PEBBLED = "lines 26\ngates 60\nx 12\ncx 34\nccx 14\nwide 0\nswap 0\ndepth 19\n"
TURNED_EAGER = "lines 9\ngates 16\nx 0\ncx 16\nccx 0\nwide 0\nswap 0\ndepth 11\n"
TURNED_PEBBLED = "lines 9\ngates 12\nx 0\ncx 12\nccx 0\nwide 0\nswap 0\ndepth 9\n"

CASES: List[Row] = [
    ("compile --lines=2 --borrow 1", PRODUCT, 6, "revc: lines 4 over 2\n"),
    ("compile --gates 1", PRODUCT, 7, "revc: more than 1 gates\n"),
    ("compile --format qasm", PRODUCT, 0, QASM_FILE),
    ("compile --format=qasm --borrow=1", PRODUCT, 0, BORROWING_QASM_FILE),
    ("compile --plan pebble --format real", "main (a : bool) (b : bool) = a <> b && a", 0, CHAIN_FILE),
    ("compile --plan pebble", "main (a : bool) (b : bool) = (a <> b) && (b <> (a))", 0, BRACKETS_FILE),
    ("compile --plan eager --lines 6 --gates 15", THREE, 0, THREE_FILE),
    ("compile --plan eager --lines 5 --gates 15", THREE, 6, "revc: lines 6 over 5\n"),
    ("compile --plan eager --lines 6 --gates 14", THREE, 7, "revc: more than 14 gates\n"),
    ("compile --plan pebble --lines 7 | stat", FACTORS_OF_FOUR, 0,
     "lines 7\ngates 9\nx 0\ncx 1\nccx 8\nwide 0\nswap 0\ndepth 9\n"),
    ("compile --plan eager | stat", TAKEN_BACK, 0,
     "lines 6\ngates 17\nx 0\ncx 13\nccx 4\nwide 0\nswap 0\ndepth 16\n"),
    ("compile --plan pebble | stat", CHAIN, 0, "lines 7\ngates 13\nx 0\ncx 9\nccx 4\nwide 0\nswap 0\ndepth 13\n"),
    ("compile --plan pebble --lines 6 | stat", CHAIN, 0,
     "lines 6\ngates 15\nx 0\ncx 9\nccx 6\nwide 0\nswap 0\ndepth 15\n"),
    ("compile --plan eager | stat", KNOWN, 0,
     "lines 18\ngates 3205\nx 0\ncx 49\nccx 3156\nwide 0\nswap 0\ndepth 3178\n"),
    ("compile --plan eager | stat", UNKNOWN, 0,
     "lines 18\ngates 3209\nx 0\ncx 53\nccx 3156\nwide 0\nswap 0\ndepth 3181\n"),
]

# Programs in pieces, each repeated so many times. The last size is from the model of `compare/`.
LONG_CASES: List[Row] = [
    ("compile --plan pebble --lines 73 | stat",
     SIXTY_FIVE +
     FACTORS,
     0, "lines 73\ngates 731\nx 0\ncx 1\nccx 730\nwide 0\nswap 0\ndepth 731\n"),
    ("compile --plan pebble | stat",
     SIXTY_FIVE +
     FACTORS,
     0, "lines 130\ngates 129\nx 0\ncx 1\nccx 128\nwide 0\nswap 0\ndepth 129\n"),
    ("compile --plan eager --lines 68 | stat",
     SIXTY_FIVE +
     FACTORS,
     0, "lines 68\ngates 26675\nx 0\ncx 1\nccx 26674\nwide 0\nswap 0\ndepth 21548\n"),
    ("compile | stat",
     "main (a : bool) (b : bool) = a && b" +
     " <> a && b" * 2047,
     0, "lines 6\ngates 18427\nx 0\ncx 8189\nccx 10238\nwide 0\nswap 0\ndepth 14332\n"),
]

# Programs of `examples/`, and the sizes of their circuits, which are from the model of `compare/`.
EXAMPLES: List[Row] = [
    ("compile --plan auto | stat", PRODUCT, 0, PRODUCT_EAGER),
    ("compile --plan eager | stat", PRODUCT, 0, PRODUCT_EAGER),
    ("compile --plan pebble | stat", PRODUCT, 0, PRODUCT_EAGER),
    ("compile --plan auto | stat", CARRY, 0, CARRY_EAGER),
    ("compile --plan eager | stat", CARRY, 0, CARRY_EAGER),
    ("compile --plan pebble | stat", CARRY, 0, CARRY_PEBBLED),
    ("compile --plan auto | stat", MAJORITY, 0, MAJORITY_EAGER),
    ("compile --plan eager | stat", MAJORITY, 0, MAJORITY_EAGER),
    ("compile --plan pebble | stat", MAJORITY, 0, MAJORITY_PEBBLED),
    ("compile --plan auto | stat", FULL_ADDER, 0, FULL_ADDER_EAGER),
    ("compile --plan eager | stat", FULL_ADDER, 0, FULL_ADDER_EAGER),
    ("compile --plan pebble | stat", FULL_ADDER, 0, FULL_ADDER_PEBBLED),
    ("compile --plan auto | stat", COMPARATOR, 0, COMPARATOR_EAGER),
    ("compile --plan eager | stat", COMPARATOR, 0, COMPARATOR_EAGER),
    ("compile --plan pebble | stat", COMPARATOR, 0, COMPARATOR_PEBBLED),
    ("compile --plan auto | stat", TURNED, 0, TURNED_EAGER),
    ("compile --plan eager | stat", TURNED, 0, TURNED_EAGER),
    ("compile --plan pebble | stat", TURNED, 0, TURNED_PEBBLED),
]
