"""Circuit files: counts, runs, refusals."""
from typing import Dict, List

from .texts import PRODUCT, PRODUCT_FILE, Row

# Comments, a version that is no 2.0, negative controls, a swap, and lines that start at 0 or are
# of no use; the lines end with a carriage return too.
ADDER = (
    "# full adder part\r\n.version 1.0\r\n.numvars 4\r\n.variables a b c d\r\n.inputs a b \"carry in\" 0\r\n"
    ".outputs g1 g2 \"sum out\" d\r\n.constants ---0\r\n.garbage 11--\r\n.begin\r\nt3 a b d\r\nf3 -a b c\r\n"
    "t2 c d\r\n.end\r\n"
)
CUT = (
    "# full adder part\r\n.version 1.0\r\n.numvars 4\r\n.variables a b c d\r\n.inputs a b \"carry in\" 0\r\n"
    ".outputs g1 g2 \"sum out\" d\r\n.constants ---0\r\n.garbage 11--\r\n.begin\r\nt3 a b d\r\nf3 -a b c\r\n"
    "t2 c d\r\n"
)
TWICE = (
    "# full adder part\r\n.version 1.0\r\n.numvars 4\r\n.variables a b c d\r\n.inputs a b \"carry in\" 0\r\n"
    ".outputs g1 g2 \"sum out\" d\r\n.constants ---0\r\n.garbage 11--\r\n.begin\r\nt3 a b d\r\nf3 -a b c\r\n"
    "t2 c c\r\n.end\r\n"
)
SHORT = ".numvars 1\n.variables a\n.begin\n.end\n"
BAD_WORD = "revc: bad bits in word 1\n"
# Outputs are the AND, the constant true, x, and the XOR.
FOUR_WRITES = (
    "main (x : bool) (y : bool) = {\n  let n = true <> x;\n  let z = y <> n;\n  reg [n && z; true; x; z]\n}"
)
# A flip with no control, one, two and three, and swaps; some controls are negative.
EACH_KIND = (
    ".version 2.0\n.numvars 4\n.variables a b c d\n.begin\nt1 a\nt2 a b\nt3 a -b c\nt4 a b -c d\nf2 a d\n"
    "f4 b -c a d\nf3 -d b c\n.end\n"
)

CASES: List[Row] = [
    ("run --from real 110", ADDER, 0, "01\n"),
    ("stat --from=real", TWICE, 8, "revc: circuit line 12\n"),
    ("run ", ADDER, 12, BAD_WORD),
    ("run 11", CUT, 8, "revc: circuit line 13\n"),
    ("run 1 0", SHORT, 0, "1\n0\n"),
    ("stat", EACH_KIND, 0, "lines 4\ngates 7\nx 1\ncx 1\nccx 1\nwide 1\nswap 3\ndepth 7\n"),
    ("convert --to real | stat", EACH_KIND, 0, "lines 5\ngates 27\nx 9\ncx 8\nccx 10\nwide 0\nswap 0\ndepth 21\n"),
    ("convert --to real | run 10000 11100 10001", EACH_KIND, 0, "00000\n01100\n00001\n"),
]

COMPILED: List[Row] = [
    ("compile --plan pebble | stat", PRODUCT, 0, "lines 4\ngates 3\nx 0\ncx 1\nccx 2\nwide 0\nswap 0\ndepth 3\n"),
    ("compile --plan pebble | run 11 10", PRODUCT, 0, "1110\n1000\n"),
    ("compile --plan pebble | stat", FOUR_WRITES, 0,
     "lines 9\ngates 14\nx 3\ncx 9\nccx 2\nwide 0\nswap 0\ndepth 9\n"),
    ("compile --plan pebble | run 00 01 10 11", FOUR_WRITES, 0, "001101000\n010100000\n100110000\n110111000\n"),
]

# A flip with no control, one, two and three, and swaps; some controls are negative.
EACH_KIND = (
    ".version 2.0\n.numvars 4\n.variables a b c d\n.begin\n"
    "t1 a\nt2 a b\nt3 a -b c\nt4 a b -c d\nf2 a d\nf4 b -c a d\nf3 -d b c\n.end\n"
)
# The last bits of its lines for each word, by a calculation of its own.
EACH_WORD = {
    "0000": "1101", "1000": "0000", "0100": "0011", "1100": "0010", "0010": "0111", "1010": "0100", "0110": "0001",
    "1110": "0110", "0001": "1010", "1001": "1000", "0101": "1011", "1101": "0101", "0011": "1111", "1011": "1100",
    "0111": "1001", "1111": "1110",
}
MANY = 577  # words: whole blocks of 512, of 64, and one that is not full


def many_words(file: str, lines: Dict[str, str]) -> Row:
    """A run of many words, which come again and again."""
    words = [list(lines)[(7 * k + k // 16) % len(lines)] for k in range(MANY)]
    return " ".join(["run", *words]), file, 0, "".join(lines[word] + "\n" for word in words)


RUN_ON_MANY: List[Row] = [many_words(PRODUCT_FILE, {"11": "1110", "10": "1000"}), many_words(EACH_KIND, EACH_WORD)]

QASM_FILE = (
    "OPENQASM 2.0;\ninclude \"qelib1.inc\";\nqreg inp[2];\nqreg outp[1];\nqreg work[1];\n"
    "ccx inp[0],inp[1],work[0];\ncx work[0],outp[0];\nccx inp[0],inp[1],work[0];\n"
)
# Files, and at how many bytes they may end and mean a circuit: a `.real` file with its last word or the line feed behind
# it; an OpenQASM file behind any of its registers and gates.
CUT = [("stat", PRODUCT_FILE, 2), ("stat --from qasm", QASM_FILE, 12)]
