"""Circuits beside programs."""
from typing import List

from .texts import PRODUCT, PRODUCT_FILE, Row

PARTING = "\n---\n"
# The file of the product without its last gate.
UNDONE = ".version 2.0\n.numvars 4\n.variables x0 x1 y0 w0\n.begin\nt3 x0 x1 w0\nt2 w0 y0\n.end\n"
TWO_LINES = ".version 2.0\n.numvars 2\n.variables x0 y0\n.begin\nt2 x0 y0\n.end\n"
# The product on its output line at once, as a lean plan has it.
STRAIGHT = ".version 2.0\n.numvars 3\n.variables a b y\n.begin\nt3 a b y\n.end\n"
# Two outputs of one value, and a circuit that takes the second from the first.
TWICE = "main (a : bool) (b : bool) = reg [a && b; a && b]"
COPIED = ".version 2.0\n.numvars 4\n.variables a b y z\n.begin\nt3 a b y\nt2 y z\n.end\n"
TWO_FLIPS = ".version 2.0\n.numvars 3\n.variables a y w\n.begin\nt2 a y\nt2 y w\nt2 y w\n.end\n"
VERIFIED = "verified\n"
NO_PART = "revc: no parting line\n"
# A full adder, and a circuit that has its carry as (a + c) (b + c) + c.
ADDER = "main (a : bool) (b : bool) (c : bool) =\n    reg [a <> b <> c; (a && b) <> (c && (a <> b))]"
CARRIED = (
    ".version 2.0\n.numvars 5\n.variables a b c s k\n.begin\nt2 a s\nt2 b s\nt2 c s\nt2 c a\nt2 c b\nt3 a b k\n"
    "t2 c b\nt2 c a\nt2 c k\n.end\n"
)
# A product of three, and a circuit that begins with the other two of them.
OF_THREE = "main (a : bool) (b : bool) (c : bool) = a && (b && c)"
REGROUPED = ".version 2.0\n.numvars 5\n.variables a b c y w\n.begin\nt3 a b w\nt3 c w y\nt3 a b w\n.end\n"
UNSETTLED = "revc: circuit is not settled by sums\n"

SOURCES: List[Row] = [
    ("verify", PRODUCT + PARTING + UNDONE, 15, "revc: circuit differs at line 4 on 11\n"),
    ("verify", PRODUCT + "\n ---\n--- \n---\r\r\n", 16, NO_PART),
    ("verify", PRODUCT + PARTING + TWO_LINES, 13, "revc: circuit has 2 lines, needs 3\n"),
    ("verify", " " * 1048577 + PARTING + "x", 3, "revc: source over 1048576 bytes\n"),
    ("verify", "main (a : bool) = b\n---\nx", 3, "revc: 1:19 Unbound\n"),
    ("verify", "main (a : bool) = { assert a; a }\n---\nx", 8, "revc: circuit line 1\n"),
    ("verify x", "", 2, "revc: bad command line\n"),
    ("verify --outputs one", "", 2, "revc: bad command line\n"),
    ("verify --to qasm", "", 2, "revc: bad command line\n"),
]

# Output lines that may hold any bits have variables, behind those of the inputs and before those of
# the borrowed lines.
ANY: List[Row] = [
    ("verify --outputs any", PRODUCT + PARTING + STRAIGHT, 0, VERIFIED),
    ("verify --outputs any", "main (a : bool) = a" + PARTING + TWO_FLIPS, 0, VERIFIED),
    ("verify --outputs zero", TWICE + PARTING + COPIED, 0, VERIFIED),
]

# By sums of products, which no number of nodes bounds, and which never say that a circuit differs.
BY: List[Row] = [
    ("verify --by sums", PRODUCT + PARTING + PRODUCT_FILE, 0, VERIFIED),
    ("verify --by sums --outputs any --nodes 1", ADDER + PARTING + CARRIED, 0, VERIFIED),
    ("verify --by both --nodes 1", ADDER + PARTING + CARRIED, 0, VERIFIED),
    ("verify --by diagrams --nodes 1", ADDER + PARTING + CARRIED, 5, "revc: circuit passes 1 nodes\n"),
    ("verify --by sums", PRODUCT + PARTING + UNDONE, 17, UNSETTLED),
    ("verify --by both", PRODUCT + PARTING + UNDONE, 15, "revc: circuit differs at line 4 on 11\n"),
    ("verify --by sums", OF_THREE + PARTING + REGROUPED, 0, VERIFIED),
    ("verify --by both", OF_THREE + PARTING + REGROUPED, 0, VERIFIED),
    ("verify --by sums", PRODUCT + PARTING + TWO_LINES, 13, "revc: circuit has 2 lines, needs 3\n"),
    ("verify --by 3", "", 2, "revc: bad command line\n"),
    ("arith add 8 --by sums", "", 2, "revc: bad command line\n"),
]

# On the inputs on which the first claim holds, the output is the second input.
GRANTED = "main (a : bool) (b : bool) = { assert a; a && b }"
NEVER = "main (a : bool) (b : bool) = { assert a; clean (a && true); b }"
COPY = ".version 2.0\n.numvars 3\n.variables a b y\n.begin\nt2 b y\n.end\n"

ASSUMED: List[Row] = [
    ("verify --assume 1", GRANTED + PARTING + COPY, 0, VERIFIED),
    ("verify --assume 1 --by sums", GRANTED + PARTING + COPY, 17, UNSETTLED),
    ("verify --assume 1", GRANTED + PARTING + COPY.replace("t2 b y", "t1 y"), 15,
     "revc: circuit differs at line 3 on 10\n"),
    ("verify --assume 2", NEVER + PARTING + COPY, 20, "revc: no input meets the assumptions\n"),
]
