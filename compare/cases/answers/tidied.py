"""Circuits that are tidied."""
from typing import List

from .texts import Row

ALONE = (
    ".version 2.0\n.numvars 4\n.variables l0 l1 l2 l3\n.inputs l0 l1 l2 l3\n.outputs l0 l1 l2 l3\n.constants ----\n"
    ".garbage ----\n.begin\nt2 l0 l3\n.end\n"
)
# CX gates back and forth: three of them swap two lines, and six do nothing.
FOUR = ".numvars 2\n.variables a b\n.begin\nt2 a b\nt2 b a\nt2 a b\nt2 b a\n.end\n"
TWO = (
    ".version 2.0\n.numvars 2\n.variables l0 l1\n.inputs l0 l1\n.outputs l0 l1\n.constants --\n.garbage --\n.begin\n"
    "t2 l1 l0\nt2 l0 l1\n.end\n"
)
SIX = ".numvars 2\n.variables a b\n.begin\nt2 a b\nt2 b a\nt2 a b\nt2 b a\nt2 a b\nt2 b a\n.end\n"
NONE = (
    ".version 2.0\n.numvars 2\n.variables l0 l1\n.inputs l0 l1\n.outputs l0 l1\n.constants --\n.garbage --\n.begin\n"
    ".end\n"
)
# Two flips of a negative control, which share its line: two of the split's X gates cancel.
NEGATIVE = ".numvars 3\n.variables a b c\n.begin\nt2 -a b\nt2 -a c\n.end\n"
SHARED = "OPENQASM 2.0;\ninclude \"qelib1.inc\";\nqreg q[3];\nx q[0];\ncx q[0],q[1];\ncx q[0],q[2];\nx q[0];\n"
# One line controls three flips, of which others wait for the last.
FAN = ".numvars 6\n.variables a b c d e f\n.begin\nt2 a b\nt2 a c\nt2 a d\nt2 d e\nt2 e f\n.end\n"
EARLY = (
    "OPENQASM 2.0;\ninclude \"qelib1.inc\";\nqreg q[6];\ncx q[0],q[3];\ncx q[0],q[1];\ncx q[3],q[4];\ncx q[0],q[2];\n"
    "cx q[4],q[5];\n"
)
# A flip under three controls with no idle line, and two CX gates that cancel.
FULL = ".numvars 4\n.variables a b c d\n.begin\nt2 a b\nt2 a b\nt4 a b c d\n.end\n"
ADDED = (
    "OPENQASM 2.0;\ninclude \"qelib1.inc\";\nqreg q[4];\nqreg dirty[1];\nccx q[2],dirty[0],q[3];\n"
    "ccx q[0],q[1],dirty[0];\nccx q[2],dirty[0],q[3];\nccx q[0],q[1],dirty[0];\n"
)

CASES: List[Row] = [
    ("tidy --to real", FOUR, 0, TWO),
    ("tidy --to=real", SIX, 0, NONE),
    ("tidy", NEGATIVE, 0, SHARED),
    ("tidy --to real | tidy --from real", NEGATIVE, 0, SHARED),
    ("tidy", FULL, 0, ADDED),
    ("tidy --from qasm", ALONE, 8, "revc: circuit at 1:1\n"),
    ("tidy --for depth", FAN, 0, EARLY),
    ("tidy --for order", FAN, 0, EARLY),
    ("tidy --for=gates | tidy --from qasm --for=order", FAN, 0, EARLY),
    ("tidy --for depth", FULL, 0, ADDED),
    ("tidy --for toffoli", FAN, 2, "revc: bad command line\n"),
]
