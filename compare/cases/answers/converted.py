"""Circuits by other gates and in another format."""
from typing import List

from .texts import MAJORITY, PRODUCT, TURNED, Row

# Marks, a swap and a negative control.
MARKED = ".numvars 3\n.variables a b c\n.constants 01-\n.garbage -1-\n.begin\nf2 a c\nt2 -a b\n.end\n"
MARKED_REAL = (
    ".version 2.0\n.numvars 3\n.variables l0 l1 l2\n.inputs l0 l1 l2\n.outputs l0 l1 l2\n.constants 01-\n"
    ".garbage -1-\n.begin\nt2 l2 l0\nt2 l0 l2\nt2 l2 l0\nt1 l0\nt2 l0 l1\nt1 l0\n.end\n"
)
HEAD = "OPENQASM 2.0;\ninclude \"qelib1.inc\";\n"
# Registers that are spread, a barrier, and a register of bits.
SPREAD = (
    "OPENQASM 2.0;\ninclude \"qelib1.inc\";\nqreg a[2];\nqreg b[2];\ncreg m[2];\nx a;\ncx a,b;\nbarrier a,b;\n"
    "ccx a[0],a[1],b;\n"
)
MANY_LINES = "OPENQASM 2.0;\ninclude \"qelib1.inc\";\nqreg q[16385];\n"
PRODUCT_SIZES = "lines 4\ngates 3\nx 0\ncx 1\nccx 2\nwide 0\nswap 0\ndepth 3\n"
MAJORITY_SIZES = "lines 7\ngates 25\nx 0\ncx 9\nccx 16\nwide 0\nswap 0\ndepth 20\n"
TURNED_SIZES = "lines 9\ngates 16\nx 0\ncx 16\nccx 0\nwide 0\nswap 0\ndepth 11\n"

CASES: List[Row] = [
    ("convert --to=real", MARKED, 0, MARKED_REAL),
    ("convert", ".end\n", 8, "revc: circuit line 1\n"),
    ("stat --from qasm", MANY_LINES, 8, "revc: circuit at 3:8 over a limit\n"),
    ("run --from qasm 1", HEAD, 8, "revc: circuit at 3:1\n"),
    ("run --from qasm 00", SPREAD, 12, "revc: bad bits in word 1\n"),
]

# The OpenQASM file and the one that is made of it again have the sizes of the `.real` file, which
# are from the model of `compare/`.
SIZES: List[Row] = [
    ("compile | stat", PRODUCT, 0, PRODUCT_SIZES),
    ("compile | convert | stat --from qasm", PRODUCT, 0, PRODUCT_SIZES),
    ("compile | convert | convert --from qasm --to real | stat", PRODUCT, 0, PRODUCT_SIZES),
    ("compile | stat", MAJORITY, 0, MAJORITY_SIZES),
    ("compile | convert | stat --from qasm", MAJORITY, 0, MAJORITY_SIZES),
    ("compile | convert | convert --from qasm --to real | stat", MAJORITY, 0, MAJORITY_SIZES),
    ("compile | stat", TURNED, 0, TURNED_SIZES),
    ("compile | convert | stat --from qasm", TURNED, 0, TURNED_SIZES),
    ("compile | convert | convert --from qasm --to real | stat", TURNED, 0, TURNED_SIZES),
]
