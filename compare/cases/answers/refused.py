"""Circuit files that are refused, by the first bad line or token: a text for each rule of docs/FORMATS.md."""
from typing import List, Tuple

from .texts import PRODUCT_FILE, Row

# A text, the number of its first bad line, and whether that passes a limit.
REAL: List[Tuple[str, int, bool]] = [
    ("", 1, False),
    (".version 3.0\n", 1, False),
    (".version 1.0 x\n", 1, False),
    (".version 1.0\n.version 1.0\n", 2, False),
    (".numvars 0\n", 1, False),
    (".numvars x\n", 1, False),
    (".numvars 2 3\n", 1, False),
    (".numvars 16385 x\n", 1, True),
    (".numvars 1\n.numvars 1\n", 2, False),
    (".variables a\n", 1, False),
    (".numvars 2\n.variables a\n", 2, False),
    (".numvars 1\n.variables a b\n", 2, False),
    (".numvars 2\n.variables a a\n", 2, False),
    (".numvars 1\n.variables -a\n", 2, False),
    (".numvars 1\n.variables nnnnnnnnnnnnnnnnnnnnnnnnnnnnnnnnnnnnnnnnnnnnnnnnnnnnnnnnnnnnnnnnn x\n", 2, True),
    (".numvars 1\n.variables -nnnnnnnnnnnnnnnnnnnnnnnnnnnnnnnnnnnnnnnnnnnnnnnnnnnnnnnnnnnnnnnnn\n", 2, False),
    (".numvars 1\n.variables a\n.variables a\n", 3, False),
    (".constants 0\n", 1, False),
    (".numvars 2\n.constants 0\n", 2, False),
    (".numvars 1\n.constants 2\n", 2, False),
    (".numvars 1\n.constants 0 0\n", 2, False),
    (".numvars 1\n.garbage 0\n", 2, False),
    (".inputs a\n\n# none\n.inputs a\n", 4, False),
    (".outputs\n.outputs\n", 2, False),
    (".module m\n", 1, False),
    (".begin\n", 1, False),
    (".numvars 1\n.begin\n", 2, False),
    (".numvars 1\n.variables a\n.begin x\n", 3, False),
    (".numvars 1\n.variables a\nt1 a\n", 3, False),
    (".numvars 1\n.variables a\n.begin\n", 4, False),
    (".numvars 1\n.variables a\n.begin\nt1 a\n# .end\n", 6, False),
    (".numvars 2\n.variables a b\n.begin\n.begin\n", 4, False),
    (".numvars 2\n.variables a b\n.begin\nt0\n", 4, False),
    (".numvars 2\n.variables a b\n.begin\nt3 a b\n", 4, False),
    (".numvars 2\n.variables a b\n.begin\nt1 a b\n", 4, False),
    (".numvars 2\n.variables a b\n.begin\nt2 a -b\n", 4, False),
    (".numvars 2\n.variables a b\n.begin\nt2 --a b\n", 4, False),
    (".numvars 2\n.variables a b\n.begin\nt2 - b\n", 4, False),
    (".numvars 2\n.variables a b\n.begin\nt2 a a\n", 4, False),
    (".numvars 2\n.variables a b\n.begin\nt2 a c\n", 4, False),
    (".numvars 2\n.variables a b\n.begin\nf1 a\n", 4, False),
    (".numvars 2\n.variables a b\n.begin\nf2 -a b\n", 4, False),
    (".numvars 2\n.variables a b\n.begin\nf3 a b a\n", 4, False),
    (".numvars 2\n.variables a b\n.begin\nt000001 a\n", 4, False),
    (".numvars 2\n.variables a b\n.begin\nv2 a b\n", 4, False),
    (".numvars 2\n.variables a b\n.begin\nt a\n", 4, False),
    (".numvars 2\n.variables a b\n.begin\n.end x\n", 4, False),
    (".numvars 2\n.variables a b\n.begin\nt3 a b nnnnnnnnnnnnnnnnnnnnnnnnnnnnnnnnnnnnnnnnnnnnnnnnnnnnnnnnnnnnnnnnn\n",
     4, True),
    (".numvars 2\n.variables a b\n.begin\nt2 -nnnnnnnnnnnnnnnnnnnnnnnnnnnnnnnnnnnnnnnnnnnnnnnnnnnnnnnnnnnnnnnnn x\n",
     4, True),
    (".numvars 2\n.variables a b\n.begin\nt2 --nnnnnnnnnnnnnnnnnnnnnnnnnnnnnnnnnnnnnnnnnnnnnnnnnnnnnnnnnnnnnnnnn b\n",
     4, False),
    (".numvars 2\n.variables a b\n.begin\nt1 -nnnnnnnnnnnnnnnnnnnnnnnnnnnnnnnnnnnnnnnnnnnnnnnnnnnnnnnnnnnnnnnnn\n",
     4, False),
    (".numvars 2\n.variables a b\n.begin\n.end\nt1 a\n", 5, False),
]

# What stands behind the head, the column of its first bad token, and whether that passes a limit.
HEAD = "OPENQASM 2.0;\ninclude \"qelib1.inc\";\n"
QASM: List[Tuple[str, int, bool]] = [
    ("", 1, False),
    ("qreg q[1]; $", 12, False),
    ("qreg q[1]; /", 12, False),
    ("include \"qelib1.inc\";", 1, False),
    ("qreg Q[1];", 6, False),
    ("qreg pi[1];", 6, False),
    ("qreg 1[1];", 6, False),
    ("qreg q[1]; creg q[1];", 17, False),
    ("qreg nnnnnnnnnnnnnnnnnnnnnnnnnnnnnnnnnnnnnnnnnnnnnnnnnnnnnnnnnnnnnnnnn[1];", 6, True),
    ("qreg Nnnnnnnnnnnnnnnnnnnnnnnnnnnnnnnnnnnnnnnnnnnnnnnnnnnnnnnnnnnnnnnnn[1];", 6, True),
    ("qreg q(1);", 7, False),
    ("qreg q[0];", 8, False),
    ("qreg q[x];", 8, False),
    ("qreg q[2.01];", 8, False),
    ("qreg q[16385];", 8, True),
    ("qreg q[0000000001];", 8, True),
    ("creg c[999999999]; qreg q[16384]; qreg r[1];", 42, True),
    ("qreg q[1;", 9, False),
    ("qreg q[1]]", 10, False),
    ("qreg q[1", 9, False),
    ("creg c[1];", 11, False),
    ("qreg q[1]; x c;", 14, False),
    ("creg c[1]; qreg q[1]; x c;", 25, False),
    ("qreg q[1]; x q[1];", 16, False),
    ("qreg q[1]; x q[0000000000];", 16, True),
    ("qreg q[1]; x q q;", 16, False),
    ("qreg q[1]; x q,q;", 15, False),
    ("qreg q[2]; cx q[0];", 19, False),
    ("qreg q[2]; cx q[0],q[0];", 24, False),
    ("qreg q[2]; cx q[0] q[1];", 20, False),
    ("qreg q[2]; cx q,q;", 18, False),
    ("qreg q[2]; cx q[1],q;", 21, False),
    ("qreg q[2]; qreg r[3]; cx q,r;", 29, False),
    ("qreg q[3]; ccx q[0],q[1],q[0];", 30, False),
    ("qreg q[1]; h q;", 12, False),
    ("qreg q[1]; barrier q,;", 22, False),
    ("qreg q[1]; barrier;", 19, False),
    ("qreg q[1]; barrier q q;", 22, False),
    ("opaque q;", 1, False),
    ("qreg q[1]; X q;", 12, False),
]
# Texts that are refused in their first line, each with the column.
HEADS: List[Tuple[str, int]] = [
    ("", 1),
    ("OPENQASM2.0;", 1),
    ("OPENQASM 2.01;", 13),
    ("OPENQASM 3.0;", 10),
    ("OPENQASM 2.0; qreg q[1]; x q;", 26),
    ("OPENQASM 2.0; qreg q[2]; CX q[0],q[1]; ccx q,q,q;", 40),
]

# How many bytes there are of a file in front of each of its lines.
FRONTS = [0, 13, 24, 47, 67, 88, 104, 118, 125, 137, 146, 158]


def refused_line(number: int, is_limit: bool) -> str:
    return f"revc: circuit line {number}{' over a limit' if is_limit else ''}\n"


def refused_token(line: int, column: int, is_limit: bool = False) -> str:
    return f"revc: circuit at {line}:{column}{' over a limit' if is_limit else ''}\n"


REFUSED: List[Row] = [("stat", text, 8, refused_line(*fault)) for text, *fault in REAL]
REFUSED += [("stat --from qasm", HEAD + text, 8, refused_token(3, *fault)) for text, *fault in QASM]
REFUSED += [("stat --from qasm", text, 8, refused_token(1, column)) for text, column in HEADS]
REFUSED += [("stat", PRODUCT_FILE[:size], 8, refused_line(line, False)) for line, size in enumerate(FRONTS, 1)]
