"""Lean circuits."""
from typing import List

from .texts import FULL_ADDER, PRODUCT, Row

TWO_OF_THREE = "main (a : bool) (b : bool) (c : bool) = (a && b) <> (b && c) <> (a && c)"
ADDER_FILE = (
    ".version 2.0\n.numvars 5\n.variables x0 x1 x2 y0 y1\n.inputs x0 x1 x2 y0 y1\n.outputs x0 x1 x2 y0 y1\n"
    ".constants ---00\n.garbage -----\n.begin\nt2 x0 y0\nt2 x2 y1\nt2 x1 y0\nt2 x2 x0\nt2 x2 x1\nt2 x2 y0\n"
    "t3 x0 x1 y1\nt2 x2 x1\nt2 x2 x0\n.end\n"
)

CASES: List[Row] = [
    ("compile --plan lean", FULL_ADDER, 0, ADDER_FILE),
    ("compile --plan lean --lines 2", PRODUCT, 6, "revc: lines 3 over 2\n"),
    ("compile --plan lean --gates 5", TWO_OF_THREE, 7, "revc: more than 5 gates\n"),
]
