"""Files of programs, and texts that have none."""
from typing import List

from .texts import Row

NAME_FILE = (
    ".version 2.0\n.numvars 2\n.variables x0 y0\n.inputs x0 y0\n.outputs x0 y0\n.constants -0\n.garbage --\n.begin\n"
    "t2 x0 y0\n.end\n"
)
FALSE_FILE = (
    ".version 2.0\n.numvars 2\n.variables x0 y0\n.inputs x0 y0\n.outputs x0 y0\n.constants -0\n.garbage --\n.begin\n"
    ".end\n"
)

COMPILED: List[Row] = [
    ("compile", "// \xff\nmain(a:bool)=\r\n\ta//", 0, NAME_FILE),
    ("compile", "main (a : bool[1]) = a", 0, NAME_FILE),
]

REFUSED: List[Row] = [
    ("compile", "main (a : bool[00000]) = a", 3, "revc: 1:16 LongNumber\n"),
    ("compile", "main (a : bool) = a a <>", 3, "revc: 1:25 Syntax\n"),
    ("compile", "main (a : bool) = { a; }", 3, "revc: 1:24 Syntax\n"),
    ("compile", "main (a : bool) = (a))", 3, "revc: 1:22 Syntax\n"),
    ("compile", "main (a : bool) = clean clean a", 3, "revc: 1:25 Syntax\n"),
    ("compile", "main (a : bool) = a <- b <- c", 3, "revc: 1:26 Syntax\n"),
    ("compile", "main (a : bool[0]) = a &&", 3, "revc: 1:26 Syntax\n"),
    ("compile", "main (a : bool[0]) = a", 3, "revc: 1:7 Inputs\n"),
    ("compile", "main (a : bool[1023]) (b : bool) (c : bool) = a", 3, "revc: 1:35 Inputs\n"),
]

# Programs in pieces, each repeated so many times.
COMPILED_LONG: List[Row] = [
    ("compile", "main (a : bool) = " + "z" * 65, 3, "revc: 1:19 LongName\n"),
    ("compile", "\n" * 99 + "main = a", 3, "revc: 100:6 Syntax\n"),
    ("compile", "main (a : bool) = a" + " <> a" * 1001, 0, FALSE_FILE),
]
