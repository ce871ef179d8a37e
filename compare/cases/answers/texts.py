"""Texts that several tables share, and what a row is."""
from typing import Tuple

# Calls, parted by ` | ` as a shell does it: each reads what the one before it wrote. Then the text that the first one
# reads, the status of the last one, and what that writes: on standard output where the status is 0, and else on
# standard error.
Row = Tuple[str, str, int, str]

# Programs of `examples/` without their comments.
PRODUCT = "main (a : bool) (b : bool) = a && b"
MAJORITY = "main (a : bool) (b : bool) (c : bool) = a && b <> a && c <> b && c"
FULL_ADDER = (
    "main (a : bool) (b : bool) (c : bool) = {\n  let sum x y = x <> y;\n"
    "  let carry x y z = x && y <> z && sum x y;\n  reg [sum (sum a b) c; carry a b c]\n}"
)
TURNED = "main (r : bool[3]) = append (rotate 1 r) (reg [r.[0] <> r.[1] <> r.[2]])"
COMPARATOR = (
    "main (a : bool[3]) (b : bool[3]) = {\n  let not x = true <> x;\n  let same x y = not (x <> y);\n"
    "  let below x y = not x && y;\n  let s2 = same a.[2] b.[2];\n  let s1 = same a.[1] b.[1] && s2;\n"
    "  let s0 = same a.[0] b.[0] && s1;\n"
    "  reg [below a.[2] b.[2] <> s2 && below a.[1] b.[1] <> s1 && below a.[0] b.[0]; s0]\n}"
)
PRODUCT_FILE = (
    ".version 2.0\n.numvars 4\n.variables x0 x1 y0 w0\n.inputs x0 x1 y0 w0\n.outputs x0 x1 y0 w0\n.constants --00\n"
    ".garbage ----\n.begin\nt3 x0 x1 w0\nt2 w0 y0\nt3 x0 x1 w0\n.end\n"
)
LONG = "main (r : bool[1024]) = "
USAGE = "revc: bad command line\n"
# Rotations of 4,096 places, which pass the limit of work.
ROTATED = LONG + "{\nlet s = append r r;\nlet t = append s s;\n" + "rotate 0 t;\n" * 5_000 + "r.[0]\n}"
