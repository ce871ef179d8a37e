"""Loops and sums of numbers."""
from typing import List

from .texts import Row

PARITY = (
    "revs 2 main (a : bool[4]) = {\n  let t = reg [false];\n  for i in 0 .. 3 do {\n    t.[0] <- t.[0] <> a.[i]; };\n"
    "  t.[0] }"
)

LOOPS: List[Row] = [
    ("compile | stat", PARITY, 0, "lines 7\ngates 23\nx 0\ncx 23\nccx 0\nwide 0\nswap 0\ndepth 18\n"),
]
