"""Adders: their texts, their sizes, and words that ask for none."""
from typing import List

from .texts import Row

TWO_BITS = (
    "main (a : bool[2]) (b : bool[2]) = {\nlet carry x y c = (x && y) <> (c && (x <> y));\nlet s0 = a.[0] <> b.[0];\n"
    "let c1 = a.[0] && b.[0];\nlet s1 = a.[1] <> b.[1] <> c1;\nlet c2 = carry a.[1] b.[1] c1;\nreg [s0; s1; c2]\n}\n"
)

CASES: List[Row] = [
    ("gen 2", "", 0, TWO_BITS),
    ("gen -- 0002", "", 0, TWO_BITS),
    ("bench 3 --plan pebble --lines 19", "", 0,
     "inputs 6\noutputs 4\nwrites 14\nwidth 6\nlines 19\ngates 68\ndepth 47\n"),
    ("bench 10 --plan pebble --lines 51", "", 0,
     "inputs 20\noutputs 11\nwrites 56\nwidth 13\nlines 51\ngates 493\ndepth 331\n"),
    ("gen 0", "", 2, "revc: bad command line\n"),
    ("gen 201", "", 2, "revc: bad command line\n"),
    ("gen", "", 2, "revc: bad command line\n"),
    ("bench 2 --format real", "", 2, "revc: bad command line\n"),
]
