"""ANDs of programs: those that a run writes, as many as are enough, and the most on a path."""
from typing import List

from .texts import FULL_ADDER, MAJORITY, PRODUCT, USAGE, Row

# Fewer are not enough: each function of these has as many by its degree, or by its products of different inputs.
COUNTED: List[Row] = [
    ("ands", PRODUCT, 0, "ands 1\nleft 1\ndepth 1\n"),
    ("ands", MAJORITY, 0, "ands 3\nleft 1\ndepth 1\n"),
    ("ands", FULL_ADDER, 0, "ands 2\nleft 1\ndepth 1\n"),
    ("ands", "main (a : bool) = a", 0, "ands 0\nleft 0\ndepth 0\n"),
    ("ands", "main (a : bool) = a && true", 0, "ands 1\nleft 0\ndepth 0\n"),
    ("ands", "main (a : bool) (b : bool) = { let t = a && b; a }", 0, "ands 1\nleft 0\ndepth 0\n"),
    ("ands", "main (a : bool) (b : bool) = reg [a && b; a && b]", 0, "ands 2\nleft 1\ndepth 1\n"),
    ("ands", "main (a : bool) (b : bool) (c : bool) = a && b <> a && c", 0, "ands 2\nleft 1\ndepth 1\n"),
    ("ands", "main (a : bool[4]) = a.[0] && a.[1] && a.[2] && a.[3]", 0, "ands 3\nleft 3\ndepth 3\n"),
    ("ands", "main (a : bool) (b : bool) = { assert a; a && b }", 4, "revc: claim 1 at 1:32 fails on 00\n"),
    ("ands --assume 1", "main (a : bool) (b : bool) = { assert a; a && b }", 0, "ands 1\nleft 1\ndepth 1\n"),
    ("ands --assume=1", "main (a : bool) = { assert false; a }", 20, "revc: no input meets the assumptions\n"),
    ("ands --nodes 5", "main (a : bool) (b : bool) = { let t = a && b; assert (true <> t <> t); t }", 0,
     "ands 1\nleft 1\ndepth 1\n"),
    ("ands", "main (a : bool) = a && b", 3, "revc: 1:24 Unbound\n"),
    ("ands 1", PRODUCT, 2, USAGE),
    ("ands --lines 4", PRODUCT, 2, USAGE),
]
