"""Claims of programs, on all inputs."""
from typing import List

from .texts import PRODUCT_FILE, Row

CARRIES = (
    "main (a : bool) (b : bool) (c : bool) = { let p = (a <> b) && c <> (a && b); let q = a && c <> (b && c) <> "
    "(a && b);\nclean (p <> q); clean c; assert p; a }"
)
NINE = (
    "main (r : bool[2]) (s : bool[2]) = {\nclean (r.[0] <> s.[0] <> s.[0] <> r.[0]);\n"
    "assert (r.[1] && s.[1] <> true); assert true; clean (r.[1] && s.[1]); r }"
)

# Least inputs and numbers of functions are worked out from truth tables: of `a && b` under `a`
# before `b` the functions are a, b and `a && b`.
CASES: List[Row] = [
    ("compile --nodes=5", "main (a : bool) (b : bool) = { let t = a && b; assert (true <> t <> t); t }", 0,
     PRODUCT_FILE),
    ("check --nodes 5", "main (a : bool) (b : bool) = { let t = a && b; assert (true <> t <> t); t }", 0,
     "claims 1\n"),
]

# The first claims taken for granted: on the inputs that are left the others hold, or not; or none is left.
ASSUMED: List[Row] = [
    ("check --assume 1", "main (a : bool) (b : bool) = { assert a; clean (b && (true <> a)); b }", 0, "claims 2\n"),
    ("check --assume 1", "main (a : bool) (b : bool) = { assert a; clean b; a }", 4,
     "revc: claim 2 at 1:42 fails on 11\n"),
    ("check --assume 2", "main (a : bool) (b : bool) = { assert a; clean (a && true); b }", 20,
     "revc: no input meets the assumptions\n"),
    ("compile --assume 4096", "main (a : bool) (b : bool) = { assert a; clean (a && true); b }", 20,
     "revc: no input meets the assumptions\n"),
]

FURTHER_CASES: List[Row] = [
    ("check", "main (a : bool) (b : bool) = a", 0, "claims 0\n"),
    ("check --nodes 1", "main (a : bool) (b : bool) = a && b", 0, "claims 0\n"),
    ("check --nodes 1", "main (a : bool) (b : bool) = { assert true; clean false; a }", 0, "claims 2\n"),
    ("check --nodes 1", "main (a : bool) (b : bool) = { assert false; a }", 4, "revc: claim 1 at 1:32 fails on 00\n"),
    ("check", "main (a : bool) (b : bool) = { assert true; clean b; a }", 4, "revc: claim 2 at 1:45 fails on 01\n"),
    ("check",
     "main (a : bool) (b : bool) (c : bool) = { assert (a <> a <> true); assert (a && b <> c); clean b; a }", 4,
     "revc: claim 2 at 1:68 fails on 000\n"),
    ("check", "main (a : bool) (b : bool) (c : bool) = { clean (a && b && c); a }", 4,
     "revc: claim 1 at 1:43 fails on 111\n"),
    ("check", "main (a : bool) (b : bool) (c : bool) = { assert (true <> a && (true <> b)); a }", 4,
     "revc: claim 1 at 1:43 fails on 100\n"),
    ("check --nodes 1", "main (a : bool) (b : bool) = { clean (a <> a); clean (a <> b <> a <> b); a }", 5,
     "revc: claim 2 at 1:48 passes 1 nodes\n"),
]

# How many functions claims rest on, and what they come to, worked out from truth tables.
LIMIT_CASES: List[Row] = [
    ("check --nodes 3", "main (r : bool[2]) (s : bool) = { assert true; clean (r.[0] <> r.[1]); s }", 5,
     "revc: claim 2 at 1:48 passes 3 nodes\n"),
    ("check --nodes 4", "main (r : bool[2]) (s : bool) = { assert true; clean (r.[0] <> r.[1]); s }", 4,
     "revc: claim 2 at 1:48 fails on 010\n"),
    ("check --nodes 11", CARRIES, 5, "revc: claim 1 at 2:1 passes 11 nodes\n"),
    ("check --nodes 12", CARRIES, 4, "revc: claim 2 at 2:17 fails on 001\n"),
    ("check --nodes 3", NINE, 5, "revc: claim 1 at 2:1 passes 3 nodes\n"),
    ("check --nodes 4", NINE, 5, "revc: claim 2 at 3:1 passes 4 nodes\n"),
    ("check --nodes 8", NINE, 5, "revc: claim 2 at 3:1 passes 8 nodes\n"),
    ("check --nodes 9", NINE, 4, "revc: claim 2 at 3:1 fails on 0101\n"),
]
