"""Words that are no order."""
from typing import List

from .texts import PRODUCT, USAGE, Row

WORDS = [
    "Compile", "compile --plan none", "check --lines 3", "check --nodes 5 --nodes=5", "eval 0 1", "convert --to x",
    "gen 2 --nodes 5", "compile -- x", "eval 1 -- --", "compile -nodes 5", "compile ", "check --format real",
    "stat --to qasm", "bench",
]

NO_ORDERS: List[Row] = [(words, PRODUCT, 2, USAGE) for words in WORDS]
