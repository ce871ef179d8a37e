"""Bytes that begin no token, and names and numbers that are too long."""
from typing import List

from .texts import Row

# A text, the place of its first fault, and what that is. Line feeds alone end lines, and columns count bytes.
FAULTS = [
    ("a & a", "1:3", "BadByte"),
    ("a\n /a", "2:2", "BadByte"),
    ("\x0ba", "1:1", "BadByte"),
    ("//\n 00000", "2:2", "LongNumber"),
    ("$ 12345", "1:1", "BadByte"),
    ("a zzzzzzzzzzzzzzzzzzzzzzzzzzzzzzzzzzzzzzzzzzzzzzzzzzzzzzzzzzzzzzzzz", "1:3", "LongName"),
    ("//\xc3\xa9\n\t\r &", "2:4", "BadByte"),
    ("a \xc3\xa9", "1:3", "BadByte"),
]

TOKENS: List[Row] = [("eval 1", text, 3, f"revc: {at} {kind}\n") for text, at, kind in FAULTS]
