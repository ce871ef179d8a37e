"""Small programs and files, and all that they become by one damage."""
from typing import Dict, Iterator, List, NamedTuple

from cases.rows import FILE, FIVE, IN_QASM, PARTED, SPREAD, SUM

TELLING = bytes([0, 9, 10, 11, 13, 32, 34, 35, 38, 40, 45, 46, 47, 48, 49, 59, 61, 65, 91, 95, 97, 123, 128, 255])
PROGRAM = """main (a : bool) (r : bool[3]) = { // of each form one
let f x y = x && (fun z -> z <> y) a;
let t = append (rotate 1 r) reg [true; f a r.[0]];
t.[0] <- t.[1] <> false;
assert (true <> t.[2..3].[1] <> t.[3]);
let u = a <> a; clean u;
t.[0..4] }
"""
LOOPED = """revs 2 main (a : bool) (r : bool[3]) = {
let t = reg [false; a; true];
let get k = r.[2 - k];
for i in 0 .. 2 do {
let k = i;
for j in i - 1 .. 0 + i do { t.[i] <- t.[i] <> get k; };
t.[i] <- (rotate i r).[0] && t.[i..2].[0]; };
t }
"""


class Whole(NamedTuple):
    """A text, and the words of the commands that take it."""

    text: bytes
    orders: List[str]


def on_file(bits: str, source: str = "") -> List[str]:
    """The orders that take a circuit file, and a word of bits for it."""
    orders = ["stat", "run " + bits, "convert --to real", "convert", "tidy --to real"]
    return [" ".join(order.split(" ")[:1] + source.split() + order.split(" ")[1:]) for order in orders]


WHOLE: Dict[str, Whole] = {
    "a program": Whole(PROGRAM.encode(), ["eval 1011", "check", "compile", "compile --plan pebble --format qasm"]),
    "a program with claims": Whole(FIVE.encode(), ["eval 01", "check --nodes 5", "compile"]),
    "a program with loops": Whole(LOOPED.encode(), ["eval 1011", "compile"]),
    "a file that was compiled": Whole(FILE.encode(), on_file("11")),
    "a file in another hand": Whole(SUM.encode(), on_file("110")),
    "a file in OpenQASM": Whole(SPREAD.encode(), on_file("0110", "--from qasm")),
    "a program and its circuit": Whole((PARTED + FILE).encode(), ["verify", "verify --borrow 1"]),
    "a program and a circuit in OpenQASM": Whole((PARTED + IN_QASM).encode(), ["verify --from qasm"]),
}


class Damage(NamedTuple):
    """What was done to a text, in a word, and what it became."""

    kind: str
    text: bytes


def prefixes(text: bytes) -> Iterator[bytes]:
    """Every prefix, the empty one and the whole text included."""
    return (text[:size] for size in range(len(text) + 1))


def other_bytes(text: bytes) -> Iterator[bytes]:
    """The text with every byte as each of the telling ones, in turn."""
    return (text[:place] + bytes([other]) + text[place + 1 :] for place in range(len(text)) for other in TELLING)


def other_lines(text: bytes) -> Iterator[bytes]:
    """The text with each line left out, doubled, or exchanged with the next one."""
    lines = text.splitlines(True)
    for at, line in enumerate(lines):
        before, behind = lines[:at], lines[at + 1 :]
        for changed in (behind, [line, line] + behind, behind[:1] + [line] + behind[1:]):
            yield b"".join(before + changed)


def damaged(text: bytes) -> Iterator[Damage]:
    for kind, make in (("prefixes", prefixes), ("bytes", other_bytes), ("lines", other_lines)):
        yield from (Damage(kind, changed) for changed in make(text))
