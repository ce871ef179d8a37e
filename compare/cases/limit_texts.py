"""Calls at each limit and one past it: the heaviest that a limit lets through, and how it is refused."""
from typing import Callable, List, NamedTuple

from cases.happy_calls import AND
from cases.programs import at_claims, at_depth, at_length, at_outputs, at_work, at_writes, head
from cases.rows import LEAST

MOST_PROGRAM = 1_048_576
MOST_CIRCUIT = 134_217_728
MOST_LINES = 16_384
MOST_GATES = 4_000_000
MOST_TIDIED = 65_536
ONE = "main (a : bool) = "
PROFILE_2 = "revs 2\n" + ONE
QASM = b"OPENQASM 2.0;\nqreg a[4];\n"


class Limit(NamedTuple):
    """What is limited; the words and the text where there are so many more of it than the limit allows, 0 or 1; and the
    status and the line where there is one more. At the limit the status is 0, where no other is told."""

    title: str
    words: Callable[[int], List[str]]
    text: Callable[[int], bytes]
    past: int
    line: str
    at: int = 0


def said(words: str) -> Callable[[int], List[str]]:
    """The same words at the limit and past it."""
    return lambda more: words.split(" ")


def counted(words: str, limit: int) -> Callable[[int], List[str]]:
    """Words with the limit, or one more."""
    return lambda more: (words % (limit + more)).split(" ")


def same(text: bytes) -> Callable[[int], bytes]:
    return lambda more: text


def run(make, front: str = "") -> Callable[[int], bytes]:
    """A program that was made for `eval`."""
    return lambda more: (front + make(more)[0]).encode()


def text(make: Callable[[int], str]) -> Callable[[int], bytes]:
    return lambda more: make(more).encode()


# ---- Programs


def nested(opened: str, closed: str, each: int = 1) -> Callable[[int], bytes]:
    """As many levels as there may be, each piece of so many."""
    return text(lambda more: ONE + opened * (99 // each + more) + "a" + closed * (99 // each + more))


def functions(more: int) -> str:
    return ONE + "{ let f = " + "fun x -> " * (98 + more) + "x; a }"


def full_of_brackets(more: int) -> str:
    """The most brackets, at the most levels."""
    piece = "(" * 99 + "a" + ")" * 99 + " <> "
    return (ONE + piece * 5_000 + "(" * (99 + more) + "a" + ")" * (99 + more)).ljust(MOST_PROGRAM)


def far_names(more: int) -> str:
    """Names behind 60,000 others, 500 of them 32,768 times and the rest once: all the work that there may be."""
    lets = "".join("let n%d=a;\n" % number for number in range(60_000))
    uses = "let d0 x = { %s x };\n" % ("a;" * 500)
    doubled = "".join("let d%d x = d%d (d%d x);\n" % (level + 1, level, level) for level in range(15))
    return "main (a : bool) = {\n" + lets + uses + doubled + "d15 a;\n" + "a;" * (103_824 + more) + "a }"


def turns(more: int) -> str:
    """Turns that each bind two names: all the work that there may be. A turn of the inner `for` counts two, one of the
    outer two more."""
    loops = "for i in 1 .. 4000 do { for j in 1 .. 2096 do { let k = j; }; }; "
    return PROFILE_2 + "{ " + loops + "a; " * (1_213 + more) + "a }"


def turns_of_registers(more: int) -> str:
    """Turns that each bind a register of 1,024 places, which counts them."""
    head = "revs 2\nmain (r : bool[1024]) = { "
    return head + "for i in 1 .. 16 do { for j in 1 .. 1021 do { let t = r; }; }; " + "r; " * (16_445 + more) + "r }"


def bindings(more: int) -> str:
    """Calls of functions that bind names, again and again: all the work that there may be."""
    lets = "let d0 x = { %sx };\n" % ("let k = x; " * 500)
    doubled = "".join("let d%d x = d%d (d%d x);\n" % (level + 1, level, level) for level in range(15))
    return "main (a : bool) = {\n" + lets + doubled + "let b = d15 a;\n" + "a; " * (163_824 + more) + "a }"


def loops(more: int) -> str:
    """Loops in each other, one turn each, at as many levels as there may be."""
    levels = 98 + more
    return PROFILE_2 + "{ " + "for i in 1 .. 1 do { " * levels + "a; " + "}; " * levels + "a }"


def chain(nodes: int) -> bytes:
    """A chain of so many nodes, each an operand of the next one alone."""
    return ("main (a : bool) (b : bool) = " + "<>".join("ab"[number % 2] for number in range(nodes + 1))).encode()


def product(inputs: int) -> bytes:
    return (head([("a", inputs)]) + " && ".join("a.[%d]" % place for place in range(inputs))).encode()


def parities(inputs: int) -> bytes:
    """The sum of all inputs is the same in rising and in falling order: the square of their number of functions."""
    places = ["a.[%d]" % place for place in range(inputs)]
    sums = "let t = %s;\nlet u = %s;\n" % (" <> ".join(places), " <> ".join(places[::-1]))
    return (head([("a", inputs)]) + "{\n" + sums + "clean (t <> u);\na.[0] }").encode()


PROGRAMS = [
    Limit("bytes of a program", said("compile"), lambda more: AND.ljust(MOST_PROGRAM + more), 3,
          "source over 1048576 bytes"),
    Limit("bytes of a name", said("compile"), text(lambda more: "main (%s : bool) = true" % ("n" * (64 + more))), 3,
          "LongName"),
    Limit("digits of a number", said("compile"), text(lambda more: "main (r : bool[%s]) = r.[0]" % "1".zfill(4 + more)),
          3, "LongNumber"),
    Limit("levels: brackets", said("compile"), nested("(", ")"), 3, "Nesting"),
    Limit("levels: blocks", said("compile"), nested("{ let t = a; ", " }"), 3, "Nesting"),
    Limit("levels: registers", said("compile"), nested("reg [", "].[0]"), 3, "Nesting"),
    Limit("levels: functions", said("compile"), text(functions), 3, "Nesting"),
    Limit("levels: 500,000 brackets", said("compile"), text(full_of_brackets), 3, "Nesting"),
    Limit("bits of the inputs", said("compile"), text(lambda more: head([("r", 1_024 + more)]) + "r"), 3, "Inputs"),
    Limit("places of a register", said("eval " + "1" * 1_024), run(at_length), 3, "Length"),
    Limit("outputs", said("eval " + "1" * 1_022), run(at_outputs), 3, "Outputs"),
    Limit("depth", said("compile"), run(at_depth), 3, "Depth"),
    Limit("work, by rotations", said("eval " + "1" * 1_024), run(at_work), 3, "Work"),
    Limit("work, by names behind 60,000 others", said("eval 1"), text(far_names), 3, "Work"),
    Limit("levels: loops", said("compile"), text(loops), 3, "Nesting"),
    Limit("work, by turns that bind numbers", said("eval 1"), text(turns), 3, "Work"),
    Limit("work, by turns that bind registers", said("eval " + "1" * 1_024), text(turns_of_registers), 3, "Work"),
    Limit("work, by functions that bind", said("eval 1"), text(bindings), 3, "Work"),
    Limit("writes", said("eval 1"), run(at_writes), 3, "Writes"),
    Limit("writes, none a node", said("compile"), run(at_writes), 3, "Writes"),
    Limit("claims", said("check"), run(at_claims), 3, "Claims", at=4),
    Limit("claims on `clean`", said("compile"),
          text(lambda more: ONE + "{ " + "clean (a <> a); " * (4_096 + more) + "a }"), 3, "Claims"),
    Limit("functions of claims", lambda more: ["check", "--nodes", str(1_000_000 - more)], same(parities(1_000)), 5,
          "claim 1 at 4:1 passes 999999 nodes"),
    Limit("nodes, under `auto`", said("compile --gates 4000000"), lambda more: chain(262_144 + more), 3, "Writes"),
    Limit("nodes, refused by every block size", said("compile --plan pebble --lines 300 --gates 4000000"),
          lambda more: chain(262_144 + more), 3, "Writes", at=7),
    Limit("lines, plain; with a node more, by blocks", said("compile --plan pebble --lines 16384"),
          lambda more: chain(16_381 + more), 0, ""),
    Limit("a product of the most inputs, eager", said("compile --plan eager --gates 4000000"),
          lambda more: product(1_024 + more), 3, "Inputs", at=7),
    Limit("`--lines`", counted("compile --lines %d", 16_384), same(AND), 2, "bad command line"),
    Limit("`--gates`", counted("compile --gates %d", 4_000_000), same(AND), 2, "bad command line"),
    Limit("`--borrow`", counted("compile --borrow %d", 64), same(AND), 2, "bad command line"),
    Limit("`--nodes`", counted("compile --nodes %d", 1_000_000), same(AND), 2, "bad command line"),
    Limit("bits of `gen`", counted("gen %d", 200), same(b""), 2, "bad command line"),
    Limit("bits of `bench`", counted("bench %d --plan pebble", 200), same(b""), 2, "bad command line"),
]

# ---- Circuits


def real(lines: int, gates: bytes, names: str = "l%d") -> bytes:
    spelled = " ".join(names % line for line in range(lines)).encode()
    return b".numvars %d\n.variables %s\n.begin\n%s.end\n" % (lines, spelled, gates)


def gate(lines: int) -> bytes:
    """A flip that uses so many lines."""
    return b"t%d %s\n" % (lines, b" ".join(b"l%d" % line for line in range(lines)))


def in_qasm(more: int) -> bytes:
    return QASM + b"CX a[0],a[1];\n" * (MOST_GATES + more)


def word(bits: int) -> str:
    return "10" * (bits // 2)


CIRCUITS = [
    Limit("bytes of a circuit: a comment", said("stat"),
          lambda more: LEAST.encode() + b"#".ljust(MOST_CIRCUIT + more - len(LEAST), b"x"), 8,
          "circuit over 134217728 bytes"),
    Limit("bytes of a circuit: 4,000,000 gates", said("stat"),
          lambda more: real(100, gate(7) * MOST_GATES).ljust(MOST_CIRCUIT + more), 8, "circuit over 134217728 bytes"),
    Limit("bytes of a name in `.real`", said("stat"), lambda more: real(1, b"", "n" * (63 + more) + "%d"), 8,
          "circuit line 2 over a limit"),
    Limit("bytes of a name in OpenQASM", said("stat --from qasm"),
          lambda more: b"OPENQASM 2.0;qreg %s[1];" % (b"n" * (64 + more)), 8, "circuit at 1:19 over a limit"),
    Limit("digits of a gate in `.real`", said("stat"), lambda more: real(1, b"t%s l0\n" % b"1".zfill(5 + more)), 8,
          "circuit line 4"),
    Limit("digits of a number in OpenQASM", said("stat --from qasm"),
          lambda more: b"OPENQASM 2.0;qreg a[%s];" % b"1".zfill(9 + more), 8, "circuit at 1:21 over a limit"),
    Limit("lines in `.real`", said("stat"), lambda more: real(MOST_LINES + more, b""), 8,
          "circuit line 1 over a limit"),
    Limit("lines in OpenQASM", said("stat --from qasm"),
          lambda more: b"OPENQASM 2.0;qreg a[%d];" % (MOST_LINES + more), 8, "circuit at 1:21 over a limit"),
    Limit("gates in `.real`: `stat`", said("stat"), lambda more: real(4, gate(3) * (MOST_GATES + more)), 8,
          "circuit line 4000004 over a limit"),
    Limit("gates in `.real`: `run`", said("run 1111 1010"), lambda more: real(4, gate(3) * (MOST_GATES + more)), 8,
          "circuit line 4000004 over a limit"),
    Limit("gates in `.real`: `convert`", said("convert"), lambda more: real(4, gate(3) * (MOST_GATES + more)), 8,
          "circuit line 4000004 over a limit"),
    Limit("gates in OpenQASM: `stat`", said("stat --from qasm"), in_qasm, 8, "circuit at 4000003:13 over a limit"),
    Limit("gates in OpenQASM: `run`", said("run --from qasm 1111 1010"), in_qasm, 8,
          "circuit at 4000003:13 over a limit"),
    Limit("gates in OpenQASM: `convert`", said("convert --from qasm --to real"), in_qasm, 8,
          "circuit at 4000003:13 over a limit"),
    Limit("gates that are split", said("convert"), lambda more: real(7, gate(5) * (MOST_GATES // 8 + more)), 7,
          "more than 4000000 gates"),
    Limit("lines of a gate: `stat`", said("stat"), lambda more: real(MOST_LINES, gate(MOST_LINES + more)), 8,
          "circuit line 4"),
    Limit("lines of a gate: `convert`", said("convert"), lambda more: real(MOST_LINES, gate(MOST_LINES - 1 + more)), 6,
          "lines 16385 over 16384"),
    Limit("gates of 16,383 lines that are split", said("convert"),
          lambda more: real(MOST_LINES, gate(MOST_LINES - 1) * (30 + more)), 7, "more than 4000000 gates"),
    Limit("100 words of 16,384 bits, 1,000,000 gates",
          lambda more: ["run"] + [word(MOST_LINES)] * 99 + [word(MOST_LINES) + "1" * more],
          lambda more: real(MOST_LINES, gate(3) * 1_000_000), 12, "bad bits in word 100"),
    Limit("1,024 words of 1,000 bits, 1,000,000 gates",
          lambda more: ["run"] + [word(1_000)] * 1_023 + [word(1_000) + "1" * more],
          lambda more: real(1_000, gate(3) * 1_000_000), 12, "bad bits in word 1024"),
]

# ---- Programs with circuits, and circuits that are tidied


def verified(more: int) -> bytes:
    program, file = AND.ljust(MOST_PROGRAM - 1) + b"\n", real(3, gate(3))
    return program + b"---\r\n" + file.ljust(MOST_CIRCUIT + more)


def deepest(more: int) -> bytes:
    """The product of the most inputs, the last of them on lines of its own: so many variables as there may be."""
    inputs = 1_024
    gates = [b"t3 l0 l1 l%d\n" % (inputs + 1)]
    gates += [b"t3 l%d l%d l%d\n" % (place, inputs + place - 1, inputs + place) for place in range(2, inputs)]
    file = real(2 * inputs + 64, b"".join(gates) + b"t2 l%d l%d\n" % (2 * inputs - 1, inputs) + b"".join(gates[::-1]))
    return product(inputs) + b"\n---\n" + (file if not more else file.replace(b"t2 l%d" % (2 * inputs - 1), b"t2 l0"))


def blocks(more: int) -> bytes:
    """Blocks of four CX gates that are longer than they have to be, parted by X gates on another line."""
    piece = b"t2 l0 l1\nt2 l1 l0\nt2 l0 l1\nt2 l1 l0\nt1 l2\n"
    return real(3, piece * (MOST_TIDIED // 5) + b"t1 l2\n" * (MOST_TIDIED % 5 + more))


def one_target(more: int) -> bytes:
    """Different flips of one line, of which none cancels another."""
    pairs = [(one, other) for other in range(1, 363) for one in range(other)][: MOST_TIDIED + more]
    return real(400, b"".join(b"t3 l%d l%d l399\n" % pair for pair in pairs))


def palindrome(more: int) -> bytes:
    """A list and its reversal, which undo each other from the middle."""
    half = [b"t3 l%d l%d l%d\n" % (at % 50, 50 + at % 49, 100 + at % 51) for at in range(MOST_TIDIED // 2)]
    return real(200, b"".join(half + half[::-1]) + b"t1 l0\n" * more)


OTHERS = [
    Limit("bytes of a program and a circuit", said("verify"), verified, 8, "circuit over 134217728 bytes"),
    Limit("variables of `verify`, or one line that differs", said("verify --borrow 64 --nodes 1000000"), deepest, 15,
          "circuit differs at line 1025 on " + "1" + "0" * 1_087),
    Limit("gates of `tidy`: blocks", said("tidy"), blocks, 7, "more than 65536 gates"),
    Limit("gates of `tidy`: one target", said("tidy"), one_target, 7, "more than 65536 gates"),
    Limit("gates of `tidy`: a palindrome", said("tidy"), palindrome, 7, "more than 65536 gates"),
]
LIMITS = PROGRAMS + CIRCUITS + OTHERS
