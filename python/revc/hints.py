"""What helps against a text that is no program: by the kind of its refusal, and by what stands at the place."""
import re
from typing import Iterator, List, Tuple

from . import program
from .errors import Refused

KINDS = {
    "BadByte": "no token begins with this byte: AND is `&&`, XOR is `<>`, NOT of a is `true <> a`, OR is "
               "`a <> b <> a && b`, and a comment begins with `//`",
    "LongName": "a name has at most 64 bytes: shorten it",
    "LongNumber": "a number has at most 4 digits",
    "Syntax": "no program has this here",
    "Nesting": "more than 100 brackets or blocks stand inside each other: name parts with `let`",
    "Inputs": "a parameter has at least 1 bit, and all parameters together at most 1,024",
    "TwoParams": "two parameters have this name: rename one",
    "Unbound": "nothing has this name here: bind it by `let` before it is used; what a block or a turn of a loop binds "
               "ends with it",
    "NotBit": "a bit is wanted here: of a register take a place, as `r.[0]`",
    "NotRegister": "a register is wanted here: of a bit make `reg [a]`",
    "NotFunction": "this stands as an argument behind what is no function: is a `;`, a `<>` or a `&&` missing before it?",
    "Index": "the register has no such place: places are counted from 0",
    "Slice": "a slice i..j has 0 <= i <= j, and j is a place of the register, counted from 0",
    "Rotate": "the number is 0 at least, and below the length of the register",
    "Length": "a register has at most 4,096 places: keep several",
    "Gone": "the bit was cleaned before, and holds nothing any more: use it before its `clean`, or claim a copy, as "
            "`clean (false <> t)`",
    "NoOutput": "the last expression of `main` is neither a bit nor a register: end with what is put out",
    "Depth": "more than 400 functions, blocks and loops are inside each other: does a function lead to itself?",
    "Work": "the run takes more than 16,777,216 steps: take fewer rounds, or make several programs of it",
    "Writes": "more than 262,144 bits are written: take fewer rounds, or make several programs of it",
    "Claims": "there are more than 4,096 claims",
    "Outputs": "a program has at most 1,024 outputs: return less, or make several programs of it",
    "NotNumber": "only a number, or the name of one, stands here: bits are not known yet",
    "Range": "numbers go from -9,999 to 9,999",
}
XOR, NOT, OR = "XOR is `<>`", "NOT of a is `true <> a`", "OR is `a <> b <> a && b`"
INSTEAD = {  # words and signs of other languages
    "if": "there is no `if`: where c is 1 then a, else b, is `c && (a <> b) <> b`",
    "not": NOT, "!": NOT, "~": NOT, "xor": XOR, "^": XOR, "and": "AND is `&&`", "*": "AND is `&&`", "or": OR, "|": OR,
    "return": "there is no `return`: the last expression of a block is its value",
    "+": "bits have no sum: write the adder as a loop (LANGUAGE.md begins with one), or `a + b` in Python",
    "-": "bits have no difference: write the subtractor as a loop, or `a - b` in Python",
    "==": "`a` equals `b` where `true <> a <> b` is 1", "#": "a comment begins with `//`",
    "while": "there is no `while`: a loop is `for i in 0 .. 7 do { .. };`, in a text that begins with `revs 2`",
}
# What stands before the place, what stands at it, and what helps. Both are patterns.
MISWRITTEN: List[Tuple[str, str, str]] = [
    (r"^[^=]*$", r",", "each parameter has brackets of its own: main (a : bool) (b : bool) = .."),
    (r"", r",", "places of a `reg` are parted by `;`, as `reg [a; b]`, and arguments of a function by blanks, as `f a b`"),
    (r"^[^=]*\(\s*\w+\s*$", r"\)", "a parameter says its type: (a : bool), or (a : bool[8]) of 8 bits"),
    (r"^[^=]*:\s*$", r"\w+", "the types are `bool`, and `bool[8]` of 8 bits"),
    (r"^\s*$", r"\w+", "a text begins with `main (a : bool) = ..`, or with `revs 2 main ..`; its functions stand inside, "
                       "as main (a : bool) = { let f x = true <> x; f a }"),
    (r"\w\s*$", r"\[", "a place of a register is written with a dot: a.[0], and a slice a.[0..3]"),
    (r"\.\[[^\]]*$", r":", "a slice is a.[0..3], with both of its ends"),
    (r"[{;]\s*\w+(\s*\.\[[^\]]*\])?\s*$", r"=",
     "an assignment is written `<-`, as a.[0] <- b; and a new name `let`, as let c = b;"),
    (r"let\s+(\w+)\s*=\s*$", r"\d+",
     "a number is no value: bits are `true` and `false`, and a register of them reg [true; false]. A number that places are "
     "counted by gets its name by a loop: for c in 3 .. 3 do { .. };"),
    (r"", r"\d+", "a number is no value: the bits are `true` and `false`"),
]


def offset(text: str, row: int, column: int) -> int:
    """Where a line and a column are in a text, both counted from 1, columns in bytes."""
    lines = text.split("\n")
    before = lines[row - 1].encode()[:column - 1] if row <= len(lines) else b""
    return len("\n".join(lines[:row - 1] + [before.decode(errors="ignore")]))


def token(text: str, row: int, column: int) -> str:
    found = re.match(r"\w+|==|[^\w\s]", text[offset(text, row, column):])
    return found[0] if found else ""


def hint(text: str, row: int, column: int, kind: str) -> str:
    """What helps against the refusal of a text for this kind of reason at this place, "" where nothing is known."""
    word, before = token(text, row, column), text[:offset(text, row, column)]
    if kind == "Syntax":
        return syntax(text, row, column, word)
    if kind == "BadByte":
        return instead(before, word) or KINDS[kind]
    if kind == "Unbound" and re.search(rf"\blet\s+{re.escape(word)}\s[^;]*$", before):
        return f"`{word}` has no meaning inside of itself: no function calls itself; write its steps as a loop, or one by one"
    if kind in ("Unbound", "NotFunction"):
        return INSTEAD.get(word, KINDS[kind])
    return KINDS.get(kind, "")


def instead(before: str, word: str) -> str:
    """What to write in place of a word that stands behind this text, "" where nothing is known."""
    if word in INSTEAD:
        return INSTEAD[word]
    code = re.sub(r"//[^\n]*", "", before)
    return next((helps for front, at, helps in MISWRITTEN if re.search(front, code) and re.fullmatch(at, word)), "")


def syntax(text: str, row: int, column: int, word: str) -> str:
    """What helps against a token that cannot stand where it stands."""
    at = offset(text, row, column)
    if word == "for" and not re.match(r"\s*revs\s", text):
        return "a text with loops begins with `revs 2`"
    helps = instead(text[:at], word) if word else ""
    if helps and word in INSTEAD:
        return f"no program has `{word}` here: {helps}"
    line = missing(text, at)
    if line or helps:
        return line or helps
    what = "the text may not end" if not word else f"no program has `{word}`"
    return f"{what} here: an item of a block ends with `;`, a block with `}}`, and its last expression is its value"


def missing(text: str, at: int) -> str:
    """Whether a `;` is missing before a place: with one the text is well formed, or wrong behind the place alone."""
    for place in endings(text, at):
        message = refusal_of(text[:place] + ";" + text[place:])
        found = re.match(r"revc: (\d+):(\d+) (\w+)", message)
        if not found or found[3] != "Syntax" or offset(text, int(found[1]), int(found[2])) > at + 1:
            before = text[:place].split("\n")[-1].strip()[-40:]
            return f"a `;` is missing behind `{before}` in line {text[:place].count(chr(10)) + 1}"
    return ""


def endings(text: str, at: int) -> Iterator[int]:
    """Where a `;` may be missing: at the ends of the lines before the place, and right before it."""
    for _ in range(6):
        end = len(text[:at].rstrip())
        while end and "//" in text[text.rfind("\n", 0, end) + 1:end]:  # a comment
            end = len(text[:text.rfind("//", 0, end)].rstrip())
        if not end or text[end - 1] == ";" or text[end - 1] == "{":
            return
        yield end
        at = text.rfind("\n", 0, end)
        if at < 0:
            return


def refusal_of(text: str) -> str:
    """What the program says of a text, which may be nothing."""
    try:
        program.call(["eval", "-"], text.encode())
    except Refused as refused:
        return refused.message
    return ""
