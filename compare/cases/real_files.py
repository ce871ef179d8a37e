"""Random `.real` texts: sound ones of many forms, and ones that small edits have broken."""
from random import Random
from typing import List, NamedTuple

MOST_LINES = 16_384
ODD_NAMES = [b"a", b"b", b"x0", b"y0", b"w0", b'"q"', b"a#", b"b-", b"1", b"0", b".end", b".begin", b"t2", b"f2",
             b"\xff\x80", b"\x00", b"\x0b", b"\x0c", b"\xc2\xa0", b"\x85", b"\x1c", b"q" * 64]
VERSIONS = [b"1.0", b"2.0"]
REST = [b'"carry in" 0', b"a b # c", b"", b"-- \xff", b"L" * 70, b".end"]
COMMENTS = [b"#", b"# .end", b"#.begin", b"# t1 a # b", b"#\xff\x00", b"#" * 80]
WORDS = b"""a b -a --a - -- # -# x0 0 1 2 3 00002 16384 16385 -1 +2 t1 t2 t3 t0 t t00002 t000002 t16385 t99999 T2 t2x
f1 f2 f3 f0 f p3 v2 1.0 2.0 3.0 .end .begin .numvars .variables .constants .garbage .version .inputs .outputs .inputbus
.outputbus .define .module .END""".split()
WORDS += [b"n" * 64, b"n" * 65, b"-" + b"n" * 64, b"-" + b"n" * 65, b"--" + b"n" * 65, b"\xff", b"\x00", b"-\x0b"]
LIMITED = {"long word": [[b".variables"]] + [[b"%s%d" % (kind, count)] for kind in (b"t", b"f") for count in range(9)],
           "large number": [[b".numvars"]]}
BYTES = [0, 9, 10, 11, 12, 13, 32, 35, 45, 46, 48, 49, 116, 102, 128, 255]


class RealFile(NamedTuple):
    """A text, and the number of lines that `run` asks bits for, where the text is as it was made."""

    text: bytes
    free: int


class RealFiles:
    """Random files from one seed."""

    def __init__(self, seed: int):
        self.random = Random(seed)

    def chance(self, probability: float) -> bool:
        return self.random.random() < probability

    def file(self) -> RealFile:
        names = self.names()
        marks = bytes(self.random.choice(b"---01") for _ in names)
        header = self.header(names, marks)
        free = marks.count(b"-") if any(line[:1] == [b".constants"] for line in header) else len(names)
        gates = [self.gate(names) for _ in range(self.random.choice([0, 1, 2, 3, 5, 8, 20]))]
        lines = header + [[b".begin"]] + gates + [[b".end"]]
        broken = self.chance(0.55)
        if broken and self.chance(0.7):
            for _ in range(self.random.choice([1, 1, 1, 2, 3])):
                lines = self.edited(lines)
        text = self.text(lines)
        if broken and self.chance(0.4):
            for _ in range(self.random.choice([1, 1, 2])):
                text = self.changed(text)
        return RealFile(text, free)

    # ---- Lines, each a list of words

    def names(self) -> List[bytes]:
        count = self.random.choice([1, 1, 2, 2, 3, 3, 4, 4, 5, 6, 8])
        if self.chance(0.004):
            count = self.random.choice([MOST_LINES, MOST_LINES, MOST_LINES - 1])
            return [b"l%d" % number for number in range(count)]
        if self.chance(0.5):
            return self.random.sample(ODD_NAMES, count)
        return [b"l%d" % number for number in range(count)]

    def header(self, names: List[bytes], marks: bytes) -> List[List[bytes]]:
        """A header without `.begin`: what stands behind `.numvars` has any order, and what does not any place."""
        behind = [[b".variables", *names]]
        if self.chance(0.6):
            behind.append([b".constants", marks])
        if self.chance(0.6):
            behind.append([b".garbage", bytes(self.random.choice(b"--1") for _ in names)])
        self.random.shuffle(behind)
        count = b"%d" % len(names)
        lines = [[b".numvars", count.zfill(self.random.choice([0, 0, 0, 2, 5, 9, 30]))]] + behind
        free = [[b".version", self.random.choice(VERSIONS)]] if self.chance(0.8) else []
        free += [[word, self.random.choice(REST)] for word in (b".inputs", b".outputs") if self.chance(0.5)]
        free += [[self.random.choice([b".inputbus", b".outputbus"]), self.random.choice(REST)]
                 for _ in range(self.random.choice([0, 0, 0, 1, 2, 3]))]
        for line in free:
            lines.insert(0 if line[0] == b".version" and self.chance(0.8) else self.random.randint(0, len(lines)), line)
        return lines

    def gate(self, names: List[bytes]) -> List[bytes]:
        kind = b"f" if len(names) > 1 and self.chance(0.3) else b"t"
        least = 2 if kind == b"f" else 1
        most = len(names) if self.chance(0.3) else min(len(names), 4)
        lines = self.random.sample(names, self.random.randint(least, most))
        controls = [b"-" + name if self.chance(0.3) else name for name in lines[:-least]]
        digits = b"%d" % len(lines)
        return [kind + digits.zfill(self.random.choice([0, 0, 0, 2, 5])), *controls, *lines[len(controls) :]]

    # ---- Edits

    def edited(self, lines: List[List[bytes]]) -> List[List[bytes]]:
        lines = [list(line) for line in lines]
        if not lines:
            return [[self.random.choice(WORDS)]]
        at, other = self.random.randrange(len(lines)), self.random.randrange(len(lines))
        change = self.random.choice(["drop", "double", "swap", "put", "cut", "drop word", "double word", "swap words",
                                     "put word", "set word", "set word", "sign word", "longer word", "long word",
                                     "long word", "large number"])
        if change == "drop":
            del lines[at]
        elif change == "double":
            lines.insert(other, list(lines[at]))
        elif change == "swap":
            lines[at], lines[other] = lines[other], lines[at]
        elif change == "put":
            lines.insert(at, [self.random.choice(WORDS) for _ in range(self.random.randint(1, 4))])
        elif change == "cut":
            del lines[at:]
        else:
            if change in LIMITED and self.chance(0.8):
                at = self.random.choice([at for at, line in enumerate(lines) if line[:1] in LIMITED[change]] or [at])
            self.edit_words(lines[at] or [b"#"], change)
        return lines

    def edit_words(self, line: List[bytes], change: str) -> None:
        at, other = self.random.randrange(len(line)), self.random.randrange(len(line))
        if change == "drop word":
            del line[at]
        elif change == "double word":
            line.insert(other, line[at])
        elif change == "swap words":
            line[at], line[other] = line[other], line[at]
        elif change == "put word":
            line.insert(self.random.randint(0, len(line)), self.random.choice(WORDS))
        elif change == "set word":
            line[at] = self.random.choice(WORDS)
        elif change == "sign word":
            line[at] = b"-" + line[at]
        elif change == "long word":
            signs = b"-" * self.random.choice([0, 0, 0, 1, 1, 2])
            line[max(1, at) : max(1, at) + 1] = [signs + b"n" * self.random.randint(64, 66)]
        elif change == "large number":
            line[1:2] = [self.random.choice([b"16384", b"16385", b"016385", b"9" * 5_000])]
        else:
            line[at] += self.random.choice([b"0", b"1", b"-", b"x", b"n" * self.random.randint(60, 66)])

    def changed(self, text: bytes) -> bytes:
        """The text with a byte deleted, put in or changed, or cut off."""
        changed, at = bytearray(text), self.random.randint(0, len(text))
        change = self.random.choice(["delete", "put", "set", "cut"])
        if change == "delete":
            del changed[at : at + 1]
        elif change == "put":
            changed.insert(at, self.random.choice(BYTES))
        elif change == "set" and at < len(changed):
            changed[at] = self.random.choice(BYTES)
        elif change == "cut":
            del changed[at:]
        return bytes(changed)

    # ---- Texts

    def text(self, lines: List[List[bytes]]) -> bytes:
        """The lines as a text, plain or with other blanks, empty lines and comments."""
        if self.chance(0.4):
            return b"".join(b" ".join(line) + b"\n" for line in lines)
        ends = self.random.choice([b"\n", b"\n", b"\r\n", b" \t\r\r\n"])
        whole = []
        for line in lines + [[]]:
            while self.chance(0.15):
                whole.append(self.random.choice([b"", b"\t ", b"\r", b" " + self.random.choice(COMMENTS)]))
            if line:
                whole.append(self.line(line))
        return ends.join(whole) + self.random.choice([ends, ends, b"", b"\n\n", ends + b"# end"])

    def line(self, line: List[bytes]) -> bytes:
        blank = self.random.choice([b" ", b" ", b"\t", b"  ", b" \r "])
        text = self.random.choice([b"", b"", b" ", b"\t\r"]) + blank.join(line)
        if self.chance(0.15):
            text += b" " + self.random.choice(COMMENTS)
        return text
