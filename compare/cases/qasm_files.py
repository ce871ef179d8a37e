"""Random OpenQASM texts: sound ones of many forms, and ones that small edits have broken."""
from random import Random
from typing import List, NamedTuple

HEAD = [b"OPENQASM", b"2.0", b";"]
INCLUDE = [b"include", b'"qelib1.inc"', b";"]
NAMES = [b"a", b"b", b"q", b"x", b"cx", b"inp", b"dirty", b"aB_9", b"openqasm", b"n" * 64, b"qelib1"]
GATES = {b"x": 1, b"cx": 2, b"CX": 2, b"ccx": 3}
WORDS = b"""OPENQASM 2.0 2 2.01 0 1 00002 16384 16385 999999999 1000000000 0000000001 include "qelib1.inc" "qelib2.inc"
qreg creg barrier x cx ccx CX X CCX h gate if measure opaque reset pi U a b A _a a_ ; , [ ] [0] ( ) -> - . " / // # $""".split()
WORDS += [b"n" * 64, b"n" * 65, b"N" * 65, b"1" * 9, b"1" * 10, b"\xff", b"\x00", b"\x0b", b"\xc2\xa0"]
GAPS = [b" ", b"  ", b"\t", b"\r", b"\n", b"\r\n", b"// x a;\n", b"//\n", b" //\xff \"\r\n", b"\n\n"]
LINE_ENDS = [b"\n", b"\r\n", b" // end\n", b"\n\n", b" "]
BYTES = [0, 9, 10, 11, 13, 32, 34, 44, 46, 47, 48, 49, 59, 65, 91, 93, 95, 97, 128, 255]


class QasmFile(NamedTuple):
    """A text, and its number of lines, where the text is as it was made."""

    text: bytes
    lines: int


class QasmFiles:
    """Random files from one seed."""

    def __init__(self, seed: int):
        self.random = Random(seed)

    def chance(self, probability: float) -> bool:
        return self.random.random() < probability

    def file(self) -> QasmFile:
        self.registers, self.names, self.included = {}, self.random.sample(NAMES, len(NAMES)), False
        statements = [self.register(b"qreg")]
        for _ in range(self.random.choice([1, 2, 4, 6, 10, 16])):
            statements.append(self.statement())
        if self.chance(0.03):
            statements.append([b"qreg", b"r", b"[", b"%d" % self.random.choice([16_383, 16_384, 16_385]), b"]", b";"])
        lines = sum(self.registers.values())
        tokens = HEAD + [token for statement in statements for token in statement]
        broken = self.chance(0.55)
        if broken and self.chance(0.75):
            for _ in range(self.random.choice([1, 1, 1, 2])):
                tokens = self.edited(tokens)
        text = self.text(tokens)
        if broken and self.chance(0.35):
            text = self.changed(text)
        return QasmFile(text, lines)

    # ---- Statements, each a list of tokens

    def statement(self) -> List[bytes]:
        kind = self.random.random()
        if not self.included and kind < 0.7:
            self.included = True
            return list(INCLUDE)
        if kind < 0.15 and self.names:
            return self.register(self.random.choice([b"qreg", b"qreg", b"creg"]))
        if kind < 0.22:
            return [b"barrier"] + self.arguments([self.argument(True) for _ in range(self.random.choice([1, 1, 2, 3]))])
        return self.gate()

    def register(self, word: bytes) -> List[bytes]:
        name, size = self.names.pop(), self.random.choice([1, 2, 2, 2, 3, 4])
        if word == b"qreg":
            self.registers[name] = size
        return [word, name, b"[", (b"%d" % size).zfill(self.random.choice([0, 0, 0, 3, 9])), b"]", b";"]

    def argument(self, whole: bool) -> List[bytes]:
        name = self.random.choice(list(self.registers))
        if whole:
            return [name]
        return [name, b"[", b"%d" % self.random.randrange(self.registers[name]), b"]"]

    def arguments(self, arguments: List[List[bytes]]) -> List[bytes]:
        tokens = [token for argument in arguments for token in argument + [b","]]
        return tokens[:-1] + [b";"]

    def gate(self) -> List[bytes]:
        word, arguments = b"CX", []
        for _ in range(30):  # most gates keep the rules
            word = self.random.choice(list(GATES) if self.included or self.chance(0.01) else [b"CX"])
            arguments = [self.argument(self.chance(0.3)) for _ in range(GATES[word])]
            if self.chance(0.01) or self.are_apart(arguments):
                break
        return [word] + self.arguments(arguments)

    def are_apart(self, arguments: List[List[bytes]]) -> bool:
        """Whether whole registers have one size, and no line stands twice."""
        sizes = {self.registers[argument[0]] for argument in arguments if len(argument) == 1}
        names = [argument[0] for argument in arguments if len(argument) == 1]
        places = [(argument[0], argument[2]) for argument in arguments if len(argument) > 1]
        apart = len(set(names)) == len(names) and len(set(places)) == len(places)
        return len(sizes) <= 1 and apart and not any(name in names for name, _ in places)

    # ---- Edits

    def edited(self, tokens: List[bytes]) -> List[bytes]:
        tokens = list(tokens)
        if not tokens:
            return [self.random.choice(WORDS)]
        at, other = self.random.randrange(len(tokens)), self.random.randrange(len(tokens))
        change = self.random.choice(["drop", "double", "swap", "put", "set", "set", "set", "cut", "longer"])
        if change == "drop":
            del tokens[at]
        elif change == "double":
            tokens.insert(other, tokens[at])
        elif change == "swap":
            tokens[at], tokens[other] = tokens[other], tokens[at]
        elif change == "put":
            tokens.insert(at, self.random.choice(WORDS))
        elif change == "set":
            tokens[at] = self.random.choice(WORDS)
        elif change == "cut":
            del tokens[at:]
        else:
            tokens[at] += self.random.choice([b"0", b"1", b"x", b"n" * 64, b"0" * 9])
        return tokens

    def changed(self, text: bytes) -> bytes:
        changed, at = bytearray(text), self.random.randint(0, len(text))
        change = self.random.choice(["delete", "put", "set", "cut"])
        if change == "delete":
            del changed[at : at + 1]
        elif change == "put":
            changed.insert(at, self.random.choice(BYTES))
        elif change == "set" and at < len(changed):
            changed[at] = self.random.choice(BYTES)
        elif change == "cut":
            del changed[at:]
        return bytes(changed)

    # ---- Texts

    def text(self, tokens: List[bytes]) -> bytes:
        """The tokens, parted where they have to be, or by gaps of many kinds."""
        plain, pieces, before = self.chance(0.4), [], b""
        for token in tokens:
            if before[-1:].isalnum() and token[:1].isalnum() or self.chance(0.05):
                pieces.append(b" " if plain else self.random.choice(GAPS))
            elif not plain and self.chance(0.25):
                pieces.append(self.random.choice(GAPS))
            pieces.append(token)
            if token == b";" and (plain or self.chance(0.7)):
                pieces.append(b"\n" if plain else self.random.choice(LINE_ENDS))
            before = token
        return b"".join(pieces)
