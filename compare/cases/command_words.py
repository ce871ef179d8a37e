"""Random words of the command line, many of which give an order."""
from random import Random
from typing import List

NAMES = ["nodes", "from", "node", "nodes1", "to", "lines", "gates", "format", "plan", "plans", "borrow", "help", "",
         "Nodes", "by", "write", "outputs", "output", "for", "fo", "assume", "assumed"]
NUMBERS = ["1", "2", "3", "4", "5", "0", "100000", "1000000", "1000001", "9999999", "0000001", "0000005", "00000005",
           "+5", "-5", "5 ", "0x5", "", "real", "5=5", "\u0665", "1e3", "--", "-"]
FORMATS = ["real", "qasm", "real", "Real", "real ", "", "5", "=real", "--", "-"]
VALUES = {  # of each option, the first three of which are taken
    "nodes": NUMBERS,
    "format": ["real", "qasm", "qasm"] + FORMATS,
    "from": FORMATS,
    "to": FORMATS,
    "plan": ["auto", "eager", "pebble", "x", "Auto", "eager ", "", "=eager", "plain", "real", "auto,eager", "--", "-"],
    "lines": ["4", "5", "16384", "16385", "0016384"] + NUMBERS,
    "gates": ["3", "4", "4000000", "4000001", "04000000"] + NUMBERS,
    "borrow": ["0", "1", "64", "65", "0000064"] + NUMBERS,
    "assume": ["0", "1", "4096", "4097", "0004096"] + NUMBERS,
    "outputs": ["zero", "any", "inputs", "Inputs", "input", "Any", "any ", "all", "0", "", "=any", "zeros", "--", "-"],
    "by": ["3", "10", "9999", "10000", "0009999"] + NUMBERS,
    "write": ["program", "real", "qasm", "Program", "program "] + FORMATS,
    "for": ["gates", "depth", "order", "Depth", "order ", "", "=depth", "gate", "toffoli", "--", "-"],
}
OPTIONS = {"compile": ["nodes", "plan", "plan", "lines", "gates", "borrow", "format", "assume", "outputs"],
           "check": ["nodes", "assume"], "ands": ["nodes", "assume"],
           "convert": ["from", "to"], "tidy": ["from", "to", "for"],
           "verify": ["from", "nodes", "borrow", "outputs", "assume"],
           "arith": ["by", "write"],
           "bench": ["nodes", "plan", "plan", "lines", "gates", "borrow"]}
SIZES = ["1", "2", "3", "02", "0000002", "200", "201", "0", "-1", "+1", "00000002", "", "x", "2.0", "--", "-"]
POSITIONAL = ["11", "10", "01", "00", "1", "0", "", "-", "x", "2", "110", "real", "compile", "\u00e9", "1\n"]
KINDS = ["add", "sub", "less", "inc", "mul", "mul", "mul", "Add", "", "add ", "3", "-"]
COMMANDS = ["compile", "check", "ands", "eval", "stat", "run", "convert", "verify", "tidy", "gen", "bench", "arith"]
NUMBERED = ["gen", "bench"]
OTHERS = ["Compile", "", "-", "--", "Convert", "gen2", "Verify", "--nodes", "check ", "--help", "help"]


class Orders:
    """Random words from one seed."""

    def __init__(self, seed: int):
        self.random = Random(seed)

    def chance(self, probability: float) -> bool:
        return self.random.random() < probability

    def words(self) -> List[str]:
        if self.chance(0.06):
            return [self.random.choice(OTHERS) for _ in range(self.random.choice([0, 1, 1, 2]))]
        command = self.random.choice(COMMANDS)
        if command == "arith":
            return self.arith_words()
        most = 5 if command in ("compile", "bench") else 2
        pieces = [self.option(command) for _ in range(self.random.choice([0, 0, 1, 1, 1, 2, most]))]
        count = {"eval": 1, "gen": 1, "bench": 1, "run": self.random.randint(1, 3)}.get(command, 0)
        if self.chance(0.1):
            count = self.random.randint(0, 2)
        words = SIZES if command in NUMBERED else POSITIONAL
        pieces += [[self.random.choice(words[:4] if self.chance(0.7) else words)] for _ in range(count)]
        if self.chance(0.2):
            pieces.append(["--"])
        if self.chance(0.05):
            pieces.append([self.random.choice(["-1", "-x", "---", "--=", "-nodes", "-nodes=5", "--nodes5"])])
        self.random.shuffle(pieces)
        return [command] + [word for piece in pieces for word in piece]

    def arith_words(self) -> List[str]:
        """A kind and a number, as a rule, with a factor, as a rule, exactly where it multiplies."""
        kind = self.random.choice(KINDS[:7] if self.chance(0.8) else KINDS)
        words = [[kind, self.random.choice(SIZES[:4] if self.chance(0.8) else SIZES)]]
        if (kind == "mul") != self.chance(0.1):
            words.append(self.option("arith", "by"))
        if self.chance(0.5):
            words.append(self.option("arith", "write"))
        if self.chance(0.1):
            words.append(self.option("arith"))
        if self.chance(0.1):
            words[0] = self.random.choice([words[0][:1], words[0][1:], words[0] + ["1"], words[0][::-1]])
        if self.chance(0.2):
            words.append(["--"])
        self.random.shuffle(words)
        return ["arith"] + [word for piece in words for word in piece]

    def option(self, command: str, own: str = "") -> List[str]:
        """An option that the command has, as a rule, with a value that it takes, as a rule."""
        name = own or self.random.choice(OPTIONS.get(command, ["from"]))
        if self.chance(0.06):
            name = self.random.choice(NAMES)
        values = VALUES.get(name, NUMBERS)
        value = self.random.choice(values[:3] if self.chance(0.7) else values)
        if self.chance(0.03):
            return ["--" + name]
        return ["--%s=%s" % (name, value)] if self.chance(0.4) else ["--" + name, value]
