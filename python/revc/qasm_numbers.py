"""Whole numbers in OpenQASM files: sums of known ones, and the places that stand in `[..]`."""
from typing import Callable, Dict, List

from .qasm_tokens import Tokens, said

OPERATIONS: List[Dict[str, Callable[[int, int], int]]] = [
    {"+": lambda a, b: a + b, "-": lambda a, b: a - b},
    {"*": lambda a, b: a * b, "/": lambda a, b: a // b if b else 0, "%": lambda a, b: a % b if b else 0},
    {"**": lambda a, b: a ** b if 0 <= b < 64 else 0}]
MOST = 1 << 20  # entries of a list of places


class Numbers:
    """Reads numbers from tokens; `known` are those that have names."""
    operations = OPERATIONS

    def __init__(self, tokens: Tokens):
        self.tokens = tokens
        self.known: Dict[str, int] = {}

    def value(self, level: int = 0) -> int:
        """A sum, or what binds tighter than it from a level on."""
        if level == len(self.operations):
            return self.unit()
        value = self.value(level + 1)
        while self.tokens.next.text in self.operations[level]:
            sign = self.tokens.take().text
            value = self.operations[level][sign](value, self.value(level + 1))
        return value

    def unit(self) -> int:
        token = self.tokens.take()
        if token.text == "-":
            return -self.unit()
        if token.text == "(":
            value = self.value()
            self.tokens.want(")")
            return value
        if token.kind == "number" and token.text.replace("_", "").isdigit():
            return int(token.text.replace("_", ""))
        if token.text in self.known:
            return self.known[token.text]
        self.tokens.refuse(f"a number that is known is wanted here, and {said(token)} stands here", token)

    def places(self, size: int) -> List[int]:
        """What stands in `[..]` behind a register of a size: `2`, `0:3`, `6:-2:0`, `{1, 3}`; a range has its end in it."""
        first = self.tokens.next
        places = self.listed() if self.tokens.takes("{") else self.ranged(size)
        self.tokens.want("]")
        for place in places:
            if not -size <= place < size:
                self.tokens.refuse(f"the register has {size} lines and no place {place}: they count from 0", first)
        return [place % size for place in places]

    def listed(self) -> List[int]:
        values = [self.value()]
        while self.tokens.takes(","):
            values.append(self.value())
        self.tokens.want("}")
        return values

    def ranged(self, size: int) -> List[int]:
        """One number, or the numbers of a range; ends that are left out are those of a register of this size."""
        token = self.tokens.next
        parts = [0 if token.text == ":" else self.value()]
        while self.tokens.takes(":"):
            parts.append(size - 1 if self.tokens.next.text == "]" else self.value())
        if len(parts) == 1:
            return parts
        step = parts[1] if len(parts) == 3 else 1
        low, high = (part % size if part < 0 and size else part for part in (parts[0], parts[-1]))
        if not step or len(parts) > 3 or abs(high - low) > MOST:
            self.tokens.refuse("a range is `first:last` or `first:step:last`", token)
        return list(range(low, high + (1 if step > 0 else -1), step))

    def loop(self) -> List[int]:
        """The numbers of a loop: `[0:3]` or `{0, 2}`."""
        if self.tokens.takes("{"):
            return self.listed()
        self.tokens.want("[")
        values = self.ranged(0)
        self.tokens.want("]")
        return values
