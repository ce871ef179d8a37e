"""The tokens of OpenQASM 2 and 3, and refusals at one of them."""
import re
from typing import List, NamedTuple, NoReturn

from .errors import ReadError

TOKEN = re.compile(r"""
    (?P<blank>  [ \t\r\n\f]+ | //[^\n]* | /\*.*?\*/ | \#[^\n]*)
  | (?P<word>   [^\W\d]\w*)
  | (?P<number> \d+\.\d*(?:[eE][+-]?\d+)? | \.\d+(?:[eE][+-]?\d+)? | \d+[eE][+-]?\d+ | \d[\d_]*)
  | (?P<text>   "[^"\n]*" | '[^'\n]*')
  | (?P<sign>   -> | \+\+ | \*\* | [=!<>]= | && | \|\| | [;,\[\]{}()@:=+\-*/%<>!&|^~])
""", re.VERBOSE | re.DOTALL)


class Token(NamedTuple):
    """Its kind, `word`, `number`, `text`, `sign` or `end`, its letters, and where it stands in the text."""

    kind: str
    text: str
    at: int


class Tokens:
    """The tokens of a text, one after another: `all` of them that were looked at, of which `place` is the next one, and
    `at` where the text goes on behind them."""

    def __init__(self, text: str, name: str = "circuit"):
        self.text, self.name, self.place, self.at = text, name, 0, 0
        self.all: List[Token] = []

    def find(self) -> None:
        """Adds one more token."""
        while self.at < len(self.text):
            found = TOKEN.match(self.text, self.at)
            if found is None:
                self.refuse(f"no token begins with `{self.text[self.at]}`", Token("sign", self.text[self.at], self.at))
            begin, self.at = self.at, found.end()
            if found.lastgroup != "blank":
                self.all.append(Token(found.lastgroup or "", found[0], begin))
                return
        self.all.append(Token("end", "", len(self.text)))

    @property
    def next(self) -> Token:
        if self.place == len(self.all):
            self.find()
        return self.all[self.place]

    def take(self) -> Token:
        token = self.next
        self.place += token.kind != "end"
        return token

    def takes(self, text: str) -> bool:
        """Whether the next token is this one, which is taken then."""
        token = self.next
        if token.text != text or token.kind == "end":
            return False
        self.place += 1
        return True

    def want(self, text: str) -> Token:
        token = self.take()
        if token.text != text:
            self.refuse(f"`{text}` is wanted here, and {said(token)} stands here", token)
        return token

    def word(self, what: str) -> Token:
        token = self.take()
        if token.kind != "word":
            self.refuse(f"{what} is wanted here, and {said(token)} stands here", token)
        return token

    def skip_block(self) -> None:
        """Goes behind the `}` of a block whose `{` was taken."""
        depth, first = 1, self.all[self.place - 1]
        while depth:
            token = self.take()
            depth += (token.text == "{") - (token.text == "}")
            if token.kind == "end":
                self.refuse("the block that begins here has no `}`", first)

    def refuse(self, message: str, token: Token) -> NoReturn:
        """A refusal with the place, the line of the text and a caret."""
        row, start = self.text.count("\n", 0, token.at) + 1, self.text.rfind("\n", 0, token.at) + 1
        line, column = self.text[start:].split("\n", 1)[0], token.at - start + 1
        cut = max(0, column - 60)
        raise ReadError(f"{self.name}:{row}:{column}: {message}\n    {line[cut:cut + 100].rstrip()}\n"
                        f"    {' ' * (column - 1 - cut)}^", row, column)


def said(token: Token) -> str:
    return "the end of the text" if token.kind == "end" else f"`{token.text}`"
