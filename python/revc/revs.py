"""Texts of Revs with the names and widths of their parameters: what the program says of them, on numbers."""
import copy
import re
from typing import Any, Dict, List, Optional, Protocol, Sequence, Tuple, TypeVar, Union

from . import program, refusals
from .counting import Ands
from .defaults import DEFAULTS, NODES, WAY, WAYS
from .errors import ClaimFails, Refused, RevcError, WidthError
from .names import Place
from .program import Deadline
from .real import form_of

Named = Sequence[Tuple[str, int]]  # names and widths
Text = TypeVar("Text", bound="RevsText")
ONE_LINE = ".version 2.0\n.numvars 1\n.variables a\n.begin\n.end\n"


class Compiled(Protocol):
    """A circuit, of which `verify` wants to know these."""
    real: str
    borrowed: int


class RevsText:
    """A text of Revs. Numbers go in by the names of its parameters.

    `params` are the names and widths of the parameters, `out` those of the results; `places` are for each line of the
    text the file and line of Python that wrote it, where it was written so. The first `assumed` of its claims are taken for
    granted: only inputs on which they hold are looked at.
    """
    assumed = 0

    def __init__(self, text: str, name: str = "main", params: Optional[Named] = None, out: Optional[Named] = None,
                 places: Sequence[Optional[Place]] = ()):
        self.text, self.name, self.places = text, name, list(places)
        self.params = list(signature(text) if params is None else params)
        self._out = None if out is None else list(out)

    def __repr__(self) -> str:
        return f"<{self.name}: {self.typed}>"

    @property
    def typed(self) -> str:
        """The parameters as they are written: `a: Bits[8], b: Bits[8]`."""
        return ", ".join(f"{name}: Bits[{width}]" for name, width in self.params)

    @property
    def inputs(self) -> int:
        return sum(width for _, width in self.params)

    @property
    def out(self) -> List[Tuple[str, int]]:
        """The names and widths of the results; a text alone has one, of as many bits as it puts out."""
        if self._out is None:
            self._out = [("out", self.output_bits())]
        return self._out

    def output_bits(self) -> int:
        try:
            return len(self.ask(["eval", "0" * self.inputs]).split()[0])
        except ClaimFails:
            if not self.assumed:
                raise
        try:  # zeros are not looked at: how many lines does a circuit of too few need?
            self.ask(["verify", "--nodes", str(NODES), *self.granted], ONE_LINE)
        except Refused as refusal:
            needs = re.search(r"needs (\d+)$", refusal.message)
            if needs:
                return int(needs[1]) - self.inputs
            raise
        return 0

    @property
    def outputs(self) -> int:
        return sum(width for _, width in self.out)

    # ---- Bits and numbers

    def word(self, numbers: Dict[str, int]) -> str:
        """The input bits for numbers, by the names of the parameters."""
        names = self.typed
        for extra in sorted(set(numbers) - {name for name, _ in self.params}):
            raise RevcError(f"`{self.name}` has no parameter `{extra}`: it has {names}")
        out = []
        for name, width in self.params:
            if name not in numbers:
                raise RevcError(f"no number for `{name}`: `{self.name}` has {names}")
            if not 0 <= numbers[name] < 1 << width:
                raise WidthError(f"{name}={numbers[name]} does not fit in {width} bits: 0 to {(1 << width) - 1}")
            out.append(format(numbers[name], f"0{width}b")[::-1])
        return "".join(out)

    def value(self, bits: str) -> Any:
        """The result in output bits, in its shape."""
        numbers, at = [], 0
        for _, width in self.out:
            numbers.append(int(bits[at:at + width][::-1], 2))
            at += width
        return self.shaped(numbers)

    def shaped(self, numbers: List[int]) -> Any:
        return numbers[0] if len(numbers) == 1 else numbers

    def assignment(self, bits: str) -> str:
        """Input bits as `a=8 b=4`, and those of borrowed lines behind them."""
        parts, at = [], 0
        for name, width in self.params:
            parts.append(f"{name}={self.number(name, bits[at:at + width])}")
            at += width
        return " ".join(parts + (["borrowed=" + bits[at:]] if bits[at:] else []))

    def number(self, name: str, bits: str) -> int:
        """The number that the bits of a parameter stand for."""
        return int(bits[::-1], 2)

    def line_names(self) -> List[str]:
        """The names of the lines of inputs and outputs, as `a[0]`."""
        return [name if width == 1 else f"{name}[{i}]"
                for name, width in self.params + self.out for i in range(width)]

    def role(self, line: int) -> str:
        """What a line of a circuit is, counted from 1."""
        names = self.line_names()
        if line > len(names):
            return f"line {line}, a work or borrowed line,"
        return f"line {line}, the {'input' if line <= self.inputs else 'output'} {names[line - 1]},"

    # ---- Asking the program

    def assuming(self: Text, assume: Optional[int]) -> Text:
        """The same text, of whose claims the first `assume` are taken for granted; as it is where that is None."""
        if assume is None:
            return self
        within(assume=assume)
        other = copy.copy(self)
        other.assumed = assume
        return other

    @property
    def granted(self) -> List[str]:
        """The words for the claims that are taken for granted."""
        return ["--assume", str(self.assumed)] if self.assumed else []

    def ask(self, words: Sequence[str], circuit: str = "", deadline: Optional[Deadline] = None) -> bytes:
        """What the program writes for the text, and for a circuit behind it."""
        text = self.text + ("" if self.text.endswith("\n") else "\n") + "---\n" + circuit if circuit else self.text
        return program.call(words, text.encode(),
                            lambda message, status: refusals.explain(message, status, self, circuit, words), deadline)

    def __call__(self, *args: int, **named: int) -> Any:
        """The result on numbers, by the run of the text itself."""
        numbers = dict(zip([name for name, _ in self.params], args), **named)
        return self.value(self.ask(["eval", self.word(numbers)]).decode().strip())

    def check(self, nodes: int = NODES, timeout: Optional[float] = None, assume: Optional[int] = None) -> int:
        """Prove all claims for all inputs; how many there are. The first that fails is raised, with its least input.

        `nodes` are the most functions on which they may rest. The first `assume` are taken for granted, and only inputs on
        which they hold are looked at. After `timeout` seconds it is given up, by `TimedOut`.
        """
        within(nodes=nodes)
        words = ["check", "--nodes", str(nodes), *self.assuming(assume).granted]
        return int(self.ask(words, deadline=Deadline(timeout)).split()[1])

    def ands(self, nodes: int = NODES, timeout: Optional[float] = None, assume: Optional[int] = None) -> Ands:
        """How many ANDs the program's run writes, how many are enough, and how many stand one behind the other.

        All claims are proved first, as by `check`. After `timeout` seconds it is given up, by `TimedOut`.
        """
        within(nodes=nodes)
        words = ["ands", "--nodes", str(nodes), *self.assuming(assume).granted]
        return Ands(*map(int, self.ask(words, deadline=Deadline(timeout)).split()[1::2]))

    def verify(self, circuit: Union[Compiled, str], nodes: int = NODES, borrow: int = 0, by: str = WAY,
               timeout: Optional[float] = None, inplace: bool = False) -> str:
        """Prove that a circuit from elsewhere, a `.real` or OpenQASM text, computes this on every input.

        `by` is "both", sums of products and then diagrams of at most so many nodes, or one of "sums" and "diagrams". With
        `inplace` the outputs take the place of the inputs, and those beyond their number stand on the lines behind them.
        After `timeout` seconds it is given up, by `TimedOut`.
        """
        text, borrow = (circuit, borrow) if isinstance(circuit, str) else (circuit.real, circuit.borrowed)
        if by not in WAYS:
            raise RevcError(f"no way `{by}`: {DEFAULTS['by'].range}")
        within(nodes=nodes, borrow=borrow)
        words = ["verify", "--from", form_of(text), "--nodes", str(nodes), "--by", by]
        words += ["--borrow", str(borrow)] if borrow else []
        words += ["--outputs", "inputs"] if inplace else []
        words += self.granted
        return self.ask(words, text, Deadline(timeout)).decode().strip()


def within(**numbers: int) -> None:
    """Refuses a number that its option does not take."""
    for name, value in numbers.items():
        if not DEFAULTS[name].allows(value):
            raise RevcError(f"{name}={value!r}: a number from {DEFAULTS[name].range}")


def signature(text: str) -> List[Tuple[str, int]]:
    """The names and widths of the parameters of a text of Revs."""
    head = re.sub(r"//[^\n]*", "", text).split("=", 1)[0]
    return [(name, int(width or 1)) for name, width in
            re.findall(r"\(\s*([A-Za-z_]\w*)\s*:\s*bool\s*(?:\[\s*(\d+)\s*\]\s*)?\)", head)]
