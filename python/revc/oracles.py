"""Functions of Python as programs of Revs."""
import functools
import inspect
import os
import re
import traceback
from collections import Counter
from typing import Any, Callable, Dict, Iterator, List, Optional, Tuple

from . import trace
from .errors import RevcError, WidthError
from .functions import clean, flatten, function, holds_bits, result_names, unflatten, widths
from .places import Cat
from .sources import Source
from .trace import Node, Program
from .values import Bits, Width

PACKAGE = os.path.dirname(os.path.abspath(__file__)) + os.sep
MOST = 1024  # bits of all parameters, and of all results


class Oracle(Source):
    """A function of Python, traced once into a text, when it is defined.

    `oracle(a=1, b=2)` runs the text on numbers; on Bits, inside another oracle, it is a function of that one.
    """

    def __init__(self, func: Callable[..., Any]):
        functools.update_wrapper(self, func)
        self.func, title = func, func.__name__
        program = Program(title)
        trace.programs.append(program)
        try:
            params, known = parameters(func, program)
            self.kinds = widths(func)
            values = {str(each.hint): self.kinds[str(each.hint)].kind(each) for each in params}
            flat, self.shape = flatten(traced(func, values, known), title)
            if sum(each.width for each in flat) > MOST:
                raise WidthError(f"`{title}` returns {sum(each.width for each in flat)} bits: a circuit has at most 1,024 "
                                 "outputs")
            lines = program.finish(params, [each.node for each in flat])
        finally:
            trace.programs.pop()
        names = result_names(self.shape, flat, title)
        self.results = [Width(each.width, type(each)) for each in flat]
        super().__init__("\n".join(line for line, _ in lines) + "\n", title,
                         [(str(each.hint), each.width) for each in params],
                         list(zip(names, [each.width for each in flat])), [place for _, place in lines])
        self.assumed = program.assumed

    def __call__(self, *args: Any, **named: Any) -> Any:
        if holds_bits(list(args) + list(named.values())):
            return function(self.func)(*args, **named)
        return super().__call__(*args, **named)

    @property
    def typed(self) -> str:
        return ", ".join(f"{name}: {self.kinds[name]}" for name, _ in self.params)

    def word(self, numbers: Dict[str, int]) -> str:
        """The input bits for numbers, those of Signed parameters as two's complement."""
        bits = {}
        for name, value in numbers.items():
            kind = self.kinds.get(name)
            is_signed, width = kind is not None and kind.kind.is_signed, kind.width if kind else 0
            if is_signed and not -(1 << width - 1) <= value < 1 << width - 1:
                raise WidthError(f"{name}={value} does not fit in {width} bits: {-(1 << width - 1)} to {(1 << width - 1) - 1}")
            bits[name] = value % (1 << width) if is_signed else value
        return super().word(bits)

    def shaped(self, numbers: List[int]) -> Any:
        return unflatten(self.shape, [read(number, width) for number, width in zip(numbers, self.results)])

    def number(self, name: str, bits: str) -> int:
        return read(super().number(name, bits), self.kinds[name])


    def told_of(self, inverse: Source) -> Optional[Source]:
        if not isinstance(inverse, Oracle):
            return None

        @functools.wraps(self.func)
        def claimed(**given: Any) -> Any:
            outputs = self(**given)
            back = inverse(*cut(Cat(flatten(outputs, self.name)[0]), inverse))
            clean(Cat(flatten(back, inverse.name)[0]) ^ Cat([given[name] for name, _ in self.params]))
            return outputs
        claimed.__annotations__ = dict(self.kinds)
        told = Oracle(claimed)
        told.assumed = self.assumed  # its claims come first, as they do in the function's own run
        return told


def cut(whole: Bits, taken: Oracle) -> Iterator[Bits]:
    """The bits as an oracle's parameters, in order."""
    at = 0
    for name, width in taken.params:
        yield taken.kinds[name].kind(whole[at:at + width].node)
        at += width


def read(number: int, width: Width) -> int:
    """The number that bits stand for, less than 0 where they are Signed and their sign is set."""
    return number - (1 << width.width) if width.kind.is_signed and number >> width.width - 1 else number


def traced(func: Callable[..., Any], values: Dict[str, Bits], known: Dict[str, Any]) -> Any:
    """What a function returns on these values. One that calls itself without end, or by its oracle's name, is refused."""
    title = func.__name__
    try:
        return func(**values, **known)
    except RecursionError as error:
        raise RevcError(f"{endless(error)}: the trace runs both sides of each choice by a value, so that what ends it has "
                        "to be known now: count the steps, f(x, n - 1) until n == 0, or write a loop") from None
    except NameError as error:
        if re.search(rf"'{re.escape(title)}'", str(error)):
            raise RevcError(f"`{title}` calls itself, and is no circuit before it is traced: write its steps as a loop, or "
                            "as a function beside it, whose calls end by a number that is known now") from None
        raise


def endless(error: RecursionError) -> str:
    """Which function of the author's calls itself without end, and where."""
    frames = [each for each in traceback.extract_tb(error.__traceback__) if not each.filename.startswith(PACKAGE)]
    if not frames:
        return "a function calls itself without end"
    (file, line, name, code), _ = Counter(map(tuple, frames)).most_common(1)[0]
    return f"`{name}` calls itself without end ({file}:{line}: {code})"


def parameters(func: Callable[..., Any], program: Program) -> Tuple[List[Node], Dict[str, Any]]:
    """The parameters with a width, as nodes, and the values of the others, which are known now."""
    title, notes = func.__name__, widths(func)
    nodes: List[Node] = []
    known: Dict[str, Any] = {}
    for name, each in inspect.signature(func).parameters.items():
        if each.kind in (each.VAR_POSITIONAL, each.VAR_KEYWORD):
            raise RevcError(f"`*{name}` of `{title}`: a circuit has a fixed number of inputs")
        if name not in notes and each.default is not each.empty:
            known[name] = each.default
        elif name not in notes:
            raise RevcError(f"`{name}` of `{title}` has no width: write {name}: Bits[8]")
        else:
            nodes.append(program.scope.parameter(name, notes[name].width))
            program.scope.name_of(nodes[-1])
    if not nodes:
        raise RevcError(f"`{title}` has no parameter: a circuit has at least one input, as a: Bits[8]")
    if sum(each.width for each in nodes) > MOST:
        raise WidthError(f"the parameters of `{title}` have {sum(each.width for each in nodes)} bits: a circuit has at most "
                         "1,024 inputs")
    return nodes, known


def oracle(func: Callable[..., Any]) -> Oracle:
    """Make a function of Python an oracle: each parameter has a width, as `a: Bits[8]`, or a default that is known."""
    return Oracle(func)
