"""Phase oracles: OpenQASM that turns the phase of inputs by what a circuit puts out."""
import math
from fractions import Fraction
from typing import Sequence

from .errors import ReadError, RevcError, WidthError
from .circuit_texts import qasm_gate, qasm_head
from .gates import Gate
from .qasm_tokens import Tokens
from .unitaries import Angles

FINEST = 1 << 20  # the greatest part of pi that is written as one
FORMS = ("kickback", "z")


def kickback(names: Sequence[str], gates: Sequence[Gate], output: int, version: int = 2) -> str:
    """The circuit once, with the output line in the state minus, to which it XORs the output."""
    head, called = qasm_head(names, version)
    line = called[output]
    body = [qasm_gate(gate, called) for gate in gates]
    return "\n".join([*head, f"x {line};", f"h {line};", *body, f"h {line};", f"x {line};", ""])


def computed(names: Sequence[str], gates: Sequence[Gate], outputs: Sequence[int], weights: Sequence[float],
             version: int = 2) -> str:
    """The circuit, the phase `weights[i]`, in radians, where output i is 1, and the circuit backwards."""
    if len(weights) != len(outputs):
        raise WidthError(f"phase(weights=..) has {len(weights)} angles, and there are {len(outputs)} output bits: one for "
                         "each, in radians, place 0 first")
    head, called = qasm_head(names, version)
    body = [qasm_gate(gate, called) for gate in gates]
    turns = [turn(weight, called[line], version) for line, weight in zip(outputs, weights) if weight]
    return "\n".join([*head, *body, *turns, *body[::-1], ""])


def turn(angle: float, line: str, version: int) -> str:
    """The gate that turns the phase where a line is 1."""
    try:
        size = float(angle)
    except (TypeError, ValueError):
        size = math.nan
    if not math.isfinite(size):
        raise RevcError(f"phase(weights=..): {angle!r} is no angle: a number in radians, as math.pi / 4")
    if size == math.pi:
        return f"z {line};"
    return f"{'u1' if version == 2 else 'p'}({written(size)}) {line};"


def angle_of(word: str) -> float:
    """An angle from a word of the command, as `pi/4` or `0.5`."""
    try:
        angles = Angles(Tokens(word))
        angle = angles.value()
        angles.tokens.want("")
    except ReadError:
        raise RevcError(f"{word.strip()}: an angle is a number in radians, or a part of pi as `3*pi/4`") from None
    return angle


def written(angle: float) -> str:
    """An angle as OpenQASM writes it: a part of pi where it is one, else all of its digits."""
    part = Fraction(angle / math.pi).limit_denominator(FINEST)
    if part and part.numerator * math.pi / part.denominator == angle:
        times = {1: "pi", -1: "-pi"}.get(part.numerator, f"{part.numerator}*pi")
        return times if part.denominator == 1 else f"{times}/{part.denominator}"
    return repr(angle)
