"""Gates that a file defines by H and phase gates, as Qiskit does its wide X gates: the permutation that they come to.

The amplitudes are computed, with the numbers of the machine; what comes out is a permutation of bits or it is not taken.
"""
import cmath
import math
from typing import Callable, Dict, List, NamedTuple, Optional, Sequence, Tuple

from .gates import Gate
from .qasm_numbers import OPERATIONS, Numbers

MOST_LINES, MOST_STEPS, NEAR = 10, 4000, 1e-6
Matrix = Tuple[complex, complex, complex, complex]  # what 0 and 1 become: 0 to (0, 1), then 1 to (0, 1)
State = Dict[int, complex]


def turned(theta: float, phi: float, lambda_: float) -> Matrix:
    """The gate U of OpenQASM."""
    low, high = math.cos(theta / 2), math.sin(theta / 2)
    return (low, cmath.exp(1j * phi) * high, -cmath.exp(1j * lambda_) * high, cmath.exp(1j * (phi + lambda_)) * low)


def phased(angle: float) -> Matrix:
    return 1, 0, 0, cmath.exp(1j * angle)


HALF = math.sqrt(0.5)
SINGLE: Dict[str, Tuple[int, Callable[..., Matrix]]] = {  # gates of one line, with how many angles they have
    "x": (0, lambda: (0, 1, 1, 0)), "y": (0, lambda: (0, 1j, -1j, 0)), "z": (0, lambda: (1, 0, 0, -1)),
    "h": (0, lambda: (HALF, HALF, HALF, -HALF)), "id": (0, lambda: (1, 0, 0, 1)),
    "s": (0, lambda: (1, 0, 0, 1j)), "sdg": (0, lambda: (1, 0, 0, -1j)),
    "t": (0, lambda: phased(math.pi / 4)), "tdg": (0, lambda: phased(-math.pi / 4)),
    "sx": (0, lambda: ((1 + 1j) / 2, (1 - 1j) / 2, (1 - 1j) / 2, (1 + 1j) / 2)),
    "sxdg": (0, lambda: ((1 - 1j) / 2, (1 + 1j) / 2, (1 + 1j) / 2, (1 - 1j) / 2)),
    "p": (1, phased), "u1": (1, phased), "phase": (1, phased),
    "rz": (1, lambda angle: (cmath.exp(-0.5j * angle), 0, 0, cmath.exp(0.5j * angle))),
    "rx": (1, lambda angle: turned(angle, -math.pi / 2, math.pi / 2)), "ry": (1, lambda angle: turned(angle, 0, 0)),
    "u2": (2, lambda phi, lambda_: turned(math.pi / 2, phi, lambda_)),
    "u": (3, turned), "u3": (3, turned), "U": (3, turned)}
CONTROLLED: Dict[str, Tuple[int, str]] = {  # controls, and the gate that they control
    **{f"c{name}": (1, name) for name in ("x", "y", "z", "h", "s", "sdg", "sx", "p", "u1", "u3", "rx", "ry", "rz", "phase")},
    "CX": (1, "x"), "ccx": (2, "x"), "ccz": (2, "z"), "c3x": (3, "x"), "c4x": (4, "x"), "c3sqrtx": (3, "sx")}


class Step(NamedTuple):
    """A gate on one line, with controls."""

    matrix: Matrix
    controls: int
    target: int


class Angles(Numbers):
    """Reads angles: sums of `pi`, of numbers and of the names that are known."""
    operations = [OPERATIONS[0], {**OPERATIONS[1], "/": lambda a, b: a / b if b else math.inf}]  # type: ignore[dict-item]

    def unit(self) -> float:  # type: ignore[override]
        token = self.tokens.take()
        if token.text == "-":
            return -self.unit()
        if token.text == "(":
            value = self.value()
            self.tokens.want(")")
            return value
        if token.kind == "number":
            return float(token.text.replace("_", ""))
        named = {"pi": math.pi, "π": math.pi, "tau": 2 * math.pi, **self.known}
        if token.text not in named:
            self.tokens.refuse(f"an angle that is known is wanted here, not `{token.text}`", token)
        return named[token.text]


# ---- From steps to a permutation


def after(step: Step, state: State) -> State:
    found: State = {}
    bit = 1 << step.target
    for bits, amplitude in state.items():
        if bits & step.controls != step.controls:
            found[bits] = found.get(bits, 0) + amplitude
            continue
        low, high = step.matrix[2:] if bits & bit else step.matrix[:2]
        for to, part in ((bits & ~bit, low), (bits | bit, high)):
            if part:
                found[to] = found.get(to, 0) + amplitude * part
    return {bits: amplitude for bits, amplitude in found.items() if abs(amplitude) > NEAR * NEAR}


def permutation(steps: Sequence[Step], lines: int) -> Optional[List[int]]:
    """What all inputs become, or nothing where one of them does not become one of them with the phase 0."""
    if lines > MOST_LINES or len(steps) > MOST_STEPS:
        return None
    table = []
    for bits in range(1 << lines):
        state: State = {bits: 1}
        for step in steps:
            state = after(step, state)
        likely = max(state, key=lambda each: abs(state[each]))
        if abs(state[likely] - 1) > NEAR:
            return None
        table.append(likely)
    return table


def gates_of(table: Sequence[int], lines: int) -> List[Gate]:
    """X gates with controls that do a permutation: its values are led to their places one after another, from 0 up, by
    gates that leave the earlier ones (Miller, Maslov, Dueck: A transformation based algorithm, 2003)."""
    now, gates = list(table), []

    def apply(controls: int, target: int) -> None:
        gates.append(Gate(tuple((line, True) for line in range(lines) if controls >> line & 1), (target,)))
        for at, value in enumerate(now):
            if value & controls == controls:
                now[at] = value ^ 1 << target
    for place in range(1 << lines):
        for line in range(lines):
            if place & ~now[place] & 1 << line:
                apply(now[place], line)
        for line in range(lines):
            if now[place] & ~place & 1 << line:
                apply(now[place] & ~(1 << line), line)
    return gates[::-1]
