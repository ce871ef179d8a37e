"""Definitions of OpenQASM whose gates are no X gates, but which permute bits as a whole: Qiskit writes its wide X gates so."""
from typing import Dict, List, Mapping, NamedTuple, Optional, Sequence, Tuple

from .gates import Gate
from .qasm_tokens import Token, Tokens
from .unitaries import CONTROLLED, MOST_STEPS, SINGLE, Angles, Step, gates_of, permutation

SWAPS = {"swap": 0, "cswap": 1}  # with their controls


class Definition(NamedTuple):
    """`gate name(angles) lines { .. }`: its names, and where the tokens of its body begin."""

    angles: Tuple[str, ...]
    lines: Tuple[str, ...]
    body: int


class Steps:
    """The steps of a definition on numbered lines, those of the definitions that it calls put in."""

    def __init__(self, tokens: Tokens, definitions: Mapping[str, Definition]):
        self.tokens, self.definitions = tokens, definitions
        self.angles = Angles(tokens)
        self.steps: List[Step] = []
        self.body = len(tokens.all)  # where the body begins that is read; it may call what is defined before

    def read(self, definition: Definition, angles: Sequence[float], lines: Sequence[int]) -> None:
        behind, known, around = self.tokens.place, self.angles.known, self.body
        self.tokens.place = self.body = definition.body
        place = dict(zip(definition.lines, lines))
        while not self.tokens.takes("}"):
            self.angles.known = dict(zip(definition.angles, angles))  # type: ignore[arg-type]
            self.call(place)
        self.tokens.place, self.angles.known, self.body = behind, known, around

    def call(self, place: Dict[str, int]) -> None:
        """One gate of a body whose lines have these numbers."""
        if self.tokens.takes(";"):
            return
        name, angles = self.tokens.word("a gate"), []
        if self.tokens.takes("("):
            while not self.tokens.takes(")"):
                angles.append(self.angles.value())
                self.tokens.takes(",")
        lines = []
        while not self.tokens.takes(";"):
            token = self.tokens.word("a line")
            if token.text not in place or place[token.text] in lines:
                self.tokens.refuse(f"`{token.text}` is no other line of this definition", token)
            lines.append(place[token.text])
            self.tokens.takes(",")
        if name.text != "barrier":
            self.add(name, angles, lines)

    def add(self, name: Token, angles: Sequence[float], lines: Sequence[int]) -> None:
        definition = self.definitions.get(name.text)
        controls, word = CONTROLLED.get(name.text, (0, name.text))
        if definition is not None:
            if (len(definition.angles), len(definition.lines)) != (len(angles), len(lines)) or definition.body >= self.body:
                self.tokens.refuse(f"`{name.text}` is defined for others", name)
            self.read(definition, angles, lines)
        elif name.text in SWAPS and len(lines) == SWAPS[name.text] + 2:
            *front, low, high = lines
            for line, other in ((low, high), (high, low), (low, high)):
                self.steps.append(Step(SINGLE["x"][1](), sum(1 << each for each in (*front, line)), other))
        elif word in SINGLE and len(angles) == SINGLE[word][0] and len(lines) == controls + 1:
            self.steps.append(Step(SINGLE[word][1](*angles), sum(1 << line for line in lines[:-1]), lines[-1]))
        else:
            self.tokens.refuse(f"`{name.text}` is no gate that is known", name)
        if len(self.steps) > MOST_STEPS:
            self.tokens.refuse(f"more than {MOST_STEPS:,} steps", name)


def gates_by_steps(tokens: Tokens, definitions: Mapping[str, Definition], name: str) -> Optional[List[Gate]]:
    """X gates that do what a definition does, where that permutes bits; else nothing."""
    definition, place = definitions[name], tokens.place
    if definition.angles:
        return None
    steps = Steps(tokens, definitions)
    try:
        steps.read(definition, [], range(len(definition.lines)))
    except ValueError:  # a gate that is not known here
        return None
    finally:
        tokens.place = place
    table = permutation(steps.steps, len(definition.lines))
    return None if table is None else gates_of(table, len(definition.lines))
