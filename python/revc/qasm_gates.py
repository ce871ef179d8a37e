"""The gates of OpenQASM files: those with names of their own, and those that the file defines by them."""
from typing import Dict, List, NamedTuple, Optional, Sequence, Tuple

from .errors import ReadError
from .gates import Gate
from .qasm_numbers import Numbers
from .qasm_tokens import Token, Tokens
from .qasm_unitaries import Definition, gates_by_steps
from .transforms import controlled, flip, moved, swap

FLIPS = {"x": 1, "X": 1, "cx": 2, "CX": 2, "cnot": 2, "ccx": 3, "toffoli": 3, "c3x": 4, "c4x": 5}  # with their lines
SWAPS = {"swap": 2, "cswap": 3, "fredkin": 3}
IDLE = {"id": 1, "u0": 1}
MANY = "mcx"  # an X with any number of controls
MOST_GATES = 4000000

PHASES = ("it turns phases, and bits have none: where it is the point of the file verify the circuit around which it "
          "stands; `phase` writes a phase oracle")
SPLITS = ("it leads from the bits 0 and 1 to others: read are x, cx, ccx, c3x, c4x, mcx, swap and cswap, `ctrl @` of "
          "these, and gates that are defined by them")
INSTEAD: Dict[str, str] = {
    **dict.fromkeys("z s sdg t tdg p u1 phase rz cz cs csdg cp cu1 cphase crz ccz rzz gphase".split(), PHASES),
    **dict.fromkeys("h sx sxdg rx ry u u2 u3 U ch csx crx cry cu cu3 rxx ryy c3sqrtx iswap dcx ecr".split(), SPLITS),
    "y": "it is an x but for a phase: write `x`", "cy": "it is a cx but for a phase: write `cx`",
    "rccx": "it is a ccx but for phases: write `ccx`", "rc3x": "it is a c3x but for phases: write `c3x`",
    "rcccx": "it is a c3x but for phases: write `c3x`"}


class Modifier(NamedTuple):
    """What stands before an `@`: `ctrl`, `negctrl`, `inv` or `pow`, and its number."""

    word: str
    number: int
    token: Token


def named(name: str, count: int) -> Optional[List[Gate]]:
    """A gate that is known by its name, on lines 0 to count - 1."""
    if FLIPS.get(name) == count or name == MANY and count > 0:
        return [flip(*range(count))]
    if SWAPS.get(name) == count:
        return [swap(*range(count))]
    return [] if IDLE.get(name) == count else None


class Gates:
    """The gates that a file may call. Each is a list of gates on the lines 0, 1, .. of its call."""

    def __init__(self, tokens: Tokens, numbers: Numbers):
        self.tokens, self.numbers = tokens, numbers
        self.definitions: Dict[str, Definition] = {}
        self.expanded: Dict[Tuple[str, int], Optional[List[Gate]]] = {}  # nothing while it is being expanded

    # ---- Reading

    def define(self) -> None:
        """A definition, of which `gate` was taken: its body is read where it is called."""
        token, angles = self.tokens.word("the name of a gate"), []
        if self.tokens.takes("(") and not self.tokens.takes(")"):
            angles = self.names("the name of an angle")
            self.tokens.want(")")
        lines = self.names("the name of a line")
        self.tokens.want("{")
        if token.text in self.definitions:
            self.tokens.refuse(f"`{token.text}` is defined twice", token)
        self.definitions[token.text] = Definition(tuple(angles), tuple(lines), self.tokens.place)
        self.tokens.skip_block()

    def names(self, what: str) -> List[str]:
        found = [self.tokens.word(what).text]
        while self.tokens.takes(","):
            found.append(self.tokens.word(what).text)
        return found

    def skip_angles(self) -> None:
        """Goes behind the `)` of a `(` that was taken: numbers of gates that are no X."""
        depth, first = 1, self.tokens.all[self.tokens.place - 1]
        while depth:
            token = self.tokens.take()
            depth += (token.text == "(") - (token.text == ")")
            if token.kind == "end":
                self.tokens.refuse("the `(` here has no `)`", first)

    def modifiers(self) -> List[Modifier]:
        """`ctrl(2) @ inv @ ..`, where some stand."""
        found = []
        while self.tokens.next.text in ("ctrl", "negctrl", "inv", "pow"):
            token, number = self.tokens.take(), 1
            if self.tokens.takes("("):
                number = self.numbers.value()
                self.tokens.want(")")
            self.tokens.want("@")
            if number < 0 or number > 4096 or not number and token.text != "pow":
                self.tokens.refuse(f"`{token.text}` takes a number from 1 to 4,096", token)
            found.append(Modifier(token.text, number, token))
        return found

    # ---- Expanding

    def called(self, modifiers: Sequence[Modifier], name: Token, count: int) -> List[Gate]:
        """The gates of a call on so many lines."""
        controls = sum(each.number for each in modifiers if each.word.endswith("ctrl"))
        if controls >= count:
            self.tokens.refuse(f"`{name.text}` has {count} lines here, and {controls} of them are controls", name)
        gates = self.plain(name, count - controls)
        for each in reversed(modifiers):
            if each.word == "inv":
                gates = gates[::-1]
            elif each.word == "pow":
                self.count(len(gates) * each.number, name)
                gates = gates * each.number
            else:
                gates = controlled(moved(gates, range(each.number, each.number + count)),
                                   [(line, each.word == "ctrl") for line in range(each.number)])
        return gates

    def count(self, gates: int, token: Token) -> None:
        if gates > MOST_GATES:
            self.tokens.refuse(f"the gates pass {MOST_GATES:,}, the most that a circuit has", token)

    def plain(self, name: Token, count: int) -> List[Gate]:
        """The gates of a name, which the file defines or everybody knows."""
        key = (name.text, count)
        if key not in self.expanded:
            if name.text in self.definitions:
                self.expanded[key] = None
                self.expanded[key] = self.defined(name, count)
            else:
                self.expanded[key] = named(*key)
                if self.expanded[key] is None:
                    self.refuse_name(name, count)
        gates = self.expanded[key]
        if gates is None:
            self.tokens.refuse(f"`{name.text}` stands in its own definition", name)
        return gates

    def defined(self, name: Token, count: int) -> List[Gate]:
        """The gates of a definition, by its body or by the permutation that it comes to."""
        lines, behind = self.definitions[name.text].lines, self.tokens.place
        if len(lines) != count:
            self.tokens.refuse(f"`{name.text}` is defined for {len(lines)} lines, and {count} stand here", name)
        try:
            return self.expand(name)
        except ReadError:
            self.tokens.place = behind
            gates = gates_by_steps(self.tokens, self.definitions, name.text)
            if gates is None:
                raise
            return gates

    def expand(self, name: Token) -> List[Gate]:
        _, lines, body = self.definitions[name.text]
        behind, self.tokens.place = self.tokens.place, body
        places, gates = {line: place for place, line in enumerate(lines)}, []
        while not self.tokens.takes("}"):
            gates += self.inner(places)
            self.count(len(gates), name)
        self.tokens.place = behind
        return gates

    def inner(self, places: Dict[str, int]) -> List[Gate]:
        """One call in a definition, whose lines stand at these places."""
        if self.tokens.takes(";"):
            return []
        modifiers = self.modifiers()
        name = self.tokens.word("a gate")
        if self.tokens.takes("("):
            self.skip_angles()
        found: List[int] = []
        while not self.tokens.takes(";"):
            if found:
                self.tokens.want(",")
            token = self.tokens.word(f"a line of the definition behind `{name.text}`")
            if token.text not in places:
                self.tokens.refuse(f"`{token.text}` is no line of this definition: {', '.join(places)}", token)
            if places[token.text] in found:
                self.tokens.refuse(f"`{token.text}` stands twice in one gate", token)
            found.append(places[token.text])
        return [] if name.text == "barrier" else moved(self.called(modifiers, name, len(found)), found)

    def refuse_name(self, name: Token, count: int) -> None:
        wanted = {**FLIPS, **SWAPS, **IDLE}.get(name.text)
        if wanted is not None:
            self.tokens.refuse(f"`{name.text}` has {wanted} line{'s' * (wanted > 1)}, and {count} stand here", name)
        self.tokens.refuse(f"`{name.text}`: " + INSTEAD.get(
            name.text, "no gate of this name is known or defined before: define it by `gate`, from x, cx, ccx and swap"), name)
