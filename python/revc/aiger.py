"""And-inverter graphs of AIGER (Biere, 2007), as text (`.aag`) and as bytes (`.aig`).

A graph is combinational. Of three ANDs that choose between two bits, or that are an XOR, one node is made.
"""
from typing import Dict, Iterator, List, NamedTuple, Optional, Tuple

from .errors import RevcError
from .networks import Network, Node

COUNTS = "MILOABCJF"  # the numbers of a head: the greatest variable, inputs, latches, outputs, ANDs, and what checkers take
FALSE = "$false"


class Reader:
    """Reads a graph: its head, inputs, outputs, ANDs and names, in this order."""

    def __init__(self, data: bytes) -> None:
        self.data, self.at = data, 0
        kind, *counts = self.line().split() or [b""]
        if kind not in (b"aag", b"aig") or not 5 <= len(counts) <= 9 or not all(each.isdigit() for each in counts):
            raise RevcError("line 1: a graph of AIGER begins with `aag` or `aig` and five numbers: M I L O A")
        self.count = dict(zip(COUNTS, map(int, counts)))
        if self.count["L"]:
            raise RevcError(f"{self.count['L']} latches: a circuit here has no memory")
        self.is_text = kind == b"aag"
        self.inputs = [2 * k for k in range(1, self.count["I"] + 1)]
        if self.is_text:
            self.inputs = [self.numbers(1)[0] for _ in range(self.count["I"])]
        self.outputs = [self.numbers(1)[0] for _ in range(self.count["O"])]
        for _ in range(sum(self.count.get(kind, 0) for kind in "BCJF")):
            self.line()
        self.ands = {gate[0]: gate[1:] for gate in (self.and_of_text() if self.is_text else self.and_of_bytes())}
        self.names = dict(self.symbols())

    def line(self) -> bytes:
        end = self.data.find(b"\n", self.at)
        end = len(self.data) if end < 0 else end
        line, self.at = self.data[self.at:end], end + 1
        return line

    def numbers(self, count: int) -> List[int]:
        """The literals of a line: twice a variable, and 1 more where it is negated."""
        words = self.line().split()
        if len(words) != count or not all(word.isdigit() for word in words):
            raise RevcError(f"line {self.place()}: {count} number{'s' * (count > 1)} expected")
        found = [int(word) for word in words]
        if max(found) > 2 * self.count["M"] + 1:
            raise RevcError(f"line {self.place()}: {max(found)} is past the greatest variable, {self.count['M']}")
        return found

    def place(self) -> int:
        """The number of the line that was read last."""
        return self.data.count(b"\n", 0, max(self.at - 1, 0)) + 1

    def and_of_text(self) -> Iterator[Tuple[int, int, int]]:
        for _ in range(self.count["A"]):
            target, one, other = self.numbers(3)
            if target % 2 or target < 2:
                raise RevcError(f"line {self.place()}: {target} is no variable")
            yield target, one, other

    def and_of_bytes(self) -> Iterator[Tuple[int, int, int]]:
        first = 2 * (self.count["I"] + 1)
        for target in range(first, first + 2 * self.count["A"], 2):
            one = target - self.coded()
            other = one - self.coded()
            if not 0 <= other <= one < target:
                raise RevcError(f"AND {target // 2} rests on a later one")
            yield target, one, other

    def coded(self) -> int:
        """A number in bytes of 7 bits, the lowest first; all but the last have their highest bit set."""
        value = place = 0
        while True:
            if self.at >= len(self.data):
                raise RevcError("the file ends within its ANDs")
            byte = self.data[self.at]
            self.at += 1
            value |= (byte & 127) << place
            place += 7
            if byte < 128:
                return value

    def symbols(self) -> Iterator[Tuple[str, str]]:
        """The names of inputs and outputs: lines `i0 NAME` and `o0 NAME`, before the comment."""
        while self.at < len(self.data):
            word, _, name = self.line().decode("ascii", "backslashreplace").partition(" ")
            if word == "c":
                return
            if word[:1] in ("i", "o") and word[1:].isdigit() and name:
                yield word, name


class Choice(NamedTuple):
    """A bit that is `one` where `bit` is 1, and else `other`; each is a literal."""

    bit: int
    one: int
    other: int


class Builder:
    """Makes the network of a graph."""

    def __init__(self, graph: Reader):
        self.graph = graph
        self.network = Network()
        self.names = self.input_names()
        self.network.inputs = [self.names[literal] for literal in graph.inputs]
        self.network.nodes[FALSE] = Node([], [], "1")
        for target in graph.ands:
            if target in self.names:
                raise RevcError(f"variable {target // 2} is an input and an AND")
            self.names[target] = f"${target // 2}"
        for target, (one, other) in graph.ands.items():
            self.network.nodes[self.names[target]] = self.node(one, other)
        self.put_outputs()

    def input_names(self) -> Dict[int, str]:
        names = [self.graph.names.get(f"i{k}", f"i{k}") for k in range(len(self.graph.inputs))]
        if len(set(names)) < len(names) or not set(names).isdisjoint({FALSE}):
            names = [f"i{k}" for k in range(len(names))]
        return {0: FALSE, **dict(zip(self.graph.inputs, names))}

    def name(self, literal: int) -> str:
        if literal & ~1 not in self.names:
            raise RevcError(f"nothing drives variable {literal // 2}")
        return self.names[literal & ~1]

    def put_outputs(self) -> None:
        taken = {*self.network.inputs, *self.network.nodes}
        for k, literal in enumerate(self.graph.outputs):
            name = self.graph.names.get(f"o{k}", f"o{k}")
            while name in taken:
                name = f"${name}"
            taken.add(name)
            self.network.nodes[name] = Node([self.name(literal)], ["01"[literal % 2 == 0]], "1")
            self.network.outputs.append(name)

    def node(self, one: int, other: int) -> Node:
        """The node of an AND; of one that closes a choice that node."""
        choice = self.choice(one, other)
        if choice is None:
            literals = {literal & ~1: "10"[literal % 2] for literal in (one, other)}
            if len(literals) < 2 and one != other:
                return Node([], [], "1")
            return Node([self.name(literal) for literal in literals], ["".join(literals.values())], "1")
        bit, first, second = choice
        if first ^ second == 1:  # an XOR
            return Node([self.name(bit), self.name(first)], ["01", "10"] if first % 2 else ["00", "11"], "1")
        names = [self.name(literal) for literal in choice]
        return Node(names, [f"1{'10'[first % 2]}-", f"0-{'10'[second % 2]}"], "1")

    def choice(self, one: int, other: int) -> Optional[Choice]:
        """What AND says of two negated ANDs, of which one has a literal and the other its negation."""
        below = [self.graph.ands.get(literal - 1, ()) if literal % 2 else () for literal in (one, other)]
        for literal in below[0]:
            if literal ^ 1 in below[1]:
                first, second = sum(below[0]) - literal, sum(below[1]) - (literal ^ 1)
                choice = Choice(literal, first ^ 1, second ^ 1) if literal % 2 == 0 else Choice(literal ^ 1, second ^ 1, first ^ 1)
                variables = {each & ~1 for each in choice}
                return choice if len(variables) == (2 if first ^ second == 1 else 3) else None
        return None


def read_aiger(data: bytes) -> Network:
    """The network of a graph of AIGER."""
    return Builder(Reader(data)).network
