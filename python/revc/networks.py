"""Networks of logic, as other tools give them, and the programs of Revs that compute the same."""
import itertools
import re
from textwrap import fill
from typing import Dict, List, NamedTuple, Optional, Tuple

from .errors import RevcError

WIDTH = 110
MOST_BITS = 1_024  # inputs, and outputs
MOST_WRITES = 262_144
MOST_BYTES = 1_048_576
MOST_LINEAR = 8  # inputs of a node that is looked at on all their values
GOOD_NAME = re.compile(r"[A-Za-z_][A-Za-z0-9_]{0,63}\Z")
PLACE = re.compile(r"([A-Za-z_][A-Za-z0-9_]{0,63})\[([0-9]{1,4})\]\Z")
WORDS = set("main let fun clean assert append rotate reg true false bool for in do revs".split())


class Node(NamedTuple):
    """A node's bit is `value` where its inputs fit a row, each with `0`, `1` or `-`, and else the other bit."""

    inputs: List[str]
    rows: List[str]
    value: str


def merged(node: Node) -> Node:
    """The same node with each input once: rows in which an input has two bits are left out."""
    names = list(dict.fromkeys(node.inputs))
    rows = []
    for row in node.rows:
        bits = ["".join({bit for name, bit in zip(node.inputs, row) if name == each} - {"-"}) for each in names]
        if all(len(bit) < 2 for bit in bits):
            rows.append("".join(bit or "-" for bit in bits))
    return Node(names, rows, node.value)


class Network:
    """A combinational network: a node for each name that is no input, in any order."""

    def __init__(self) -> None:
        self.inputs: List[str] = []
        self.outputs: List[str] = []
        self.nodes: Dict[str, Node] = {}
        self.title = ""


class NetworkProgram:
    """The program of a network: a `let` for each node on which an output rests, behind those of its operands."""

    def __init__(self, network: Network):
        self.network = network
        self.lets: List[str] = []
        self.terms: Dict[str, str] = {}  # how the program names what the netlist names
        self.negations: Dict[str, str] = {}
        self.fresh = ("n%d" % number for number in itertools.count(1))
        self.taken = set(WORDS) | set(network.inputs) | set(network.outputs) | set(network.nodes)
        self.params = self.bind_inputs()
        for output in network.outputs:
            self.define(output)

    def text(self) -> str:
        network = self.network
        check_limits("inputs", len(network.inputs), 1, MOST_BITS)
        check_limits("outputs", len(network.outputs), 1, MOST_BITS)
        outputs = [self.terms[output] for output in network.outputs]
        value = outputs[0] if len(outputs) == 1 else "reg [%s]" % "; ".join(outputs)
        body = "main %s = {\n%s  %s\n}\n" % (" ".join(self.params), "".join(self.lets), value)
        check_limits("writes", len(re.findall(r"&&|<>|\b(?:true|false)\b", body)), 0, MOST_WRITES)
        title = "The netlist%s. Its outputs: %s." % (network.title, " ".join(network.outputs))
        text = fill(title, WIDTH, initial_indent="// ", subsequent_indent="// ", break_on_hyphens=False) + "\n" + body
        check_limits("bytes of text", len(text.encode()), 0, MOST_BYTES)
        return text

    def bind_inputs(self) -> List[str]:
        """The parameters: a register for inputs `a[0]`, `a[1]`, .. side by side, else a bit for each input."""
        inputs, params, at = self.network.inputs, [], 0
        if len(set(inputs)) < len(inputs) or not set(inputs).isdisjoint(self.network.nodes):
            raise RevcError("an input that is named twice, or that has a table")
        while at < len(inputs):
            match, width = PLACE.match(inputs[at]), 0
            name = match[1] if match and match[1] not in self.taken else ""
            while name and inputs[at + width:at + width + 1] == ["%s[%d]" % (name, width)]:
                self.terms[inputs[at + width]] = "%s.[%d]" % (name, width)
                width += 1
            if width:
                self.taken.add(name)
                params.append("(%s : bool[%d])" % (name, width))
            else:
                params.append("(%s : bool)" % self.name(inputs[at]))
            at += width or 1
        return params

    def name(self, signal: str) -> str:
        """The name of a bit: its own where that is a name of the language, else the next that is free."""
        is_good = GOOD_NAME.match(signal) and signal not in WORDS
        self.terms[signal] = signal if is_good else self.free_name()
        return self.terms[signal]

    def free_name(self) -> str:
        name = next(name for name in self.fresh if name not in self.taken)
        self.taken.add(name)
        return name

    def define(self, output: str) -> None:
        """Puts the lets of a node and of all that it rests on, operands first."""
        open_nodes, waiting = set(), [output]
        while waiting:
            signal = waiting[-1]
            if signal in self.terms:
                waiting.pop()
            elif signal not in self.network.nodes:
                raise RevcError("nothing drives %s" % signal)
            elif signal in open_nodes:
                waiting.pop()
                self.put(signal)
            else:
                open_nodes.add(signal)
                operands = [name for name in self.network.nodes[signal].inputs if name not in self.terms]
                if not open_nodes.isdisjoint(operands):
                    raise RevcError("%s rests on itself" % signal)
                waiting += reversed(operands)

    def put(self, signal: str) -> None:
        node = self.network.nodes[signal]
        if len(set(node.inputs)) < len(node.inputs):
            node = merged(node)
        value = self.value(node)
        name = self.name(signal)
        self.lets.append("  let %s = %s;\n" % (name, value))
        if len(node.inputs) == 1 and value == "true <> " + self.terms[node.inputs[0]]:
            self.negations.setdefault(node.inputs[0], name)

    def value(self, node: Node) -> str:
        """A node's value, by the first that suits it: a constant, a sum of inputs, one product, a choice between two
        products by one input, a sum of products of which no two are 1 at once, and else an OR by De Morgan."""
        cubes = [cube_of(node.inputs, row) for row in node.rows]
        is_flipped = node.value == "0"
        if not cubes or not all(cubes):
            return "true" if bool(cubes) != is_flipped else "false"
        linear = linear_of(node)
        if linear is not None:
            is_odd, inputs = linear
            return self.flipped(" <> ".join(self.terms[name] for name in inputs), is_odd)
        if len(cubes) == 1:
            return self.flipped(self.product(cubes[0]), is_flipped)
        parting = [at for at, bits in enumerate(zip(*node.rows)) if set(bits) == {"0", "1"}]
        if len(cubes) == 2 and len(parting) == 1:
            return self.flipped(self.choice(node, cubes, parting[0]), is_flipped)
        if all(excludes(one, other) for one, other in itertools.combinations(node.rows, 2)):
            return self.flipped(" <> ".join(map(self.product, cubes)), is_flipped)
        return self.flipped(" && ".join(map(self.negated, cubes)), not is_flipped)

    def flipped(self, term: str, is_flipped: bool) -> str:
        return "true <> " + term if is_flipped else term

    def product(self, cube: List[Tuple[str, str]]) -> str:
        return " && ".join(self.literal(*literal) for literal in cube) or "true"

    def choice(self, node: Node, cubes: List[List[Tuple[str, str]]], at: int) -> str:
        """`x && a <> not x && b`, with one AND less: `x && (a <> b) <> b`."""
        chooser = node.inputs[at]
        chosen = sorted(cubes, key=lambda cube: (chooser, "1") not in cube)
        first, second = (self.product([each for each in cube if each[0] != chooser]) for cube in chosen)
        return "%s && (%s <> %s) <> %s" % (self.terms[chooser], first, second, second)

    def negated(self, cube: List[Tuple[str, str]]) -> str:
        if len(cube) == 1:
            (name, bit), = cube
            return self.literal(name, "0" if bit == "1" else "1")
        return "(true <> %s)" % self.product(cube)

    def literal(self, signal: str, bit: str) -> str:
        """An input of a node, or its negation, which is computed once."""
        if bit == "1":
            return self.terms[signal]
        if signal not in self.negations:
            self.negations[signal] = self.free_name()
            self.lets.append("  let %s = true <> %s;\n" % (self.negations[signal], self.terms[signal]))
        return self.negations[signal]


def cube_of(inputs: List[str], row: str) -> List[Tuple[str, str]]:
    """The inputs on which a row says something, each with its bit."""
    return [(name, bit) for name, bit in zip(inputs, row) if bit != "-"]


def excludes(row: str, other: str) -> bool:
    """Whether no inputs fit both rows."""
    return any({one, two} == {"0", "1"} for one, two in zip(row, other))


def linear_of(node: Node) -> Optional[Tuple[bool, List[str]]]:
    """Whether the sum is flipped, and its inputs, where a node is a sum of inputs."""
    count = len(node.inputs)
    if not 0 < count <= MOST_LINEAR:
        return None

    def bit(word: Tuple[str, ...]) -> bool:
        fits = any(all(wanted in ("-", found) for wanted, found in zip(row, word)) for row in node.rows)
        return fits == (node.value == "1")

    zero = bit(("0",) * count)
    counted = [bit(tuple("01"[at == place] for at in range(count))) != zero for place in range(count)]
    for word in itertools.product("01", repeat=count):
        if bit(word) != zero ^ sum(found == "1" and counts for found, counts in zip(word, counted)) % 2:
            return None
    inputs = [name for name, counts in zip(node.inputs, counted) if counts]
    return (zero, inputs) if inputs else None


def check_limits(what: str, count: int, least: int, most: int) -> None:
    if not least <= count <= most:
        raise RevcError("%d %s, where the language takes %d to %d" % (count, what, least, most))
