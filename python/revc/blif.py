"""Netlists of BLIF (Berkeley Logic Interchange Format, 1992).

A netlist is combinational and flat: `.model`, `.inputs`, `.outputs`, `.names` and `.end`, as yosys and ABC write them, and
of mapped gates `.gate` and `.subckt`: yosys's own cells, or those of a library.
"""
from typing import Dict, Iterator, List, Mapping, Tuple

from .cells import Cell, YOSYS
from .errors import RevcError
from .networks import Network, Node

FLATTEN = "flatten it and map its cells to gates, as `synth -flatten` of yosys does; ABC flattens what it reads"
ADVICE = {".latch": "a circuit here has no memory", ".model": FLATTEN, ".mlatch": "a circuit here has no memory"}
CELLS = (".gate", ".subckt")


def lines_of(text: str) -> Iterator[Tuple[int, List[str]]]:
    """The words of each line that has some, with the line's number; a backslash at its end joins the next line."""
    words: List[str] = []
    begun = 0
    for number, line in enumerate(text.splitlines(), 1):
        line = line.partition("#")[0].rstrip()
        words, begun = words + line.rstrip("\\").split(), begun or number
        if not line.endswith("\\"):
            if words:
                yield begun, words
            words, begun = [], 0
    if words:
        yield begun, words


class Reader:
    """Reads a netlist line by line."""

    def __init__(self, cells: Mapping[str, Cell]) -> None:
        self.network = Network()
        self.cells = cells
        self.names: List[str] = []  # of the last table

    def read(self, text: str) -> Network:
        for number, words in lines_of(text):
            if words[0] == ".end":
                break
            try:
                self.line(words)
            except RevcError as error:
                raise RevcError(f"line {number}: {error}") from None
        return self.network

    def line(self, words: List[str]) -> None:
        if words[0] == ".names":
            self.names = words[1:]
            self.begin(self.names)
        elif words[0] in CELLS:
            self.names = []
            self.cell(words[1:])
        elif words[0].startswith("."):
            self.names = []
            self.head(words)
        elif self.names:
            self.row(words)
        else:
            raise RevcError("a row that belongs to no table")

    def head(self, words: List[str]) -> None:
        network = self.network
        if words[0] == ".model" and not network.title:
            network.title = "".join(" " + word for word in words[1:2])
        elif words[0] == ".inputs":
            network.inputs += words[1:]
        elif words[0] == ".outputs":
            network.outputs += words[1:]
        else:
            raise RevcError(f"no `{' '.join(words[:2])}` here: {ADVICE.get(words[0], 'it is not known')}")

    def begin(self, names: List[str]) -> None:
        if not names:
            raise RevcError("a table without a name")
        self.put(names[-1], Node(names[:-1], [], "1"))

    def put(self, name: str, node: Node) -> None:
        if name in self.network.nodes:
            raise RevcError(f"a second table of {name}")
        self.network.nodes[name] = node

    def row(self, words: List[str]) -> None:
        name = self.names[-1]
        node = self.network.nodes[name]
        row, value = ([""] + words)[-2:]
        fits = len(words) == min(len(self.names), 2) and len(row) == len(node.inputs)
        if not fits or not set(row) <= set("01-") or value not in ("0", "1"):
            raise RevcError(f"not a row of {len(node.inputs)} inputs and their output")
        if node.rows and value != node.value:
            raise RevcError("rows of both outputs in one table")
        node.rows.append(row)
        self.network.nodes[name] = node._replace(value=value)

    def cell(self, words: List[str]) -> None:
        """The gate `nand2 A=a B=b Y=y`, which drives y."""
        name = words[0] if words else ""
        if name not in self.cells:
            raise RevcError(f"no cell `{name}` is known: {FLATTEN}, or give its library (--library FILE.genlib)")
        cell = self.cells[name]
        nets = dict(word.partition("=")[::2] for word in words[1:])
        if set(nets) != {*cell.pins, cell.output} or len(nets) < len(words) - 1 or not all(nets.values()):
            pins = " ".join(f"{pin}=.." for pin in (*cell.pins, cell.output))
            raise RevcError(f"the pins of `{name}` are {pins}")
        self.put(nets[cell.output], Node([nets[pin] for pin in cell.pins], list(cell.rows), cell.value))


def read_blif(text: str, library: Mapping[str, Cell] = YOSYS) -> Network:
    """The network of a netlist, with yosys's cells and those of a library."""
    cells: Dict[str, Cell] = {**YOSYS, **library}
    return Reader(cells).read(text)
