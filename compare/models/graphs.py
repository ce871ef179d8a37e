"""A model of the graph of a program: its writes folded to constants, inputs and nodes that an output rests on.

It is written from docs/LANGUAGE.md, and shares nothing with the compiler. A bit of the run is named as in `language`:
`x3` is input 3, and `w5` is write 5. It becomes a constant, 0 or 1, or a base: an input, `x3`, or a node, `w2`.
"""
from dataclasses import dataclass
from typing import Dict, List, Tuple, Union

from models.language import Run, Write

Folded = Union[int, str]


@dataclass
class Node:
    """NOT of one base, or the XOR or AND of two different ones."""

    operator: str
    operands: Tuple[str, ...]


class Graph:
    """The nodes that an output rests on, in their order, and what each output became."""

    def __init__(self, run: Run):
        self.nodes: List[Node] = []
        became: Dict[str, Folded] = {"x%d" % number: "x%d" % number for number in range(len(run.bits))}
        for number, write in enumerate(run.writes):
            became["w%d" % number] = self.fold(write, [became[operand] for operand in write.operands])
        self.outputs = [became[name] for _, name in run.outputs]
        self.drop_unused()

    def drop_unused(self) -> None:
        """Only the nodes that an output rests on stay; they are numbered anew."""
        used = set(self.outputs)
        for number in reversed(range(len(self.nodes))):
            if "w%d" % number in used:
                used.update(self.nodes[number].operands)
        kept = [number for number in range(len(self.nodes)) if "w%d" % number in used]
        new = {"w%d" % old: "w%d" % number for number, old in enumerate(kept)}
        nodes = [self.nodes[number] for number in kept]
        self.nodes = [Node(node.operator, tuple(new.get(each, each) for each in node.operands)) for node in nodes]
        self.outputs = [new.get(output, output) for output in self.outputs]

    @property
    def and_depth(self) -> int:
        """The most ANDs on a path."""
        levels: Dict[str, int] = {}
        for number, node in enumerate(self.nodes):
            below = max(levels.get(operand, 0) for operand in node.operands)
            levels["w%d" % number] = below + (node.operator == "&&")
        return max(levels.values(), default=0)

    def fold(self, write: Write, operands: List[Folded]) -> Folded:
        if not operands:
            return int(write.operator)
        constants = [operand for operand in operands if isinstance(operand, int)]
        bases = list(dict.fromkeys(operand for operand in operands if isinstance(operand, str)))
        return (self.fold_and if write.operator == "&&" else self.fold_xor)(constants, bases)

    def fold_and(self, constants: List[int], bases: List[str]) -> Folded:
        if 0 in constants:
            return 0
        if not bases:
            return 1
        return bases[0] if len(bases) == 1 else self.node("&&", *bases)

    def fold_xor(self, constants: List[int], bases: List[str]) -> Folded:
        if not constants:
            return self.node("<>", *bases) if len(bases) == 2 else 0  # a base with itself is 0
        if not bases:
            return constants[0] ^ constants[1]
        return self.node("not", *bases) if constants[0] else bases[0]

    def node(self, operator: str, *operands: str) -> str:
        self.nodes.append(Node(operator, operands))
        return "w%d" % (len(self.nodes) - 1)
