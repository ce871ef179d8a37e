"""Functions of more variables than truth tables are made for, as decision trees whose equal parts are one.

A node is a number: 0 and 1 are the constants, and any other one stands for the number of a variable and the nodes for
its two bits, which are different and go by later variables. So equal functions are equal numbers.
"""
from typing import Dict, List, NamedTuple, Tuple

Branch = Tuple[int, int, int]  # a variable, and the nodes where it is 0 and where it is 1


class Function(NamedTuple):
    diagrams: "Diagrams"
    node: int

    def __xor__(self, other: "Function") -> "Function":
        return Function(self.diagrams, self.diagrams.combined(True, self.node, other.node))

    def __and__(self, other: "Function") -> "Function":
        return Function(self.diagrams, self.diagrams.combined(False, self.node, other.node))


class Diagrams:
    """The functions of some variables, which are in their order, 0 before 1."""

    def __init__(self, variables: List[str]):
        self.variables = variables
        self.branches: List[Branch] = [(len(variables), 0, 0), (len(variables), 1, 1)]
        self.numbers: Dict[Branch, int] = {}
        self.known: Dict[Tuple[bool, int, int], int] = {}
        self.true, self.false = Function(self, 1), Function(self, 0)
        self.inputs = [Function(self, self.number((place, 0, 1))) for place in range(len(variables))]

    def number(self, branch: Branch) -> int:
        _, low, high = branch
        if low == high:
            return low
        if branch not in self.numbers:
            self.numbers[branch] = len(self.branches)
            self.branches.append(branch)
        return self.numbers[branch]

    def combined(self, is_sum: bool, one: int, other: int) -> int:
        """The exclusive sum of two functions, or their product."""
        if one > other:
            one, other = other, one
        if one == other:
            return 0 if is_sum else one
        if one == 0 or not is_sum and one == 1:
            return other if is_sum or one == 1 else 0
        key = is_sum, one, other
        if key not in self.known:
            variable = min(self.branches[one][0], self.branches[other][0])
            lows, highs = zip(self.parts(one, variable), self.parts(other, variable))
            self.known[key] = self.number((variable, self.combined(is_sum, *lows), self.combined(is_sum, *highs)))
        return self.known[key]

    def parts(self, node: int, variable: int) -> Tuple[int, int]:
        """A function where a variable is 0 and where it is 1, if no earlier one matters."""
        first, low, high = self.branches[node]
        return (low, high) if first == variable else (node, node)

    def least(self, function: Function) -> Dict[str, int]:
        """The least assignment on which a function is 1, if there is one."""
        bits, node = dict.fromkeys(self.variables, 0), function.node
        while node > 1:
            variable, low, high = self.branches[node]
            bits[self.variables[variable]], node = int(low == 0), low or high
        return bits
