"""A model of lean circuits: a program's graph as sums of bits and of products, of which few stand on lines of their
own, and plans over such a graph, by which
budgets are chosen that are near to what is needed.

A base is a number, as in `plans`: an input, or the number of inputs and that of a node. So bases rise as the lines of
a circuit do, and lists of bases have the dictionary's order.
"""
from functools import partial
from typing import Callable, Dict, FrozenSet, Iterable, List, NamedTuple, Optional, Set, Tuple

from models.plans import Budget, Forward, Plan, Settled, blocks_of, flip, pebble
from models.real import Gate

MOST_SHORT = 4  # bits of a sum that may stand without a line, and of a factor that a join gives
MOST_JOINED = 64  # products of a sum that are looked at for a join

Bits = FrozenSet[int]
NOTHING: Bits = frozenset()


class Product(NamedTuple):
    """Two sums of bits, neither a part of the other; the first is the lesser one."""

    first: Tuple[int, ...]
    second: Tuple[int, ...]

    def factors(self) -> Tuple[Bits, Bits]:
        return frozenset(self.first), frozenset(self.second)


class Sum(NamedTuple):
    """The exclusive sum of a constant, of bits and of products."""

    bits: Bits
    products: FrozenSet[Product]
    one: bool = False

    def operands(self) -> Set[int]:
        return set(self.bits).union(*(each.first + each.second for each in self.products))


def bit_of(base: int, one: bool = False) -> Sum:
    return Sum(frozenset([base]), frozenset(), one)


# ---- Products


class Times(NamedTuple):
    """What a product comes to: bits, and a product that is left."""

    bits: Bits
    product: Optional[Product]


def times(one: Bits, other: Bits) -> Times:
    """The product of two sums of bits."""
    if not one or not other:
        return Times(NOTHING, None)
    if one <= other or other <= one:
        part, rest = min(one, other, key=len), one ^ other
        return Times(part, product_of(part, rest) if rest else None)
    return Times(NOTHING, product_of(one, other))


def product_of(one: Bits, other: Bits) -> Product:
    return Product(*sorted([tuple(sorted(one)), tuple(sorted(other))]))


def multiplied(left: Sum, right: Sum) -> Sum:
    """The product of two sums that have no products."""
    assert not left.products and not right.products
    bits, product = times(left.bits, right.bits)
    bits ^= left.bits if right.one else NOTHING
    bits ^= right.bits if left.one else NOTHING
    return Sum(bits, frozenset([product] if product else []), left.one and right.one)


# ---- Sums


def turns(product: Product) -> List[Tuple[Bits, Bits]]:
    first, second = product.factors()
    return [(first, second), (second, first)]


def joined(one: Product, other: Product) -> Optional[Times]:
    """One product in place of two, and bits."""
    for a, c in turns(one):
        for b, same in turns(other):
            if c == same and are_short(a ^ b, c):
                return times(a ^ b, c)
    for (a, b), parts in ((one.factors(), turns(other)), (other.factors(), turns(one))):
        for c, both in parts:
            if both == a ^ b and are_short(a ^ c, b ^ c):
                bits, product = times(a ^ c, b ^ c)
                return Times(bits ^ c, product)
    return None


def are_short(*factors: Bits) -> bool:
    return all(len(factor) <= MOST_SHORT for factor in factors)


def added(left: Sum, right: Sum) -> Sum:
    """The sum of two sums: the products of the one that has fewer go into the other."""
    few, many = (left, right) if len(left.products) < len(right.products) else (right, left)
    bits, products = left.bits ^ right.bits, set(many.products)
    for product in sorted(few.products):
        bits ^= put(product, products)
    return Sum(bits, frozenset(products), left.one != right.one)


def put(product: Product, products: Set[Product]) -> Bits:
    """Puts a product into a sum's, and answers the bits that this gives."""
    bits, waiting = NOTHING, product
    while waiting is not None:
        if waiting in products:
            products.remove(waiting)
            break
        found = first_joined(waiting, products) if len(products) <= MOST_JOINED else None
        if found is None:
            products.add(waiting)
            break
        other, (more, waiting) = found
        products.remove(other)
        bits ^= more
    return bits


def first_joined(product: Product, products: Iterable[Product]) -> Optional[Tuple[Product, Times]]:
    for other in sorted(products):
        found = joined(product, other)
        if found is not None:
            return other, found
    return None


# ---- Lean graphs


class LeanGraph:
    """The nodes and the outputs of a graph as sums; those of nodes have no constant."""

    def __init__(self, settled: Settled):
        self.inputs, self.nodes = settled.inputs, []
        self.made: Dict[Sum, int] = {}
        shared, sums = shared_nodes(settled), [bit_of(base) for base in range(settled.inputs)]
        for number, node in enumerate(settled.nodes):
            value = value_of(node.operator, [sums[base] for base in node.operands])
            sums.append(self.standing(value) if number in shared else value)
        self.outputs = [Sum(NOTHING, frozenset(), constant == 1) if base is None else sums[base]
                        for base, constant in settled.outputs]
        self.given = set().union(*(self.nodes_of(output) for output in self.outputs))
        self.last_uses = list(range(len(self.nodes)))
        for number in range(len(self.nodes)):
            for below in self.below(number):
                self.last_uses[below] = number
        for number in self.given:
            self.last_uses[number] = len(self.nodes)

    def standing(self, value: Sum) -> Sum:
        """What stands for a shared value: a node, where it is not short."""
        if not value.products and len(value.bits) <= MOST_SHORT:
            return value
        plain = value._replace(one=False)
        if plain not in self.made:
            self.made[plain] = self.inputs + len(self.nodes)
            self.nodes.append(plain)
        return bit_of(self.made[plain], value.one)

    def nodes_of(self, value: Sum) -> List[int]:
        return sorted(base - self.inputs for base in value.operands() if base >= self.inputs)

    def below(self, number: int) -> List[int]:
        return self.nodes_of(self.nodes[number])

    def cut(self, at: int, low: int) -> Set[int]:
        return {number for number in range(low, at) if self.last_uses[number] >= at}

    def toggle(self, number: int, target: int, line: Callable[[int], int]) -> List[Gate]:
        return gates_of(self.nodes[number], target, line)

    def copies(self, line: Callable[[int], int]) -> List[Gate]:
        gates = [gates_of(output, target, line) for target, output in enumerate(self.outputs, self.inputs)]
        return [gate for each in gates for gate in each]


def shared_nodes(settled: Settled) -> Set[int]:
    """The nodes that are a factor, or are used more than once."""
    used = [base for node in settled.nodes for base in node.operands] + [base for base, _ in settled.outputs]
    factors = {base for node in settled.nodes if node.operator == "&&" for base in node.operands}
    counts: Dict[int, int] = {}
    for base in used:
        counts[base] = counts.get(base, 0) + 1
    bases = range(settled.inputs, settled.inputs + len(settled.nodes))
    return {base - settled.inputs for base in bases if base in factors or counts.get(base, 0) > 1}


def value_of(operator: str, operands: List[Sum]) -> Sum:
    if operator == "not":
        return operands[0]._replace(one=not operands[0].one)
    return multiplied(*operands) if operator == "&&" else added(*operands)


def gates_of(value: Sum, target: int, line: Callable[[int], int]) -> List[Gate]:
    """The gates that add a sum to a line."""
    gates = [flip(target, line(base)) for base in sorted(value.bits)]
    for product in sorted(value.products):
        gates += product_gates(product, target, line)
    return gates + [flip(target)] * value.one


def product_gates(product: Product, target: int, line: Callable[[int], int]) -> List[Gate]:
    """Each factor is gathered on one of its own lines for the moment of the CCX."""
    first, second = product.factors()
    owns, gathers = [max(first - second), max(second - first)], []
    for own, factor in zip(owns, (first, second)):
        gathers += [flip(line(own), line(base)) for base in sorted(factor - {own})]
    return gathers + [flip(target, *map(line, owns))] + gathers[::-1]


# ---- Plans


def ready(graph: LeanGraph, budget: Budget) -> Plan:
    """Each node in turn; then those whose last use it is go, where their operands are held."""
    forward = Forward(graph, budget)
    for number in range(len(graph.nodes)):
        forward.toggle(number)
        for below in reversed(graph.below(number)):
            if graph.last_uses[below] == number and forward.is_ready(below):
                forward.toggle(below)
    return forward.finish()


def by_blocks(graph: LeanGraph, budget: Budget) -> List[Callable[[], Plan]]:
    """What makes the plans by pebbling, in the order in which they are tried."""
    return [partial(pebble, graph, block, budget) for block in blocks_of(len(graph.nodes))]


def lean_tries(settled: Settled, budget: Budget) -> List[Callable[[], Plan]]:
    graph = LeanGraph(settled)
    return [partial(ready, graph, budget)] + by_blocks(graph, budget)
