"""Tables with entries that may be anything: which numbers these become, so that few ANDs are left.

The products of variables that are independent on the entries that are given are taken in an order, and each bit of the
table becomes the sum of these that it is. By the degree of the products the table gets a low one; by their numbers, which
is what to do for a table that ends early, it takes no product of a place behind its end. Then entries are tried one by one.
"""
import itertools
import random
from typing import Callable, Iterator, List, Optional, Sequence

from .spans import Span

ORDERS = {1: 2, 2: 2, 3: 6, 4: 24, 5: 12, 6: 6, 7: 2, 8: 2}  # for how many variables, how many orders of them are tried; else 1
TRIALS = {1: 8, 2: 32, 3: 100, 4: 100, 5: 60}  # how many changes of one bit of an entry

Entries = Sequence[Optional[int]]


def weight(number: int) -> int:
    return bin(number).count("1")


def interpolated(values: Entries, m: int, k: int, order: Sequence[int]) -> List[int]:
    """The table that is the sum of the first independent products, each a number with a bit for each variable of it."""
    given = [e for e in range(1 << k) if values[e] is not None]
    span = Span()
    for at, product in enumerate(order):
        span.add(sum(1 << i for i, e in enumerate(given) if e & product == product), 1 << at)
    out = [0] * (1 << k)
    for bit in range(m):
        _, how = span.reduced(sum((values[e] >> bit & 1) << i for i, e in enumerate(given)))
        products = [product for at, product in enumerate(order) if how >> at & 1]
        for e in range(1 << k):
            out[e] |= (sum(e & product == product for product in products) & 1) << bit
    return out


def orders(k: int) -> Iterator[List[int]]:
    """Orders of all products of k variables: by their degrees, and by their numbers, for several orders of the variables."""
    chance = random.Random(k)
    if k in ORDERS:
        yield sorted(range(1 << k), key=lambda e: (weight(e), e))
    for variables in itertools.islice(itertools.permutations(range(k)) if k <= 4 else shuffled(k, chance), ORDERS.get(k, 1)):
        yield [sum((e >> i & 1) << v for i, v in enumerate(variables)) for e in range(1 << k)]


def shuffled(k: int, chance: random.Random) -> Iterator[List[int]]:
    yield list(range(k))
    while True:
        yield chance.sample(range(k), k)


def completed(values: Entries, m: int, k: int, cost: Callable[[List[int]], int]) -> List[int]:
    """The table of 2^k entries of m bits with a number for each None, of the least cost that is found."""
    candidates = [interpolated(values, m, k, order) for order in orders(k)] + [[each or 0 for each in values]]
    costs = [cost(each) for each in candidates]
    least = min(costs)
    best = candidates[costs.index(least)]
    free, chance = [e for e in range(1 << k) if values[e] is None], random.Random(k)
    for _ in range(TRIALS.get(k, 0)):
        trial = list(best)
        trial[chance.choice(free)] ^= 1 << chance.randrange(m)
        found = cost(trial)
        if found <= least:
            best, least = trial, found
    return best
