"""Each operation against Python's own numbers, through the run of compiled circuits; and how many ANDs it takes."""
import itertools
import unittest
from random import Random
from typing import Any, Callable, Dict, Iterator, List, Tuple

from revc import Bits, Cat, Const, Mux, Switch, add, oracle, popcount, sub, table, widen


def most(n: int) -> int:
    return (1 << n) - 1


def left(a: int, k: int, n: int) -> int:
    k %= n
    return (a << k | a >> n - k) & most(n)


def weight(a: int) -> int:
    return bin(a).count("1")


# For each operation what it is on Bits a and b, and what on numbers of n bits.
OPERATIONS: Dict[str, Tuple[Callable[[Any, Any], Any], Callable[[int, int, int], int]]] = {
    "add": (lambda a, b: a + b, lambda a, b, n: a + b & most(n)),
    "add with carry": (lambda a, b: add(a, b, carry=True), lambda a, b, n: a + b),
    "sub": (lambda a, b: a - b, lambda a, b, n: a - b & most(n)),
    "sub with borrow": (lambda a, b: sub(a, b, borrow=True), lambda a, b, n: a - b & most(n) | (a < b) << n),
    "from a number": (lambda a, b: 1 - a, lambda a, b, n: 1 - a & most(n)),
    "from a number with borrow": (lambda a, b: sub(1, a, borrow=True), lambda a, b, n: 1 - a & most(n) | (1 < a) << n),
    "negative": (lambda a, b: -a, lambda a, b, n: -a & most(n)),
    "and 1": (lambda a, b: a + 1, lambda a, b, n: a + 1 & most(n)),
    "less 1": (lambda a, b: a - 1, lambda a, b, n: a - 1 & most(n)),
    "and": (lambda a, b: a & b, lambda a, b, n: a & b),
    "or": (lambda a, b: a | b, lambda a, b, n: a | b),
    "xor": (lambda a, b: a ^ b, lambda a, b, n: a ^ b),
    "not": (lambda a, b: ~a, lambda a, b, n: ~a & most(n)),
    "and not 1": (lambda a, b: a & ~1 if len(a) > 1 else a & 0, lambda a, b, n: a & ~1),
    "<": (lambda a, b: a < b, lambda a, b, n: int(a < b)),
    "<=": (lambda a, b: a <= b, lambda a, b, n: int(a <= b)),
    ">": (lambda a, b: a > b, lambda a, b, n: int(a > b)),
    ">=": (lambda a, b: a >= b, lambda a, b, n: int(a >= b)),
    "==": (lambda a, b: a == b, lambda a, b, n: int(a == b)),
    "!=": (lambda a, b: a != b, lambda a, b, n: int(a != b)),
    "== k": (lambda a, b: a == most(len(a)) // 2, lambda a, b, n: int(a == most(n) // 2)),
    "< k": (lambda a, b: a < min(5, most(len(a))), lambda a, b, n: int(a < min(5, most(n)))),
    "<= k": (lambda a, b: a <= min(3, most(len(a))), lambda a, b, n: int(a <= min(3, most(n)))),
    "<= all": (lambda a, b: a <= most(len(a)), lambda a, b, n: 1),
    "> k": (lambda a, b: a > 1 << len(a) - 1, lambda a, b, n: int(a > 1 << n - 1)),
    ">= k": (lambda a, b: a >= 1 << len(a) - 1, lambda a, b, n: int(a >= 1 << n - 1)),
    "Mux": (lambda a, b: Mux(a[0], a, b), lambda a, b, n: a if a & 1 else b),
    "Mux with a number": (lambda a, b: Mux(b[0], a, 1), lambda a, b, n: a if b & 1 else 1),
    "*": (lambda a, b: a * b, lambda a, b, n: a * b),
    "square": (lambda a, b: a * a, lambda a, b, n: a * a),
    "* bit": (lambda a, b: a * b[0], lambda a, b, n: a * (b & 1)),
    "* 0": (lambda a, b: a * 0, lambda a, b, n: 0),
    "* 3": (lambda a, b: a * 3, lambda a, b, n: a * 3),
    "* 7": (lambda a, b: a * 7, lambda a, b, n: a * 7),
    "* 10": (lambda a, b: 10 * a, lambda a, b, n: a * 10),
    "* 119": (lambda a, b: a * 119, lambda a, b, n: a * 119),
    "divmod 3": (lambda a, b: Cat(a // 3, a % 3), lambda a, b, n: a // 3 | a % 3 << n),
    "divmod 5": (lambda a, b: Cat(*divmod(a, 5)), lambda a, b, n: a // 5 | a % 5 << n),
    "divmod 6": (lambda a, b: Cat(*divmod(a, 6)), lambda a, b, n: a // 6 | a % 6 << n),
    "divmod 8": (lambda a, b: Cat(*divmod(a, 8)), lambda a, b, n: a // 8 | a % 8 << n),
    "divmod 10": (lambda a, b: Cat(*divmod(a, 10)), lambda a, b, n: a // 10 | a % 10 << n),
    "popcount": (lambda a, b: popcount(a), lambda a, b, n: weight(a)),
    "any": (lambda a, b: a.any(), lambda a, b, n: int(a != 0)),
    "all": (lambda a, b: a.all(), lambda a, b, n: int(a == most(n))),
    "xor of all": (lambda a, b: a.xor(), lambda a, b, n: weight(a) & 1),
    "<<": (lambda a, b: a << 1, lambda a, b, n: a << 1 & most(n)),
    ">>": (lambda a, b: a >> 2, lambda a, b, n: a >> 2),
    "rotate_left": (lambda a, b: a.rotate_left(3), lambda a, b, n: left(a, 3, n)),
    "rotate_right": (lambda a, b: a.rotate_right(1), lambda a, b, n: left(a, n - 1, n)),
    "<< by a value": (lambda a, b: a << b[:2] if len(b) > 1 else a << b, lambda a, b, n: a << (b & 3) & most(n)),
    ">> by a value": (lambda a, b: a >> b[:3] if len(b) > 2 else a >> b, lambda a, b, n: a >> (b & 7)),
    "rotate by a value": (lambda a, b: a.rotate_left(b[:1]), lambda a, b, n: left(a, b & 1, n)),
    "reversed": (lambda a, b: a[::-1], lambda a, b, n: int(format(a, f"0{n}b")[::-1], 2)),
    "put": (lambda a, b: a.put(0, b[-1]), lambda a, b, n: a & ~1 | b >> n - 1),
    "Cat": (lambda a, b: Cat(b[0], a, b), lambda a, b, n: b & 1 | a << 1 | b << n + 1),
    "split": (lambda a, b: Cat(*a.split(1)[::-1]), lambda a, b, n: int(format(a, f"0{n}b")[::-1], 2)),
    "widen": (lambda a, b: widen(a, len(a) + 3), lambda a, b, n: a),
    "Switch": (lambda a, b: Switch(b[:1], {0: a, 1: b}), lambda a, b, n: b if b & 1 else a),
    "Switch with others": (lambda a, b: Switch(b, {1: a, None: b}), lambda a, b, n: a if b == 1 else b),
    "Switch of numbers": (lambda a, b: Switch(a[:1], {0: Const(5, 4), 1: 9}), lambda a, b, n: 9 if a & 1 else 5),
    "table": (lambda a, b: table(Cat(a[0], b[0]), [2, 3, 0, 1]), lambda a, b, n: [2, 3, 0, 1][a & 1 | (b & 1) << 1]),
}


def rows(n: int) -> List[Tuple[int, int]]:
    if n <= 4:
        return list(itertools.product(range(1 << n), repeat=2))
    random = Random(n)
    edges = list(itertools.product((0, 1, most(n)), repeat=2))
    return edges + [(random.getrandbits(n), random.getrandbits(n)) for _ in range(60)]


def several(n: int) -> Iterator[List[str]]:
    """The operations in lots, each of which fits into one program of n bits."""
    names = list(OPERATIONS)
    size = len(names) if n <= 4 else 12
    return (names[at:at + size] for at in range(0, len(names), size))


class Operations(unittest.TestCase):
    def compare(self, n: int) -> None:
        for names in several(n):
            @oracle
            def lot(a: Bits[n], b: Bits[n]):
                return {name: OPERATIONS[name][0](a, b) for name in names}
            numbers = rows(n)
            found = lot.compile().run_many([dict(a=a, b=b) for a, b in numbers])
            for (a, b), got in zip(numbers, found):
                for name in names:
                    self.assertEqual(got[name], OPERATIONS[name][1](a, b, n), f"{name} of {a} and {b}, {n} bits")

    def test_on_all_inputs(self) -> None:
        for n in (1, 2, 3, 4):
            self.compare(n)

    def test_on_8_bits(self) -> None:
        self.compare(8)

    def test_on_16_bits(self) -> None:
        self.compare(16)

    def test_on_32_bits(self) -> None:
        self.compare(32)

    def test_tables(self) -> None:
        random = Random(7)
        for k, m in ((1, 1), (2, 3), (3, 2), (4, 4), (5, 3), (6, 1), (8, 8)):
            values = [random.getrandbits(m) for _ in range(1 << k)]

            @oracle
            def looked_up(x: Bits[k]):
                return table(x, values, m)
            found = looked_up.compile().run_many([dict(x=x) for x in range(1 << k)])
            self.assertEqual(found, values)

    def test_wide(self) -> None:
        @oracle
        def wide(a: Bits[500], b: Bits[500]):
            return a + b, a == b, popcount(a), a.any(), a.xor()
        random = Random(3)
        for a, b in ((random.getrandbits(500), random.getrandbits(500)), (most(500), most(500))):
            wanted = (a + b & most(500), int(a == b), weight(a), 1, weight(a) & 1)
            self.assertEqual(wide.compile().run(a=a, b=b), wanted)


def ands(operation: Callable[[Any, Any], Any], n: int) -> int:
    """How many ANDs a text is left with: pebbling takes two Toffoli gates for each."""
    @oracle
    def one(a: Bits[n], b: Bits[n]):
        return operation(a, b)
    return one.compile("pebble").cost.toffoli // 2


class Ands(unittest.TestCase):
    """The numbers of docs/PYTHON.md."""

    def test_of_n_bits(self) -> None:
        for n in (4, 8, 16, 32):
            for name, wanted in (("add", n - 1), ("add with carry", n), ("sub", n - 1), ("sub with borrow", n),
                                 ("and 1", n - 2), ("negative", n - 2), ("and", n), ("or", n), ("Mux", n), ("<", n),
                                 (">=", n), ("==", n - 1), ("any", n - 1), ("all", n - 1), ("== k", n - 1),
                                 ("<= k", n - 3), (">= k", 0), ("popcount", n - weight(n)), ("xor of all", 0), ("not", 0),
                                 ("rotate_left", 0), ("<<", 0), ("* 3", n), ("* 7", n + 1), ("* 10", n),
                                 ("divmod 8", 0), ("square", n * n - n)):
                self.assertEqual(ands(OPERATIONS[name][0], n), wanted, f"{name} of {n} bits")

    def test_of_products_and_quotients(self) -> None:
        for name, wanted in (("*", {8: 120, 16: 463, 32: 1609}), ("divmod 3", {8: 27, 16: 59, 32: 123}),
                             ("divmod 5", {8: 24, 16: 56, 32: 120}), ("divmod 10", {8: 20, 16: 52, 32: 116})):
            for n, count in wanted.items():
                self.assertLessEqual(ands(OPERATIONS[name][0], n), count, f"{name} of {n} bits")

    def test_of_tables(self) -> None:
        random = Random(9)
        for k, m, count in ((2, 1, 1), (3, 1, 2), (4, 1, 3), (8, 8, 81)):
            for _ in range(6 if k < 8 else 1):
                values = [random.getrandbits(m) for _ in range(1 << k)]
                self.assertLessEqual(ands(lambda a, b: table(a[:k], values, m), max(k, 2)), count)
        present = [0xC, 5, 6, 0xB, 9, 0, 0xA, 0xD, 3, 0xE, 0xF, 8, 4, 7, 1, 2]
        self.assertEqual(ands(lambda a, b: table(a, present), 4), 5)


if __name__ == "__main__":
    unittest.main()
