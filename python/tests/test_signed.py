"""Signed numbers against Python's own, through circuits; what their operations cost, and what is refused."""
import itertools
import unittest
from random import Random
from typing import Annotated, Any, Callable, Dict, List, Tuple

from revc import Bits, ClaimFails, Const, Mux, RevcError, Switch, WidthError, add, function, lib, oracle, require, widen
from revc.lib import Signed, as_signed
from simulation import results


def wrapped(a: int, n: int) -> int:
    return (a + (1 << n - 1)) % (1 << n) - (1 << n - 1)


def least(n: int) -> int:
    return -(1 << n - 1)


# What each is on Signed a and b, on numbers of n bits, and how many ANDs it takes of 8 bits.
OPERATIONS: Dict[str, Tuple[Callable[[Any, Any], Any], Callable[[int, int, int], int], int]] = {
    "+": (lambda a, b: a + b, lambda a, b, n: wrapped(a + b, n), 7),
    "-": (lambda a, b: a - b, lambda a, b, n: wrapped(a - b, n), 7),
    "add": (lambda a, b: add(a, b), lambda a, b, n: wrapped(a + b, n), 7),
    "lib.add": (lambda a, b: lib.add(a, b, depth=5), lambda a, b, n: wrapped(a + b, n), 12),
    "lib.sub": (lambda a, b: lib.sub(a, b), lambda a, b, n: wrapped(a - b, n), 16),
    "negative": (lambda a, b: -a, lambda a, b, n: wrapped(-a, n), 6),
    "from": (lambda a, b: -1 - a, lambda a, b, n: wrapped(-1 - a, n), 0),
    "~": (lambda a, b: ~a, lambda a, b, n: ~a, 0),
    "&": (lambda a, b: a & b, lambda a, b, n: a & b, 8),
    "|": (lambda a, b: a | b, lambda a, b, n: a | b, 8),
    "^": (lambda a, b: a ^ b, lambda a, b, n: a ^ b, 0),
    "*": (lambda a, b: a * b, lambda a, b, n: a * b, 120),
    "* 3": (lambda a, b: a * 3, lambda a, b, n: a * 3, 17),
    "* -5": (lambda a, b: -5 * a, lambda a, b, n: a * -5, 25),
    "<": (lambda a, b: a < b, lambda a, b, n: int(a < b), 8),
    ">=": (lambda a, b: a >= b, lambda a, b, n: int(a >= b), 8),
    ">": (lambda a, b: a > b, lambda a, b, n: int(a > b), 8),
    "lib.less": (lambda a, b: lib.less(a, b, depth=5), lambda a, b, n: int(a < b), 12),
    "<= -1": (lambda a, b: a <= -1, lambda a, b, n: int(a <= -1), 0),
    "least <": (lambda a, b: least(a.width) < a, lambda a, b, n: int(a > least(n)), 7),
    "==": (lambda a, b: a == b, lambda a, b, n: int(a == b), 7),
    "!= -1": (lambda a, b: a != -1, lambda a, b, n: int(a != -1), 7),
    ">> 1": (lambda a, b: a >> 1, lambda a, b, n: a >> 1, 0),
    ">> 99": (lambda a, b: a >> 99, lambda a, b, n: a >> 99, 0),
    ">> by a value": (lambda a, b: a >> b.as_unsigned(), lambda a, b, n: a >> b % (1 << n), 32),
    "<< 1": (lambda a, b: a << 1, lambda a, b, n: wrapped(a << 1, n), 0),
    "abs": (lambda a, b: abs(a), lambda a, b, n: abs(a), 7),
    "sign": (lambda a, b: a.sign, lambda a, b, n: int(a < 0), 0),
    "bits": (lambda a, b: a.as_unsigned(), lambda a, b, n: a % (1 << n), 0),
    "widen": (lambda a, b: widen(a, a.width + 3), lambda a, b, n: a, 0),
    "Mux": (lambda a, b: Mux(a < b, a, -1), lambda a, b, n: a if a < b else -1, 16),
    "Switch": (lambda a, b: Switch(b[:1], {0: a, 1: -1}), lambda a, b, n: -1 if b & 1 else a, 8),
    "max": (lambda a, b: lib.max(a, b), lambda a, b, n: max(a, b), 16),
    "min": (lambda a, b: lib.min([a, b]), lambda a, b, n: min(a, b), 16),
}


def rows(n: int) -> List[Tuple[int, int]]:
    if n <= 4:
        return list(itertools.product(range(least(n), -least(n)), repeat=2))
    odd, edges = Random(n), (least(n), -1, 0, 1, -least(n) - 1)
    return [*itertools.product(edges, repeat=2), *((odd.randrange(least(n), -least(n)), odd.randrange(least(n), -least(n)))
                                                   for _ in range(1000))]


class Values(unittest.TestCase):
    def test_each(self) -> None:
        for n in (1, 2, 3, 4, 8, 16):
            @oracle
            def each(a: Signed[n], b: Signed[n]):
                return {name: OPERATIONS[name][0](a, b) for name in OPERATIONS if n > 3 or "lib." not in name}
            numbers = rows(n)
            circuit = each.compile("pebble")
            unsigned = [dict(a=a % (1 << n), b=b % (1 << n)) for a, b in numbers]
            for (a, b), found in zip(numbers, results(circuit, unsigned)):
                self.assertEqual(found, {name: OPERATIONS[name][1](a, b, n) for name in found}, (a, b, n))
            a, b = numbers[0]
            self.assertEqual(circuit.run(a=a, b=b), each(a=a, b=b))

    def test_ands(self) -> None:
        for name, (operation, _, wanted) in OPERATIONS.items():
            @oracle
            def one(a: Signed[8], b: Signed[8]):
                return operation(a, b)
            self.assertEqual(one.compile("pebble").cost.toffoli // 2, wanted, name)

    def test_functions(self) -> None:
        @function
        def halved(x: Signed[8], y):
            return x >> 1, y

        @oracle
        def outer(a: Annotated[Signed, 8], b: Bits[8]):
            half, other = halved(a, [b])
            return half, as_signed(other[0]), halved(-3, b)[0]
        self.assertEqual(outer(a=-7, b=255), (-4, -1, -2))
        self.assertEqual(outer.typed, "a: Signed[8], b: Bits[8]")

    def test_a_claim_that_fails(self) -> None:
        @oracle
        def positive(a: Signed[4]):
            require(a >= -7)
            return a
        with self.assertRaises(ClaimFails) as refused:
            positive.check()
        self.assertIn("a=-8", str(refused.exception))


REFUSED: List[Tuple[Callable[[Any, Any], Any], str]] = [
    (lambda a, b: a + b, "`a` + `b`: `a` is Signed and `b` is not: as_signed(b) or a.as_unsigned()"),
    (lambda a, b: b < a, "`a` is Signed and `b` is not"),
    (lambda a, b: b * a, "`a` is Signed and `b` is not"),
    (lambda a, b: Mux(b[0], a, b), "`a` is Signed and `b` is not"),
    (lambda a, b: a + 128, "128 does not fit in the 8 bits of `a`: widen(a, 9)"),
    (lambda a, b: a < -129, "-129 does not fit in the 8 bits of `a`: widen(a, 9)"),
    (lambda a, b: a // 3, "divmod(`a`, ..): Signed numbers are divided by their sizes"),
    (lambda a, b: lib.divmod(a, b), "Signed numbers are divided by their sizes"),
    (lambda a, b: add(a, 1, carry=True), "`a` is Signed, and no carry is part of its sums: widen both sides by a bit"),
    (lambda a, b: a >> -1, "`a` >> -1: a shift is a whole number from 0 up, or Bits"),
    (lambda a, b: lib.max(a, b), "all values have one width, and all are Bits or all are Signed"),
    (lambda a, b: as_signed(3), "as_signed(3): Bits are wanted: as_signed(Const(3, n))"),
    (lambda a, b: [1 for _ in range(a)], "`a` is no number of Python's"),
]


class Refusals(unittest.TestCase):
    def test_each(self) -> None:
        for body, words in REFUSED:
            with self.assertRaises(RevcError) as refused:
                @oracle
                def wrong(a: Signed[8], b: Bits[8]):
                    return body(a, b)
            self.assertIn(words, str(refused.exception))

    def test_parameters(self) -> None:
        with self.assertRaisesRegex(RevcError, r"`a: Signed` has no width: write a: Signed\[8\]"):
            @oracle
            def no_width(a: Signed):
                return a

        @oracle
        def same(a: Signed[8]):
            return a
        with self.assertRaisesRegex(WidthError, "a=128 does not fit in 8 bits: -128 to 127"):
            same(a=128)

        @function
        def of_bits(x: Bits[8]):
            return x
        with self.assertRaisesRegex(RevcError, r"`x` of `of_bits` is Bits\[8\], and `a` Signed\[8\]"):
            @oracle
            def given(a: Signed[8]):
                return of_bits(a)


if __name__ == "__main__":
    unittest.main()
