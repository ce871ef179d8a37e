"""Circuits in place: each input's lines end with the outputs, on every input, and a wrong inverse is refused."""
import sys
import unittest
from itertools import product
from pathlib import Path
from random import Random
from typing import Any, Callable, Dict, Iterator, List, Sequence, Tuple

from revc import Cat, Oracle, RevcError, Source, U1, U4, WidthError, aside, assume, function, lib, oracle, table, widen
from test_files import ran_by_gates

sys.path.insert(0, str(Path(__file__).resolve().parent.parent / "examples"))

from in_place import IN_PLACE, Placed

PRESENT = [12, 5, 6, 11, 9, 0, 10, 13, 3, 14, 15, 8, 4, 7, 1, 2]


@oracle
def more(x: U4):
    return x + 1


@oracle
def less(x: U4):
    return x - 1


@oracle
def added(a: U4, b: U4):
    return a, a + b


@oracle
def taken(a: U4, s: U4):
    return a, s - a


@oracle
def tripled(x: U4):
    return x + x + x


@oracle
def by_eleven(x: U4):  # 3 times 11 is 33, and 1 modulo 16
    return (x << 3) + (x << 1) + x


@oracle
def present(x: U4):
    return lib.present_sbox(x)


@oracle
def back(x: U4):
    return table(x, [PRESENT.index(y) for y in range(16)])


@oracle
def with_carry(x: U4, c: U1):
    total = widen(x, 5) + widen(c, 5)
    return total[:4], c, total[4]


@oracle
def from_carry(s: U4, c: U1, carry: U1):
    return (Cat(s, carry) - widen(c, 5))[:4], c


def keyed(has_inverse: bool) -> Oracle:
    @function
    def replaced(x: U4):
        y = lib.present_sbox(x)
        if has_inverse:
            aside(table(y, [PRESENT.index(z) for z in range(16)]))
        return y

    @oracle
    def twice(k: U4, x: U4):
        return k, replaced(replaced(x ^ k) ^ k)
    return twice


def modular(is_bounded: bool) -> Oracle:
    @oracle
    def turned(a: U4, b: U4):
        if is_bounded:
            assume(a < 11)
            assume(b < 11)
        return a, lib.mod_add(a, b, 11)
    return turned


@oracle
def turned_back(a: U4, s: U4):
    return a, lib.mod_sub(s, a, 11)


# A function, its inverse, what it is on numbers, and the most Toffoli gates and lines.
PAIRS: List[Tuple[Oracle, Oracle, Callable[..., int], int, int]] = [
    (more, less, lambda x: (x + 1) % 16, 6, 9),
    (added, taken, lambda a, b: a | (a + b) % 16 << 4, 10, 14),
    (tripled, by_eleven, lambda x: 3 * x % 16, 6, 8),
    (present, back, lambda x: PRESENT[x], 16, 14),
    (with_carry, from_carry, lambda x, c: (x + c) % 16 | c << 4 | (x + c) // 16 << 5, 12, 13),
]


def rows(placed: Placed) -> Iterator[Tuple[int, ...]]:
    """All inputs that are looked at, or 100 of them."""
    most = [placed.most(width) for _, width in placed.oracle.params]
    if placed.oracle.inputs <= 10:
        return product(*map(range, most))
    random = Random(1)
    return (tuple(map(random.randrange, most)) for _ in range(100))


def packed(numbers: Sequence[int], widths: Sequence[Tuple[str, int]]) -> int:
    word, at = 0, 0
    for number, (_, width) in zip(numbers, widths):
        word, at = word | number << at, at + width
    return word


class InPlace(unittest.TestCase):
    def test_examples(self) -> None:
        for each in IN_PLACE:
            circuit = each.oracle.compile_in_place(each.inverse)
            for row in rows(each):
                ended: Any = each.compute(*row)
                outputs = ended if isinstance(ended, tuple) else (ended,)
                self.assertEqual(ran_by_gates(circuit, packed(row, each.oracle.params)), packed(outputs, each.oracle.out),
                                 (each.title, row))

    def test_pairs(self) -> None:
        """Of two texts, of which the program is not told that one leads back from the other, a circuit is made."""
        for function, inverse, wanted, toffoli, lines in PAIRS:
            circuit = Source(function.text, function.name, function.params, function.out).compile_in_place(inverse)
            widths: Dict[str, int] = dict(function.params)
            for bits in range(1 << function.inputs):
                numbers, left = {}, bits
                for name, width in widths.items():
                    numbers[name], left = left % (1 << width), left >> width
                self.assertEqual(ran_by_gates(circuit, bits), wanted(**numbers), (function.name, numbers))
            self.assertLessEqual(circuit.cost.toffoli, toffoli, function.name)
            self.assertLessEqual(circuit.lines, lines, function.name)

    def test_found_without_inverse(self) -> None:
        for function, wanted in ((added, lambda x: x % 16 | (x + x // 16) % 16 << 4), (more, lambda x: (x + 1) % 16)):
            circuit = function.compile_in_place()
            for bits in range(1 << function.inputs):
                self.assertEqual(ran_by_gates(circuit, bits), wanted(bits), (function.name, bits))
            self.assertEqual(function.verify(circuit, inplace=True), "verified")

    def test_on_what_is_looked_at(self) -> None:
        """A sum modulo 11 leads back where its numbers are below 11."""
        circuit = modular(True).compile_in_place(turned_back)
        for a in range(11):
            for b in range(11):
                self.assertEqual(ran_by_gates(circuit, a | b << 4), a | (a + b) % 11 << 4)
        self.assertEqual(modular(True).verify(circuit, inplace=True), "verified")
        with self.assertRaisesRegex(RevcError, "`inverse` does not lead back from what `turned` puts out"):
            modular(False).compile_in_place(turned_back)

    def test_aside(self) -> None:
        """Two S-boxes, each with its inverse computed aside: claimed is nothing, and the search takes what it sees."""
        circuit = keyed(True).compile_in_place()
        for k in range(16):
            for x in range(16):
                wanted = PRESENT[PRESENT[x ^ k] ^ k]
                self.assertEqual(ran_by_gates(circuit, k | x << 4), k | wanted << 4)
        self.assertEqual(keyed(True).verify(circuit, inplace=True), "verified")
        with self.assertRaisesRegex(RevcError, "no circuit in place was found"):
            keyed(False).compile_in_place()

    def test_no_inverse(self) -> None:
        with self.assertRaisesRegex(RevcError, "`inverse` does not lead back from what `more` puts out"):
            more.compile_in_place(more)
        with self.assertRaisesRegex(WidthError, "takes its 5 output bits"):
            with_parity().compile_in_place(less)

        @oracle
        def parity(x: U4):
            return x.xor()
        with self.assertRaisesRegex(WidthError, "`parity` has 4 inputs and only 1 outputs"):
            parity.compile_in_place(less)


def with_parity() -> Oracle:
    @oracle
    def wide(x: U4):
        return Cat(x, x.xor())
    return wide


if __name__ == "__main__":
    unittest.main()
