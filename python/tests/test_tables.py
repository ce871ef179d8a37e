"""Tables with entries that may be anything, on those that are given; and how many ANDs these save."""
import unittest
from random import Random
from typing import List, Optional

from revc import Bits, Oracle, RevcError, lib, oracle, table
from simulation import results

DIGITS = [0x3f, 0x06, 0x5b, 0x4f, 0x66, 0x6d, 0x7d, 0x07, 0x7f, 0x6f]
Entries = List[Optional[int]]


def looked_up(k: int, m: int, entries: Entries) -> Oracle:
    @oracle
    def entry(x: Bits[k]):
        return table(x, entries, m)
    return entry


def ands(source: Oracle) -> int:
    return source.compile("pebble").cost.toffoli // 2


class Tables(unittest.TestCase):
    def test_what_is_given(self) -> None:
        odd = Random(5)
        for k, m, most in ((1, 1, 1.0), (2, 3, 0.5), (3, 2, 0.5), (4, 4, 0.3), (4, 9, 0.8), (5, 3, 0.5), (6, 2, 0.6)):
            entries: Entries = [odd.getrandbits(m) if odd.random() < most else None for _ in range(1 << k)]
            source = looked_up(k, m, entries)
            given = [x for x in range(1 << k) if entries[x] is not None]
            self.assertEqual(results(source.compile(), [dict(x=x) for x in given]), [entries[x] for x in given])
            filled = looked_up(k, m, [each or 0 for each in entries])
            self.assertLessEqual(ands(source), ands(filled), (k, m))

    def test_what_is_saved(self) -> None:
        zeros = [0] * 6
        self.assertEqual(ands(looked_up(4, 7, DIGITS + zeros)), 9)
        self.assertEqual(ands(looked_up(4, 7, DIGITS + [None] * 6)), 5)
        self.assertEqual(ands(looked_up(3, 3, [None] * 8)), 0)
        self.assertEqual(ands(looked_up(3, 3, [5, None, None, 2, None, None, None, 1])), 0)

    def test_lookups_take_no_more_than_is_known(self) -> None:
        """Than unary iteration, and select and swap of any size."""
        odd = Random(7)
        for count, m in ((5, 8), (11, 3), (16, 30), (23, 12), (40, 6), (64, 2), (100, 5), (200, 9)):
            entries = [odd.getrandbits(m) for _ in range(count)]

            @oracle
            def entry(x: Bits[8]):
                return lib.lookup(x, entries, m)
            k = (count - 1).bit_length()
            swapped = min((1 << k - j) + j - k - 1 + ((1 << j) - 1) * m for j in range(k))
            self.assertLessEqual(ands(entry), min(swapped, count - 1 - k), (count, m))
            self.assertEqual(results(entry.compile(), [dict(x=x) for x in range(count)]), entries)

    def test_refusals(self) -> None:
        with self.assertRaisesRegex(RevcError, "entries are numbers that are known now, or None where they may be anything"):
            looked_up(1, 1, [0, "1"])  # type: ignore[list-item]


if __name__ == "__main__":
    unittest.main()
