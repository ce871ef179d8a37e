"""Carries by blocks, on bits of Python's, at all depths that there are; and that none of their forms takes too many ANDs."""
import unittest
from random import Random
from typing import List

from revc.lib.carries import Carries, best_form, least_depth, measured


def bits(number: int, n: int) -> List[int]:
    return [number >> i & 1 for i in range(n)]


def carries(a: int, b: int, n: int) -> List[int]:
    """The carry out of each place."""
    return [((a & most) + (b & most)) >> i + 1 for i, most in enumerate((2 << i) - 1 for i in range(n))]


class Depths(unittest.TestCase):
    def test_carries(self) -> None:
        odd = Random(2)
        for n in (1, 2, 3, 5, 8, 11, 16, 23, 32):
            for is_all in (True, False):
                least = least_depth(n, is_all)
                self.assertLessEqual(least, n.bit_length() + 1)
                for depth in range(least, min(least + 4, n) + 1):
                    form = best_form(n, depth, is_all)
                    assert form is not None
                    self.assertLessEqual(measured(n, form, is_all)[1], depth)
                    for a, b in ((odd.getrandbits(n), odd.getrandbits(n)) for _ in range(40)):
                        found = Carries(bits(a, n), bits(b, n), form)
                        wanted = carries(a, b, n)
                        self.assertEqual(found.all() if is_all else found.last(), wanted if is_all else wanted[-1], (n, form))

    def test_more_depth_takes_no_more_ands(self) -> None:
        for n in (16, 32):
            for is_all in (True, False):
                counts = []
                for depth in range(least_depth(n, is_all), n + 1):
                    form = best_form(n, depth, is_all)
                    assert form is not None
                    counts.append(measured(n, form, is_all)[0])
                self.assertEqual(counts, sorted(counts, reverse=True))
                self.assertEqual(counts[-1], n)


if __name__ == "__main__":
    unittest.main()
