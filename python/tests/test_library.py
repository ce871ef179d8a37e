"""Each function of `revc.lib` against Python's own arithmetic, on all inputs or on 10,000, and its ANDs and depth."""
import itertools
import sys
import unittest
from pathlib import Path
from random import Random
from typing import Any, Callable, Dict, List, NamedTuple

from revc import Bits, Cat, Oracle, RevcError, add, clean, lib, oracle, require, table, widen
from simulation import results

sys.path.insert(0, str(Path(__file__).resolve().parent.parent / "examples"))

from library import counted

MOST = 4096  # rows up to which all inputs are tried
PRESENT = [0xC, 5, 6, 0xB, 9, 0, 0xA, 0xD, 3, 0xE, 0xF, 8, 4, 7, 1, 2]
ASCON = [4, 11, 31, 20, 26, 21, 9, 2, 27, 5, 8, 18, 29, 3, 6, 28,
         30, 19, 7, 14, 0, 13, 17, 24, 16, 12, 1, 25, 22, 10, 15, 23]
DIGITS = [0x3f, 0x06, 0x5b, 0x4f, 0x66, 0x6d, 0x7d, 0x07, 0x7f, 0x6f]


def times(a: int, b: int) -> int:
    """A product in the field of 256 elements of AES."""
    total = 0
    for i in range(8):
        total ^= (a if b >> i & 1 else 0)
        a = a << 1 ^ (0x11b if a & 0x80 else 0)
    return total


INVERSES = [next((b for b in range(256) if times(a, b) == 1), 0) for a in range(256)]
AES = [0x63 ^ a ^ (a * 0x101 >> 7 ^ a * 0x101 >> 6 ^ a * 0x101 >> 5 ^ a * 0x101 >> 4) & 0xff for a in INVERSES]


def chi(row: int, n: int) -> int:
    bits = [row >> i & 1 for i in range(n)]
    return sum((bits[i] ^ (1 ^ bits[(i + 1) % n]) & bits[(i + 2) % n]) << i for i in range(n))


class Case(NamedTuple):
    """A function, the widths of its parameters, what it is on numbers, its ANDs and depth; and which rows it takes."""

    body: Callable[..., Any]
    widths: Dict[str, int]
    wanted: Callable[..., Any]
    ands: int
    depth: int
    takes: Callable[..., bool] = lambda **row: True


def A(n: int) -> Dict[str, int]:
    return dict(a=n)


def AB(n: int, m: int = 0) -> Dict[str, int]:
    return dict(a=n, b=m or n)


def words(a: Bits, count: int) -> List[Bits]:
    return a.split(a.width // count)


def cases() -> Dict[str, Case]:
    return {
        "aes_sbox": Case(lambda a: lib.aes_sbox(a), A(8), lambda a: AES[a], 32, 6),
        "aes_sbox, low": Case(lambda a: lib.aes_sbox(a, low_depth=True), A(8), lambda a: AES[a], 34, 4),
        "aes_sbox_inverse": Case(lambda a: lib.aes_sbox_inverse(a), A(8), lambda a: AES.index(a), 32, 6),
        "aes_sbox_inverse, low": Case(lambda a: lib.aes_sbox_inverse(a, True), A(8), lambda a: AES.index(a), 34, 4),
        "present_sbox": Case(lambda a: lib.present_sbox(a), A(4), lambda a: PRESENT[a], 4, 3),
        "ascon_sbox": Case(lambda a: lib.ascon_sbox(a), A(5), lambda a: ASCON[a], 5, 1),
        "ascon_sbox of words": Case(  # x0 is the lowest word here, and the highest bit of the table
            lambda a: Cat(lib.ascon_sbox(words(a, 5))), A(10),
            lambda a: sum(int(format(ASCON[int("".join(str(a >> 2 * i + j & 1) for i in range(5)), 2)], "05b")[i]) << 2 * i + j
                          for i in range(5) for j in range(2)), 10, 1),
        "keccak_chi": Case(lambda a: lib.keccak_chi(a), A(5), lambda a: chi(a, 5), 5, 1),
        "keccak_chi of 7": Case(lambda a: lib.keccak_chi(a), A(7), lambda a: chi(a, 7), 7, 1),
        **sums(), **moduli(), **quotients(), **orders(), **tables()}


def sums() -> Dict[str, Case]:
    found: Dict[str, Case] = {}
    for n, depth, few, carried, compared in ((1, "log", (0, 0), (1, 1), (1, 1)), (2, "log", (1, 1), (2, 2), (2, 2)),
                                             (5, 4, (4, 4), (8, 4), (7, 4)), (6, "log", (8, 4), (11, 4), (9, 4)),
                                             (16, 10, (26, 10), (29, 10), (23, 10)), (16, "log", (42, 5), (47, 5), (31, 5)),
                                             (32, "log", (108, 6), (111, 6), (68, 6)), (64, 9, (187, 9), (190, 9), (129, 9))):
        most = (1 << n) - 1
        for name, case in {
                "add": Case(lambda a, b, d=depth: lib.add(a, b, depth=d), AB(n), lambda a, b, most=most: a + b & most, *few),
                "borrow": Case(lambda a, b, d=depth: lib.sub(a, b, True, d), AB(n),
                               lambda a, b, n=n, most=most: a - b & most | (a < b) << n, *carried),
                "less": Case(lambda a, b, d=depth: lib.less(a, b, d), AB(n), lambda a, b: int(a < b), *compared)}.items():
            found[f"{name} of {n} at {depth}"] = case
    return {**found,
            "carry": Case(lambda a, b: lib.add(a, b, True, 4), AB(6), lambda a, b: a + b, 11, 4),
            "sub": Case(lambda a, b: lib.sub(a, b, depth=4), AB(6), lambda a, b: a - b & 63, 8, 4),
            "add 5": Case(lambda a: lib.add(5, a, depth=4), A(8), lambda a: a + 5 & 255, 9, 4)}


def moduli() -> Dict[str, Case]:
    found: Dict[str, Case] = {}
    for n, m, k, counts in ((2, 3, 2, ((3, 3), (3, 3), (2, 2), (1, 1), (0, 0), (10, 6))),
                            (4, 13, 7, ((9, 7), (7, 7), (5, 5), (5, 5), (3, 3), (49, 20))),
                            (4, 16, 11, ((3, 3), (3, 3), (2, 2), (0, 0), (2, 2), (13, 3))),
                            (5, 12, 5, ((5, 5), (5, 5), (4, 4), (2, 2), (4, 2), (36, 14))),
                            (8, 251, 83, ((21, 15), (15, 15), (11, 11), (12, 12), (39, 18), (193, 48)))):
        one, two = (lambda m=m, **row: max(row.values()) < m,) * 2
        for (name, case), cost in zip({
                "mod_add": Case(lambda a, b, m=m: lib.mod_add(a, b, m), AB(n), lambda a, b, m=m: (a + b) % m, 0, 0, two),
                "mod_sub": Case(lambda a, b, m=m: lib.mod_sub(a, b, m), AB(n), lambda a, b, m=m: (a - b) % m, 0, 0, two),
                "mod_add k": Case(lambda a, m=m, k=k: lib.mod_add(k, a, m), A(n), lambda a, m=m, k=k: (a + k) % m, 0, 0, one),
                "mod_double": Case(lambda a, m=m: lib.mod_double(a, m), A(n), lambda a, m=m: a * 2 % m, 0, 0, one),
                "mod_mul k": Case(lambda a, m=m, k=k: lib.mod_mul(a, k, m), A(n), lambda a, m=m, k=k: a * k % m, 0, 0, one),
                "mod_mul": Case(lambda a, b, m=m: lib.mod_mul(a, b, m), AB(n), lambda a, b, m=m: a * b % m, 0, 0, two),
                }.items(), counts):
            found[f"{name} modulo {m}"] = case._replace(ands=cost[0], depth=cost[1])
    halves = {f"mod_halve modulo {m}": Case(lambda a, m=m: lib.mod_halve(a, m), A(n), lambda a, m=m: a * (m + 1) // 2 % m,
                                            ands, ands, lambda a, m=m: a < m) for n, m, ands in ((2, 3, 0), (4, 13, 3), (8, 251, 6))}
    return {
        **found, **halves,
        "mod_sub from 3": Case(lambda a: lib.mod_sub(3, a, 13), A(4), lambda a: (3 - a) % 13, 4, 4, lambda a: a < 13),
        "a square": Case(lambda a: lib.mod_mul(a, a, 251), A(8), lambda a: a * a % 251, 129, 47, lambda a: a < 251),
        "mod_exp": Case(lambda a: lib.mod_exp(2, a, 15), A(4), lambda a: 2 ** a % 15, 1, 1),
        "mod_exp of 8": Case(lambda a: lib.mod_exp(83, a, 251), A(8), lambda a: pow(83, a, 251), 62, 7),
        "mod_exp of 10": Case(lambda a: lib.mod_exp(7, a, 221), A(10), lambda a: pow(7, a, 221), 191, 50)}


def quotients() -> Dict[str, Case]:
    counts = {(1, 1): (2, 2), (4, 4): (25, 15), (6, 3): (24, 20), (3, 6): (19, 13), (8, 4): (40, 35), (8, 8): (76, 61),
              (16, 16): (252, 204), (16, 5): (90, 83)}
    return {f"divmod of {n} by {m}": Case(lambda a, b: lib.divmod(a, b), AB(n, m), lambda a, b: divmod(a, b), ands, depth,
                                          lambda a, b: b > 0) for (n, m), (ands, depth) in counts.items()} | {
        "divmod by 10": Case(lambda a: lib.divmod(a, 10), A(8), lambda a: divmod(a, 10), 20, 12)}


def orders() -> Dict[str, Case]:
    def row(a: int, n: int, count: int) -> List[int]:
        return [a >> n * i & (1 << n) - 1 for i in range(count)]
    found = {
        "max": Case(lambda a, b: lib.max(a, b), AB(6), lambda a, b: max(a, b), 12, 7),
        "min": Case(lambda a, b: lib.min(a, b), AB(16), lambda a, b: min(a, b), 32, 17),
        "max of 5": Case(lambda a: lib.max(words(a, 5)), A(15), lambda a: max(row(a, 3, 5)), 24, 12),
        "min of 5 bits": Case(lambda a: lib.min(list(a)), A(5), lambda a: int(a == 31), 4, 3),
        "sort, reverse": Case(lambda a: lib.sort(words(a, 3), reverse=True), A(12),
                              lambda a: sorted(row(a, 4, 3), reverse=True), 24, 15),
        "popcount": Case(lambda a: lib.popcount(a), A(12), lambda a: bin(a).count("1"), 10, 3)}
    counts = {2: (1, 1), 3: (3, 3), 4: (5, 3), 5: (9, 5), 6: (12, 5), 7: (16, 6), 8: (19, 6), 9: (28, 9), 16: (63, 10)}
    for n, (ands, depth) in counts.items():
        found[f"sort of {n} bits"] = Case(lambda a: Cat(lib.sort(list(a))), A(n),
                                          lambda a, n=n: (1 << n) - (1 << n - bin(a).count("1")), ands, depth)
    return found


def tables() -> Dict[str, Case]:
    odd = Random(3)
    hundred = [odd.getrandbits(10) for _ in range(100)]
    return {
        "lookup of digits": Case(lambda a: lib.lookup(a, DIGITS), A(4), lambda a: DIGITS[a], 5, 2, lambda a: a < 10),
        "lookup of five": Case(lambda a: lib.lookup(a, [3, 1, 4, 1, 5]), A(8), lambda a: [3, 1, 4, 1, 5][a], 1, 1,
                               lambda a: a < 5),
        "lookup of one": Case(lambda a: lib.lookup(a, [7]), A(8), lambda a: 7, 0, 0, lambda a: a < 1),
        "lookup of 100": Case(lambda a: lib.lookup(a, hundred), A(7), lambda a: hundred[a], 48, 5, lambda a: a < 100)}


def rows(case: Case) -> List[Dict[str, int]]:
    """All that the function takes, or 10,000 of it."""
    names, widths = list(case.widths), list(case.widths.values())
    if 1 << sum(widths) <= MOST:
        every = (dict(zip(names, row)) for row in itertools.product(*[range(1 << width) for width in widths]))
        return [row for row in every if case.takes(**row)]
    odd, found = Random(1), []
    while len(found) < 10000:
        row = {name: odd.getrandbits(odd.choice((width, odd.randint(1, width)))) for name, width in case.widths.items()}
        found += [row] if case.takes(**row) else []
    return found


def made(case: Case) -> Oracle:
    names = ", ".join(case.widths)
    function = eval(f"lambda {names}: body({names})", dict(body=case.body))
    function.__annotations__ = {name: Bits[width] for name, width in case.widths.items()}
    return oracle(function)


class Library(unittest.TestCase):
    def test_each(self) -> None:
        for name, case in cases().items():
            with self.subTest(name):
                source, numbers = made(case), rows(case)
                found = results(source.compile("pebble"), numbers)
                wanted = [case.wanted(**row) for row in numbers]
                wrong = [(row, got) for row, got, want in zip(numbers, found, wanted) if got != want]
                self.assertEqual(wrong[:1], [])
                ands, depth = counted(source)
                self.assertEqual((ands, depth), (case.ands, case.depth))

    def test_by_the_program(self) -> None:
        """By the run of the text, and by a circuit under another plan."""
        @oracle
        def several(a: Bits[8], b: Bits[8]):
            return lib.divmod(a, b), lib.mod_mul(a, b, 251), lib.sort(a, b, a ^ b), lib.add(a, b, depth=4)
        for a, b in ((200, 7), (17, 250), (250, 250)):
            wanted = (divmod(a, b), a * b % 251, sorted([a, b, a ^ b]), a + b & 255)
            self.assertEqual(several(a=a, b=b), wanted)
            self.assertEqual(several.compile("lean").run(a=a, b=b), wanted)

    def test_names_of_the_author(self) -> None:
        @oracle
        def named(a: Bits[8], b: Bits[8]):
            total = lib.add(a, b)
            quotient, rest = lib.divmod(total, b)
            return quotient, rest
        self.assertEqual(named.out, [("quotient", 8), ("rest", 8)])
        self.assertIn("let total = ", named.text)
        self.assertTrue(all(place is None or place[0] == __file__ for place in named.places))


class Compiled(unittest.TestCase):
    def test_depths(self) -> None:
        """Under the plan `shallow` a Toffoli depth of twice the text's; under others fewer products may stand in longer chains."""
        @oracle
        def in_a_row(a: Bits[32], b: Bits[32]):
            return a + b

        @oracle
        def by_prefixes(a: Bits[32], b: Bits[32]):
            return lib.add(a, b)
        deep, flat = (each.compile("shallow").cost.toffoli_depth for each in (in_a_row, by_prefixes))
        self.assertLessEqual(flat, 12)
        self.assertLess(flat, deep)


class Proved(unittest.TestCase):
    """What the program proves for all inputs: that two forms agree, and what a quotient is."""

    def test_sums(self) -> None:
        @oracle
        def sums(x: Bits[64]):
            a, b = x[::2], x[1::2]
            clean(lib.add(a, b, carry=True, depth=7) ^ add(a, b, carry=True))
            clean(lib.sub(a, b) ^ (a - b))
            clean(lib.less(a, b, depth=6) ^ (a < b))
            return x
        self.assertEqual(sums.check(), 66)

    def test_quotients(self) -> None:
        @oracle
        def quotient(a: Bits[6], b: Bits[6]):
            q, rest = lib.divmod(a, b)
            require((b == 0) | ((q * b + widen(rest, 12) == widen(a, 12)) & (rest < b)))
            return q
        self.assertEqual(quotient.check(), 1)

    def test_boxes(self) -> None:
        @oracle
        def boxes(x: Bits[8]):
            clean(lib.aes_sbox_inverse(lib.aes_sbox(x)) ^ x)
            clean(lib.aes_sbox(x, low_depth=True) ^ table(x, AES))
            return x
        self.assertEqual(boxes.check(), 16)


REFUSED = [
    (lambda a, b: lib.aes_sbox(a[:4]), "aes_sbox(this value): a number of 8 bits is wanted"),
    (lambda a, b: lib.ascon_sbox([a, b]), "ascon_sbox: 5 words are wanted, or a number of 5 bits, and not 2"),
    (lambda a, b: lib.keccak_chi(a), "keccak_chi: a row has an odd number of places from 3 up, and not 8"),
    (lambda a, b: lib.keccak_chi([a, b[:4], b]), "keccak_chi: words of one width are wanted, or a number"),
    (lambda a, b: lib.add(a, b, depth=2), "add: a depth of 2 is less than there is: give 4 or more"),
    (lambda a, b: lib.less(a, b, depth="low"), 'less: a depth is "log", which is log2 n + 1, or a number from 1 up'),
    (lambda a, b: lib.divmod(7, b), "divmod(7, `b`): give the number a width: Const(7, n)"),
    (lambda a, b: lib.mod_add(a, b, 300), "mod_add: `a` has 8 bits, and numbers below 300 have 9"),
    (lambda a, b: lib.mod_add(a, b[:7], 100), "both sides have one width of so many bits or more"),
    (lambda a, b: lib.mod_mul(a, b, b), "mod_mul: the modulus is a number from 2 up that is known now, and not `b`"),
    (lambda a, b: lib.mod_sub(1, 2, 7), "mod_sub: of numbers that are known Python computes it"),
    (lambda a, b: lib.mod_exp(a, b, 7), "mod_exp(base, exponent, m): the base is a number that is known now"),
    (lambda a, b: lib.max(a, 7), "max: Bits are wanted, or a list of them"),
    (lambda a, b: lib.sort(a, b[:7]), "sort: all values have one width"),
    (lambda a, b: lib.max(7), "max: Bits are wanted, or a list of them"),
    (lambda a, b: lib.sort(), "sort: Bits are wanted, or a list of them"),
    (lambda a, b: lib.keccak_chi(7), "keccak_chi: words of one width are wanted, or a number"),
    (lambda a, b: lib.mod_double(lib.as_signed(a), 7), "mod_double: `a` is Signed, and numbers below 7 are not: a.as_unsigned()"),
    (lambda a, b: lib.mod_halve(a, 8), "mod_halve: modulo 8 two numbers have one double: only an odd modulus has halves"),
    (lambda a, b: lib.lookup(3, [5, 6]), "lookup(3, ..): a number that is known now takes an entry of a list"),
    (lambda a, b: lib.lookup(a, []), "lookup(..): 0 entries, and a number of 8 bits chooses among 256"),
]


class Refusals(unittest.TestCase):
    def test_each(self) -> None:
        for body, words_ in REFUSED:
            with self.assertRaises(RevcError) as refused:
                made(Case(body, AB(8), max, 0, 0))
            self.assertIn(words_, str(refused.exception))


if __name__ == "__main__":
    unittest.main()
