"""Texts: the author's names, functions, what outer values they may use, and that no name is caught by another one."""
import unittest
from random import Random
from typing import Any, Callable

from revc import Bits, Const, Oracle, clean, function, oracle, require

M = 255


@function
def added(a, b, k=3):
    return a + b + k


@function
def twice(p, q, n):
    for _ in range(n):
        p, q = added(p, q), p ^ q
    return {"p": p, "q": [q, p[0]]}


def twice_on_numbers(p: int, q: int, n: int) -> Any:
    for _ in range(n):
        p, q = p + q + 3 & M, p ^ q
    return p, q


class Texts(unittest.TestCase):
    def compare(self, function_: Oracle, wanted: Callable[..., Any]) -> None:
        random = Random(3)
        rows = [{name: random.getrandbits(width) for name, width in function_.params} for _ in range(30)]
        self.assertEqual(function_.compile().run_many(rows), [wanted(**row) for row in rows], function_.text)

    def test_names(self) -> None:
        @oracle
        def names(key: Bits[8], text: Bits[8]):
            s = key ^ text
            low, high = s.split(4)
            total = [low]
            total[0] = low & high
            s = s + 1
            return s, total[0]
        for line in ("let s = xor8 key text;", "let low = s.[0..3];", "let high = s.[4..7];", "let total = and4 low high;",
                     "let s_2 = add8 s "):
            self.assertIn(line, names.text)
        self.assertEqual(names.out, [("s_2", 8), ("total", 4)])

    def test_one_function_for_one_text(self) -> None:
        @oracle
        def twice_added(a: Bits[8], b: Bits[8]):
            return added(added(a, b), b), added(a, b, 4)
        self.assertEqual(twice_added.text.count("let added"), 2)  # one for 3, and one for 4
        self.compare(twice_added, lambda a, b: (a + b + 3 + b + 3 & M, a + b + 4 & M))

    def test_unused_values_leave_no_line(self) -> None:
        @oracle
        def quotient(a: Bits[8], b: Bits[8]):
            unused = a * b
            return a ^ b
        self.assertNotIn("unused", quotient.text)

    def test_words_and_functions_as_names(self) -> None:
        @oracle
        def words(reg: Bits[8], O: Bits[8], clean: Bits[8]):
            add8 = reg + O
            let = add8 ^ clean
            zeros8 = let - O
            I = zeros8 & 15
            append = I | 3
            rotate = append.rotate_left(1)
            xor8 = rotate ^ reg
            main = xor8 + let
            return main

        def wanted(reg: int, O: int, clean: int) -> int:
            let = reg + O & M ^ clean
            append = let - O & 15 | 3
            return ((append << 1 | append >> 7) & M ^ reg) + let & M
        self.compare(words, wanted)

    def test_outer_values_that_change(self) -> None:
        @oracle
        def outer(a: Bits[8], b: Bits[8]):
            k = a

            @function
            def f(x):
                return x + k
            y = f(b)
            k = b
            z = f(y)
            return y, z
        self.compare(outer, lambda a, b: (a + b & M, a + b + b & M))

    def test_local_names_like_outer_ones(self) -> None:
        @oracle
        def hides(x: Bits[8], y: Bits[8]):
            @function
            def f(y):
                x_ = y + 1
                t = x_ ^ x
                return t
            x1 = f(y)
            return f(x1)
        self.compare(hides, lambda x, y: ((y + 1 & M ^ x) + 1 & M) ^ x)

    def test_results_in_lists_and_dicts(self) -> None:
        @oracle
        def nested(a: Bits[8], b: Bits[8]):
            r = twice(a, b, 2)
            s = twice(r["p"], r["q"][0], 2)
            u = twice(r["p"], r["q"][0], 3)
            return s["p"], s["q"][0], u["q"][1]

        def wanted(a: int, b: int) -> Any:
            p, q = twice_on_numbers(a, b, 2)
            return twice_on_numbers(p, q, 2) + (twice_on_numbers(p, q, 3)[0] & 1,)
        self.compare(nested, wanted)

    def test_functions_of_little(self) -> None:
        @function
        def same(x):
            return x

        @function
        def five():
            return Const(5, 8)

        @function
        def lowest(x: Bits[8]):
            return x[0]

        @function
        def second(x, y):
            return ~y

        @oracle
        def little(a: Bits[8], b: Bits[8]):
            return same(a) + five(), lowest(b), same(b[3]), second(a, b), five(), a, a, Const(2, 2), b[1:3]
        self.compare(little, lambda a, b: (a + 5 & M, b & 1, b >> 3 & 1, ~b & M, 5, a, a, 2, b >> 1 & 3))

    def test_functions_called_like_operations(self) -> None:
        @function
        def add8(x, y):
            return x - y

        @oracle
        def first(a: Bits[8], b: Bits[8]):
            return add8(a, b) + b, a + b

        @oracle
        def then(a: Bits[8], b: Bits[8]):
            t = a + b
            return add8(t, b), t
        self.compare(first, lambda a, b: (a, a + b & M))
        self.compare(then, lambda a, b: (a, a + b & M))

    def test_local_names_like_later_operations(self) -> None:
        @function
        def g(x):
            mul8_8 = x + 1
            eq16 = mul8_8 ^ 3
            return eq16 * mul8_8 == 77

        @oracle
        def late(a: Bits[8], b: Bits[8]):
            return g(a), a * b == 7, g(b)

        def on_number(x: int) -> int:
            return int((x + 1 & M) * (x + 1 & M ^ 3) == 77)
        self.compare(late, lambda a, b: (on_number(a), int(a * b == 7), on_number(b)))

    def test_other_letters_and_long_names(self) -> None:
        @oracle
        def letters(α: Bits[8], ß_lange: Bits[8]):
            größe = α + ß_lange
            a_name_that_is_so_long_that_the_language_does_not_take_it_and_so_it_has_to_be_cut = größe ^ 1
            return a_name_that_is_so_long_that_the_language_does_not_take_it_and_so_it_has_to_be_cut + größe

        def wanted(**given: int) -> int:
            total = given["α"] + given["ß_lange"] & M
            return (total ^ 1) + total & M
        self.compare(letters, wanted)

    def test_an_oracle_in_another_one(self) -> None:
        @oracle
        def inner(a: Bits[8]):
            return a + 1

        @oracle
        def outer(a: Bits[8]):
            return inner(inner(a))
        self.assertEqual(outer.text.count("let inner"), 1)
        self.compare(outer, lambda a: a + 2 & M)

    def test_claims(self) -> None:
        @function
        def claimed(x, y):
            require((x + y) - y == x)
            return x ^ y

        @oracle
        def claims(a: Bits[8], b: Bits[8]):
            claimed(a, b)  # its result is not used, its claim is
            clean((a ^ b) ^ (b ^ a))
            total = a + b
            clean(total - b ^ a)
            return total
        self.assertEqual(claims.check(), 17)
        self.compare(claims, lambda a, b: a + b & M)

    def test_many_steps(self) -> None:
        @oracle
        def deep(a: Bits[8], b: Bits[8]):
            x = a
            for i in range(150):
                x = x ^ b ^ (a + i)
            return x + sum([a, b, a])

        def wanted(a: int, b: int) -> int:
            x = a
            for i in range(150):
                x ^= b ^ (a + i & M)
            return x + a + b + a & M
        self.compare(deep, wanted)

    def test_parameters_with_defaults_are_known(self) -> None:
        @oracle
        def rounds(a: Bits[4], count=3):
            for _ in range(count):
                a = a + 1
            return a
        self.assertEqual(rounds(a=1), 4)
        self.assertEqual(rounds.params, [("a", 4)])


if __name__ == "__main__":
    unittest.main()
