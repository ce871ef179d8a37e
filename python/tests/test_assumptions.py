"""Claims that are taken for granted: only the inputs on which they hold are looked at."""
import unittest

from revc import Bits, ClaimFails, CircuitDiffers, Refused, RevcError, Source, U4, assume, oracle, require

NO_INPUT = 20
GRANTED = Source("main (a : bool) (b : bool) = { assert a; clean (b && (true <> a)); a && b }")
COPY = ".version 2.0\n.numvars 3\n.variables a b y\n.begin\nt2 b y\n.end\n"  # right where a is 1
ONE = COPY.replace("t2 b y", "t1 y")


@oracle
def added(a: U4, b: U4):
    assume(a < 8)
    assume(b < 8)
    total = a + b
    require(total < 15)
    return total


class Assumptions(unittest.TestCase):
    def test_oracles_pass_their_number(self) -> None:
        self.assertEqual((added.assumed, added.check()), (2, 3))
        circuit = added.compile("eager")
        self.assertEqual((circuit.verify(), circuit.run(a=7, b=7)), ("verified", 14))
        with self.assertRaises(ClaimFails) as caught:
            added.check(assume=1)
        self.assertEqual((caught.exception.number, added.assignment(caught.exception.inputs)), (2, "a=0 b=8"))
        with self.assertRaises(ClaimFails):
            added(a=9, b=0)

    def test_texts_are_given_one(self) -> None:
        self.assertEqual(GRANTED.check(assume=1), 2)
        self.assertEqual(GRANTED.verify(COPY, assume=1), "verified")
        with self.assertRaises(ClaimFails):
            GRANTED.verify(COPY)
        with self.assertRaises(CircuitDiffers) as caught:
            GRANTED.verify(ONE, assume=1)
        self.assertEqual((caught.exception.line, caught.exception.inputs), (3, "10"))
        self.assertEqual(GRANTED.compile("eager", assume=1).verify(), "verified")
        with self.assertRaisesRegex(RevcError, "assume=4097: a number from 0 to 4,096"):
            GRANTED.check(assume=4097)

    def test_no_input_is_left(self) -> None:
        @oracle
        def never(a: U4):
            assume(a < 3)
            assume(a > 5)
            return a
        with self.assertRaisesRegex(Refused, "no input meets the assumptions\neach input breaks one") as caught:
            never.check()
        self.assertEqual(caught.exception.status, NO_INPUT)

    def test_called_by_another_oracle(self) -> None:
        """What an oracle takes for granted, its caller proves."""
        @oracle
        def small(a: U4):
            return added(a & 7, a >> 1)

        @oracle
        def large(a: U4):
            return added(a, a)
        self.assertEqual((small.assumed, small.check()), (0, 3))
        with self.assertRaises(ClaimFails):
            large.check()

    def test_they_come_first(self) -> None:
        def late(a: U4) -> Bits:
            require(a == a)
            assume(a < 3)
            return a
        with self.assertRaisesRegex(RevcError, "stands behind a claim"):
            oracle(late)


if __name__ == "__main__":
    unittest.main()
