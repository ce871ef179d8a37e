"""What is refused, with the words that help."""
import re
import unittest
from typing import Any, Callable, Dict, List

from revc import (Bits, Cat, Const, GatesExceeded, Mux, Oracle, Refused, RevcError, Source, Switch, function, oracle, require,
                  table, widen)
from revc.refusals import explain


def trace(body: Callable[..., Any], widths: Dict[str, int]) -> Any:
    """The oracle of a function whose parameters have these widths."""
    body.__annotations__ = {name: Bits[width] for name, width in widths.items()}
    return oracle(body)


AB, A8, A4 = dict(a=8, b=16), dict(a=8), dict(a=4)

# What an author writes, the widths, and the words of the refusal.
WRITTEN: List[Any] = [
    (lambda a, b: a + b, AB, "`a` + `b`: `a` has 8 bits and `b` 16: widen(a, 16) or b[:8]"),
    (lambda a, b: (a ^ 1) == b, AB, "this value == `b`: this value has 8 bits and `b` 16: widen((..), 16) or b[:8]"),
    (lambda a: a + 300, A8, "300 does not fit in the 8 bits of `a`: widen(a, 9)"),
    (lambda a: a - 200 + -129, A8, "-129 does not fit in the 8 bits of this value: widen((..), 9)"),
    (lambda a: a == -1, A8, "`a` == -1: Bits are numbers from 0 up; as_signed(..) of revc.lib has those below"),
    (lambda a: a if a == 3 else a + 1, A8, "is known only when the circuit runs: use Mux(c, x, y) for `if`"),
    (lambda a: a[0] and a[1], A8, "& for `and`"),
    (lambda a: 3 < a < 9, A8, "(a < b) & (b < c) for `a < b < c`"),
    (lambda a: a in [1, 2], A8, "(x == a) | (x == b) for `x in [a, b]`"),
    (lambda a: 3 in a, A8, "`in` asks for a known answer: use (x == a) | (x == b)"),
    (lambda a: [1, 2, 3][a], A8, "`a` is no number of Python's: use Switch or table for an entry that a value chooses"),
    (lambda a: int(a), A8, "`a` is no number of Python's"),
    (lambda a: {a: 3}, A8, "`a` is no key: Switch(x, {0: .., 1: ..}) chooses by a value"),
    (lambda a: a[a], A8, "`a` is no place that is known now: use Switch, or (`a` >> `a`)[0]"),
    (lambda a: a[8], A8, "`a` has 8 bits: it has no place 8"),
    (lambda a: a[2:9], A8, "`a` has 8 bits: it has no place 8"),
    (lambda a: a[3:3], A8, "`a` has 8 bits: [3:3] takes none"),
    (lambda a: a.put(8, 1), A8, "`a` has 8 bits: it has no place 8"),
    (lambda a: a.split(3), A8, "`a` has 8 bits, which are no words of 3"),
    (lambda a: a << 1.5, A8, "`a` << 1.5: a shift is a whole number from 0 up, or Bits"),
    (lambda a: a.rotate_left("1"), A8, "`a` rotated by '1': a whole number or Bits is wanted"),
    (lambda a: 3 << a, A8, "3 shifted by `a`: give the number a width: Const(3, n)"),
    (lambda a: divmod(a, a), A8, "divmod(`a`, `a`): only by a number that is known now"),
    (lambda a: 7 // a, A8, "7 by `a`: only by a number that is known now: by a value revc.lib has divmod(Const(7, n), a)"),
    (lambda a: a % 0, A8, "divmod(`a`, 0): by a whole number from 1 up"),
    (lambda a: a / 3, A8, "`a` / ..: Bits are whole numbers: use // or divmod"),
    (lambda a: a ** 2, A8, "`a` ** 2: write x * x"),
    (lambda a: a * -3, A8, "`a` * -3: a constant factor is a whole number from 0 up"),
    (lambda a: a + "1", A8, "'1' is neither Bits nor a whole number"),
    (lambda a: Mux(a, a, a), A8, "Mux(a, ..): the choice is one bit and not 8: take a.any()"),
    (lambda a: Mux(True, a, a), A8, "Mux(True, ..): the choice is a bit of the circuit"),
    (lambda a: Mux(a[0], 1, 2), A8, "Mux(.., 1, 2): give one of the numbers a width: Const(1, n)"),
    (lambda a: Switch(a, {0: a, 1: a + 1}), A4, "Switch: there is no case for 2; None: .. is for all others"),
    (lambda a: Switch(a, {16: a, None: a}), A4, "Switch: `a` has 4 bits and is never 16"),
    (lambda a: table(a, [1, 2, 3]), A4, "table(`a`, ..): 3 entries, and a number of 4 bits chooses among 16: pad it, values + "
                                        "[0] * 13, or say what all others are, Switch(a, {.., None: 0})"),
    (lambda a: table(a, [1] * 17), A4, "17 entries, and a number of 4 bits chooses among 16: give it 5 bits, widen(a, 5)"),
    (lambda a: table(a, [1] * 15 + [a]), A4, "table(`a`, ..): entries are numbers that are known now"),
    (lambda a: table(a, [9] * 16, 3), A4, "table: 9 does not fit in 3 bits"),
    (lambda a: Cat(a, 1), A4, "Cat(.., 1, ..): give the number a width: Const(1, n)"),
    (lambda a: widen(a, 3), A4, "widen(a, 3): it has 4 bits: a[:3] takes the lowest"),
    (lambda a: Const(9, 3), A4, "9 does not fit in 3 bits: it takes 4"),
    (lambda a: require(a), A4, "require(`a`): one bit is claimed: a comparison, or .all()"),
    (lambda a: Bits[8](3), A4, "Bits[8] is a type: write Const(value, 8) for a number"),
    (lambda a: Cat([a] * 2000), A4, "a value of 8000 bits: a register has at most 4,096 places"),
    (lambda a: 5, A4, "returns 5, which is no Bits: give a number its width, Const(5, n)"),
    (lambda a: None, A4, "returns nothing: it wants a `return`"),
    (lambda a: Cat([a] * 300), A4, "returns 1200 bits: a circuit has at most 1,024 outputs"),
    (lambda a: a, dict(a=1025), "have 1025 bits: a circuit has at most 1,024 inputs"),
    (lambda a, b: a, A4, "`b` of `<lambda>` has no width: write b: Bits[8]"),
    (lambda *a: a, {}, "`*a` of `<lambda>`: a circuit has a fixed number of inputs"),
    (lambda: Const(1, 1), {}, "`<lambda>` has no parameter: a circuit has at least one input"),
]

# A text of Revs, the program's own message, and the words that it gets.
TEXTS = [
    ("main (a : bool) (b : bool) = a & b", "revc: 1:32 BadByte", "AND is `&&`"),
    ("main (a : bool) = { let t = a\n  t }", "revc: 2:5 Syntax", "a `;` is missing behind `main (a : bool) = { let t = a`"),
    ("revs 2 main (a : bool) = {\n  let t = true <> a // NOT\n  let u = t && a;\n  u }", "revc: 3:3 Syntax",
     "a `;` is missing behind `let t = true <> a` in line 2"),
    ("main (a : bool[2]) = { for i in 0 .. 1 do { a.[i]; }; a }", "revc: 1:24 Syntax",
     "a text with loops begins with `revs 2`"),
    ("main (a : bool) (b : bool) = a + b", "revc: 1:32 Syntax", "bits have no sum: write the adder as a loop"),
    ("main (a : bool) = a <>", "revc: 1:23 Syntax", "the text may not end here"),
    ("main (a : bool) = b", "revc: 1:19 Unbound", "nothing has this name here: bind it by `let`"),
    ("main (a : bool) = not a", "revc: 1:19 Unbound", "NOT of a is `true <> a`"),
    ("main (a : bool) = a a", "revc: 1:21 NotFunction", "is a `;`, a `<>` or a `&&` missing before it?"),
    ("main (a : bool[3]) = a.[3]", "revc: 1:23 Index", "places are counted from 0"),
    ("main (a : bool[3]) = a && a", "revc: 1:22 NotBit", "of a register take a place, as `r.[0]`"),
    ("main (a : bool) (a : bool) = a", "revc: 1:18 TwoParams", "two parameters have this name"),
    ("main (a : bool[2000]) = a.[0]", "revc: 1:7 Inputs", "all parameters together at most 1,024"),
    ("main (a : bool) = { clean a; a <> a }", None, "use it before its `clean`"),
    ("main (a : bool, b : bool) = a && b", "revc: 1:15 BadByte", "each parameter has brackets of its own: main (a : bool) (b"),
    ("main (a) = a", "revc: 1:8 Syntax", "a parameter says its type: (a : bool), or (a : bool[8])"),
    ("main (a : int) = a", "revc: 1:11 Syntax", "the types are `bool`, and `bool[8]` of 8 bits"),
    ("let f x = x; main (a : bool) = f a", "revc: 1:1 Syntax", "a text begins with `main (a : bool) = ..`"),
    ("main (a : bool[3]) = a[0]", "revc: 1:23 Syntax", "a place of a register is written with a dot: a.[0]"),
    ("main (a : bool[3]) = a.[0:1]", "revc: 1:26 Syntax", "a slice is a.[0..3], with both of its ends"),
    ("main (a : bool[3]) = { a.[0] = a.[1]; a }", "revc: 1:30 Syntax", "an assignment is written `<-`, as a.[0] <- b;"),
    ("main (a : bool) = { c = a; c }", "revc: 1:23 Syntax", "and a new name `let`, as let c = b;"),
    ("main (a : bool) = { let c = 3; a }", "revc: 1:29 Syntax", "gets its name by a loop: for c in 3 .. 3 do { .. };"),
    ("main (a : bool) = a && 1", "revc: 1:24 Syntax", "a number is no value: the bits are `true` and `false`"),
    ("main (a : bool) = reg [a, a]", "revc: 1:25 BadByte", "places of a `reg` are parted by `;`"),
    ("main (a : bool) (b : bool) = a | b", "revc: 1:32 BadByte", "OR is `a <> b <> a && b`"),
    ("main (a : bool) (b : bool) = a ^ b", "revc: 1:32 BadByte", "XOR is `<>`"),
    ("main (a : bool) = ~a", "revc: 1:19 BadByte", "NOT of a is `true <> a`"),
    ("// ä = 1, a[0]\nmain (a : bool) = { // ö\n a <> }", "revc: 3:7 Syntax", "no program has `}` here"),
    ("main (a : bool) = { let f x = f x; f a }", "revc: 1:31 Unbound", "no function calls itself; write its steps as a loop"),
    ("main (a : bool) (b : bool) = { assert (a <> b); a }", "revc: claim 1 at 1:32 fails on 00",
     "the claim does not hold on a=0 b=0, the least input that breaks it"),
]


GLOBAL = """@oracle
def global_one(a: Bits[4]):
    return global_one(a) + 1
"""


class Written(unittest.TestCase):
    def test_each(self) -> None:
        for body, widths, words in WRITTEN:
            with self.assertRaises(RevcError, msg=words) as refused:
                trace(body, widths)
            self.assertIn(words, str(refused.exception))

    def test_bits_outside_of_an_oracle(self) -> None:
        with self.assertRaisesRegex(RevcError, "Bits are made inside a function marked @oracle"):
            Const(3, 8) + Const(4, 8)

    def test_values_do_not_change(self) -> None:
        with self.assertRaisesRegex(RevcError, r"write x = x.put\(place, bit\), or Cat of its parts, for `a`"):
            @oracle
            def assigned(a: Bits[8]):
                a[0] = 1
                return a

    def test_values_of_others(self) -> None:
        kept: List[Any] = []

        @function
        def keeps(x):
            y = x + 1
            kept.append(y)
            return y
        with self.assertRaisesRegex(RevcError, "`y` belongs to `keeps` and is used in `uses`: give it as an argument"):
            @oracle
            def uses(a: Bits[8]):
                keeps(a)
                return kept[0]
        with self.assertRaisesRegex(RevcError, "`y` belongs to `keeps` and is used in `other`"):
            @oracle
            def other(b: Bits[8]):
                return b + kept[0]

    def test_arguments_of_functions(self) -> None:
        @function
        def narrow(x: Bits[4]):
            return x
        with self.assertRaisesRegex(RevcError, "`x` of `narrow` has 4 bits, and `a` 8"):
            @oracle
            def wide(a: Bits[8]):
                return narrow(a)

    def test_widths_without_a_number(self) -> None:
        with self.assertRaisesRegex(RevcError, r"`a: Bits` has no width: write a: Bits\[8\]"):
            @oracle
            def no_width(a: Bits):
                return a
        with self.assertRaisesRegex(RevcError, "a width is a number from 1 to 4,096"):
            Bits[0]


@oracle
def factors(a: Bits[4], b: Bits[4]):
    return a * b == 15


class OfThePackage(unittest.TestCase):
    def refused(self, words: str, call: Callable[[], Any]) -> None:
        with self.assertRaises(RevcError) as refused:
            call()
        self.assertIn(words, str(refused.exception))

    def test_numbers(self) -> None:
        self.refused("a=16 does not fit in 4 bits: 0 to 15", lambda: factors(a=16, b=1))
        self.refused("no number for `b`: `factors` has a: Bits[4], b: Bits[4]", lambda: factors(a=1))
        self.refused("`factors` has no parameter `c`: it has a: Bits[4], b: Bits[4]", lambda: factors(a=1, b=1, c=1))

    def test_options(self) -> None:
        self.refused("no plan `best`: auto, eager, pebble, lean", lambda: factors.compile("best"))
        self.refused("lines=20000: a number from 1 to 16,384", lambda: factors.compile(lines=20000))
        self.refused("gates=0: a number from 1 to 4,000,000", lambda: factors.compile(gates=0))

    def test_too_few_lines(self) -> None:
        self.refused("revc: lines 13 over 12\nit takes ", lambda: factors.compile(lines=12))
        self.refused("inputs, outputs and borrowed lines alone are 9: give lines=10 or more",
                     lambda: factors.compile(lines=5))

    def test_too_few_gates(self) -> None:
        """The numbers that a refusal names are enough."""
        with self.assertRaises(GatesExceeded) as refused:
            factors.compile(gates=10)
        self.assertIn("gates that are enough on 16,384 lines: ", str(refused.exception))
        found = re.findall(r"([\d,]+) under `(\w+)`", str(refused.exception))
        self.assertEqual(found[0][1], "lean")
        self.assertGreater(len(found), 2)
        for count, plan in found:
            gates = int(count.replace(",", ""))
            self.assertLessEqual(factors.compile(plan, gates=gates).cost.gates, gates)

    def test_too_many_nodes(self) -> None:
        """More are asked for only where there are more."""
        @oracle
        def claimed(a: Bits[10], b: Bits[10]):
            require(a * b == b * a)
            return a

        @oracle
        def product(a: Bits[10], b: Bits[10]):
            return a * b
        circuit = product.compile()
        self.refused("claim 1 rests on more than 10 functions: give more, nodes=1000000", lambda: claimed.check(nodes=10))
        self.refused("more than 1,000,000 functions, the most there are: diagrams do not settle it", claimed.check)
        self.refused("come to more than 10 functions: take more nodes, up to 1,000,000 (--nodes), or by=\"both\" (--by both)",
                     lambda: product.verify(circuit, nodes=10, by="diagrams"))
        for by, says in (("diagrams", "come to more than 1,000,000 functions: take by=\"both\" (--by both), which settles most"),
                         ("both", "the most there are, and sums do not settle it either: verify smaller parts")):
            self.assertIn(says, explain("revc: circuit passes 1000000 nodes", 5, product, circuit.real, ["verify", "--by", by]))

    def test_recursion(self) -> None:
        @function
        def endless(x):
            return endless(x + 1)

        def steps(x, n):
            return steps(x, n - 1) + 1

        def counted(x, n):
            return counted(x, n - 1) + 1 if n else x

        def run(body: Callable[[Any], Any]) -> Oracle:
            @oracle
            def run(a: Bits[4]):
                return body(a)
            return run
        self.refused("`endless` calls itself without end (", lambda: run(endless))
        self.refused("return endless(x + 1)): the trace runs both sides", lambda: run(endless))
        self.refused("`steps` calls itself without end (", lambda: run(lambda a: steps(a, 3)))
        self.assertEqual(run(lambda a: counted(a, 3))(a=1), 4)

        def itself() -> None:
            @oracle
            def again(a: Bits[4]):
                return again(a) + 1
        self.refused("`again` calls itself, and is no circuit before it is traced: write its steps as a loop", itself)
        self.refused("`global_one` calls itself, and is no circuit", lambda: exec(GLOBAL, {"Bits": Bits, "oracle": oracle}))

    def test_circuits_in_place(self) -> None:
        """A circuit that computes a sum in place has too few lines, or inputs that do not end as they began."""
        @oracle
        def both(a: Bits[1], b: Bits[1]):
            return a ^ b
        in_place = ".numvars 2\n.variables x y\n.begin\nt2 x y\n.end\n"
        self.refused("Where an output stands in place of an input, say which line is which, lines={..} (--map)",
                     lambda: both.verify(in_place))
        self.assertEqual(both.verify(in_place, lines={"a": "x", "b": "y", "out": "y"}), "verified")
        self.refused("line 2, the input b, ends with the wrong bit on a=1 b=0\nan input has to end as it began",
                     lambda: both.verify(".numvars 3\n.variables a b c\n.begin\nt2 a b\nt2 b c\n.end\n"))
        self.refused("a work line has to end at 0", lambda: both.verify(
            ".numvars 4\n.variables a b c d\n.begin\nt2 a c\nt2 b c\nt2 a d\n.end\n"))

    def test_a_claim_that_fails(self) -> None:
        @oracle
        def below(a: Bits[4], b: Bits[4]):
            require((a < b) | (b < a))
            return a
        with self.assertRaises(Refused) as refused:
            below.check()
        self.assertEqual(refused.exception.status, 4)
        for words in ("fails on 00000000", "    ^", "test_refusals.py:", "require((a < b) | (b < a))",
                      "the claim does not hold on a=0 b=0"):
            self.assertIn(words, str(refused.exception))

    def test_phase_of_many_outputs(self) -> None:
        @oracle
        def two(a: Bits[2]):
            return a + 1
        self.refused("phase() is for one output bit, and `two` has 2", lambda: two.compile().phase())
        self.refused("no form `y` of a phase: kickback, z", lambda: factors.compile().phase("y"))


class OfTheProgram(unittest.TestCase):
    def test_each_text(self) -> None:
        for text, message, words in TEXTS:
            with self.assertRaises(Refused, msg=text) as refused:
                Source(text).compile()
            self.assertIn(words, str(refused.exception))
            if message:
                self.assertEqual(refused.exception.message, message)

    def test_circuits_of_others(self) -> None:
        circuit = factors.compile()

        @oracle
        def other(a: Bits[4], b: Bits[4]):
            return a * b == 14
        with self.assertRaises(Refused) as refused:
            other.verify(circuit)
        self.assertIn("the output other, ends with the wrong bit on a=", str(refused.exception))
        with self.assertRaises(Refused) as refused:
            other.verify(".numvars 2\n.variables a b\n.begin\nt2 a c\n.end\n")
        self.assertIn("    t2 a c\n    ^\nno file has this here", str(refused.exception))
        with self.assertRaises(Refused) as refused:
            other.verify(".numvars 2\n.variables a b\n.begin\n.end\n")
        self.assertIn("with a line for each input and each output it has 9 at least", str(refused.exception))


if __name__ == "__main__":
    unittest.main()
