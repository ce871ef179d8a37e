"""Circuits as values: what they do together, against programs and against each other, and the files that they write."""
import cmath
import math
import re
import unittest
from dataclasses import replace
from random import Random
from typing import Dict, List, Optional, Tuple

from foreign import TOOLS, Op, Registers, ran, random_ops
from revc import Bits, CircuitDiffers, Netlist, RevcError, Source, add, equal, oracle, read
from revc.gates import Gate
from revc.netlists import read_text
from test_files import ADDER, TWO, ran_by_gates


@oracle
def adder(a: Bits[4], b: Bits[4]):
    return add(a, b, carry=True)


@oracle
def product(x: Bits[2], y: Bits[2]):
    return x * y


@oracle
def both(c: Bits[1], v: Bits[2]):
    low = v & 1
    high = v >> 1
    return low ^ v, high[0] & c


# A product of two bits by two, made by hand: lines in any order, and a wide gate.
BY_HAND = """.version 2.0
.numvars 9
.variables y1 x0 p0 x1 p3 y0 p1 p2 k
.constants --0-0-000
.begin
t3 x0 y0 p0
t3 x0 y1 p1
t3 x1 y0 p1
t3 x1 y1 p2
t5 x0 x1 y0 y1 p2
t5 x0 x1 y0 y1 p3
.end
"""

# Maps of the Cuccaro adder that are refused: the map and what is said.
MAPS: List[Tuple[Dict[str, str], str]] = [
    ({"a": "a", "b": "b"}, "the map has no line for adder[0], adder[1]"),
    ({"a": "a", "b": "b", "out": "b[0:3], cout", "adder[3]": "b[3]"}, "`out` has 5 bits, and `b[0:3], cout` 4 lines"),
    ({"a": "q", "b": "b", "out": "b, cout"}, "the circuit has no register `q`: it has cin[1], a[4], b[4], cout[1]"),
    ({"a": "a[0:3]", "b": "b", "out": "b, cout"}, "`a` has 4 bits, and `a[0:3]` 3 lines"),
    ({"a": "a[0:5]", "b": "b", "out": "b, cout"}, "`a[0:5]`: `a` has 4 lines"),
    ({"a": "a", "b": "a", "out": "b, cout"}, "the map takes `a[0]` twice"),
    ({"a": "a", "c": "b", "out": "b, cout"}, "`adder` has no register `c`: it has a[4], b[4], adder[5], out[5]"),
    ({"a": "a[", "b": "b", "out": "b, cout"}, "`a[` is no piece of a register"),
]


def gates_of(netlist: Netlist) -> List[Tuple[int, ...]]:
    return [tuple(gate.lines) for gate in netlist.gates]


class Values(unittest.TestCase):
    def test_inverse_and_then(self) -> None:
        random = Random(8)
        ops = random_ops(random, 6, 30)
        one = read_text(TOOLS["Qiskit, OpenQASM 2"](ops, Registers(3, 6)))
        around = one.then(one.inverse())
        for bits in range(64):
            self.assertEqual(ran_by_gates(around, bits), bits)
            self.assertEqual(ran_by_gates(one.then(one), bits), ran(ops, ran(ops, bits)))

    def test_controlled(self) -> None:
        """All inputs, and controls that may be 0; the gates are split, on the other lines as they are."""
        random = Random(9)
        for count in (1, 2):
            ops = random_ops(random, 5, 12)
            one = read_text(TOOLS["Cirq"](ops, Registers(2, 5))).controlled(count)
            self.assertTrue(all(len(gate.controls) < 3 and len(gate.targets) == 1 for gate in one.gates))
            self.assertEqual(one.names[:count], ("control",) if count == 1 else ("control[0]", "control[1]"))
            for bits in range(1 << one.lines):
                met = bits & (1 << count) - 1 == (1 << count) - 1
                own = bits >> count & 31
                wanted = bits ^ (own ^ (ran(ops, own) if met else own)) << count
                self.assertEqual(ran_by_gates(one, bits), wanted, (ops, bits))

    def test_controls_stand_in_the_middle_alone(self) -> None:
        one = read_text(TWO + "ccx q[0],q[1],r[0]; cx r[0],r[1]; ccx q[0],q[1],r[0];").controlled(name="on")
        self.assertEqual(gates_of(one), [(1, 2, 5), (0, 5, 6), (1, 2, 5)])
        self.assertEqual((one.cost.lines, one.cost.toffoli, one.cost.t, one.cost.depth), (9, 3, 21, 3))

    def test_other_lines(self) -> None:
        one = read_text(ADDER).on({"a": "q[0:4]", "b": "q[4:8]"}, cin="flag")
        self.assertEqual(one.names[:3] + one.names[-1:], ("flag", "q[0]", "q[1]", "cout"))
        self.assertEqual(one.registers["q"], list(range(1, 9)))
        two = one.then(read_text(ADDER).on(a="q[4:8]", b="r", cin="flag[0]"))
        self.assertEqual(two.lines, 14)
        self.assertEqual(two.run(q=3 | 5 << 4, r=1), {"flag": 0, "q": 3 | 8 << 4, "cout": 0, "r": 9})
        for mapped, says in (({"a": "b"}, "`b[0]` and `a[0]` come both on the line `b[0]`"),
                             ({"a": "q[0:3]"}, "`a` has 4 lines, and `q[0:3]` 3"), ({"d": "q"}, "no register `d`")):
            with self.assertRaises(RevcError) as refused:
                read_text(ADDER).on(mapped)
            self.assertIn(says, str(refused.exception))

    def test_orders(self) -> None:
        """The gate for which another waits comes first, and all bits end as before."""
        one = read_text(TWO + "cx q[0],q[1]; cx q[0],r[0]; cx r[0],r[1];")
        for aim, depth in (("gates", 3), ("depth", 2), ("order", 2)):
            other = one.tidy(aim)
            self.assertEqual((other.cost.gates, other.cost.depth), (3, depth))
            self.assertEqual(equal(one, other), "equal")
        with self.assertRaises(RevcError):
            one.tidy("toffoli")

    def test_run(self) -> None:
        one = read_text(ADDER)
        self.assertEqual(one.run(a=9, b=13, cin=1), {"cin": 1, "a": 9, "b": 7, "cout": 1})
        self.assertEqual(one.run({"x": "a", "y": "b, cout"}, x=9, y=13), {"x": 9, "y": 22})
        for numbers, says in (({"a": 16}, "a=16 does not fit in 4 lines: 0 to 15"),
                              ({"d": 1}, "no register `d`: it has cin, a")):
            with self.assertRaises(RevcError) as refused:
                one.run(None, **numbers)
            self.assertIn(says, str(refused.exception))

    def test_compiled_circuits(self) -> None:
        circuit = product.compile()
        again = circuit.then(circuit.inverse())
        self.assertEqual(again.run(x=3, y=3), dict(x=3, y=3, out=0, **({"work": 0} if circuit.cost.work else {})))
        twice = circuit.on(out="sum").then(circuit.on(x="y", y="x", out="sum"))  # x * y + y * x without carries
        self.assertEqual(twice.run(x=3, y=2)["sum"], 0)
        flagged = circuit.controlled(name="flag")
        self.assertEqual([flagged.run(x=3, y=3, flag=flag)["out"] for flag in (0, 1)], [0, 9])


class AgainstPrograms(unittest.TestCase):
    def test_in_place(self) -> None:
        """The adder that leaves the sum in place of b, and four that are wrong in one line."""
        lines = {"a": "a", "b": "b", "out": "b, cout"}
        self.assertEqual(adder.verify(read_text(ADDER), lines=lines), "verified")
        self.assertEqual(adder.verify(ADDER, lines=lines), "verified")
        self.assertEqual(adder.verify(ADDER, lines={"out": "b, cout"}), "verified")  # a and b by their names
        for wrong, line in (("x a[0];", "a[0]"), ("cx a[1], cin[0];", "cin[0]"), ("ccx a[0], a[1], b[3];", "b[3]"),
                            ("x cout;", "cout")):
            with self.assertRaises(CircuitDiffers) as refused:
                adder.verify(ADDER + wrong, lines=lines)
            self.assertIn(f"the circuit calls that line `{line}`", str(refused.exception))

    def test_all_in_place(self) -> None:
        """x + 1 on the lines of x, from `.real`, OpenQASM 3 and a netlist, and wrong in one line."""
        more = Source("main (x : bool[2]) = reg [true <> x.[0]; x.[0] <> x.[1]]")
        text = ".numvars 2\n.variables x0 x1\n.begin\nt2 x0 x1\nt1 x0\n.end\n"
        qasm = 'OPENQASM 3.0;\ninclude "stdgates.inc";\nqubit[2] x;\ncx x[0], x[1];\nx x[0];\n'
        for circuit in (text, qasm, read_text(text)):
            self.assertEqual(more.verify(circuit, inplace=True), "verified")
        with self.assertRaises(CircuitDiffers) as refused:
            more.verify(text.replace("t1 x0\n", ""), inplace=True)
        self.assertIn("ends with the wrong bit on x=0", str(refused.exception))
        with self.assertRaises(RevcError) as few:
            Source("main (x : bool[2]) = x.[0]").verify(text, inplace=True)
        self.assertIn("2 inputs have only 1 outputs", str(few.exception))

    def test_maps(self) -> None:
        for lines, says in MAPS:
            with self.assertRaises(RevcError) as refused:
                adder.verify(ADDER, lines=lines)
            self.assertIn(says, str(refused.exception))

    def test_order_of_lines(self) -> None:
        """A file with the lines in any order, by a map; each place by itself, and registers backwards."""
        lines = {"x": "x", "y": "y0, y1", "out": "p0, p1, p2, p3"}
        self.assertEqual(product.verify(BY_HAND, lines=lines), "verified")
        places = {"x[1]": "x1", "x[0]": "x[0]", "y[::-1]": "y1, y0", **{f"out[{i}]": f"p{i}" for i in range(4)}}
        self.assertEqual(product.verify(BY_HAND, lines=places), "verified")
        with self.assertRaises(CircuitDiffers) as refused:
            product.verify(BY_HAND.replace("t3 x1 y0 p1", "t3 x1 y0 k"), lines=lines)
        self.assertIn("the circuit calls that line `p1`", str(refused.exception))

    def test_lines_that_start_at_1(self) -> None:
        text = ".version 2.0\n.numvars 3\n.variables a out one\n.constants -11\n.begin\nt2 a out\nt2 one out\n.end\n"
        self.assertEqual(Source("main (a : bool) = a").verify(text, lines={"a": "a", "out": "out"}), "verified")
        text_in_order = ".version 2.0\n.numvars 2\n.variables x y\n.constants -1\n.begin\nt2 x y\nt1 y\n.end\n"
        self.assertEqual(Source("main (a : bool) = a").verify(text_in_order), "verified")
        with self.assertRaises(RevcError) as refused:
            Source("main (a : bool) = a").verify(text, lines={"a": "out", "out": "a"})
        self.assertIn("`out` starts at 1 by a mark of the file", str(refused.exception))

    def test_names(self) -> None:
        """Files with registers of the parameters' names, in any order, need no map."""
        text = 'OPENQASM 3.0;\nqubit[4] out; qubit[2] y; qubit[2] x_; qubit w;\n'
        gates = ("ctrl(2) @ x x_[0], y[0], out[0]; ctrl(2) @ x x_[0], y[1], out[1]; ccx x_[1], y[0], out[1]; "
                 "ccx x_[1], y[1], out[2]; ctrl(4) @ x x_[0], x_[1], y[0], y[1], out[2]; "
                 "ctrl(4) @ x x_[0], x_[1], y[0], y[1], out[3];")
        self.assertEqual(product.verify(text + gates), "verified")
        for form in ("real", "qasm", "qasm3"):
            self.assertEqual(product.verify(getattr(product.compile(names=True), form)), "verified")

    def test_names_of_the_program(self) -> None:
        """Its files call inputs x and inp, and outputs y and outp, whatever the parameters are called."""
        @oracle
        def x(y: Bits[2]):
            return y + 1

        @oracle
        def inp(outp: Bits[2]):
            return outp + 1
        for each in (x, inp):
            circuit = each.compile()
            for text in (circuit.real, circuit.qasm, circuit.qasm3):
                self.assertEqual(each.verify(text), "verified")
            self.assertEqual(each.verify(each.compile(names=True).qasm3), "verified")

    def test_borrowed_lines(self) -> None:
        text = 'OPENQASM 3.0;\nqubit[3] q; qubit dirty; qubit t;\n'
        gates = "ccx q[0], q[1], dirty; ccx dirty, q[2], t; ccx q[0], q[1], dirty; ccx dirty, q[2], t;"
        three = Source("main (a : bool[3]) = a.[0] && a.[1] && a.[2]")
        self.assertEqual(three.verify(text + gates, lines={"a": "q", "out": "t", "borrowed": "dirty"}), "verified")
        with self.assertRaises(CircuitDiffers):
            three.verify(text + gates.rsplit("ccx", 1)[0], lines={"a": "q", "out": "t", "borrowed": "dirty"})

    def test_compiled(self) -> None:
        circuit = adder.compile()
        self.assertEqual(adder.verify(circuit, lines={"a": "a", "b": "b", "out": "out"}), "verified")
        self.assertEqual(adder.verify(circuit, lines={"a": "b", "b": "a", "out": "out"}), "verified")
        with self.assertRaises(CircuitDiffers):
            adder.verify(circuit, lines={"a": "b[::-1]", "b": "a", "out": "out"})


class AgainstEachOther(unittest.TestCase):
    def test_random_circuits(self) -> None:
        """A circuit in the forms of two tools, and one that differs in a gate."""
        random = Random(10)
        for tool in ("Qiskit, OpenQASM 3", "by hand, OpenQASM 3", "RevLib"):
            ops, size = random_ops(random, 6, 14), Registers(3, 6)
            one, other = read_text(TOOLS["Cirq"](ops, size)), read_text(TOOLS[tool](ops, size))
            self.assertEqual(equal(one, other), "equal")
            with self.assertRaises(CircuitDiffers) as refused:
                equal(one, read_text(TOOLS[tool]([*ops, Op("ccx", (1, 3, 5))], size)))
            said = str(refused.exception)
            self.assertIn("the circuits differ: `q[5]` ends with", said)
            bits = int((re.findall(r" q=(\d+)", said) or ["?"])[0])
            ends = [ran(each, bits) >> 5 & 1 for each in (ops, [*ops, Op("ccx", (1, 3, 5))])]
            self.assertIn(f"ends with {ends[0]} in the first and {ends[1]} in the second", said)

    def test_lines_of_one_alone(self) -> None:
        lean, compact = product.compile(), product.compile("compact")
        self.assertEqual(equal(read_text(lean.real), read_text(compact.real)), "equal")
        self.assertEqual(equal(lean, compact), "equal")
        self.assertEqual(equal(read_text(lean.qasm), read_text(compact.qasm), zeros="outp, work"), "equal")
        with self.assertRaisesRegex(RevcError, r"`work\[\d\]` is a line of one circuit alone, .* zeros=\"work\""):
            equal(read_text(lean.qasm), read_text(compact.qasm))
        with self.assertRaisesRegex(RevcError, "neither circuit has a register `wrk`"):
            equal(read_text(lean.qasm), read_text(compact.qasm), zeros="outp, wrk")

    def test_maps(self) -> None:
        one = read_text(TWO + "ccx q[0],q[1],r[0];")
        other = read_text("OPENQASM 3;\nqubit[4] a; qubit[3] b; qubit c;\nccx a[0], a[1], c;")
        self.assertEqual(equal(one, other, {"q": "a", "r[0]": "c", "r[1:4]": "b"}), "equal")
        with self.assertRaises(CircuitDiffers):
            equal(one, other)  # in order, r[0] is b[0]
        with self.assertRaisesRegex(RevcError, "have 8 and 2 lines, and no name in common"):
            equal(one, read_text("OPENQASM 3;\nqubit[2] a;"))

    def test_garbage_is_not_compared(self) -> None:
        head = ".version 2.0\n.numvars 3\n.variables a b c\n.constants --0\n"
        one = read_text(head + ".garbage 1--\n.begin\nt3 a b c\n.end\n")
        other = read_text(head + ".begin\nt3 a b c\nt1 a\n.end\n")
        self.assertEqual([equal(one, other), equal(other, one)], ["equal", "equal"])
        with self.assertRaises(CircuitDiffers):
            equal(other, one.then(read_text(head + ".begin\nt2 a b\n.end\n")))


def random_netlist(random: Random, names: List[str], mark_of: Dict[str, str], count: int) -> Netlist:
    """Gates with wide and negative controls on lines in any order, some of them garbage."""
    names, gates = random.sample(names, len(names)), []
    for _ in range(count):
        lines = random.sample(range(len(names)), random.randint(1, min(4, len(names))))
        targets = 2 if len(lines) > 1 and random.random() < 0.25 else 1
        controls = tuple((line, random.random() < 0.7) for line in lines[:-targets])
        gates.append(Gate(controls, tuple(lines[-targets:])))
    garbage = "".join(random.choice("-----1") for _ in names)
    return Netlist(tuple(names), tuple(gates), "".join(mark_of[name] for name in names), garbage)


def ends_of(netlist: Netlist, starts: Dict[str, int]) -> Dict[str, int]:
    """What the lines end with that are not garbage, by their names; lines of other circuits end as they start."""
    bits = ran_by_gates(netlist, sum(starts[name] << line for line, name in enumerate(netlist.names)))
    return {**starts, **{name: bits >> line & 1 for line, name in enumerate(netlist.names)}}


class AllKindsOfLines(unittest.TestCase):
    def test_equal(self) -> None:
        """Lines of both, lines of one alone, marks and garbage, against all inputs."""
        random, answers = Random(11), []
        while len(answers) < 120:
            shared = [f"a[{i}]" for i in range(random.randint(1, 4))]
            own = [[f"{name}[{i}]" for i in range(random.choice((0, 0, 1, 2)))] for name in ("w", "z")]
            mark_of = {name: random.choice("---01" if name in shared else "01") for name in shared + own[0] + own[1]}
            one = random_netlist(random, shared + own[0], mark_of, random.randint(0, 3))
            other = random_netlist(random, shared + own[1], mark_of, random.randint(0, 2))
            if not own[1] and random.random() < 0.7:
                back = other.gates[::-1] if random.random() < 0.5 else ()
                other = one.then(replace(other, gates=other.gates + back))
            free = [name for name, mark in mark_of.items() if mark == "-"]
            garbage = {name for each in (one, other) for name, mark in zip(each.names, each.garbage) if mark == "1"}
            if not free or len(garbage) == len(mark_of):
                continue
            wanted = True
            for bits in range(1 << len(free)):
                starts = {name: bits >> free.index(name) & 1 if mark == "-" else int(mark) for name, mark in mark_of.items()}
                ends = [ends_of(each, starts) for each in (one, other)]
                wanted &= all(ends[0][name] == ends[1][name] for name in mark_of if name not in garbage)
            answers.append(wanted)
            self.assertEqual(is_equal(one, other), wanted, (one.names, one.gates, other.names, other.gates))
        self.assertTrue(30 < sum(answers) < 90)


def is_equal(one: Netlist, other: Netlist) -> bool:
    try:
        return equal(one, other) == "equal"
    except CircuitDiffers:
        return False


class Files(unittest.TestCase):
    def test_forms(self) -> None:
        """Each form is read as the circuit that was written, also with controls that are wide or negative."""
        gates = ("ctrl(3) @ x q[0],q[1],q[2],q[3]; negctrl @ ctrl @ x q[0],q[1],r; ctrl @ cswap q[0],r,q[1],q[2]; "
                 "negctrl @ x r,q[3];")
        one = read_text("OPENQASM 3.0;\nqubit[4] q; qubit r;\n" + gates)
        for text in (one.qasm3, one.real, one.qasm):
            again = read_text(text)
            for bits in range(32):
                self.assertEqual(ran_by_gates(again, bits), ran_by_gates(one, bits))
        self.assertEqual(read_text(one.real).names, one.names)

    def test_names_of_registers(self) -> None:
        named = product.compile(names=True)
        self.assertIn("qreg x_[2];\nqreg y_[2];\nqreg out[4];\n", named.qasm)
        self.assertIn("qubit[2] x_;\nqubit[2] y_;\nqubit[4] out;\n", named.qasm3)
        self.assertIn(".variables x[0] x[1] y[0] y[1] out[0] ", named.real)
        self.assertIn("qubit[4] inp;\nqubit[4] outp;\n", product.compile().qasm3)
        two = both.compile(names=True)
        self.assertEqual(list(two.netlist.registers)[:4], ["c", "v"] + [name for name, _ in both.out])
        self.assertEqual(two.run_many([dict(c=1, v=3)], "qasm"), [both(c=1, v=3)])

    def test_a_file(self) -> None:
        with self.assertRaisesRegex(RevcError, "nowhere.qasm is no circuit's file"):
            read("nowhere.qasm")
        self.assertIn(">cout</text>", read_text(ADDER).draw())
        for save in (product.compile().save, read_text(ADDER).save):
            with self.assertRaisesRegex(RevcError, r"z.txt: a circuit is written as .real, .qasm"):
                save("z.txt")


def phase_of(qasm: str, bits: int) -> Optional[Tuple[int, complex]]:
    """What bits become by X gates and turns of the phase, and the phase."""
    starts: Dict[str, int] = {}
    total, phase = 0, 1 + 0j
    for three, name, two in re.findall(r"(?:qreg|qubit\[(\d+)\]) (\w+)(?:\[(\d+)\])?;", qasm):
        starts[name], total = total, total + int(three or two)
    for word, angle, places in re.findall(r"^(x|cx|ccx|z|u1|p)(?:\(([^)]*)\))? ([^;]*);", qasm, re.MULTILINE):
        lines = [starts[name] + int(i) for name, i in re.findall(r"(\w+)\[(\d+)\]", places)]
        if word in ("z", "u1", "p"):
            turn = math.pi if word == "z" else eval(angle, {"pi": math.pi})
            phase *= cmath.exp(1j * turn) if bits >> lines[0] & 1 else 1
        elif all(bits >> line & 1 for line in lines[:-1]):
            bits ^= 1 << lines[-1]
    return bits, phase


class Phases(unittest.TestCase):
    def test_weights(self) -> None:
        angles = [math.pi, math.pi / 4, 0.3, -3 * math.pi / 8]
        circuit = product.compile()
        for version in (2, 3):
            text = circuit.phase(weights=angles, version=version)
            for bits in range(16):
                out = (bits & 3) * (bits >> 2)
                end, phase = phase_of(text, bits) or (0, 0)
                self.assertEqual(end, bits)
                self.assertAlmostEqual(phase, cmath.exp(1j * sum(angle for i, angle in enumerate(angles) if out >> i & 1)))
        for words in ("z outp[0];", "u1(pi/4) outp[1];", "u1(0.3) outp[2];", "u1(-3*pi/8) outp[3];"):
            self.assertIn(words, circuit.phase(weights=angles))
        self.assertIn("p(pi/4) out[1];", product.compile(names=True).phase(weights=angles, version=3))

    def test_refusals(self) -> None:
        circuit = product.compile()
        for weights, says in (([1.0], "has 1 angles, and there are 4 output bits"), (["a", 1, 1, 1], "'a' is no angle")):
            with self.assertRaises(RevcError) as refused:
                circuit.phase(weights=weights)  # type: ignore[arg-type]
            self.assertIn(says, str(refused.exception))
        with self.assertRaisesRegex(RevcError, "of the form `z`"):
            circuit.phase("kickback", weights=[1, 1, 1, 1])


if __name__ == "__main__":
    unittest.main()
