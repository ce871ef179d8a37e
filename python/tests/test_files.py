"""Files of other tools: what is read of them does what they say; what is refused says what to do."""
import unittest
from random import Random
from typing import List, Tuple
from unittest import mock

from foreign import TOOLS, Op, Registers, ran, random_ops, wide_by_phases
from revc.errors import ReadError, RevcError
from revc.netlists import Netlist, read_text

# A Cuccaro adder as the OpenQASM 3 paper has it, for four bits.
ADDER = """OPENQASM 3.0;
include "stdgates.inc";
gate majority a, b, c { cx c, b; cx c, a; ccx a, b, c; }
gate unmaj a, b, c { ccx a, b, c; cx c, a; cx a, b; }
const uint n = 4;
qubit[1] cin; qubit[n] a; qubit[n] b; qubit cout;
majority cin[0], b[0], a[0];
for uint i in [0: n - 2] { majority a[i], b[i + 1], a[i + 1]; }
cx a[n - 1], cout;
for uint i in [n - 2: -1: 0] unmaj a[i], b[i + 1], a[i + 1];
unmaj cin[0], b[0], a[0];
"""
TWO = 'OPENQASM 2.0;\ninclude "qelib1.inc";\nqreg q[4];\nqreg r[4];\ncreg c[2];\n'
THREE = 'OPENQASM 3.0;\ninclude "stdgates.inc";\nqubit[4] q;\nqubit r;\nbit[2] c;\n'

# What stands behind these heads, and the gates that are read, each with its lines; -1 - i is a negative control of line i.
READ: List[Tuple[str, List[Tuple[int, ...]]]] = [
    (TWO + "cx q,r;", [(0, 4), (1, 5), (2, 6), (3, 7)]),
    (TWO + "ccx q[1],r,q[0];", [(1, 4, 0), (1, 5, 0), (1, 6, 0), (1, 7, 0)]),
    (TWO + "x q; id q; u0(1) q[0]; barrier q,r[2];", [(0,), (1,), (2,), (3,)]),
    (TWO + "CX q[0],r[0]; c3x q[0],q[1],q[2],q[3];", [(0, 4), (0, 1, 2, 3)]),
    (TWO + "mcx q[0]; mcx q[0],q[1]; mcx q[3],q[2],q[1],q[0],r[0],r[1];", [(0,), (0, 1), (3, 2, 1, 0, 4, 5)]),
    (TWO + "gate e a,b { } gate f a,b { cx b,a; e a,b; } gate g(t) a { x a; } f q[2],q[0]; g(0.5*pi) r[3];", [(0, 2), (7,)]),
    (TWO + "gate h2 a { h a; } x q[0];", [(0,)]),  # what is not called does not matter
    (THREE + "ctrl @ x q[0], r; negctrl(2) @ x q[0], q[1], q[2];", [(0, 4), (-1, -2, 2)]),
    (THREE + "ctrl @ negctrl @ cx q[0], q[1], q[2], q[3];", [(0, -2, 2, 3)]),
    (THREE + "gate both a, b { x a; x b; } ctrl(2) @ both q[3], q[2], q[1], q[0];", [(3, 2, 1), (3, 2, 0)]),
    (THREE + "gate turn a, b { cx a, b; cx b, a; } inv @ turn q[0], q[1]; pow(2) @ turn q[0], q[1];",
     [(1, 0), (0, 1), (0, 1), (1, 0), (0, 1), (1, 0)]),
    (THREE + "let a = q[1:3]; cx a[0], a[2]; x q[{0, 3}]; x q[0:2:3]; x q[-1]; cx q[0:1], q[2:3];",
     [(1, 3), (0,), (3,), (0,), (2,), (3,), (0, 2), (1, 3)]),
    (THREE + "const int[32] k = 2 * 2 - 1; for int i in {k, 1} { x q[i]; } for uint i in [1:0] { x q[i]; }", [(3,), (1,)]),
    # what is not by X gates and still permutes bits
    (TWO + "gate cc a,b,c { h c; cx b,c; tdg c; cx a,c; t c; cx b,c; tdg c; cx a,c; t b; t c; h c; cx a,b; t a; tdg b; "
     "cx a,b; } cc q[2],q[1],q[0];", [(2, 1, 0)]),
    (TWO + "gate mcphase(t) a,b,c { cp(t/2) b,c; cx a,b; cp(-t/2) b,c; cx a,b; cp(t/2) a,c; }\n"
     "gate mcx_ a,b,c { h c; mcphase(pi) a,b,c; h c; } mcx_ q[0],q[3],r[1];", [(0, 3, 5)]),
    (THREE + "gate s2 a, b { cx a, b; h a; h b; cx a, b; h a; h b; cx a, b; } s2 q[0], q[1]; ctrl @ s2 q[2], q[0], q[1];",
     [(1, 0), (0, 1), (1, 0), (1, 0), (2, 0, 1), (1, 0)]),
    # the control is not wanted on what undoes itself around the middle
    (THREE + "gate u a, b, c { cx a, b; ccx a, b, c; cx a, b; } ctrl @ u q[0], q[1], q[2], q[3];",
     [(1, 2), (0, 1, 2, 3), (1, 2)]),
]

# What is refused: the text, the line and column, and what the message says.
REFUSED: List[Tuple[str, int, int, str]] = [
    (TWO + "h q[0];", 6, 1, "`h`: it leads from the bits 0 and 1 to others"),
    (TWO + "x q[0];\nrz(pi/4) q[1];", 7, 1, "`rz`: it turns phases"),
    (TWO + "y q[0];", 6, 1, "it is an x but for a phase: write `x`"),
    (TWO + "rccx q[0],q[1],q[2];", 6, 1, "it is a ccx but for phases: write `ccx`"),
    (TWO + "gate m a,b { cx a,b; t b; }\nm q[0],q[1];", 6, 22, "`t`: it turns phases"),
    (TWO + "measure q -> c;", 6, 1, "take the measurements out (Qiskit: circuit.remove_final_measurements())"),
    (THREE + "c = measure q;", 6, 1, "take the measurements out"),
    (THREE + "bit d = measure r;", 6, 9, "take the measurements out"),
    (TWO + "reset q[0];", 6, 1, "uncompute that, or take a new line"),
    (TWO + "if (c==1) x q[0];", 6, 1, "make it a control"),
    (TWO + "opaque magic a;", 6, 1, "give it a body by `gate`"),
    (THREE + "def f(qubit a) { x a; }", 6, 1, "make it a `gate`"),
    (THREE + "while (c[0]) { x q[0]; }", 6, 1, "write its turns out"),
    (TWO + "maj q[0],q[1],q[2];", 6, 1, "`maj`: no gate of this name is known or defined before"),
    (TWO + "cx q[0];", 6, 1, "`cx` has 2 lines, and 1 stand here"),
    (TWO + "cx q[0],q[0];", 6, 1, "`q[0]` stands twice in one gate"),
    (TWO + "cx q,q[1];", 6, 1, "`q[1]` stands twice in one gate"),
    (TWO + "x q[4];", 6, 5, "the register has 4 lines and no place 4"),
    (TWO + "x s[0];", 6, 3, "`s` is no register that is declared before"),
    (TWO + "x c[0];", 6, 3, "`c` is a measured bit and no line"),
    (TWO + "qreg t[3]; cx q,t;", 6, 12, "registers of 4, 3 lines"),
    (TWO + "qreg q[3];", 6, 6, "`q` is declared twice"),
    (TWO + "qreg s[0];", 6, 8, "at least one line"),
    (TWO + "qreg s[16384];", 6, 6, "the lines pass 16,384"),
    (TWO + "x q[0]", 6, 7, "`;` is wanted here, and the end of the text stands here"),
    (TWO + "x q[0] q[1];", 6, 8, "`;` is wanted here, and `q` stands here"),
    (TWO + "gate f a { x b; }\nf q[0];", 6, 14, "`b` is no line of this definition: a"),
    (TWO + "gate f a { f a; }\nf q[0];", 6, 12, "`f` stands in its own definition"),
    (TWO + "gate f a { x a;", 6, 10, "the block that begins here has no `}`"),
    (TWO + "gate f a,b { cx a,b; }\nf q[0];", 7, 1, "`f` is defined for 2 lines, and 1 stand here"),
    (THREE + "ctrl(2) @ x q[0], q[1];", 6, 11, "`x` has 2 lines here, and 2 of them are controls"),
    (THREE + "x q[k];", 6, 5, "a number that is known is wanted here, and `k` stands here"),
    (TWO + "x q[0]; ? ", 6, 9, "no token begins with `?`"),
    ('OPENQASM 2.0;\ninclude "qelib1.inc";\n', 3, 1, "no lines are declared"),
]


def lines_of(netlist: Netlist) -> List[Tuple[int, ...]]:
    """The gates as lines, with -1 - i for a negative control."""
    return [tuple(line if bit else -1 - line for line, bit in gate.controls) + gate.targets for gate in netlist.gates]


def ran_by_gates(netlist: Netlist, bits: int) -> int:
    """What the gates that were read do, with Python's numbers."""
    for controls, targets in netlist.gates:
        if all(bits >> line & 1 == bit for line, bit in controls):
            if len(targets) == 1:
                bits ^= 1 << targets[0]
            elif (bits >> targets[0] ^ bits >> targets[1]) & 1:
                bits ^= 1 << targets[0] | 1 << targets[1]
    return bits


class Reading(unittest.TestCase):
    def test_many_gates_and_deep_ones(self) -> None:
        doubled = "gate g0 a,b { cx a,b; } " + " ".join(f"gate g{i} a,b {{ g{i - 1} a,b; g{i - 1} b,a; }}" for i in range(1, 16))
        with mock.patch("revc.qasm_gates.MOST_GATES", 5000), self.assertRaisesRegex(ReadError, "the gates pass 5,000"):
            read_text(f"{TWO}{doubled} g15 q[0],q[1];")
        with self.assertRaisesRegex(ReadError, "the gates pass 4,000,000"):
            read_text(THREE + "pow(4000) @ pow(4000) @ x q[0];")
        nested = "gate g0 a { x a; } " + " ".join(f"gate g{i} a {{ g{i - 1} a; }}" for i in range(1, 2000))
        for text in (f"{TWO}{nested} g1999 q[0];", f"{THREE}x q[{'(' * 5000}0{')' * 5000}];"):
            with self.assertRaisesRegex(ReadError, "too deep in each other here"):
                read_text(text)

    def test_each_tool(self) -> None:
        """Random circuits in the form of each tool, all inputs of up to 7 lines."""
        random = Random(72)
        for tool, write in TOOLS.items():
            for count in (1, 5, 12, 25):
                size = Registers(random.randint(2, 3), random.randint(5, 7))
                ops = random_ops(random, size.lines, count)
                netlist = read_text(write(ops, size))
                self.assertEqual(netlist.lines, size.lines)
                for bits in range(1 << size.lines):
                    self.assertEqual(ran_by_gates(netlist, bits), ran(ops, bits), (tool, ops, bits))

    def test_registers(self) -> None:
        ops = [Op("cx", (0, 4))]
        self.assertEqual(read_text(TOOLS["Qiskit, OpenQASM 3"](ops, Registers(3, 5))).registers,
                         {"a": [0, 1, 2], "sum": [3, 4]})
        self.assertEqual(read_text(TOOLS["RevLib"](ops, Registers(3, 5))).registers, {"x": [0, 1, 2, 3, 4]})
        self.assertEqual(read_text(ADDER).registers, {"cin": [0], "a": [1, 2, 3, 4], "b": [5, 6, 7, 8], "cout": [9]})

    def test_each_form(self) -> None:
        for text, wanted in READ:
            self.assertEqual(lines_of(read_text(text)), wanted, text)

    def test_wide_gates_by_phases(self) -> None:
        for controls in range(1, 6):
            lines = tuple(range(controls, -1, -1))
            text = f"{wide_by_phases(controls)}\nqreg q[6];\nwide {','.join(f'q[{line}]' for line in lines)};"
            self.assertEqual(lines_of(read_text(TWO.split("qreg")[0] + text)), [lines])

    def test_refusals(self) -> None:
        for text, line, column, words in REFUSED:
            with self.assertRaises(ReadError, msg=text) as refused:
                read_text(text, "file.qasm")
            said = str(refused.exception)
            self.assertIn(words, said)
            self.assertTrue(said.startswith(f"file.qasm:{line}:{column}: "), said)
            self.assertEqual((refused.exception.line, refused.exception.column), (line, column))
            self.assertTrue(said.endswith("^"), said)
            self.assertIsInstance(refused.exception, (RevcError, ValueError))

    def test_refusals_of_real(self) -> None:
        for variables, gate, says in (("a b", "t2 a a", "file.real: line 4: `t2 a a` has a line twice"),
                                      ("a b", "t2 a -b", "`t2 a -b` has a minus at a line that it flips or swaps"),
                                      ("a b", "t2 a c", "`c` is no line of `.variables`"), ("a b", "h1 a", "`h1 a` is no gate"),
                                      ("a a", "t1 a", "file.real: line 2: two lines have one name")):
            with self.assertRaises(RevcError) as refused:
                read_text(f".numvars 2\n.variables {variables}\n.begin\n{gate}\n.end\n", "file.real")
            self.assertIn(says, str(refused.exception))

    def test_an_adder(self) -> None:
        adder = read_text(ADDER)
        for a in range(16):
            for b in range(16):
                end = ran_by_gates(adder, a << 1 | b << 5)
                self.assertEqual(end, a << 1 | a + b << 5)


if __name__ == "__main__":
    unittest.main()
