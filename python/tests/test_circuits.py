"""Circuits: what they cost, their pictures, their phases, and Grover's search with one."""
import math
import re
import subprocess
import sys
import unittest
from pathlib import Path
from typing import Dict, List, Tuple
from xml.etree import ElementTree

from revc import Bits, Mux, Source, load, oracle
from revc.program import plans

HERE = Path(__file__).resolve().parent
EXAMPLES = HERE.parent.parent / "examples"

Gate = Tuple[str, List[int]]


@oracle
def factors(a: Bits[8], b: Bits[8]):
    return a * b == 143


@oracle
def small(a: Bits[2], b: Bits[2]):
    return a * b == 6


def gates_of(qasm: str) -> Tuple[List[Gate], Dict[str, int], int]:
    """The gates of an OpenQASM text, each with its lines, where each register begins, and how many lines there are."""
    starts, total, gates = {}, 0, []
    for name, size in re.findall(r"qreg (\w+)\[(\d+)\];", qasm):
        starts[name], total = total, total + int(size)
    for word, places in re.findall(r"^(x|h|z|cx|ccx) ([^;]*);", qasm.replace("; h", ";\nh"), re.MULTILINE):
        gates.append((word, [starts[name] + int(i) for name, i in re.findall(r"(\w+)\[(\d+)\]", places)]))
    return gates, starts, total


def simulated(qasm: str, start: Dict[int, complex]) -> Dict[int, complex]:
    """Gates on a state: amplitudes by the bits of all lines, those that are not 0."""
    state = start
    for word, lines in gates_of(qasm)[0]:
        after: Dict[int, complex] = {}
        target, controls = lines[-1], sum(1 << i for i in lines[:-1])
        for bits, amplitude in state.items():
            if word == "h":
                sign = -1 if bits >> target & 1 else 1
                for to, part in ((bits & ~(1 << target), 1), (bits | 1 << target, sign)):
                    after[to] = after.get(to, 0) + amplitude * part / math.sqrt(2)
            elif word == "z":
                after[bits] = -amplitude if bits >> target & 1 else amplitude
            else:
                after[bits ^ (1 << target if bits & controls == controls else 0)] = amplitude
        state = {bits: amplitude for bits, amplitude in after.items() if abs(amplitude) > 1e-9}
    return state


def signs(qasm: str, inputs: int) -> List[int]:
    """For each input the sign that a kickback gives it: all inputs at once, a number of 2^inputs bits for each line."""
    gates, starts, total = gates_of(qasm)
    ones = (1 << (1 << inputs)) - 1
    flipped = []
    for output in (0, ones):
        lines = [0] * total
        for i in range(inputs):
            block = (1 << (1 << i)) - 1 << (1 << i)
            lines[i] = sum(block << at for at in range(0, 1 << inputs, 2 << i))
        before, lines[starts["outp"]] = list(lines), output
        for word, each in gates:
            if word in ("x", "cx", "ccx") and each != [starts["outp"]]:  # the X and H around it are the kickback
                on = ones
                for line in each[:-1]:
                    on &= lines[line]
                lines[each[-1]] ^= on
        flipped.append(lines[starts["outp"]] ^ output)
        assert [line for i, line in enumerate(lines) if i != starts["outp"]] == [
            line for i, line in enumerate(before) if i != starts["outp"]], "inputs and work lines come back"
    assert flipped[0] == flipped[1], "the output is XORed to what the line holds"
    return [-1 if flipped[0] >> x & 1 else 1 for x in range(1 << inputs)]


class Circuits(unittest.TestCase):
    def test_cost(self) -> None:
        cost = small.compile().cost
        counted = dict(line.split() for line in
                       subprocess.run([sys.executable, "-m", "revc", "stat", "/dev/stdin"], stdout=subprocess.PIPE,
                                      input=small.compile().real.encode(), check=True).stdout.decode().splitlines())
        self.assertEqual((cost.lines, cost.gates, cost.toffoli, cost.cx, cost.x, cost.depth),
                         tuple(int(counted[name]) for name in ("lines", "gates", "ccx", "cx", "x", "depth")))
        self.assertEqual((cost.inputs, cost.outputs, cost.borrowed, cost.t), (4, 1, 0, 7 * cost.toffoli))
        self.assertLessEqual(cost.toffoli_depth, cost.toffoli)
        self.assertIn(f"{cost.lines} lines (4 inputs, 1 output, {cost.work} work)", str(cost))

    def test_borrowed_lines(self) -> None:
        circuit = small.compile("eager", borrow=3)
        self.assertEqual(circuit.cost.borrowed, 3)
        self.assertEqual([circuit.run(a=a, b=b) for a, b in ((2, 3), (3, 3))], [1, 0])
        self.assertEqual(circuit.verify(), "verified")

    def test_verify(self) -> None:
        text = (EXAMPLES / "adder8.revs").read_text()

        @oracle
        def adder(a: Bits[8], b: Bits[8]):
            from revc import add
            return add(a, b, carry=True)
        self.assertEqual(adder.compile().verify(text), "verified")
        self.assertEqual(load(EXAMPLES / "adder8.revs").verify(adder.compile().qasm), "verified")

    def test_texts(self) -> None:
        source = load(EXAMPLES / "comparator.revs")
        self.assertEqual([width for _, width in source.params], [3, 3])
        self.assertEqual(source(*[2, 5]), 1)
        self.assertEqual(source.compile().run_many([dict(zip([n for n, _ in source.params], (3, 3)))]), [2])
        self.assertEqual(Source("main (x : bool) = true <> x").compile().run(x=0), 1)

    def test_costs(self) -> None:
        costs = small.costs(points=2)
        self.assertEqual(costs, sorted(costs, key=lambda row: (row.cost.toffoli, row.cost.lines)))
        for row in costs:
            self.assertEqual(small.compile(row.plan, lines=row.lines).cost, row.cost)
        self.assertIn("Toffoli depth", str(costs))
        self.assertTrue(set(row.plan for row in costs) <= set(plans()))
        ElementTree.fromstring(costs.draw())

    def test_pictures(self) -> None:
        circuit = small.compile()
        root = ElementTree.fromstring(circuit.draw(columns=4))
        words = [each.text for each in root if each.tag.endswith("text")]
        for name in ("a[0]", "b[1]", "small 0", "w0 0"):
            self.assertIn(name, words)
        drawn = [each for each in root if each.get("class") == "target"]
        self.assertEqual(len(drawn), circuit.cost.gates)
        self.assertLess(int(root.get("width")), int(ElementTree.fromstring(circuit.draw(columns=0)).get("width")))


class Phases(unittest.TestCase):
    def test_both_forms(self) -> None:
        circuit = small.compile()
        for form in ("kickback", "z"):
            qasm = circuit.phase(form)
            for bits in range(16):
                sign = -1 if (bits & 3) * (bits >> 2) == 6 else 1
                (after,) = simulated(qasm, {bits: 1.0}).items()
                self.assertEqual(after[0], bits)
                self.assertAlmostEqual(after[1], sign)

    def test_grover(self) -> None:
        """The search for the factors of 143: 65,536 inputs, of which four are right, in 100 rounds."""
        sign, n = signs(factors.compile().phase(), 16), 1 << 16
        amplitudes = [1 / math.sqrt(n)] * n
        for _ in range(round(math.pi / 4 * math.sqrt(n / 4) - 0.5)):
            amplitudes = [each if one > 0 else -each for each, one in zip(amplitudes, sign)]
            twice = 2 * sum(amplitudes) / n
            amplitudes = [twice - each for each in amplitudes]
        likely = {(x & 255, x >> 8) for x in range(n) if amplitudes[x] ** 2 > 0.2}
        self.assertEqual(likely, {(11, 13), (13, 11), (1, 143), (143, 1)})
        self.assertGreater(sum(amplitudes[a | b << 8] ** 2 for a, b in likely), 0.99)


if __name__ == "__main__":
    unittest.main()
