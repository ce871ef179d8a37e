"""Circuits in the form of other tools, made at random, and what they do, without the package.

A circuit is a list of operations on numbered lines. `written` puts it into the words of one tool; `ran` is Python's own
run of it, on a number whose bit i is line i.
"""
from random import Random
from typing import Callable, Dict, List, NamedTuple, Sequence, Tuple

SIZES = {"x": 1, "cx": 2, "ccx": 3, "c3x": 4, "c4x": 5, "swap": 2, "cswap": 3}


class Op(NamedTuple):
    word: str
    lines: Tuple[int, ...]


def random_ops(random: Random, lines: int, count: int, words: Sequence[str] = tuple(SIZES)) -> List[Op]:
    fitting = [word for word in words if SIZES[word] <= lines]
    return [Op(word, tuple(random.sample(range(lines), SIZES[word]))) for word in random.choices(fitting, k=count)]


def ran(ops: Sequence[Op], bits: int) -> int:
    for word, lines in ops:
        if word.endswith("swap"):
            *controls, low, high = lines
            if all(bits >> line & 1 for line in controls) and (bits >> low ^ bits >> high) & 1:
                bits ^= 1 << low | 1 << high
        elif all(bits >> line & 1 for line in lines[:-1]):
            bits ^= 1 << lines[-1]
    return bits


class Registers(NamedTuple):
    """Two registers, `first` of so many lines and the rest of them."""

    first: int
    lines: int

    def name(self, line: int) -> str:
        return f"a[{line}]" if line < self.first else f"sum[{line - self.first}]"

    def names(self, lines: Sequence[int]) -> str:
        return ",".join(map(self.name, lines))


def blocks(ops: Sequence[Op], size: int) -> List[List[Op]]:
    return [list(ops[at:at + size]) for at in range(0, len(ops), size)]


def definition(name: str, ops: Sequence[Op], sign: str) -> Tuple[str, List[int]]:
    """A gate of operations, and the lines on which it is called."""
    lines = sorted({line for op in ops for line in op.lines})
    body = " ".join(f"{op.word} {','.join(sign + str(lines.index(line)) for line in op.lines)};" for op in ops)
    return f"gate {name} {','.join(sign + str(i) for i in range(len(lines)))} {{ {body} }}", lines


def qiskit2(ops: Sequence[Op], size: Registers) -> str:
    """As Qiskit writes OpenQASM 2: gates that the author named are defined first, and others in them."""
    head = ["OPENQASM 2.0;", 'include "qelib1.inc";']
    calls = []
    for number, block in enumerate(blocks(ops, 3)):
        text, lines = definition(f"step{number}", block, "q")
        head.append(text)
        if number % 3 == 1:  # a gate in a gate, with an angle that it does not use
            own = ",".join(f"q{i}" for i in range(len(lines)))
            head.append(f"gate gate_{number}(param0) {own} {{ step{number} {own}; }}")
            calls.append(f"gate_{number}(pi/2) {size.names(lines)};")
        else:
            calls.append(f"step{number} {size.names(lines)};")
    return "\n".join([*head, f"qreg a[{size.first}];", f"qreg sum[{size.lines - size.first}];", f"creg meas[{size.lines}];",
                      *calls, "barrier a[0],sum[0];", "id a[0];", ""])


def qiskit3(ops: Sequence[Op], size: Registers) -> str:
    """As Qiskit writes OpenQASM 3, and with controls as people write them."""
    head, calls = ["OPENQASM 3.0;", 'include "stdgates.inc";'], []
    for number, block in enumerate(blocks(ops, 2)):
        if number % 2:
            text, lines = definition(f"circuit_{number}", block, "_gate_q_")
            head.append(text)
            calls.append(f"circuit_{number} {size.names(lines)};")
        for word, lines in ([] if number % 2 else block):
            controls = len(lines) - (2 if word.endswith("swap") else 1)
            target = "swap" if word.endswith("swap") else "x"
            front = {0: "", 1: "ctrl @ "}.get(controls, f"ctrl({controls}) @ ")
            calls.append(f"{front}{target} {size.names(lines)};")
    return "\n".join([*head, f"bit[{size.lines}] meas;", f"qubit[{size.first}] a;", f"qubit[{size.lines - size.first}] sum;",
                      *calls, "barrier a, sum;", ""])


def inverted3(ops: Sequence[Op], size: Registers) -> str:
    """OpenQASM 3 by hand: aliases, `inv @` of the gates backwards, and negative controls between X gates."""
    calls = []
    text, lines = definition("backwards", ops[::-1], "t")
    for op in ops[:2]:
        if op.word in ("cx", "ccx"):  # twice with the first control negative undoes itself
            first, *rest = op.lines
            call = f"negctrl @ {'ctrl @ ' * (len(rest) - 1)}x all[{first}], {', '.join(f'all[{line}]' for line in rest)};"
            calls += [call, f"x all[{first}];", f"{op.word} {size.names(op.lines)};", f"x all[{first}];"]
    return "\n".join(["/* by hand */ OPENQASM 3;", 'include "stdgates.inc";', text, f"qubit[{size.first}] a;",
                      f"qubit[{size.lines - size.first}] sum; // the rest", "let all = a ++ sum;", *calls,
                      f"inv @ backwards {size.names(lines)};", ""])


def cirq(ops: Sequence[Op], size: Registers) -> str:
    """As Cirq writes OpenQASM 2: comments, and one register."""
    swaps = {"c3x": "mcx", "c4x": "mcx"}
    calls = [f"{swaps.get(word, word)} {','.join(f'q[{line}]' for line in lines)};" for word, lines in ops]
    return "\n".join(["// Generated from Cirq v1.3.0", "", "OPENQASM 2.0;", 'include "qelib1.inc";', "", "",
                      f"// Qubits: [{', '.join(map(str, range(size.lines)))}]", f"qreg q[{size.lines}];", "", "",
                      "\n\n".join(calls), ""])


def revlib(ops: Sequence[Op], size: Registers) -> str:
    """As RevLib has its files."""
    names = [f"x{line}" for line in range(size.lines)]
    gates = [f"{'f' if word.endswith('swap') else 't'}{len(lines)} {' '.join(names[line] for line in lines)}"
             for word, lines in ops]
    return "\n".join(["# a random circuit", ".version 1.0", f".numvars {size.lines}", f".variables {' '.join(names)}", ".begin",
                      *gates, ".end", ""])


def wide_by_phases(controls: int) -> str:
    """A definition `wide` of an X with controls, as Qiskit writes it where OpenQASM 2 has none: H around the phases of all
    parities, which come to a Z."""
    lines = [f"q{i}" for i in range(controls + 1)]
    body = [f"h {lines[-1]};"]
    for subset in range(1, 1 << len(lines)):
        some = [line for i, line in enumerate(lines) if subset >> i & 1]
        onto = [f"cx {line},{some[-1]};" for line in some[:-1]]
        body += [*onto, f"p({'-' * (len(some) % 2 == 0)}pi/{1 << controls}) {some[-1]};", *onto]
    return f"gate wide {','.join(lines)} {{ {' '.join([*body, f'h {lines[-1]};'])} }}"


TOOLS: Dict[str, Callable[[Sequence[Op], Registers], str]] = {
    "Qiskit, OpenQASM 2": qiskit2, "Qiskit, OpenQASM 3": qiskit3, "by hand, OpenQASM 3": inverted3, "Cirq": cirq,
    "RevLib": revlib}
