"""A model of the circuit file: which one is written for a plan, and which ones are clean.

It is written from docs/LANGUAGE.md and docs/FORMATS.md, and shares nothing with the compiler.
"""
from itertools import chain
from typing import Callable, Iterable, List, NamedTuple, Sequence

from models.language import Program, Run
from models.plans import Plan
from models.real import Circuit, Gate

WordsOf = Callable[[int], Iterable[Sequence[int]]]  # words of so many bits

# ---- Files that are written


def written(names: Sequence[str], constants: str, garbage: str, gates: Sequence[Gate]) -> bytes:
    joined = " ".join(names)
    head = [
        ".version 2.0",
        ".numvars %d" % len(names),
        ".variables " + joined,
        ".inputs " + joined,
        ".outputs " + joined,
        ".constants " + constants,
        ".garbage " + garbage,
        ".begin",
    ]
    lines = ["t%d %s" % (len(gate.lines), " ".join(names[line] for line in gate.lines)) for gate in gates]
    return "".join(line + "\n" for line in chain(head, lines, [".end"])).encode()


def file_of(inputs: int, outputs: int, plan: Plan, borrow: int) -> bytes:
    kinds = [("x", inputs), ("y", outputs), ("w", plan.lines - inputs - outputs), ("b", borrow)]
    names = [kind + str(number) for kind, count in kinds for number in range(count)]
    constants = "-" * inputs + "0" * (plan.lines - inputs) + "-" * borrow
    return written(names, constants, "-" * len(names), plan.gates)


def converted(circuit: Circuit, gates: Sequence[Gate], added: int) -> bytes:
    names = ["l%d" % line for line in range(len(circuit.names) + added)]
    return written(names, circuit.constants + "-" * added, circuit.garbage + "-" * added, gates)


# ---- Clean files


class Roles(NamedTuple):
    """How many lines of each kind a file has."""

    inputs: int
    outputs: int
    work: int
    borrowed: int


def roles_of(names: List[bytes]) -> Roles:
    """How many of the lines are named x, y, w and b, in this order, each kind numbered from 0."""
    counts, at = [], 0
    for kind in b"xywb":
        count = 0
        while names[at : at + 1] == [b"%c%d" % (kind, count)]:
            count, at = count + 1, at + 1
        counts.append(count)
    return Roles(*counts)


def has_form(circuit: Circuit, roles: Roles) -> bool:
    """Whether a circuit has the lines of a compiled one, and no gate with more than two controls."""
    inputs, outputs, work, borrowed = roles
    return (
        sum(roles) == len(circuit.names)
        and circuit.constants == "-" * inputs + "0" * (outputs + work) + "-" * borrowed
        and set(circuit.garbage) == {"-"}
        and all(len(gate.targets) == 1 and len(gate.controls) <= 2 for gate in circuit.gates)
        and all(bit == 1 for gate in circuit.gates for _, bit in gate.controls)
    )


def is_clean(circuit: Circuit, program: Program, borrow: int, words_of: WordsOf, is_any: bool = True) -> bool:
    """Whether the circuit is a clean one with so many borrowed lines: for each word of bits, those of the inputs, of the
    output lines (or zeros there, where these may not hold anything) and of the borrowed lines, it adds the program's
    outputs to the output lines, keeps the rest of the word and leaves each work line at 0."""
    roles = roles_of(circuit.names)
    if not has_form(circuit, roles) or (roles.inputs, roles.borrowed) != (program.inputs, borrow):
        return False
    held = roles.outputs if is_any else 0
    zeros = [0] * (roles.outputs - held)
    words = map(list, words_of(roles.inputs + held + roles.borrowed))
    return all(adds_outputs(circuit, roles, program, word[: roles.inputs] + zeros + word[roles.inputs :]) for word in words)


def is_in_place(circuit: Circuit, program: Program, borrow: int, assumed: int, words_of: WordsOf) -> bool:
    """Whether the circuit has the program's outputs in place, with so many borrowed lines: for each word of bits, those of
    the inputs, on which so many of the first claims hold, and of the borrowed lines, the first outputs come on the lines
    of the inputs and the further ones on lines that hold 0, and the other lines stay as they are."""
    roles = roles_of(circuit.names)
    if not has_form(circuit, roles) or (roles.inputs, roles.borrowed) != (program.inputs, borrow):
        return False
    words = map(list, words_of(roles.inputs + roles.borrowed))
    return all(replaces_inputs(circuit, roles, program, word, assumed) for word in words)


def replaces_inputs(circuit: Circuit, roles: Roles, program: Program, word: List[int], assumed: int) -> bool:
    inputs, behind = word[: roles.inputs], [0] * roles.work + word[roles.inputs :]
    run = Run(program, inputs)
    if not all(claim.holds for claim in run.claims[:assumed]):
        return True
    outputs = [bit for bit, _ in run.outputs]
    return circuit.run(inputs + [0] * roles.outputs + behind) == outputs + behind


def adds_outputs(circuit: Circuit, roles: Roles, program: Program, word: List[int]) -> bool:
    inputs, work = word[: roles.inputs], [0] * roles.work
    held, borrowed = word[roles.inputs : roles.inputs + roles.outputs], word[roles.inputs + roles.outputs :]
    outputs = [bit for bit, _ in Run(program, inputs).outputs]
    sums = [bit ^ output for bit, output in zip(held, outputs)]
    return len(outputs) == roles.outputs and circuit.run(inputs + held + work + borrowed) == (
        inputs + sums + work + borrowed)
