"""Circuits in place, of a function's circuit and one of its inverse (Bennett, Logical reversibility of computation, 1973).

The outputs are computed beside the inputs; the inverse, computed from them, clears the inputs; and the outputs move onto
their lines. An output that is the input of its own place stays where it is.
"""
from typing import List, Sequence, Set, Tuple

from .circuits import Circuit
from .errors import RevcError, WidthError
from .gates import Gate
from .line_names import lines_by_role
from .maps import OUT
from .netlists import Netlist
from .real import GateList
from .revs import Named
from .transforms import flip, moved


def in_place(circuit: Circuit, inverse: Circuit) -> Netlist:
    """The circuit that takes the inputs of one to its outputs, on the same lines; further outputs stand on lines behind."""
    inputs, outputs = circuit.source.inputs, circuit.source.outputs
    further = outputs - inputs
    kept = {line for line in range(inputs)
            if is_copied(circuit.gates, line, inputs + line) and is_copied(inverse.gates, line, outputs + line)}
    moving = [line for line in range(inputs) if line not in kept]
    work = len(moving) + max(circuit.cost.work, inverse.cost.work)
    beside = {line: outputs + at for at, line in enumerate(moving)}  # where an output waits for its line
    stands = [beside.get(line, line) for line in range(outputs)]
    rest = list(range(outputs + len(moving), outputs + work))
    forward = moved(without(circuit.gate_list.gates, {inputs + line for line in kept}),
                    [*range(inputs), *stands, *rest[:circuit.cost.work]])
    backward = moved(without(inverse.gate_list.gates, {outputs + line for line in kept}),
                     [*stands, *range(inputs), *rest[:inverse.cost.work]])
    moves = [gate for line in moving for gate in (flip(beside[line], line), flip(line, beside[line]))]
    gates = tuple(forward + backward + moves)
    return Netlist(names_in_place(circuit.source.params, further, work), gates, "-" * inputs + "0" * (further + work))


def names_in_place(params: Named, further: int, work: int) -> Tuple[str, ...]:
    """The names of the lines: of the parameters, of the outputs beyond the number of inputs, and of work lines."""
    return tuple(lines_by_role(params, [(OUT, further)] if further else [], work, 0))


def netlist_in_place(params: Named, further: int, listed: GateList) -> Netlist:
    """The circuit of a file that has its outputs in place."""
    work = len(listed.marks) - sum(width for _, width in params) - further
    return Netlist(names_in_place(params, further, work), tuple(listed.gates), listed.marks)


def is_copied(gates: Sequence[Sequence[int]], line: int, target: int) -> bool:
    """Whether all that touches a line is one CX onto it from another one."""
    return [list(gate) for gate in gates if target in gate] == [[line, target]]


def without(gates: Sequence[Gate], targets: Set[int]) -> List[Gate]:
    return [gate for gate in gates if targets.isdisjoint(gate.targets)]


def check_widths(name: str, inputs: int, outputs: int, inverse_inputs: int, inverse_outputs: int) -> None:
    """Refuses a function that has no circuit in place, and an inverse that does not fit."""
    if outputs < inputs:
        raise WidthError(f"`{name}` has {inputs} inputs and only {outputs} outputs: in place each input line ends as an output")
    if (inverse_inputs, inverse_outputs) != (outputs, inputs):
        raise WidthError(f"the inverse of `{name}` takes its {outputs} output bits and returns its {inputs} input bits: this "
                         f"one takes {inverse_inputs} and returns {inverse_outputs}")


def not_inverse(name: str, error: RevcError) -> RevcError:
    return RevcError(f"`inverse` does not lead back from what `{name}` puts out: {error}")
