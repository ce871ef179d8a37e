"""Programs as they are compiled: a circuit, all circuits that can be had, and the best of these."""
from contextlib import suppress
from pathlib import Path
from typing import Optional, Sequence, Union

from . import program
from .circuits import Circuit
from .costs import BY, Costs, best_circuit
from .defaults import GATES, LINES, NODES, PLAN, WAY
from .errors import CircuitDiffers, GatesExceeded, LinesExceeded, Refused, RevcError, more
from .inplace import check_widths, in_place, netlist_in_place, not_inverse
from .maps import Lines
from .netlists import Netlist
from .network_files import is_network, network_text
from .program import Deadline
from .progress import Told
from .real import read_real
from .revs import Compiled, RevsText, within
from .searches import PATIENCE, gates_that_fit, lines_that_fit
from .verifying import asking, verify_in_turn, verify_netlist, verify_text


class Source(RevsText):
    """A text of Revs that is compiled: `Source("main (a : bool) = a").compile()`."""

    def compile(self, plan: str = PLAN, lines: int = LINES, gates: int = GATES, borrow: int = 0, nodes: int = NODES,
                timeout: Optional[float] = None, names: bool = False, assume: Optional[int] = None) -> Circuit:
        """A clean circuit of X, CX and Toffoli gates, proved to compute the function on every input.

        `plan` is how it is made (docs/COMMANDS.md), `lines` and `gates` are the most that it may have, `borrow` how many
        lines it may borrow. `nodes` are the most functions on which claims may rest, the first `assume` of which are taken
        for granted. After `timeout` seconds it is given up, by `TimedOut`. With `names` the files call lines after the
        parameters and results.
        """
        if assume is not None:
            return self.assuming(assume).compile(plan, lines, gates, borrow, nodes, timeout, names)
        words = ["compile", "--plan", plan, "--lines", str(lines), "--gates", str(gates), "--nodes", str(nodes)]
        words += (["--borrow", str(borrow)] if borrow else []) + self.granted
        deadline = Deadline(timeout)
        try:
            return Circuit(self, self.ask(words, deadline=deadline), words, borrow, names)
        except LinesExceeded as refusal:
            helps = lines_that_fit(self, plan, lines, gates, borrow, deadline.at_most(PATIENCE))
            raise more(refusal, helps) from None
        except GatesExceeded as refusal:
            raise more(refusal, gates_that_fit(self, plan, lines, borrow, deadline.at_most(PATIENCE))) from None
        except Refused as refusal:
            if refusal.status == program.USAGE:
                if plan not in program.plans():
                    raise RevcError(f"no plan `{plan}`: {', '.join(program.plans())}") from None
                within(lines=lines, gates=gates, borrow=borrow, nodes=nodes)
            raise

    def compile_in_place(self, inverse: Optional["Source"] = None, plan: str = PLAN, lines: int = LINES, gates: int = GATES,
                         nodes: int = NODES, timeout: Optional[float] = None) -> Netlist:
        """A circuit that ends with the outputs on the lines of the inputs, proved to do so on every input.

        The program looks for one; where it finds none, one is made of the function's circuit and that of `inverse`, which
        takes the outputs to the inputs again. Of two oracles the program is told that the inverse leads back. Outputs beyond
        the number of inputs stand on lines of their own, the register `out`. `lines` and `gates` are those of the circuit that
        is looked for, or of each of both, which are made by `plan`.
        """
        deadline = Deadline(timeout)
        if inverse is None:
            return self.found_in_place(lines, gates, nodes, deadline)
        check_widths(self.name, self.inputs, self.outputs, inverse.inputs, inverse.outputs)
        told = self.told_of(inverse)
        if told is not None:
            with suppress(Refused):  # what is wrong is said of the two circuits
                return told.found_in_place(lines, gates, nodes, deadline)
        return self.made_in_place(inverse, plan, lines, gates, nodes, deadline)

    def told_of(self, inverse: "Source") -> Optional["Source"]:
        """The same program with claims that the inverse leads back, where it can be written: of a text alone it cannot."""
        return None

    def made_in_place(self, inverse: "Source", plan: str, lines: int, gates: int, nodes: int, deadline: Deadline) -> Netlist:
        """The circuit in place that is made of two circuits, and proved by `verify`."""
        one = self.compile(plan, lines, gates, 0, nodes, deadline.left())
        back = PLAN if plan == "compact" else plan  # whose outputs are added to the inputs
        circuit = in_place(one, inverse.compile(back, lines, gates, 0, nodes, deadline.left()))
        try:
            self.verify(circuit, nodes, timeout=deadline.left(), inplace=True)
        except CircuitDiffers as refusal:
            raise not_inverse(self.name, refusal) from None
        return circuit

    def found_in_place(self, lines: int, gates: int, nodes: int, deadline: Deadline) -> Netlist:
        """The circuit of `compile --outputs inputs`."""
        words = ["compile", "--outputs", "inputs", "--lines", str(lines), "--gates", str(gates), "--nodes", str(nodes)]
        listed = read_real(self.ask(words + self.granted, deadline=deadline).decode())
        return netlist_in_place(self.params, self.outputs - self.inputs, listed)

    def verify(self, circuit: Union[Circuit, Netlist, Compiled, str], nodes: int = NODES, borrow: int = 0, by: str = WAY,
               timeout: Optional[float] = None, lines: Optional[Lines] = None, inplace: bool = False,
               assume: Optional[int] = None) -> str:
        """Prove that a circuit computes this on every input: a compiled one, a `Netlist`, or the text of a file.

        `lines` say which lines of the circuit stand for a parameter or a result, as {"a": "q[0:4]", "out": "q[4]"}, where
        `out` is all results and `borrowed` lines that hold anything. Without it they are found by these names, or stand in
        the order of `verify`. An output may stand on the line of an input. With `inplace` all take the place of the inputs, in
        order, and those beyond their number stand on the lines behind them. The first `assume` claims are taken for granted:
        only inputs on which they hold are looked at.
        """
        if assume is not None:
            return self.assuming(assume).verify(circuit, nodes, borrow, by, timeout, lines, inplace)
        asks = asking(nodes, by, timeout, inplace)
        if inplace and lines is not None:
            raise RevcError("inplace=True: the lines stand in order, so there is no map of them")
        if inplace and isinstance(circuit, (str, Netlist)):
            return verify_in_turn(self, circuit, borrow, asks)
        if isinstance(circuit, str):
            return verify_text(self, circuit, lines, borrow, asks)
        if isinstance(circuit, Netlist) or isinstance(circuit, Circuit) and lines is not None:
            return verify_netlist(self, circuit.netlist, lines, borrow, asks)
        return super().verify(circuit, nodes, borrow, by, timeout, inplace)

    def costs(self, plans: Optional[Sequence[str]] = None, points: int = 6, by: str = BY, progress: Told = None,
              timeout: Optional[float] = None) -> Costs:
        """All that can be had: for each plan from the least lines up, each circuit that no other beats.

        `by` is the count that comes first: "toffoli", "toffoli_depth", "depth", "lines", "gates" or "t". `points` are the
        circuits between the most lines and the least. `progress` is called with a `Step` at each compilation. After
        `timeout` seconds the table has what was found until then.
        """
        return Costs(self, plans, points, by, progress, timeout)

    def best(self, by: str = BY, lines: int = LINES, toffoli: Optional[int] = None, plans: Optional[Sequence[str]] = None,
             points: int = 6, progress: Told = None, timeout: Optional[float] = None, **most: int) -> Circuit:
        """The circuit of the least `by`, as `costs` finds it, on at most `lines` lines and of at most `toffoli` gates.

        Other counts are limited by their names, as `depth=100`. After `timeout` seconds it is the best until then.
        """
        within(lines=lines)
        most.update({"lines": lines}, **({} if toffoli is None else {"toffoli": toffoli}))
        return best_circuit(self, by, most, plans, points, progress, timeout)


def load(path: Union[str, Path], library: Union[str, Path, None] = None) -> Source:
    """The program of Revs in a file, or that of a netlist: BLIF (`.blif`) or an and-inverter graph (`.aag`, `.aig`).

    `library` is the file of the cells to which a netlist in BLIF is mapped, in the form `genlib`; yosys's own are known.
    """
    try:
        if is_network(path):
            return Source(network_text(path, library), Path(path).stem)
        return Source(Path(path).read_text(), Path(path).stem)
    except (OSError, UnicodeDecodeError) as error:
        raise RevcError(f"{path} is no text of Revs: {error}") from None
