"""Clean circuits: their files, what they cost, and what they do on numbers."""
import dataclasses
import functools
import math
from pathlib import Path
from typing import Any, Dict, List, Optional, Sequence, Union, overload

from . import program
from .circuit_texts import FILES, ending_of, qasm_text, real_text
from .counting import Cost, cost_of
from .defaults import NODES, WAY
from .drawing import COLUMNS, SHOWN_GATES, SHOWN_LINES, Drawing, Picture
from .errors import RevcError
from .line_names import lines_by_role
from .maps import OUT, Lines
from .netlists import HasNetlist, Netlist
from .phases import FORMS, computed, kickback
from .program import Deadline
from .real import GateList, read_real
from .revs import RevsText

WORDS = 100000  # letters of input words that one call of `run` gets


class Circuit:
    """A compiled circuit. `real` is its `.real` file; `print(circuit)` shows what it costs."""

    def __init__(self, source: RevsText, real: bytes, words: Sequence[str], borrowed: int = 0, names: bool = False):
        self.source, self.words, self.borrowed, self.has_names = source, list(words), borrowed, names
        self.written = real.decode()  # by the program

    def __repr__(self) -> str:
        return f"<{self.source.name}: {self.cost}>"

    def __str__(self) -> str:
        return str(self.cost)

    @functools.cached_property
    def qasm(self) -> str:
        """OpenQASM 2.0, with the registers `inp`, `outp`, `work` and `dirty`, or with `names` those of the parameters."""
        if self.has_names:
            return qasm_text(self.line_names, self.gate_list.gates)
        return self.source.ask(self.words + ["--format", "qasm"]).decode()

    @property
    def qasm3(self) -> str:
        """OpenQASM 3, with the same registers."""
        return qasm_text(self.line_names, self.gate_list.gates, 3)

    @functools.cached_property
    def real(self) -> str:
        """The `.real` file, as the program wrote it, but for the names of the lines where these were asked for."""
        if self.has_names:
            return real_text(self.line_names, self.gate_list.gates, self.gate_list.marks, "-" * self.lines)
        return self.written

    @property
    def line_names(self) -> List[str]:
        """What the lines are called in OpenQASM."""
        if self.has_names:
            return list(self.netlist.names)
        return lines_by_role([("inp", self.source.inputs)], [("outp", self.source.outputs)], self.cost.work, self.borrowed)

    @property
    def plan(self) -> str:
        return self.words[self.words.index("--plan") + 1]

    @functools.cached_property
    def gate_list(self) -> GateList:
        """The file as it is read: names and marks of the lines, and the gates."""
        return read_real(self.written)

    @functools.cached_property
    def gates(self) -> List[List[int]]:
        """The gates in order, each the list of its lines, the target last."""
        return [gate.lines for gate in self.gate_list.gates]

    @property
    def lines(self) -> int:
        return int(self.written.split(".numvars", 1)[1].split(None, 1)[0])

    @functools.cached_property
    def cost(self) -> Cost:
        return cost_of(self.gates, self.source.inputs, self.source.outputs, self.borrowed, self.lines)

    # ---- Circuits of circuits

    @functools.cached_property
    def netlist(self) -> Netlist:
        """The circuit as a value, on registers that are called after the parameters and results, `work` and `dirty`."""
        results = [(OUT, self.source.outputs)] if len(self.source.out) == 1 else self.source.out
        names = lines_by_role(self.source.params, results, self.cost.work, self.borrowed)
        return Netlist(tuple(names), tuple(self.gate_list.gates), self.gate_list.marks)

    def inverse(self) -> Netlist:
        """The circuit backwards: it takes the outputs off again."""
        own = self.source.inputs + self.source.outputs
        return dataclasses.replace(self.netlist.inverse(), marks="-" * own + self.netlist.marks[own:])

    def controlled(self, count: int = 1, name: str = "control") -> Netlist:
        """The circuit where `count` new lines in front are 1, as `Netlist.controlled`."""
        return self.netlist.controlled(count, name)

    def then(self, other: HasNetlist) -> Netlist:
        """This circuit and then another one, on lines of the same names."""
        return self.netlist.then(other)

    def on(self, lines: Optional[Lines] = None, **named: str) -> Netlist:
        """The same on lines of other names: on(a="q[0:4]", out="flag")."""
        return self.netlist.on(lines, **named)

    # ---- Running

    def run(self, *args: int, **named: int) -> Any:
        """What the circuit puts out for numbers; it is refused where it does not leave its other lines as it should."""
        return self.run_many([dict(zip([name for name, _ in self.source.params], args), **named)])[0]

    def run_many(self, rows: Sequence[Dict[str, int]], form: str = "real", timeout: Optional[float] = None) -> List[Any]:
        """The same for many rows of numbers at once, by the `.real` file or, with "qasm", by the OpenQASM one."""
        deadline = Deadline(timeout)
        loan = "".join("10"[i % 2] for i in range(self.borrowed))  # borrowed lines may hold anything
        inputs, outputs, answers = self.source.inputs, self.source.outputs, []
        zeros = "0" * (self.lines - inputs - self.borrowed)
        given = "" if form == "real" else zeros  # an OpenQASM file has no marks of the lines that start at 0
        words = [self.source.word(row) + given + loan for row in rows]
        text = (self.real if form == "real" else self.qasm).encode()
        size = max(1, WORDS // (len(words[0]) + 1)) if words else 1
        for at in range(0, len(words), size):
            some = words[at:at + size]
            found = program.call(["run", "--from", form, *some], text, deadline=deadline).decode().split()
            for word, line in zip(some, found):
                out = line[inputs:inputs + outputs]
                if line != word[:inputs] + out + zeros[outputs:] + loan:
                    raise RevcError(f"the circuit is not clean on {self.source.assignment(word[:inputs])}")
                answers.append(self.source.value(out))
        return answers

    def verify(self, text: Union[RevsText, str, None] = None, nodes: int = NODES, by: str = WAY,
               timeout: Optional[float] = None) -> str:
        """Prove that the circuit computes a program, a text of Revs or another oracle, on every input."""
        source = self.source if text is None else text if isinstance(text, RevsText) else RevsText(text)
        return source.verify(self, nodes, by=by, timeout=timeout)

    # ---- Files

    def phase(self, form: Optional[str] = None, weights: Optional[Sequence[float]] = None, version: int = 2) -> str:
        """OpenQASM that turns the phase of inputs by their output; by the sign where it is 1, as Grover's search wants it.

        `kickback`, without `weights` the usual form, runs the circuit once, with the output line in the state minus: it
        XORs the output into that line, whatever that holds, under every plan but `compact`. `z` runs it, applies Z, and
        runs it backwards. `weights`, an angle in radians for each output bit, place 0 first, turn the phase by those of the
        bits that are 1, in the form `z`. `version` is that of OpenQASM, 2 or 3.
        """
        form = form or ("kickback" if weights is None else "z")
        if form not in FORMS:
            raise RevcError(f"no form `{form}` of a phase: {', '.join(FORMS)}")
        if self.source.outputs != 1 and weights is None:
            raise RevcError(f"phase() is for one output bit, and `{self.source.name}` has {self.source.outputs}: return a "
                            "comparison, or .all(), or give each bit an angle: phase(weights=[..])")
        outputs = range(self.source.inputs, self.source.inputs + self.source.outputs)
        if form == "z":
            angles = [math.pi] if weights is None else weights
            return computed(self.line_names, self.gate_list.gates, outputs, angles, version)
        if weights is not None:
            raise RevcError("phase(weights=..) is of the form `z`: a kickback gives one sign")
        if self.plan == "compact":
            raise RevcError("the output lines of `compact` have to start at 0, and a kickback's does not: phase(\"z\"), or "
                            "another plan")
        return kickback(self.line_names, self.gate_list.gates, outputs[0], version)

    @overload
    def draw(self, path: str, columns: int = COLUMNS) -> None: ...

    @overload
    def draw(self, path: None = None, columns: int = COLUMNS) -> Picture: ...

    def draw(self, path: Optional[str] = None, columns: int = COLUMNS) -> Optional[Picture]:
        """The circuit as SVG, with the author's names, in rows of so many columns; or it is written to the file `path`."""
        picture = Drawing(self.gate_list, self.source.line_names(), columns).svg()
        return picture.write(path) if path else picture

    @property
    def is_shown(self) -> bool:
        """Whether a picture of it is of use, and not too large for a notebook."""
        return len(self.gates) <= SHOWN_GATES and self.lines <= SHOWN_LINES

    def _repr_svg_(self) -> Optional[str]:
        """What a notebook shows of a small circuit."""
        return self.draw() if self.is_shown else None

    def _repr_html_(self) -> Optional[str]:
        """What a notebook shows of a circuit that is too large for a picture: its cost."""
        return None if self.is_shown else self.cost._repr_html_()

    def save(self, path: str) -> None:
        """Write the file: `.real`, `.qasm`, `.qasm3` or `.svg` by its name."""
        kind = ending_of(path, (*FILES, ".svg"), "a circuit is written")
        Path(path).write_text(self.draw() if kind == ".svg" else getattr(self, kind[1:]))
