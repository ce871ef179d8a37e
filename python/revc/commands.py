"""What each command of `python3 -m revc` does, and the words that it takes."""
import argparse
import sys
from typing import Any, Callable, Dict, List, NoReturn, Optional, Tuple

from .circuit_texts import FILES, ending_of
from .circuits import Circuit
from .costs import BY, COUNTS
from .counting import depths, t_gates
from .defaults import DEFAULTS
from .drawing import COLUMNS
from .equality import equal
from .errors import RevcError
from .files import circuit_text, converted, format_of, is_circuit, numbers, on_circuit, source_of, write
from .maps import by_left, lines_from, pairs_of
from .netlists import Netlist, read_text
from .phases import FORMS, angle_of
from .verifying import asking, verify_text


def compiled(options: argparse.Namespace) -> Circuit:
    source = source_of(options.program)
    return source.compile(options.plan, options.lines, options.gates, options.borrow, options.nodes, options.timeout,
                          options.names, options.assume or None)


def in_place(options: argparse.Namespace) -> Netlist:
    if options.borrow or options.names:
        raise RevcError("--inplace: the lines have the names of the parameters, and none is borrowed")
    source = source_of(options.program).assuming(options.assume or None)
    return source.compile_in_place(lines=options.lines, gates=options.gates, nodes=options.nodes, timeout=options.timeout)


def do_compile(options: argparse.Namespace) -> None:
    if options.output and options.output.endswith(".svg"):
        raise RevcError(f"{options.output}: `draw` makes pictures")
    form = format_of(options.output, options.format, "real")
    circuit = in_place(options) if options.inplace else compiled(options)
    write(getattr(circuit, form), options.output)
    sys.stderr.write(str(circuit.cost) + "\n")


def do_costs(options: argparse.Namespace) -> None:
    if options.output:
        ending_of(options.output, (".csv", ".json", ".svg"), "costs are written")
    tables = [source_of(each).costs(options.plan or None, options.points, options.by, timeout=options.timeout)
              for each in options.programs]
    if options.json or options.csv:
        sys.stdout.write((tables[0].json if options.json else tables[0].csv)(*tables[1:]))
    else:
        for table in tables:
            print((f"{table.name}\n" if len(tables) > 1 else "") + str(table))
    if options.output:
        tables[0].save(options.output, *tables[1:])


def do_check(options: argparse.Namespace) -> None:
    print(f"claims {source_of(options.program).check(options.nodes, options.timeout, options.assume or None)}")


def do_ands(options: argparse.Namespace) -> None:
    print(source_of(options.program).ands(options.nodes, options.timeout, options.assume or None))


def do_run(options: argparse.Namespace) -> None:
    if is_circuit(options.program) and "=" not in "".join(options.numbers):
        sys.stdout.write(on_circuit(["run", *options.numbers], circuit_text(options.program), options.program))
        return
    if is_circuit(options.program):
        netlist = read_text(circuit_text(options.program), options.program)
        answer: Any = netlist.run(lines_from(options.map), **numbers(options.numbers))
    else:
        answer = source_of(options.program)(**numbers(options.numbers))
    rows = answer if isinstance(answer, dict) else {"out": answer}
    print("\n".join(f"{name}={value}" for name, value in rows.items()))


def do_stat(options: argparse.Namespace) -> None:
    text = circuit_text(options.circuit)
    counted = on_circuit(["stat"], text, options.circuit)
    plain = read_text(text, options.circuit).split()  # wide gates and swaps count as `convert` splits them
    gates = [gate.lines for gate in plain.gates]
    sys.stdout.write(f"{counted}toffoli_depth {depths(gates, plain.lines)[1]}\nt {t_gates(gates)}\n")


def do_verify(options: argparse.Namespace) -> None:
    source = source_of(options.program).assuming(options.assume or None)
    lines = lines_from(options.map) or None
    if options.inplace:
        text, borrow = circuit_text(options.circuit), options.borrow
        print(source.verify(text, options.nodes, borrow, options.by, options.timeout, lines, inplace=True))
        return
    asks = asking(options.nodes, options.by, options.timeout)
    print(verify_text(source, circuit_text(options.circuit), lines, options.borrow, asks, options.circuit))


def do_equal(options: argparse.Namespace) -> None:
    one, other = (read_text(circuit_text(path), path) for path in (options.circuit, options.other))
    print(equal(one, other, by_left(pairs_of(options.map)), options.zeros, options.nodes, options.by, options.timeout))


def do_convert(options: argparse.Namespace) -> None:
    form = format_of(options.output, options.format, "qasm")
    write(converted(circuit_text(options.circuit), form, options.circuit), options.output)


def do_tidy(options: argparse.Namespace) -> None:
    form = format_of(options.output, options.format, "qasm")
    write(converted(circuit_text(options.circuit), form, options.circuit, vars(options)["for"]), options.output)


def do_draw(options: argparse.Namespace) -> None:
    format_of(options.output, None, "svg", (".svg",), "a picture is written")
    if is_circuit(options.file):
        write(read_text(circuit_text(options.file), options.file).draw(columns=options.columns), options.output)
    else:
        write(source_of(options.file).compile(options.plan, options.lines).draw(columns=options.columns), options.output)


def do_phase(options: argparse.Namespace) -> None:
    form = format_of(options.output, options.format, "qasm", FILES[1:], "a phase oracle is written")
    write(compiled(options).phase(options.form, angles(options.weights), 3 if form == "qasm3" else 2), options.output)


def angles(words: Optional[str]) -> Optional[List[float]]:
    """`pi/4, 0.5` as angles in radians."""
    if words is None:
        return None
    return [float(angle) for angle in map(angle_of, words.split(","))]


def do_text(options: argparse.Namespace) -> None:
    format_of(options.output, None, "revs", (".revs",), "a program is written")
    write(source_of(options.program).text, options.output)


# ---- Words


class Parser(argparse.ArgumentParser):
    """Says what was wrong in the words, and which help says more."""
    commands: Dict[str, "Parser"] = {}

    def error(self, message: str) -> NoReturn:
        sys.stderr.write(f"{self.prog}: {message}\n{self.prog} --help says what it takes\n")
        sys.exit(2)

    def option(self, name: str) -> None:
        """An option of the table of defaults."""
        about = DEFAULTS[name]
        kind = int if isinstance(about.usual, int) else str
        self.add_argument("--" + name, type=kind, default=about.usual, metavar=name[0].upper(),
                          help=f"{about.says}: {about.range} ({about.usual})")

    def options(self, *names: str) -> None:
        for name in names:
            self.option(name)

    def timeout(self) -> None:
        self.add_argument("--timeout", type=float, metavar="S", help="give up after so many seconds")

    def output(self, what: str) -> None:
        self.add_argument("-o", "--output", help=what + "; standard output where none is named")

    def form(self) -> None:
        self.add_argument("--format", choices=["real", "qasm", "qasm3"], help="of standard output; a file's name says it")
        self.output("the .real, .qasm or .qasm3 (OpenQASM 3) file")

    def map(self, about: str) -> None:
        self.add_argument("--map", default="", metavar="MAP", help=about)

    def inplace(self) -> None:
        self.add_argument("--inplace", action="store_true", help="the outputs end on the lines of the inputs, in order")

    def names(self) -> None:
        self.add_argument("--names", action="store_true", help="call lines after the parameters and results")


Command = Callable[[argparse.Namespace], None]
Taking = Callable[[Parser], None]


def takes_compile(one: Parser) -> None:
    one.options("plan", "lines", "gates", "borrow", "nodes", "assume")
    one.timeout()
    one.inplace()
    one.names()
    one.form()


def takes_costs(one: Parser) -> None:
    one.add_argument("programs", nargs="+", metavar="program")
    one.add_argument("--plan", action="append", help="this plan alone (may be repeated)")
    one.add_argument("--points", type=int, default=6, help="circuits between the least lines and the most (6)")
    one.add_argument("--by", choices=list(COUNTS), default=BY, help=f"the count that comes first ({BY})")
    one.timeout()
    one.add_argument("--json", action="store_true", help="the rows as JSON")
    one.add_argument("--csv", action="store_true", help="the rows as a table with commas")
    one.add_argument("-o", "--output", help="the .csv or .json file, or a picture, .svg")


def takes_check(one: Parser) -> None:
    one.options("nodes", "assume")
    one.timeout()


def takes_verify(one: Parser) -> None:
    one.options("nodes", "borrow", "by", "assume")
    one.timeout()
    one.inplace()
    one.map("which line is which bit of the program: \"q[0:4]=a, q[4]=out\"; `borrowed` are lines that hold anything")


def takes_equal(one: Parser) -> None:
    one.options("nodes", "by")
    one.timeout()
    one.map("which line of the first is which of the second: \"q[0:4]=a, q[4]=b\"; names, or the order, without it")
    one.add_argument("--zeros", default="", metavar="LINES", help="registers that start at 0: \"work, out\"")


def takes_numbers(one: Parser) -> None:
    one.add_argument("numbers", nargs="+", metavar="NAME=NUMBER or BITS")
    one.map("names for lines of a circuit: \"q[0:4]=a, q[4]=out\"")


def takes_tidy(one: Parser) -> None:
    one.option("for")
    one.form()


def takes_draw(one: Parser) -> None:
    one.options("plan", "lines")
    one.add_argument("--columns", type=int, default=COLUMNS,
                     help=f"gates side by side, then it goes on below ({COLUMNS})")
    one.output("the .svg file")


def takes_phase(one: Parser) -> None:
    one.options("plan", "lines", "gates", "borrow", "nodes", "assume")
    one.timeout()
    one.names()
    one.add_argument("--form", choices=FORMS, help="run it once (kickback), or twice around a Z (z)")
    one.add_argument("--weights", metavar="ANGLES", help="the angle for each output bit that is 1: \"pi/4, pi/2\"")
    one.add_argument("--format", choices=["qasm", "qasm3"], help="of standard output; a file's name says it")
    one.output("the .qasm or .qasm3 file")


def takes_nothing(one: Parser) -> None:
    pass


# Each command: its name, what does it, what is said of it, its files, and its options.
COMMANDS: List[Tuple[str, Command, str, Tuple[str, ...], Taking]] = [
    ("compile", do_compile, "write the clean circuit of a program, and say what it costs", ("program",), takes_compile),
    ("costs", do_costs, "show what all can be had: plans, and lines from the least that fits up", (), takes_costs),
    ("check", do_check, "prove the claims of a program for all inputs", ("program",), takes_check),
    ("ands", do_ands, "count the ANDs of a program, and those that are enough for it", ("program",), takes_check),
    ("run", do_run, "run a program or a circuit on numbers (a=3 b=5), or a circuit on bits", ("program",), takes_numbers),
    ("stat", do_stat, "count lines, gates, depths and T gates of a circuit", ("circuit",), takes_nothing),
    ("verify", do_verify, "prove that a circuit computes a program on every input", ("program", "circuit"),
     takes_verify),
    ("equal", do_equal, "prove that two circuits end with the same bits, whatever their lines start with",
     ("circuit", "other"), takes_equal),
    ("convert", do_convert, "write a circuit by X, CX and CCX gates alone", ("circuit",), Parser.form),
    ("tidy", do_tidy, "the same with gates taken out that cancel, and short runs of CX gates", ("circuit",), takes_tidy),
    ("draw", do_draw, "draw a program's circuit, or a circuit's file, as SVG", ("file",), takes_draw),
    ("phase", do_phase, "write OpenQASM that turns the phase by the output, the sign where it is 1", ("program",),
     takes_phase),
    ("text", do_text, "write the text of Revs that a file of Python stands for", ("program",),
     lambda one: one.output("the .revs file")),
]


def parser(about: str) -> Parser:
    """The parser of all words. `about` is what is said of the whole, in two paragraphs."""
    description, more, *_ = about.split("\n\n")
    top = Parser(prog="revc", description=description, epilog=more, formatter_class=argparse.RawDescriptionHelpFormatter)
    top.add_argument("--version", action="store_true", help="say which package this is, and which program it calls")
    commands = top.add_subparsers(dest="command", metavar="COMMAND", parser_class=Parser)
    top.commands = commands.choices
    for name, does, help_, files, taking in COMMANDS:
        one = commands.add_parser(name, help=help_, description=help_[0].upper() + help_[1:] + ".")
        one.set_defaults(does=does)
        for file in files:
            one.add_argument(file)
        taking(one)
    return top
