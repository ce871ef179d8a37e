"""A foreign judge of compiled files: ABC's `cec` decides whether a circuit does, for all inputs, what a netlist says.

The netlists are those of examples/, some of ABC's generators, and random ones. examples/from_blif makes programs of
them; a file that was compiled of one is written as a netlist too, each gate a net, and has to have the outputs of the
first, its own inputs, zeros on its work lines, and its borrowed lines unchanged.
"""
import itertools
import re
import shutil
import subprocess
from pathlib import Path
from random import Random
from tempfile import TemporaryDirectory
from typing import Dict, Iterator, List, Sequence, Tuple

ABC = "berkeley-abc"  # as Debian names it
EXAMPLES = Path(__file__).resolve().parent.parent / "examples"
FROM_BLIF = EXAMPLES / "from_blif"
GENERATED = ["-a -N 2", "-a -N 5", "-m -N 3", "-s -N 5", "-e -N 2", "-b -N 3", "-n -N 5", "-r -N 5"]
RANDOM = 40
ORDERS = [["--plan", plan, "--format", form] for plan in ("auto", "eager", "pebble") for form in ("real", "qasm")]
ORDERS += [["--plan", "eager", "--borrow", "2"], ["--plan", "pebble", "--borrow", "1", "--format", "qasm"]]
REGISTERS = {"inp": "x", "outp": "y", "work": "w", "dirty": "b"}
ROWS = {1: ["0 1"], 2: ["01 1", "10 1"], 3: ["0-1 1", "-01 1", "110 1"]}  # of a flip of the last line


def is_installed() -> bool:
    return shutil.which(ABC) is not None


def judged(program: str, orders: List[List[str]], seed: int) -> Iterator[Tuple[str, str, List[List[str]]]]:
    """A title of each netlist, its program, and those of the words of `compile` under which the judge finds another
    file."""
    random = Random(seed)
    with TemporaryDirectory() as folder:
        netlists = [(file.name, file.read_text()) for file in sorted(EXAMPLES.glob("*.blif"))]
        netlists += [("gen " + options, generated(folder, options)) for options in GENERATED]
        netlists += [("netlist %d of seed %d" % (number, seed), random_netlist(random)) for number in range(RANDOM)]
        for title, netlist in netlists:
            text = output_of([str(FROM_BLIF)], netlist)
            files = [(order, output_of([program, "compile"] + order, text)) for order in orders]
            yield title, text, [order for order, file in files if not is_equal(folder, netlist, file)]


def is_strict(program: str) -> bool:
    """Whether the judge finds out a file that lacks its last gate."""
    with TemporaryDirectory() as folder:
        netlist = generated(folder, GENERATED[0])
        file = output_of([program, "compile"], output_of([str(FROM_BLIF)], netlist))
        lines = file.splitlines(True)
        return is_equal(folder, netlist, file) and not is_equal(folder, netlist, "".join(lines[:-2] + lines[-1:]))


def output_of(words: List[str], text: str, check: bool = True) -> str:
    return subprocess.run(words, input=text, stdout=subprocess.PIPE, check=check, universal_newlines=True).stdout


def is_equal(folder: str, netlist: str, file: str) -> bool:
    """Whether a file does what a netlist says."""
    lines, gates = circuit_of(file)
    names = ["%s/%s.blif" % (folder, kind) for kind in ("wanted", "found")]
    for name, text in zip(names, (wanted(netlist, lines), found(lines, gates))):
        Path(name).write_text(text)
    return "Networks are equivalent" in output_of([ABC, "-c", "cec " + " ".join(names)], "", check=False)


# ---- Netlists


def generated(folder: str, options: str) -> str:
    """A netlist of ABC's own, which reads and writes it once more to have it flat."""
    made, flat = folder + "/made.blif", folder + "/flat.blif"
    output_of([ABC, "-c", "gen %s %s; read %s; write_blif %s" % (options, made, made, flat)], "")
    return Path(flat).read_text()


def random_netlist(random: Random) -> str:
    """Tables of at most four inputs, over inputs and earlier tables."""
    inputs = ["i%d" % number for number in range(random.randint(1, 6))]
    nets, tables = list(inputs), []
    for number in range(random.randint(1, 12)):
        operands = random.sample(nets, min(len(nets), random.choice([0, 1, 1, 2, 2, 2, 3, 4])))
        value, rows = random.choice("01"), random_rows(random, len(operands))
        nets.append("t[%d]" % number)
        tables += [".names " + " ".join(operands + nets[-1:])] + [(row + " " + value).strip() for row in rows]
    outputs = sorted(set(random.choice(nets[len(inputs):]) for _ in range(random.randint(1, 4))))
    head = [".model random", ".inputs " + " ".join(inputs), ".outputs " + " ".join(outputs)]
    return "\n".join(head + tables + [".end", ""])


def random_rows(random: Random, inputs: int) -> List[str]:
    """Rows of a table, as ABC takes them: some, where it has inputs, and not such that each word fits one."""
    if not inputs:
        return [""] * random.randint(0, 1)
    rows = ["".join(random.choice("01-") for _ in range(inputs)) for _ in range(random.randint(1, 4))]
    rows = [row for row in rows if set(row) != {"-"}] or ["1" * inputs]
    words = list(itertools.product("01", repeat=inputs))
    while all(any(fits(row, word) for row in rows) for word in words):
        rows.pop()
    return rows


def fits(row: str, word: Sequence[str]) -> bool:
    return all(wanted_bit in ("-", bit) for wanted_bit, bit in zip(row, word))


def named_in(netlist: str, word: str) -> List[str]:
    """The names behind a word of a netlist's head."""
    lines = netlist.replace("\\\n", " ").splitlines()
    return [name for line in lines if line.startswith(word + " ") for name in line.split()[1:]]


# ---- Files as netlists


def circuit_of(file: str) -> Tuple[List[str], List[List[str]]]:
    """The lines of a compiled file, named as in a `.real` file, and the lines of each gate, its target last."""
    if file.startswith(".version"):
        words = [line.split() for line in file.splitlines()]
        lines = next(line[1:] for line in words if line[0] == ".variables")
        return lines, [line[1:] for line in words if re.match(r"t[123]\Z", line[0])]
    sizes = re.findall(r"^qreg (\w+)\[(\d+)\];$", file, re.MULTILINE)
    lines = [REGISTERS[name] + str(place) for name, size in sizes for place in range(int(size))]
    gates = [line for line in file.splitlines() if re.match(r"(x|cx|ccx) ", line)]
    return lines, [[REGISTERS[name] + place for name, place in re.findall(r"(\w+)\[(\d+)\]", gate)] for gate in gates]


def head(title: str, lines: List[str]) -> List[str]:
    inputs = [line for line in lines if line[0] in "xb"]
    return [".model " + title, ".inputs " + " ".join(inputs), ".outputs " + " ".join(line.upper() for line in lines)]


def wanted(netlist: str, lines: List[str]) -> str:
    """What a clean circuit on these lines does: the netlist's model, with nets around it."""
    inputs, outputs = named_in(netlist, ".inputs"), named_in(netlist, ".outputs")
    nets = ["%s=x%d" % (name, place) for place, name in enumerate(inputs)]
    nets += ["%s=Y%d" % (name, place) for place, name in enumerate(outputs)]
    text = head("wanted", lines) + [".subckt %s %s" % (named_in(netlist, ".model")[0], " ".join(nets))]
    text += [".names %s %s\n1 1" % (line, line.upper()) for line in lines if line[0] in "xb"]
    text += [".names " + line.upper() for line in lines if line[0] == "w"]
    return "\n".join(text + [".end", "", netlist])


def found(lines: List[str], gates: List[List[str]]) -> str:
    """What the gates do: each makes a new net of its target."""
    nets: Dict[str, str] = {line: line for line in lines}
    text = head("found", lines) + [".names " + line for line in lines if line[0] in "yw"]
    for number, gate in enumerate(gates):
        text += [".names %s g%d" % (" ".join(nets[line] for line in gate), number)] + ROWS[len(gate)]
        nets[gate[-1]] = "g%d" % number
    text += [".names %s %s\n1 1" % (nets[line], line.upper()) for line in lines]
    return "\n".join(text + [".end", ""])
