"""Random cases of each command: its words, and the text that it reads."""
from random import Random
from typing import List, NamedTuple, Sequence

from cases.command_words import Orders
from cases.foreign_circuits import ForeignCircuits, Lines, flip
from cases.plan_programs import Budgets
from cases.programs import Programs
from cases.qasm_files import QasmFiles
from cases.real_files import RealFiles
from cases.rows import FILE, FIVE
from models import qasm
from models.adders import adder_text
from models.claims import TooWide
from models.commands import READERS, Fault, answer_of, run_of, sizes_of, verdicts_of
from models.language import Refused as RefusedProgram
from models.real import Refused as RefusedCircuit
from models.templates import KINDS
from models.words import order_of


ASSUMED = ["1", "1", "1", "2", "2", "3", "5", "4096"]  # claims that are taken for granted
GRANTED = ["x.[%d]", "true <> x.[%d]", "true <> (x.[%d] && x.[%d])", "x.[%d] <> x.[%d]", "x.[%d] <> x.[%d] <> true"]


def some_granted(random: Random) -> List[str]:
    """Now and then words for some claims that are taken for granted."""
    return ["--assume", random.choice(ASSUMED)] if random.random() < 0.3 else []


class Reversible(NamedTuple):
    """A program that says what each flip does, of its target and its controls, on so many lines, the first of which hold
    the inputs; and words for the claims, on inputs, that it begins with."""

    text: bytes
    lines: int
    flips: List[List[int]]
    granted: List[str]


def reversible(random: Random) -> Reversible:
    inputs = random.randint(1, 4)
    lines = inputs + random.choice([0, 0, 1, 2])
    names, items = ["x.[%d]" % number for number in range(inputs)] + ["false"] * (lines - inputs), []
    for form in random.sample(GRANTED, random.choice([0, 0, 0, 1, 1, 2])):
        items.append("assert (%s);" % (form % tuple(random.randrange(inputs) for _ in range(form.count("%")))))
    granted = ["--assume", str(len(items))] if items else []
    flips = [random.sample(range(lines), min(lines, random.choice([1, 2, 3, 3]))) for _ in range(random.randint(1, 8))]
    for number, (target, *controls) in enumerate(flips):
        product = " && ".join(names[line] for line in controls) or "true"
        items.append("let g%d = %s <> (%s);" % (number, names[target], product))
        names[target] = "g%d" % number
    text = "main (x : bool[%d]) = { %s }\n" % (inputs, " ".join(items + ["reg [%s]" % "; ".join(names)]))
    return Reversible(text.encode(), lines, flips, granted)


class Case(NamedTuple):
    words: List[str]
    text: bytes


class OnPrograms:
    """A command on random programs of some kinds, each with its weight."""

    name = ""
    kinds = {}

    def __init__(self, seed: int):
        self.programs = Programs(seed)

    def case(self) -> Case:
        text, inputs = self.programs.case(self.kinds)
        return Case([self.name] + self.rest(text, inputs), text)

    def rest(self, text: bytes, inputs: int) -> List[str]:
        """The words behind the command's name: now and then some claims that are taken for granted, and a limit near to
        what the claims need."""
        granted = some_granted(self.programs.random)
        return granted + self.programs.nodes(sizes_of(text, int("".join(granted[1:]) or 0)))


class Compile(OnPrograms):
    name = "compile"
    kinds = {"claimed": 20, "unclaimed": 14, "planned": 50, "plain": 6, "loose": 3, "typed": 3, "deep": 1, "long": 1,
             "wide": 1, "limit": 1}

    def __init__(self, seed: int):
        super().__init__(seed)
        self.budgets = Budgets(self.programs.random)

    def rest(self, text: bytes, inputs: int) -> List[str]:
        """Limits near to what the claims, the lines and the gates need."""
        nodes = super().rest(text, inputs) if self.programs.chance(0.6) else []
        return nodes + (self.budgets.options(run_of(text)) if self.programs.chance(0.8) else [])


class Lean(Compile):
    """`compile --plan lean`."""

    name = "lean"

    def __init__(self, seed: int):
        super().__init__(seed)
        self.budgets = Budgets(self.programs.random, [self.name])

    def rest(self, text: bytes, inputs: int) -> List[str]:
        return self.budgets.options(run_of(text))

    def case(self) -> Case:
        words, text = super().case()
        return Case(["compile"] + words[1:], text)


class Compact(Lean):
    """`compile --plan compact`."""

    name = "compact"


class Shallow(Lean):
    """`compile --plan shallow`."""

    name = "shallow"


class InPlace:
    """`compile --outputs inputs`, on programs for which there is such a circuit, and on others."""

    name = "in_place"

    def __init__(self, seed: int):
        self.compile = Compile(seed)
        self.random = self.compile.programs.random

    def case(self) -> Case:
        placed = ["--outputs", "inputs"]
        if self.random.random() < 0.3:
            words, text = self.compile.case()
            return Case(words + placed, text)
        made = reversible(self.random)
        borrow, form = self.random.choice(["0", "0", "1", "3"]), self.random.choice(["real", "qasm"])
        return Case(["compile", "--borrow", borrow, "--format", form] + placed + made.granted, made.text)


class Check(OnPrograms):
    name = "check"
    kinds = {"claimed": 78, "typed": 12, "loose": 4, "unclaimed": 2, "plain": 1, "deep": 1, "wide": 1, "limit": 1}


class Ands(OnPrograms):
    name = "ands"
    kinds = {"typed": 60, "plain": 15, "claimed": 10, "loose": 5, "unclaimed": 5, "deep": 2, "wide": 2, "limit": 1}


class Eval(OnPrograms):
    name = "eval"
    kinds = {"typed": 60, "claimed": 20, "loose": 9, "plain": 5, "deep": 2, "long": 1, "wide": 1, "limit": 1}

    def rest(self, text: bytes, inputs: int) -> List[str]:
        return [self.programs.word(inputs)]


class Loops:
    """The commands on random programs of profile 2."""

    name = "loops"

    def __init__(self, seed: int):
        self.random, self.commands = Random(seed), [each(seed) for each in (Eval, Compile, Check)]
        for command in self.commands:
            command.kinds = {"looped": 1}

    def case(self) -> Case:
        (command,) = self.random.choices(self.commands, [2, 2, 1])
        return command.case()


class Stat:
    """A command on random circuit files of both formats, some of which were compiled."""

    name = "stat"

    def __init__(self, seed: int):
        self.real_files, self.qasm_files, self.programs = RealFiles(seed), QasmFiles(seed), Programs(seed)

    def case(self) -> Case:
        is_real = self.programs.chance(0.5)
        text, free = self.real_files.file() if is_real else self.qasm_files.file()
        if self.programs.chance(0.1):
            program = self.programs.case({"claimed": 1, "unclaimed": 1})
            compiled = answer_of(["compile", "--format", "real" if is_real else "qasm"], program.text)
            if compiled.status == 0:
                text, free = compiled.out, program.inputs if is_real else len(qasm.circuit_of(compiled.out).names)
        if self.programs.chance(0.02):
            is_real = not is_real
        return Case([self.name] + self.source(is_real) + self.rest(free), text)

    def source(self, is_real: bool) -> List[str]:
        if is_real:
            return ["--from", "real"] if self.programs.chance(0.1) else []
        return ["--from=qasm"] if self.programs.chance(0.5) else ["--from", "qasm"]

    def rest(self, free: int) -> List[str]:
        return []


class Run(Stat):
    name = "run"

    def rest(self, free: int) -> List[str]:
        words = [self.programs.word(free) for _ in range(self.programs.random.choice([1, 1, 2, 3, 5, 64, 65]))]
        return (["--"] if words[0].startswith("-") else []) + words


class Convert(Stat):
    name = "convert"

    def rest(self, free: int) -> List[str]:
        return self.programs.random.choice([[], ["--to", "real"], ["--to=qasm"]])


class Tidy(Convert):
    """Mostly circuits of few lines, of whose flips many cancel."""

    name = "tidy"

    def __init__(self, seed: int):
        super().__init__(seed)
        self.circuits = ForeignCircuits(seed)

    def rest(self, free: int) -> List[str]:
        aim = [[], ["--for", "gates"], ["--for", "depth"], ["--for=depth"], ["--for", "order"], ["--for=order"]]
        return super().rest(free) + self.programs.random.choice(aim)

    def case(self) -> Case:
        if self.programs.chance(0.4):
            return super().case()
        is_real, count, random = self.programs.chance(0.5), self.programs.random.randint(2, 6), self.programs.random
        sizes, gates = random.choice([[2], [2, 2, 2, 1], [2, 2, 3], [1, 2, 3]]), random.choice([2, 5, 12, 30])
        drawn = [random.sample(range(count), min(count, random.choice(sizes))) for _ in range(gates)]
        lines = Lines(count, 0, [flip(controls, target) for target, *controls in drawn])
        return Case([self.name] + self.source(is_real) + self.rest(0), self.circuits.file(lines, is_real))


class Verify:
    """A command on random programs with circuits that were compiled, and then mostly rewritten or changed."""

    name = "verify"
    kinds = {"claimed": 24, "unclaimed": 24, "planned": 40, "plain": 4, "typed": 3, "loose": 1}
    most_inputs = 8
    marks = [b"\n---\n"] * 120 + [b"\n---\r\n", b"\r\n---\r\n", b"---\n", b"\n--- \n", b"\n ---\n", b"\n----\n",
                                b"\n--\n", b"\n---\r\r\n", b"\n", b"\n---", b"\n---\n---\n", b"\n\n---\n\n",
                                b"\n//---\n---\n"]

    def __init__(self, seed: int):
        self.programs, self.circuits = Programs(seed), ForeignCircuits(seed)
        self.random = self.programs.random

    def case(self) -> Case:
        is_real, borrow = self.random.random() < 0.6, self.random.choice([0, 0, 0, 1, 2, 3])
        if self.random.random() < 0.15:
            return self.in_place(borrow, is_real)
        text, inputs = self.programs.case(self.kinds)
        while inputs > self.most_inputs:
            text, inputs = self.programs.case(self.kinds)
        granted = some_granted(self.random)
        source = text + self.random.choice(self.marks) + self.file(text, borrow, is_real, granted)
        if self.random.random() < 0.03:
            source = source[: self.random.randint(0, len(source))]
        words = self.words(borrow, is_real) + granted
        return Case(words + self.nodes(words, source), source)

    def in_place(self, borrow: int, is_real: bool) -> Case:
        """A program that says what each flip of a circuit does, and that circuit, some of whose lines begin at 0."""
        made = reversible(self.random)
        lines = Lines(made.lines + borrow, borrow, [flip(controls, target) for target, *controls in made.flips])
        edited = lines if self.random.random() < 0.3 else self.circuits.edited(lines, is_real)
        source = made.text + b"---\n" + self.circuits.file(edited, is_real)
        words = self.words(borrow, is_real, ["inputs"] * 9 + ["any"]) + made.granted
        return Case(words + self.nodes(words, source), source)

    def file(self, text: bytes, borrow: int, is_real: bool, granted: List[str]) -> bytes:
        """A circuit that was made of a program, where it compiles, and else any file."""
        form = "real" if is_real else "qasm"
        plan = self.random.choice(["auto", "eager", "pebble", "pebble"])
        words = ["compile", "--format", form, "--plan", plan, "--borrow", str(borrow)]
        compiled = answer_of(words + granted, text)
        if compiled.status != 0 or self.random.random() < 0.02:
            files = self.circuits.real_files if is_real else self.circuits.qasm_files
            return files.file().text
        if self.random.random() < 0.1:
            return compiled.out
        circuit = READERS[form](compiled.out)
        lines = Lines(len(circuit.names), borrow, circuit.gates)
        return self.circuits.file(self.circuits.edited(lines, is_real), is_real)

    def words(self, borrow: int, is_real: bool, places: Sequence[str] = ("", "", "", "any", "zero", "inputs")) -> List[str]:
        if self.random.random() < 0.02:
            is_real = not is_real
        if self.random.random() < 0.08:
            borrow = self.random.choice([0, 1, 2, 3, 4, 64])
        options = [["--from", "real"]] if is_real and self.random.random() < 0.1 else []
        options += [] if is_real else [self.random.choice([["--from=qasm"], ["--from", "qasm"]])]
        options += [["--borrow", str(borrow)]] if borrow or self.random.random() < 0.1 else []
        place = self.random.choice(places)
        options += [["--outputs", place]] if place else []
        ways = ["sums", "sums", "both", "diagrams"]
        options += [["--by", self.random.choice(ways)]] if self.random.random() < 0.4 else []
        self.random.shuffle(options)
        return [self.name] + [word for option in options for word in option]

    def nodes(self, words: List[str], source: bytes) -> List[str]:
        """Now and then a limit on nodes, mostly about as many functions as there are."""
        if self.random.random() < 0.6:
            return []
        try:
            verdict = verdicts_of(order_of(words), source).looked
        except (Fault, RefusedProgram, RefusedCircuit, TooWide):
            return []
        return self.programs.nodes([verdict.least, verdict.most])


class Bench:
    """Adders, with limits near to what they need."""

    name = "bench"

    def __init__(self, seed: int):
        self.random = Random(seed)
        self.budgets = Budgets(self.random)

    def case(self) -> Case:
        number = self.random.choice([1, 2, 3, 4, 5, 6, 8, 12, 16])
        if self.random.random() < 0.2:
            return Case(["gen", str(self.random.randint(1, 200))], b"")
        words = self.budgets.options(run_of(adder_text(number)), False) if self.random.random() < 0.8 else []
        return Case(["bench", str(number)] + words, b"")


class Arith:
    """Programs that compute with numbers, and their circuits."""

    name = "arith"

    def __init__(self, seed: int):
        self.random = Random(seed)

    def case(self) -> Case:
        kind, form = self.random.choice(KINDS), self.random.choice(["program", "real", "qasm"])
        bits = self.random.randint(1, 200) if form == "program" else self.random.choice([1, 2, 3, 4, 5, 6, 8, 12])
        words = ["arith", kind, str(bits), "--write", form]
        if kind == "mul":
            factor = self.random.randint(1, self.random.choice([3, 100, 9_999]))
            words += ["--by", str(factor)]
        return Case(words, b"")


class Words:
    """Random words on texts that suit them."""

    name = "words"

    def __init__(self, seed: int):
        self.orders = Orders(seed)

    def case(self) -> Case:
        words = self.orders.words()
        texts = dict.fromkeys(("stat", "run", "convert", "tidy"), FILE)
        texts["verify"] = FIVE + "\n---\n" + FILE
        return Case(words, texts.get("".join(words[:1]), FIVE).encode())


COMPARED = [Compile, Lean, Compact, Shallow, InPlace, Check, Ands, Eval, Loops, Stat, Run, Convert, Tidy, Verify, Bench,
            Arith, Words]
