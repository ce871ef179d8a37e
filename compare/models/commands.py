"""What each command answers for a text, by the models: docs/COMMANDS.md as functions."""
import re
from typing import Callable, List, NamedTuple, Optional, Tuple

from models import circuits, language, qasm, real
from models.adders import adder_text
from models.assumptions import assuming, premise
from models.claims import TooWide, settled
from models.graphs import Graph
from models.language import Run, program_of
from models.plans import LEAN_PLANS, Budget, NoIdle, OverGates, OverLines, Plan, Settled, choose, flip, split, width_of
from models.templates import template_text
from models.tidied import Flip, tidied
from models.verdicts import MOST_BYTES, Places, Verdict, first_wide, parted, verdict_on
from models.words import Order, order_of


MOST_TIDIED = 65_536  # gates of a circuit that is tidied


class Answer(NamedTuple):
    status: int
    out: bytes = b""
    err: bytes = b""


class Fault(Exception):
    """A status with its line on standard error."""

    def __init__(self, status: int, line: str):
        super().__init__(line)
        self.answer = Answer(status, b"", ("revc: %s\n" % line).encode())


NO_ORDER = Fault(2, "bad command line").answer


def lines(texts: List[str]) -> bytes:
    return "".join(text + "\n" for text in texts).encode()


def run_on_zeros(text: bytes) -> Run:
    """The run of a text's program on zeros: what refuses a text rests on no bits."""
    program = program_of(text)
    return Run(program, [0] * program.inputs)


def assumed_of(order: Order) -> int:
    """How many claims are taken for granted."""
    return order.values.get("assume", 0)


def settled_run(order: Order, run: Run) -> Run:
    """A run whose claims hold on all inputs that meet those that are taken for granted, of which there are some."""
    limit, number = order.values["nodes"], min(assumed_of(order), len(run.claims))
    if number:
        ((size, least_met),) = settled(premise(run, number))
        if size > limit:
            raise Fault(5, "claim %d at %d:%d passes %d nodes" % (number, *run.claims[number - 1].place, limit))
        if least_met is None:
            raise Fault(20, "no input meets the assumptions")
    for number, (claim, (size, broken)) in enumerate(zip(run.claims, settled(assuming(run, number))), 1):
        named = "claim %d at %d:%d" % (number, *claim.place)
        if size > limit:
            raise Fault(5, "%s passes %d nodes" % (named, limit))
        if broken is not None:
            raise Fault(4, "%s fails on %s" % (named, broken))
    return run


def run_of(text: bytes) -> Optional[Run]:
    """The run of a text's program on zeros, where the text is well formed."""
    try:
        return run_on_zeros(text)
    except language.Refused:
        return None


def sizes_of(text: bytes, assumed: int = 0) -> List[int]:
    """How many functions the claims up to each one rest on, where the text is well formed."""
    run = run_of(text)
    try:
        runs = [premise(run, assumed)] * (assumed > 0) + [assuming(run, assumed)] if run else []
        return [size for each in runs for size, _ in settled(each)]
    except TooWide:
        return []


WRITERS = {"real": circuits.file_of, "qasm": qasm.file_of}
READERS = {"real": real.circuit_of, "qasm": qasm.circuit_of}
CONVERTERS = {"real": circuits.converted, "qasm": qasm.converted}


def budget_of(order: Order) -> Budget:
    return Budget(*(order.values[name] for name in Budget._fields))


class Unmodelled(Exception):
    """A plan is wanted that has no recipe, or an order of gates: no model makes it, and what is written is judged by its
    meaning."""


def planned(order: Order, text: bytes) -> Tuple[Run, Plan]:
    """The run of a text's program, whose claims hold on all inputs, and the plan of its circuit."""
    run, budget, plan = settled_run(order, run_on_zeros(text)), budget_of(order), order.values["plan"]
    if order.values.get("outputs"):
        check_outputs(run)
        raise Unmodelled()
    if plan in LEAN_PLANS:
        raise Unmodelled()
    settled = Settled(len(run.bits), Graph(run))
    try:
        return run, choose(settled, budget, plan)
    except OverLines as over:
        raise Fault(6, "lines %d over %d" % (over.need, budget.lines)) from None
    except OverGates:
        raise Fault(7, "more than %d gates" % budget.gates) from None


def compile_text(order: Order, text: bytes) -> bytes:
    run, plan = planned(order, text)
    return WRITERS[order.values["format"]](len(run.bits), len(run.outputs), plan, order.values["borrow"])


def check_text(order: Order, text: bytes) -> bytes:
    return lines(["claims %d" % len(settled_run(order, run_on_zeros(text)).claims)])


def ands_text(order: Order, text: bytes) -> bytes:
    """The counts of the ANDs. All are enough; the program may say that fewer are."""
    run = settled_run(order, run_on_zeros(text))
    count = sum(write.operator == "&&" for write in run.writes)
    return lines(["ands %d" % count, "left %d" % count, "depth %d" % Graph(run).and_depth])


def eval_text(order: Order, text: bytes) -> bytes:
    program, (word,) = run_on_zeros(text).program, order.bits
    if len(word) != program.inputs or not set(word) <= set("01"):
        raise Fault(12, "bad bits in word 1")
    run = Run(program, [int(digit) for digit in word])
    for number, claim in enumerate(run.claims, 1):
        if not claim.holds:
            raise Fault(4, "claim %d at %d:%d fails on %s" % (number, *claim.place, word))
    return lines(["".join(str(bit) for bit, _ in run.outputs)])


def circuit_of(order: Order, text: bytes) -> real.Circuit:
    return READERS[order.values["from"]](text)


def stat_text(order: Order, text: bytes) -> bytes:
    return lines(real.counts_of(circuit_of(order, text)))


def run_text(order: Order, text: bytes) -> bytes:
    circuit = circuit_of(order, text)
    number = real.bad_word(circuit, order.bits)
    if number is not None:
        raise Fault(12, "bad bits in word %d" % number)
    return lines([real.line_of(circuit, word) for word in order.bits])


def split_of(circuit: real.Circuit, most: int) -> Tuple[List[real.Gate], int]:
    """The split list of a circuit's gates, of which there are at most so many, and how many lines were added."""
    count = len(circuit.names)
    try:
        try:
            return split(circuit.gates, count, most), 0
        except NoIdle:
            if count == real.MOST_LINES:
                raise Fault(6, "lines %d over %d" % (count + 1, count)) from None
            return split(circuit.gates, count + 1, most), 1
    except OverGates:
        raise Fault(7, "more than %d gates" % most) from None


def convert_text(order: Order, text: bytes) -> bytes:
    circuit = circuit_of(order, text)
    gates, added = split_of(circuit, real.MOST_GATES)
    return CONVERTERS[order.values["to"]](circuit, gates, added)


def flips_of(gates: List[real.Gate]) -> List[Flip]:
    return [(tuple(line for line, _ in gate.controls), gate.targets[0]) for gate in gates]


def most_split(order: Order) -> int:
    """How many gates the split list may have of a circuit that is tidied."""
    return real.MOST_GATES if order.values["for"] == "order" else MOST_TIDIED


def tidy_text(order: Order, text: bytes) -> bytes:
    circuit = circuit_of(order, text)
    gates, added = split_of(circuit, most_split(order))
    if order.values["for"] != "gates":
        raise Unmodelled()
    flips = tidied(flips_of(gates))
    return CONVERTERS[order.values["to"]](circuit, [flip(target, *controls) for controls, target in flips], added)


def parts_of(order: Order, source: bytes) -> Tuple[Run, real.Circuit]:
    """The run of the program that stands before the parting line, and the circuit that stands behind it."""
    over = real.Refused("circuit over %d bytes" % real.MOST_BYTES)
    if len(source) > MOST_BYTES:
        raise over
    parts = parted(source)
    if parts is None:
        raise Fault(16, "no parting line")
    program, file = parts
    if len(program) <= language.MOST_BYTES and len(file) > real.MOST_BYTES:
        raise over
    return run_on_zeros(program), circuit_of(order, file)


def check_outputs(run: Run) -> None:
    """In place each input has an output that takes its place."""
    if len(run.outputs) < len(run.bits):
        raise Fault(18, "%d inputs have only %d outputs" % (len(run.bits), len(run.outputs)))


def places_of(order: Order) -> Places:
    """Where an order has the circuit put the outputs."""
    return Places(order.values["outputs"], order.values["borrow"])


class Verdicts(NamedTuple):
    """Those on the inputs that are looked at, and on all inputs, as sums see them."""

    looked: Verdict
    everywhere: Verdict


def verdicts_of(order: Order, source: bytes) -> Verdicts:
    """The verdicts on a source's circuit, which has the lines and gates that it may have."""
    run, circuit = parts_of(order, source)
    settled_run(order, run)
    count, wide = len(circuit.names), first_wide(circuit)
    inputs, outputs, places = len(run.bits), len(run.outputs), places_of(order)
    if places.is_in_place:
        check_outputs(run)
    need = inputs + places.output_lines(inputs, outputs) + places.borrow
    if count < need:
        raise Fault(13, "circuit has %d lines, needs %d" % (count, need))
    if wide is not None:
        raise Fault(14, "gate %d is not X, CX or CCX" % wide)
    return Verdicts(*(verdict_on(run, circuit, places, assumed) for assumed in (assumed_of(order), 0)))


def said(line: Optional[int], bits: str) -> bytes:
    """What is written of the first line that differs, on these bits, or of none, where no limit on nodes is passed."""
    if line is not None:
        raise Fault(15, "circuit differs at line %d on %s" % (line, bits))
    return lines(["verified"])


UNSETTLED = "circuit is not settled by sums"


def verify_text(order: Order, source: bytes) -> bytes:
    """What is written by diagrams; of a circuit that sums may settle, that they do."""
    (verdict, everywhere), limit, way = verdicts_of(order, source), order.values["nodes"], order.values["by"]
    if way == "sums" and everywhere.line is not None:
        raise Fault(17, UNSETTLED)
    if verdict.least > limit and (way == "diagrams" or way == "both" and everywhere.line is not None):
        raise Fault(5, "circuit passes %d nodes" % limit)
    return said(verdict.line, verdict.bits)


def gen_text(order: Order, text: bytes) -> bytes:
    return adder_text(order.number)


def bench_text(order: Order, text: bytes) -> bytes:
    run, plan = planned(order, adder_text(order.number))
    count = plan.lines + order.values["borrow"]
    numbers = {
        "inputs": len(run.bits),
        "outputs": len(run.outputs),
        "writes": len(run.writes),
        "width": width_of(run),
        "lines": count,
        "gates": len(plan.gates),
        "depth": real.Circuit(names=[b""] * count, gates=plan.gates).depth,
    }
    return lines(["%s %d" % pair for pair in numbers.items()])


def arith_text(order: Order, text: bytes) -> bytes:
    program, form = template_text(order.kind, order.number, order.values["by"]), order.values["write"]
    return program if form == "program" else compile_text(order_of(["compile", "--format", form]), program)


TEXTS = {"compile": compile_text, "check": check_text, "ands": ands_text, "eval": eval_text,
         "stat": stat_text, "run": run_text,
         "convert": convert_text, "tidy": tidy_text, "verify": verify_text, "gen": gen_text, "bench": bench_text,
         "arith": arith_text}


def answered(make: Callable[[], bytes]) -> Answer:
    """What is written, or the fault that is met."""
    try:
        return Answer(0, make())
    except Fault as fault:
        return fault.answer
    except language.Refused as refused:
        return Fault(3, str(refused)).answer
    except real.Refused as refused:
        return Fault(8, str(refused)).answer


def answer_of(words: List[str], text: bytes) -> Answer:
    """What the program answers for these words and this text."""
    order = order_of(words)
    if order is None:
        return NO_ORDER
    return answered(lambda: TEXTS[order.command](order, text))


def is_of_fewer(model: Answer, answer: Answer) -> bool:
    """Whether an answer has the counts of the model, but for fewer ANDs that are enough."""
    counts = [re.fullmatch(rb"(ands \d+\n)left (\d+)\n(depth \d+\n)", each.out) for each in (model, answer)]
    if answer.status or answer.err or None in counts:
        return False
    (ands, most, depth), (same, left, deep) = [each.groups() for each in counts]
    return (ands, depth) == (same, deep) and int(left) <= int(most)


def is_free(words: List[str], source: bytes, answer: Answer) -> bool:
    """Whether an answer is allowed that is not the model's: `verify` may say that a circuit passes its limit on nodes
    where its functions do, and need not, and that sums do not settle one that agrees; `ands`, that fewer are enough."""
    order = order_of(words)
    if order is not None and order.command == "ands":
        return is_of_fewer(answer_of(words, source), answer)
    if order is None or order.command != "verify":
        return False
    passed, verdicts = Fault(5, "circuit passes %d nodes" % order.values["nodes"]).answer, []

    def unlimited() -> bytes:
        verdicts.append(verdicts_of(order, source).looked)
        return said(verdicts[0].line, verdicts[0].bits)

    other = answered(unlimited)
    if order.values["by"] == "sums":
        return other.status == 0 and answer == Fault(17, UNSETTLED).answer
    return bool(verdicts) and verdicts[0].most > order.values["nodes"] and answer in (passed, other)
