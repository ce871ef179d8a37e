"""What is promised of an answer beside the one that the models give, whatever circuit it is: docs/COMMANDS.md."""
import itertools
from random import Random
from typing import Dict, Iterator, List

from models import qasm, real
from models.adders import bits_of
from models.circuits import is_clean, is_in_place
from models.claims import variable_order
from models.commands import READERS as CIRCUITS
from models.commands import Answer, Unmodelled, answer_of, assumed_of, budget_of, circuit_of, flips_of, most_split
from models.commands import parts_of, places_of, run_on_zeros, split_of
from models.language import Program, Run, program_of
from models.plans import LEAN_PLANS, THRIFTY_PLANS, Budget, Numbers
from models.templates import inputs_of, wanted
from models.templates import words_of as numbers_of
from models.tidied import is_reordered, is_tidy, tidied
from models.words import Order, order_of

READERS = {"real": real.circuit_of, "qasm": qasm.compiled_circuit_of}
MOST_TRIED = 7  # bits of inputs, output lines and borrowed lines that are tried on all their values
TRIED = 4
SOME_NUMBERS = 5  # random ones on which a circuit of many bits is run


def is_sound(words: List[str], text: bytes, answer: Answer) -> bool:
    """A compiled file is clean and within its budgets, a refused budget is too small, a printed input breaks the claim,
    a converted circuit has the line map of its source, a tidied one too and is tidy, or is another order of the gates of
    one that is, and a verdict is right on words that are run."""
    order = order_of(words)
    if order is not None and order.command in ("convert", "tidy") and answer.status == 0:
        circuit, other = circuit_of(order, text), CIRCUITS[order.values["to"]](answer.out)
        return is_same(circuit, other) and (order.command == "convert" or is_tidied(order, circuit, other))
    if order is not None and order.command == "tidy":
        return is_refused(words, text)
    if order is not None and order.command == "verify" and answer.status in (0, 15):
        return is_verdict(order, text, answer)
    if order is not None and order.command == "arith" and order.values["write"] != "program":
        return answer.status != 0 or is_arithmetic(order, answer.out)
    if order is None or order.command not in ("compile", "check", "ands"):
        return True
    if answer.status == 4:
        bits = answer.err.split()[-1].decode()
        return answer_of(["eval", bits], text) == answer
    if order.command in ("check", "ands"):
        return True
    if order.values["outputs"]:
        return answer.status != 0 or is_placed(order, program_of(text), answer.out)
    if answer.status in (6, 7):
        return may_refuse(order, run_on_zeros(text), answer)
    return answer.status != 0 or is_fitting(order, program_of(text), answer.out) and has_few(order, text, answer.out)


def is_fitting(order: Order, program: Program, file: bytes) -> bool:
    budget, circuit = budget_of(order), READERS[order.values["format"]](file)
    fits = len(circuit.names) <= budget.lines and len(circuit.gates) <= budget.gates
    return fits and is_clean(circuit, program, budget.borrow, words_of, order.values["plan"] != "compact")


def is_placed(order: Order, program: Program, file: bytes) -> bool:
    """Whether a file is within its budgets, and has the outputs in place on all words, or some, that are looked at."""
    budget, circuit = budget_of(order), READERS[order.values["format"]](file)
    fits = len(circuit.names) <= budget.lines and len(circuit.gates) <= budget.gates
    return fits and is_in_place(circuit, program, budget.borrow, assumed_of(order), words_of)


def is_arithmetic(order: Order, file: bytes) -> bool:
    """Whether a circuit puts out, on all words or some, what its kind says of the numbers, and leaves the rest."""
    kind, bits, factor = order.kind, order.number, order.values["by"]
    circuit, inputs = READERS[order.values["write"]](file), inputs_of(kind, bits)
    for word in numbers_of(kind, bits, SOME_NUMBERS):
        outputs = wanted(kind, bits, factor, word)
        work = [0] * (len(circuit.names) - inputs - len(outputs))
        given = bits_of(word, inputs)
        if circuit.run(given + [0] * len(outputs) + work) != given + outputs + work:
            return False
    return True


def has_few(order: Order, text: bytes, file: bytes) -> bool:
    """Whether a lean or compact circuit has two Toffoli gates at most for each AND of its program, where the row of lean
    plans fits."""
    run = run_on_zeros(text)
    if order.values["plan"] not in THRIFTY_PLANS or not Numbers(run).lean.fits(budget_of(order)):
        return True
    products = sum(write.operator == "&&" for write in run.writes)
    return toffoli_gates(order, file) <= 2 * products


def is_no_worse(order: Order, found: Answer, lean: Answer) -> bool:
    """Whether there is a compact or shallow circuit where there is a lean one, with no more Toffoli gates, or of no
    greater Toffoli depth, than that; and what is said where there is none is what is said of the lean one."""
    if found.status != 0:
        return found == lean
    count = toffoli_depth if order.values["plan"] == "shallow" else toffoli_gates
    return lean.status != 0 or count(order, found.out) <= count(order, lean.out)


def toffoli_gates(order: Order, file: bytes) -> int:
    """How many Toffoli gates a compiled file has."""
    return sum(len(gate.controls) == 2 for gate in READERS[order.values["format"]](file).gates)


def toffoli_depth(order: Order, file: bytes) -> int:
    """The most Toffoli gates of a compiled file in a chain of gates, each of which shares a line with the next."""
    depths: Dict[int, int] = {}
    for gate in READERS[order.values["format"]](file).gates:
        depth = max(depths.get(line, 0) for line in gate.lines) + (len(gate.controls) == 2)
        depths.update(dict.fromkeys(gate.lines, depth))
    return max(depths.values(), default=0)


def is_same(circuit: real.Circuit, other: real.Circuit) -> bool:
    """Whether another circuit of narrow gates, on one line more at most, does on all words, or some, what a circuit does,
    and leaves the line that was added as it was."""
    lines, more = len(circuit.names), len(other.names) - len(circuit.names)
    narrow = all(len(gate.targets) == 1 and len(gate.controls) <= 2 for gate in other.gates)
    positive = all(bit == 1 for gate in other.gates for _, bit in gate.controls)
    return more in (0, 1) and narrow and positive and all(
        other.run(list(word)) == circuit.run(list(word[:lines])) + list(word[lines:]) for word in words_of(lines + more))


def is_tidied(order: Order, circuit: real.Circuit, other: real.Circuit) -> bool:
    """Whether another circuit is tidy, and has at most as many gates as the split list of a circuit; or has the gates of
    the list, or of what is tidied from it, in another order that is no deeper."""
    old, new, aim = flips_of(split_of(circuit, most_split(order))[0]), flips_of(other.gates), order.values["for"]
    if aim == "gates":
        return is_tidy(new) and len(new) <= len(old)
    return is_reordered(tidied(old) if aim == "depth" else old, new)


def is_refused(words: List[str], text: bytes) -> bool:
    """Whether the models refuse a text."""
    try:
        return answer_of(words, text).status != 0
    except Unmodelled:
        return False


def is_verdict(order: Order, source: bytes, answer: Answer) -> bool:
    """Whether a circuit that is verified does what its program says on all words, or some; and one that differs does so
    on the printed word, at the printed line and at none before it, and on no word, of these, before it or at a line
    before. Words on which an assumed claim fails are not looked at."""
    run, circuit = parts_of(order, source)
    places, inputs = places_of(order), len(run.bits)
    lines = places.output_lines(inputs, len(run.outputs))
    work, held = len(circuit.names) - inputs - lines - places.borrow, lines if places.is_any else 0
    count = inputs + held + places.borrow
    names = ["x%d" % number for number in range(inputs)]
    order_of_bits = [names.index(name) for name in variable_order(run.program)] + list(range(inputs, count))

    def first_differing(word: List[int]) -> int:
        """The first line, counted from 1, that differs on a word, or one more than there are."""
        before, here = word[inputs : inputs + held] or [0] * lines, Run(run.program, word[:inputs])
        if not all(claim.holds for claim in here.claims[: assumed_of(order)]):
            return len(circuit.names) + 1
        outputs = [bit for bit, _ in here.outputs]
        behind = [0] * work + word[inputs + held :]
        wanted = places.ports(word[:inputs], before, outputs) + behind
        pairs = zip(circuit.run(word[:inputs] + before + behind), wanted)
        return next((line for line, (bit, right) in enumerate(pairs, 1) if bit != right), len(wanted) + 1)

    words = [list(word) for word in words_of(count)]
    if answer.status == 0:
        return all(first_differing(word) > len(circuit.names) for word in words)
    line, printed = int(answer.err.split()[5]), [int(bit) for bit in answer.err.split()[-1].decode()]

    def is_before(word: List[int]) -> bool:
        return [word[place] for place in order_of_bits] < [printed[place] for place in order_of_bits]

    return first_differing(printed) == line and all(
        first_differing(word) > line - (not is_before(word)) for word in words)


def words_of(bits: int) -> Iterator[List[int]]:
    """All words of few bits, or some."""
    if bits <= MOST_TRIED:
        return itertools.product((0, 1), repeat=bits)
    random = Random(bits)
    return ([random.randrange(2) for _ in range(bits)] for _ in range(TRIED))


def may_refuse(order: Order, run: Run, answer: Answer) -> bool:
    """Whether lines or gates may be refused: no row of the plan is within both budgets, and this one is below the
    number that is its cause."""
    budget, plan, numbers = budget_of(order), order.values["plan"], Numbers(run)
    if any(row.fits(budget) for row in numbers.rows(plan)):
        return False
    cause = numbers.lean if plan in LEAN_PLANS else numbers.eager if plan == "eager" else numbers.fine
    if answer.status == 7:
        return plan in LEAN_PLANS or budget.gates < cause.gates
    return needed(answer) == need(run, budget) and budget.lines < cause.lines + budget.borrow


def needed(answer: Answer) -> int:
    return int(answer.err.split()[2])


def need(run: Run, budget: Budget) -> int:
    """The least number of lines that may be enough, as far as it is told."""
    return max(len(run.bits) + len(run.outputs) + budget.borrow, budget.lines + 1)
