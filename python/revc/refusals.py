"""What the refusals of the program mean, and what helps."""
import re
from typing import TYPE_CHECKING, List, Optional, Sequence

from .defaults import GATES, NODES
from .errors import (CircuitDiffers, CircuitRefused, ClaimFails, GatesExceeded, LinesExceeded, NodesExceeded, OutOfMemory,
                     Refused, TextRefused, Unsettled, refused)
from .hints import hint

if TYPE_CHECKING:
    from .revs import RevsText

ANSWERS = [  # messages that have no class of their own
    (r"bad command line", "the program does not take these words"),
    (r"source over", "a program has at most 1,048,576 bytes: write loops and functions in place of long lists"),
    (r"circuit over", "a circuit has at most 134,217,728 bytes"),
    (r"bad bits in word (\d+)", "word {0} is no list of as many digits 0 and 1 as there are inputs"),
    (r"circuit has (\d+) lines, needs (\d+)",
     "with a line for each input and each output it has {1} at least: is it the circuit of another program? Where an output "
     "stands in place of an input, say which line is which, lines={{..}} (--map), or inplace=True (--inplace) where all do"),
    (r"(\d+) inputs have only (\d+) outputs", "in place each input line ends with an output: put out the rest as they came"),
    (r"no circuit in place was found",
     "there may be one: give the inverse, compile_in_place(inverse), of which one is made"),
    (r"no input meets the assumptions",
     "each input breaks one of the claims that are taken for granted, assume(..) or --assume, so that nothing is said of any"),
    (r"gate (\d+) is not X, CX or CCX", "`convert` makes X, CX and CCX gates of it; then verify that"),
    (r"(read|write) fault", "standard input or output failed: is the disk full, or was a pipe closed?"),
]


def explain(message: str, status: int, source: Optional["RevsText"] = None, circuit: str = "",
            words: Sequence[str] = ()) -> str:
    """The program's message, the place that it names, what it means and what helps.

    `source` is the program and `circuit` the text of the circuit that the message may be about, `words` is what was asked.
    """
    refusal = refused(message, status)
    lines = [message]
    place = re.match(r"revc: (?:claim \d+ at )?(\d+):(\d+)", message)
    if source and place:
        lines += pointed(source.text, int(place[1]), int(place[2])) + written_by(source, int(place[1]))
    if isinstance(refusal, CircuitRefused):
        lines += bad_circuit(refusal, circuit)
    elif source and isinstance(refusal, TextRefused):
        lines.append(hint(source.text, refusal.line, refusal.column, refusal.kind))
    else:
        lines += [meaning(refusal, source, words)]
    return "\n".join(filter(None, lines))


def meaning(refusal: Refused, source: Optional["RevsText"], words: Sequence[str]) -> str:
    """What a refusal means that is about no place of a file, and what helps."""
    if source and isinstance(refusal, ClaimFails):
        return f"the claim does not hold on {source.assignment(refusal.inputs)}, the least input that breaks it"
    if source and isinstance(refusal, CircuitDiffers):
        return in_place(refusal, source) if "inputs" in words else difference(refusal, source)
    if isinstance(refusal, NodesExceeded):
        return claim_nodes(refusal) if refusal.number else circuit_nodes(refusal, words)
    if isinstance(refusal, GatesExceeded):
        return too_many_gates(refusal, words)
    if isinstance(refusal, LinesExceeded) and words and words[0] in ("convert", "tidy"):
        return "a gate uses all lines, and its parts want one line more than the most there are"
    if isinstance(refusal, Unsettled):
        return "it may compute the program or not: take by=\"both\" (--by both), which goes on by diagrams"
    if isinstance(refusal, OutOfMemory):
        return "the machine has no more memory for it: take fewer rounds, or less nodes"
    found = [(re.search(pattern, refusal.message), means) for pattern, means in ANSWERS]
    return next((means.format(*each.groups()) for each, means in found if each), "")


def difference(refusal: CircuitDiffers, source: "RevsText") -> str:
    """Which line ends with another bit than it should, and what it should end with."""
    line, outside = refusal.line, source.inputs + source.outputs
    should = ("an input has to end as it began; where an output stands in its place, say which line is which, lines={..} "
              "(--map)" if line <= source.inputs else "" if line <= outside else
              "a work line has to end at 0, a borrowed one as it began: undo what was computed there")
    return (f"{source.role(line)} ends with the wrong bit on {source.assignment(refusal.inputs)}"
            + (f"\n{should}" if should else ""))


def in_place(refusal: CircuitDiffers, source: "RevsText") -> str:
    """The same where the outputs take the place of the inputs."""
    place = (f"the place of the output {source.line_names()[source.inputs + refusal.line - 1]}"
             if refusal.line <= source.outputs else "a work or borrowed line")
    return f"line {refusal.line}, {place}, ends with the wrong bit on {source.assignment(refusal.inputs)}"


def claim_nodes(refusal: NodesExceeded) -> str:
    rests = f"claim {refusal.number} rests on more than {refusal.limit:,} functions"
    if refusal.limit < NODES:
        return f"{rests}: give more, nodes={NODES} (--nodes), or claim smaller parts one by one"
    return (f"{rests}, the most there are: diagrams do not settle it. Claim smaller parts one by one; where two forms of "
            "a function are claimed to be equal, one.compile().verify(other) may settle it, which goes by sums first")


def circuit_nodes(refusal: NodesExceeded, words: Sequence[str]) -> str:
    comes = f"the program and the circuit come to more than {refusal.limit:,} functions"
    has_sums = "both" in words  # --by both: sums did not settle it before
    if has_sums and refusal.limit < NODES:
        return f"{comes}: give more, nodes={NODES} (--nodes)"
    if has_sums:
        return (f"{comes}, the most there are, and sums do not settle it either: verify smaller parts, each against a "
                "program of its own, or make the circuit with the ANDs that the program has")
    more = f"more nodes, up to {NODES:,} (--nodes), or " if refusal.limit < NODES else ""
    return f"{comes}: take {more}by=\"both\" (--by both), which settles most circuits by sums of products"


def too_many_gates(refusal: GatesExceeded, words: Sequence[str]) -> str:
    if words and words[0] == "tidy" and refusal.limit < GATES:
        return f"`tidy` takes circuits of up to {refusal.limit:,} gates: `tidy --for order` and `convert` take more"
    if words and words[0] in ("convert", "tidy"):
        return f"a file has at most {refusal.limit:,} gates: make several of the circuit"
    return ""


def bad_circuit(refusal: CircuitRefused, circuit: str) -> List[str]:
    """The line of a circuit's file that a message names, and what is wrong with it."""
    form = ("OpenQASM 2.0 with x, cx and ccx gates alone" if refusal.column else
            "`.real`, whose gates are tN and fN with N different lines of `.variables`")
    means = "this passes a limit of the format" if refusal.message.endswith("over a limit") else "no file has this here"
    return pointed(circuit, refusal.line, refusal.column or 1) + [
        f"{means}: the file is read as {form} (docs/FORMATS.md)"]


# ---- Places


def pointed(text: str, row: int, column: int) -> List[str]:
    """A line of a text with a caret below the place, cut where it is long."""
    rows = text.encode().split(b"\n")
    line = rows[row - 1].decode(errors="replace") if row <= len(rows) else ""
    cut = max(0, column - 60)
    return ["    " + line[cut:cut + 100].rstrip(), "    " + " " * (column - 1 - cut) + "^"]


def written_by(source: "RevsText", row: int) -> List[str]:
    place = source.places[row - 1] if row <= len(source.places) else None
    if not place:
        return []
    try:
        with open(place[0]) as file:
            code = file.read().split("\n")[place[1] - 1].strip()
    except OSError:
        code = ""
    return [f"written by {place[0]}:{place[1]}: {code}"]
