"""One call of each command that answers what it was asked for, and which commands a built program knows."""
from subprocess import DEVNULL
from subprocess import run as run_process
from typing import Dict, List, NamedTuple

from cases.rows import FILE

AND = b"main (a : bool) (b : bool) = a && b"


class Call(NamedTuple):
    words: List[str]
    text: bytes


CALLS: Dict[str, Call] = {
    "compile": Call(["compile"], AND),
    "check": Call(["check"], AND),
    "ands": Call(["ands"], AND),
    "eval": Call(["eval", "11"], AND),
    "stat": Call(["stat"], FILE.encode()),
    "run": Call(["run", "11"], FILE.encode()),
    "convert": Call(["convert"], FILE.encode()),
    "gen": Call(["gen", "1"], b""),
    "bench": Call(["bench", "1"], b""),
    "verify": Call(["verify"], AND + b"\n---\n" + FILE.encode()),
    "tidy": Call(["tidy"], FILE.encode()),
    "arith": Call(["arith", "mul", "1", "--by", "3"], b""),
}
LOOPS = Call(["eval", "1"], b"revs 2 main (a : bool) = a")
LATER_PLANS = ("lean", "compact", "shallow")  # which a program may not know
UNREAD = ("gen", "bench", "arith")  # the commands that read no source


def answers(program: str, call: Call) -> bool:
    """Whether the program gives what it is asked for."""
    return run_process([program] + call.words, input=call.text, stdout=DEVNULL, stderr=DEVNULL).returncode == 0


def known_plans(program: str) -> Dict[str, Call]:
    """A call for each of the later plans that the program knows."""
    calls = {plan: Call(["compile", "--plan", plan], AND) for plan in LATER_PLANS}
    return {plan: call for plan, call in calls.items() if answers(program, call)}


def known(program: str) -> Dict[str, Call]:
    """The calls of the commands that the program knows: the others give no order."""

    def gives_order(call: Call) -> bool:
        done = run_process([program] + call.words, input=call.text, stdout=DEVNULL, stderr=DEVNULL)
        return done.returncode != 2

    return {command: call for command, call in CALLS.items() if gives_order(call)}
