"""The built program beside the models: what it answers, and where that differs."""
import os
import re
import shlex
import tempfile
from functools import cached_property
from subprocess import PIPE, TimeoutExpired
from subprocess import run as run_process
from typing import Container, List, Optional

from cases.happy_calls import CALLS, LATER_PLANS, LOOPS, UNREAD, answers, known, known_plans
from cases.random_cases import Case
from models.claims import TooWide
from models.commands import NO_ORDER, Answer, Unmodelled, answer_of, is_free
from models.words import order_of
from promises import is_no_worse, is_sound

SHOWN = 10
LOOPED = re.compile(rb"(?:[ \t\r\n]|//[^\n]*)*revs\b")
SECONDS = 60


def name_of(answer: Answer) -> str:
    """A short name of an answer: its status, the kind of a refusal, and whether it is that of a limit."""
    last = answer.err.decode("latin-1").strip().rpartition(" ")[2]
    if answer.status == 3:
        return last
    return "status %s%s" % (answer.status, ", limit" if answer.status == 8 and last == "limit" else "")


def is_looped(text: bytes) -> bool:
    """Whether a text begins as one of profile 2 does."""
    return LOOPED.match(text) is not None


def plan_of(words: List[str]) -> Optional[str]:
    """The plan that words order, where they do."""
    order = order_of(words)
    return order.values.get("plan") if order is not None else None


def is_beside_lean(words: List[str]) -> bool:
    """Whether the circuit that words order is compared with the lean one."""
    return words[:1] == ["compile"] and plan_of(words) in ("compact", "shallow") and not order_of(words).values["outputs"]


class Comparison:
    """A built program, the commands that it knows, and how many of its answers so far were not those of the models,
    were of a text that is too wide for them, and were others that are allowed."""

    def __init__(self, program: str, commands: Optional[Container[str]] = None):
        self.program, self.known = program, known(program) if commands is None else commands
        self.different, self.unmodelled, self.free = 0, 0, 0

    def answer(self, case: Case) -> Answer:
        """The program's answer; a status of text says what it should not do."""
        words = [word.encode() for word in case.words]
        with tempfile.TemporaryFile() as source:
            source.write(case.text)
            source.seek(0)
            try:
                done = run_process([self.program] + words, stdin=source, stdout=PIPE, stderr=PIPE, timeout=SECONDS)
            except TimeoutExpired:
                return Answer("no end in %d seconds" % SECONDS)
            is_read = os.lseek(source.fileno(), 0, os.SEEK_CUR) != 0
            if is_read and (done.returncode == 2 or case.words[0] in UNREAD):
                return Answer("%d, and the source was read" % done.returncode)
        return Answer(done.returncode, done.stdout, done.stderr)

    def differs(self, case: Case, title: str, *notes) -> None:
        self.different += 1
        if self.different > SHOWN:
            return
        with tempfile.NamedTemporaryFile(prefix="revc-differs-", delete=False) as kept:
            kept.write(case.text)
        print("DIFFERS: %s\n    %s < %s" % (title, shlex.join([self.program] + case.words), kept.name))
        for note in notes:
            print("    " + str(note)[:2_000])

    @cached_property
    def has_loops(self) -> bool:
        """Whether the program knows profile 2."""
        return answers(self.program, LOOPS)

    @cached_property
    def plans(self) -> Container[str]:
        """The later plans that the program knows."""
        return known_plans(self.program)

    def is_of_unknown_plan(self, words: List[str]) -> bool:
        """Whether words order a plan that the program does not know."""
        plan = plan_of(words)
        return plan in LATER_PLANS and plan not in self.plans

    def is_passed_over(self, case: Case) -> bool:
        """Whether the case is one of a command, of a profile or of a plan that the program does not know."""
        is_of_loops = is_looped(case.text) and not self.has_loops
        return self.is_unknown(case) or is_of_loops or self.is_of_unknown_plan(case.words)

    def is_unknown(self, case: Case) -> bool:
        """Whether the case is one of a command that the program does not know."""
        return bool(case.words) and case.words[0] in CALLS and case.words[0] not in self.known

    def model_of(self, case: Case) -> Answer:
        return NO_ORDER if self.is_unknown(case) else answer_of(case.words, case.text)

    def try_on(self, case: Case, title: str) -> str:
        answer = self.answer(case)
        try:
            model = self.model_of(case)
        except (TooWide, Unmodelled):
            self.unmodelled += 1
            model = answer
        if answer != model and is_free(case.words, case.text, answer):
            self.free += 1
        elif answer != model:
            self.differs(case, title, repr(case.text[:300]), answer, "the model: %s" % (model,))
        elif not is_sound(case.words, case.text, answer):
            self.differs(case, title + ", by its meaning", repr(case.text[:300]), answer)
        elif is_beside_lean(case.words):
            self.try_beside_lean(case, answer, title)
        return name_of(answer)

    def try_beside_lean(self, case: Case, answer: Answer, title: str) -> None:
        """A compact or shallow circuit beside the lean one."""
        words = [re.sub("compact|shallow", "lean", word) for word in case.words]
        lean = self.answer(Case(words, case.text))
        if not is_no_worse(order_of(case.words), answer, lean):
            self.differs(case, title + ", beside the lean plan", repr(case.text[:300]), answer, lean)
