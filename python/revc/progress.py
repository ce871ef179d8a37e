"""How far a search is: told to the log `revc`, to a callback, and by a bar where standard error is a terminal."""
import sys
import time
from typing import Callable, NamedTuple, Optional

from .program import LOG

QUIET = 2.0  # seconds before a bar is shown
WIDE, BAR = 78, 20  # letters of a line and of its bar


class Step(NamedTuple):
    """The compilation that begins: its number, of `about` so many, the plan, the most lines, and the seconds so far."""

    number: int
    about: int
    plan: str
    lines: int
    seconds: float


Told = Optional[Callable[[Step], None]]


class Meter:
    """Counts the steps of a search. A callback `told` takes the place of the bar."""

    def __init__(self, title: str, about: int, told: Told = None, quiet: bool = False):
        self.title, self.about, self.told, self.quiet = title, about, told, quiet
        self.number, self.begun, self.shown = 0, time.monotonic(), False

    def step(self, plan: str, lines: int) -> None:
        self.number += 1
        self.about = max(self.about, self.number)
        step = Step(self.number, self.about, plan, lines, time.monotonic() - self.begun)
        LOG.info("%s: compilation %d of about %d, plan %s on %d lines, %.1f s", self.title, *step)
        if self.told:
            self.told(step)
        elif not self.quiet and step.seconds > QUIET and sys.stderr.isatty():
            done = "#" * (BAR * step.number // step.about)
            self.write(f"{self.title} [{done:<{BAR}}] {step.number} of about {step.about}: {plan}, {lines} lines")

    def write(self, text: str) -> None:
        sys.stderr.write(f"\r{text[:WIDE]:<{WIDE}}")
        sys.stderr.flush()
        self.shown = True

    def close(self) -> None:
        """Takes the bar away."""
        if self.shown:
            self.write("")
            sys.stderr.write("\r")
            sys.stderr.flush()
