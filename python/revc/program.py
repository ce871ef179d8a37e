"""The program `revc`: where it is, what it is given and what it answers."""
import hashlib
import logging
import os
import subprocess
import time
from pathlib import Path
from typing import Callable, Dict, Iterator, List, NamedTuple, Optional, Sequence, Tuple

from .defaults import PLANS
from .errors import Refused, RevcError, TimedOut, refused

HERE = Path(__file__).resolve().parent.parent.parent  # the repository, where the package stands in one
USAGE = 2  # the status of words that the program does not take
LOG = logging.getLogger("revc")  # calls at level DEBUG, the steps of searches at INFO
LOG.addHandler(logging.NullHandler())

_plans: Dict[str, List[str]] = {}


class Deadline:
    """The time that is left for all calls of one job; without `seconds` there is no end to it."""

    def __init__(self, seconds: Optional[float] = None):
        self.seconds, self.begun = seconds, time.monotonic()

    def spent(self) -> float:
        return time.monotonic() - self.begun

    def left(self) -> Optional[float]:
        """The seconds that are left. `TimedOut` where there are none."""
        if self.seconds is None:
            return None
        left = self.seconds - self.spent()
        if left <= 0:
            raise TimedOut(f"not done within {self.seconds:g} seconds (timeout)")
        return left

    def at_most(self, seconds: float) -> float:
        """So many seconds, or those that are left where these are fewer."""
        return seconds if self.seconds is None else max(0.0, min(seconds, self.seconds - self.spent()))


class Version(NamedTuple):
    """Which program it is: its file, the first digits of that file's SHA-256, and the plans that it has."""

    path: str
    digest: str
    plans: Tuple[str, ...]

    def __str__(self) -> str:
        return f"{self.path}, SHA-256 {self.digest}, plans {', '.join(self.plans)}"


# ---- Where it is


def script() -> str:
    """The script that builds the program where it has to, or "" where the package stands in no repository of it."""
    return str(HERE / "revc") if (HERE / "crates.txt").is_file() else ""


def places() -> Iterator[str]:
    """Where the program may be: built beside the package, on the path, or built now by the script."""
    if script():
        yield str(HERE / "crates" / "revc" / "out" / "revc")
    for folder in os.get_exec_path():
        yield os.path.join(folder, "revc")
    yield script()


def is_program(place: str) -> bool:
    """Whether a program stands there, which is not the command of this package under the same name."""
    if not place or not os.path.isfile(place) or not os.access(place, os.X_OK):
        return False
    with open(place, "rb") as file:
        return b"revc.__main__" not in file.read(1000)


def program() -> str:
    """Where the program is: `REVC` says it, or it stands beside the package, or on the path, or is built now."""
    named = os.environ.get("REVC")
    if named:
        if "/" not in named:
            named = next(filter(is_program, (os.path.join(each, named) for each in os.get_exec_path())), named)
        if not is_program(named):
            raise RevcError(f"REVC is {named}, which is no program: set it to the built `revc`, or unset it")
        return named
    for place in filter(is_program, places()):
        return place
    raise RevcError("there is no program `revc`: build it by `./revc` in its repository, and set REVC to its place")


def version() -> Version:
    """Which program it is. It has no number of its own: two files of one digest are one program."""
    where = program()
    return Version(where, hashlib.sha256(Path(where).read_bytes()).hexdigest()[:12], tuple(plans()))


# ---- What it answers


def call(words: Sequence[str], text: bytes = b"", explain: Optional[Callable[[str, int], str]] = None,
         deadline: Optional[Deadline] = None) -> bytes:
    """What the program writes for these words and this text. A refusal is raised, with what `explain` adds to it."""
    where, begun = program(), time.monotonic()
    err = None if where == script() else subprocess.PIPE  # a build shows how far it is
    left = deadline.left() if deadline else None
    try:
        done = subprocess.run([where, *words], input=text, stdout=subprocess.PIPE, stderr=err, timeout=left)
    except subprocess.TimeoutExpired as late:
        seconds = deadline.seconds if deadline else late.timeout
        raise TimedOut(f"`revc {words[0]}` was not done within {seconds:g} seconds (timeout)") from None
    except OSError as error:
        raise RevcError(f"{where} does not run: {error}") from None
    LOG.debug("%.120s: status %d, %d bytes, %.2f s", " ".join(words), done.returncode, len(done.stdout),
              time.monotonic() - begun)
    if done.returncode:
        message = (done.stderr or b"").decode(errors="replace").strip()
        message = message.split("\n")[0] or f"revc: status {done.returncode}"
        raise refused(message, done.returncode, explain(message, done.returncode) if explain else message)
    return done.stdout


def takes(words: Sequence[str], text: bytes = b"main (a : bool) = a") -> bool:
    """Whether the words are an order of this program."""
    try:
        call(words, text)
    except Refused as refusal:
        return refusal.status != USAGE
    return True


def plans() -> List[str]:
    """The plans that this program has."""
    where = program()
    if where not in _plans:
        _plans[where] = [each for each in PLANS if takes(["compile", "--plan", each])]
    return _plans[where]
