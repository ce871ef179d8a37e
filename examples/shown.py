"""The commands that documents show: how they are found, and what they answer when they are run; and sizes of circuits.

A command stands in an indented line behind a `$`, and its answer in the indented lines below it; a blank line between
such lines belongs to the answer.
"""
import os
import re
import shutil
import subprocess
from pathlib import Path
from tempfile import TemporaryDirectory
from typing import Iterator, List, NamedTuple, Optional, Tuple

HERE = Path(__file__).resolve().parent
DOCUMENTS = ["README.md", "docs/GUIDE.md", "docs/COMMANDS.md", "docs/PYTHON.md"]
SIZE = re.compile(r" / ".join([r"\d+(?:,\d+)*"] * 3))
CALL = re.compile(r"^    \$ (.*)\n((?:    (?!\$ ).*\n|\n(?=    (?!\$ )))*)", re.MULTILINE)


class Shown(NamedTuple):
    command: str
    answer: str


def shown_in(text: str) -> List[Shown]:
    return [Shown(call[1], re.sub(r"^    ", "", call[2], flags=re.MULTILINE)) for call in CALL.finditer(text)]


def sizes_apart(document: str, tables: str) -> List[str]:
    """The lines / gates / Toffoli gates of circuits that a document shows and the other one's tables lack."""
    shown, held = ((HERE.parent / each).read_text(encoding="utf-8") for each in (document, tables))
    return [size for size in SIZE.findall(shown) if size not in held and size.replace("/", "|") not in held]


def run_in(document: str, program: str) -> Iterator[Tuple[Shown, Optional[str]]]:
    """Each command of a document with its answer, in a folder in which `./revc` is the program. One whose tool is not
    installed has none."""
    with TemporaryDirectory() as folder:
        room = Path(folder)
        (room / "revc").symlink_to(os.path.abspath(program))
        (room / "examples").symlink_to(HERE)
        (room / "python").symlink_to(HERE.parent / "python")
        for netlist in HERE.glob("*.blif"):  # for where yosys is not installed
            shutil.copy(str(netlist), folder)
        for shown in shown_in((HERE.parent / document).read_text(encoding="utf-8")):
            yield shown, answer_of(shown, room)


def answer_of(shown: Shown, room: Path) -> Optional[str]:
    if shown.command.startswith("yosys ") and not shutil.which("yosys"):
        return None
    streams = {"stdout": subprocess.PIPE, "stderr": subprocess.STDOUT}
    space = dict(os.environ, REVC=str(room / "revc"), PYTHONPATH="python", PYTHONDONTWRITEBYTECODE="1")
    return subprocess.run(["bash", "-c", shown.command], cwd=str(room), env=space, **streams).stdout.decode("utf-8")
