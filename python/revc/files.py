"""Files that the command is given: programs and circuits, told by their names and what is in them."""
import os
import runpy
import sys
import traceback
from pathlib import Path
from typing import Dict, List, Optional, Sequence

from . import program, refusals
from .circuit_texts import FILES, ending_of
from .errors import CircuitRefused, RevcError
from .netlists import read_text
from .network_files import is_network
from .oracles import Oracle
from .real import form_of
from .sources import Source, load

PACKAGE = os.path.dirname(os.path.abspath(__file__)) + os.sep


def text_of(path: str) -> str:
    try:
        return sys.stdin.read() if path == "-" else Path(path).read_text()
    except (OSError, UnicodeDecodeError) as error:
        reason = error.strerror if isinstance(error, OSError) else "it is no text"
        raise RevcError(f"{path}: {reason}") from None


def source_of(path: str) -> Source:
    """The program in a file."""
    file, _, name = path.partition(":") if ".py:" in path else (path, "", "")
    if file.endswith(".py"):
        return oracle_of(file, name)
    if file.endswith((*FILES, ".svg")):
        raise RevcError(f"{file} is a circuit, and a program is wanted: a .revs or .py file")
    if is_network(file):
        return load(file)
    text = text_of(file)
    if text.lstrip().startswith(("OPENQASM", ".version", ".numvars")):
        raise RevcError(f"{file} is a circuit, and a program is wanted: a .revs or .py file")
    return Source(text, Path(file).stem)


def oracle_of(file: str, name: str) -> Oracle:
    text_of(file)  # so that a missing file is said
    sys.path.insert(0, os.path.dirname(os.path.abspath(file)))
    try:
        space = runpy.run_path(file)
    except RevcError:
        raise
    except SyntaxError as error:
        raise RevcError(f"{error.filename}:{error.lineno}: {error.msg}: {(error.text or '').strip()}") from None
    except Exception as error:
        raise RevcError(f"{type(error).__name__}: {error}{place_of(error)}") from None
    found = {key: value for key, value in space.items() if isinstance(value, Oracle)}
    if name and name not in found:
        raise RevcError(f"{file} has no oracle `{name}`: {', '.join(found) or 'mark a function with @oracle'}")
    if not name and len(found) != 1:
        raise RevcError(f"{file} has {'the oracles ' + ', '.join(found)}: say which by {file}:NAME" if found else
                        f"{file} has no oracle: mark a function with @oracle")
    return found[name] if name else list(found.values())[0]


def circuit_text(path: str) -> str:
    text = text_of(path)
    if path.endswith((".revs", ".py")):
        raise RevcError(f"{path} is a program, and a circuit is wanted: make one by `compile {path} -o FILE.real`")
    return text


def is_circuit(path: str) -> bool:
    return path.endswith(FILES)


def on_circuit(words: List[str], text: str, path: str = "circuit") -> str:
    """What the program writes for a circuit's file; OpenQASM that only this package reads goes to it as `.real`."""
    def explain(message: str, status: int) -> str:
        return refusals.explain(message, status, None, text, words)
    form = form_of(text)
    try:
        return program.call(words + ["--from", form], text.encode(), explain).decode()
    except CircuitRefused:
        if form == "real":
            raise
    return program.call(words + ["--from", "real"], read_text(text, path).real.encode(), explain).decode()


def converted(text: str, form: str, path: str, aim: str = "") -> str:
    """A circuit's file by X, CX and CCX gates, which `convert` makes, or `tidy` for an aim; names of lines are kept where
    this package reads or writes it."""
    if form != "qasm3":
        try:
            command = ["tidy", "--for", aim] if aim else ["convert"]
            words = [*command, "--to", form, "--from", form_of(text)]
            return program.call(words, text.encode(),
                                lambda message, status: refusals.explain(message, status, None, text, words)).decode()
        except CircuitRefused:
            if form_of(text) == "real":
                raise
    netlist = read_text(text, path)
    written: str = getattr(netlist.tidy(aim) if aim else netlist.split(), form)
    return written


def write(text: str, path: Optional[str]) -> None:
    if path and path != "-":
        Path(path).write_text(text)
    else:
        sys.stdout.write(text)


def format_of(path: Optional[str], given: Optional[str], usual: str, endings: Sequence[str] = FILES,
              what: str = "a circuit is written") -> str:
    """The format that is written: the one that is given or that a file's name says, which have to fit."""
    if path in (None, "-"):
        return given or usual
    form = ending_of(str(path), endings, what)[1:]
    if given not in (None, form) and (form, given) != ("qasm", "qasm3"):  # OpenQASM 3 is often called .qasm
        raise RevcError(f"{path}: --format {given} is not what the name says: call it {Path(str(path)).stem}.{given}, or leave "
                        "--format out")
    return given or form


def numbers(words: List[str]) -> Dict[str, int]:
    """`a=3 b=0x5` as numbers."""
    found = {}
    for word in words:
        name, sign, value = word.partition("=")
        try:
            found[name] = int(value, 0)
        except ValueError:
            sign = ""
        if not sign:
            raise RevcError(f"{word}: numbers are given by name, as a=3 or a=0x5f")
    return found


def place_of(error: BaseException) -> str:
    """The author's line in which an error came up."""
    frames = [each for each in traceback.extract_tb(error.__traceback__)
              if not each.filename.startswith(PACKAGE) and each.filename.endswith(".py") and "runpy" not in each.filename]
    return f"\n{frames[-1].filename}:{frames[-1].lineno}: {frames[-1].line}" if frames else ""
