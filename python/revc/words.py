"""The words of the program `revc`: what each command takes, and what is wrong with words that it does not take.

    python3 -m revc.words compile --line 30     (`./revc` and `./try` call this behind a refusal of their words)
"""
import difflib
import os
import re
import sys
from typing import Dict, Iterable, List, NamedTuple, Optional, Sequence, Tuple

from .commands import COMMANDS as OF_PACKAGE
from .defaults import DEFAULTS, Default

FORMATS = ("real", "qasm")
KINDS = ("add", "sub", "less", "inc", "mul")
TEXTS = (".revs", ".real", ".qasm", ".txt", ".v", ".blif", ".aag", ".aig")  # endings of files


class Command(NamedTuple):
    """`words` are what it takes besides options, `reads` what stands on standard input ("" for nothing)."""

    words: Tuple[str, ...]
    options: Tuple[str, ...]
    reads: str = "a program"


BUDGETS = ("plan", "lines", "gates", "borrow", "nodes")
COMMANDS: Dict[str, Command] = {
    "compile": Command((), ("format", *BUDGETS, "assume", "outputs")),
    "check": Command((), ("nodes", "assume")),
    "ands": Command((), ("nodes", "assume")),
    "eval": Command(("BITS",), ()),
    "run": Command(("BITS..",), ("from",), "a circuit"),
    "stat": Command((), ("from",), "a circuit"),
    "convert": Command((), ("from", "to"), "a circuit"),
    "tidy": Command((), ("from", "to", "for"), "a circuit"),
    "verify": Command((), ("from", "nodes", "borrow", "outputs", "by", "assume"), "a program, a line `---` and a circuit"),
    "gen": Command(("N",), (), ""),
    "bench": Command(("N",), BUDGETS, ""),
    "arith": Command(("KIND", "N"), ("by", "write"), ""),
}
OPTIONS: Dict[str, Default] = {
    **DEFAULTS,
    "format": Default("real", "real", FORMATS, "the format of the file that is written"),
    "from": Default("real", "real", FORMATS, "the format of the circuit that is read"),
    "to": Default("qasm", "qasm", FORMATS, "the format of the circuit that is written"),
    "outputs": Default("zero", "zero", ("zero", "any", "inputs"), "where the outputs stand"),
    "write": Default("program", "program", ("program", *FORMATS), "what is written"),
}
OWN = {  # what options are of one command
    ("arith", "by"): Default(1, 1, (1, 9999), "the constant by which `mul` multiplies"),
    ("compile", "outputs"): Default("inputs", "inputs", ("inputs",), "where the outputs stand; without it by the plan"),
}
SIZE = Default(1, 1, (1, 200), "how many bits the numbers have")


def option(command: str, name: str) -> Default:
    return OWN.get((command, name), OPTIONS[name])


def nearest(word: str, names: Iterable[str]) -> str:
    """The name that is most like a word, or "" where none is."""
    return next(iter(difflib.get_close_matches(word, list(names), 1, 0.6)), "")


def one_of(names: Iterable[str]) -> str:
    return ", ".join(names)


class Refusal(Exception):
    """What is wrong with the words, and what helps."""


# ---- What is wrong


def wrong(words: Sequence[str]) -> str:
    """Which of these words the program does not take, and what would help; "" where nothing is found to be wrong."""
    try:
        check(list(words))
    except Refusal as refusal:
        return str(refusal)
    return ""


def check(words: List[str]) -> None:
    if not words:
        raise Refusal(f"a command is wanted: {one_of(COMMANDS)}")
    name, *rest = words
    if name not in COMMANDS:
        raise Refusal(no_command(name))
    given, plain = parted(name, rest)
    for option_, value in given.items():
        check_value(option(name, option_), f"--{option_}", value)
    check_plain(name, plain)
    if name == "arith" and (plain[0] == "mul") != ("by" in given):
        raise Refusal("`arith mul N` wants `--by C`, the constant" if plain[0] == "mul" else
                      f"`arith {plain[0]}` takes no `--by`: only `mul` has a constant")


def no_command(name: str) -> str:
    if name in {each[0] for each in OF_PACKAGE}:
        return f"`{name}` is a command of `python3 -m revc`, which works on files"
    near = nearest(name, COMMANDS)
    if os.path.isfile(name):
        return f"`{name}` is a file, and a command is wanted first: compile < {name}"
    return f"there is no command `{name}`: " + (f"is it `{near}`?" if near else one_of(COMMANDS))


def parted(command: str, words: List[str]) -> Tuple[Dict[str, str], List[str]]:
    """The options with their values, and the other words."""
    given: Dict[str, str] = {}
    plain: List[str] = []
    while words:
        word = words.pop(0)
        if word == "--":
            return given, plain + words
        if not word.startswith("-") or word == "-":
            plain.append(word)
            continue
        name, equals, value = word.lstrip("-").partition("=") if word.startswith("--") else ("", "", "")
        if name not in COMMANDS[command].options:
            raise Refusal(no_option(command, word.partition("=")[0]))
        if name in given:
            raise Refusal(f"`--{name}` stands twice")
        if not equals:
            if not words or words[0] == "--":
                raise Refusal(f"`--{name}` wants a value: {option(command, name).range}")
            value = words.pop(0)
        given[name] = value
    return given, plain


def no_option(command: str, word: str) -> str:
    takes = COMMANDS[command].options
    if word in ("-h", "--help"):
        return "`--help` stands alone: ./revc --help"
    if word in ("-o", "--output"):
        return f"`{command}` takes no `{word}`: it writes to standard output, so say > FILE"
    near = nearest(word.lstrip("-"), takes)
    others = [name for name, each in COMMANDS.items() if word[2:] in each.options]
    if near and not others:
        return f"`{command}` takes no `{word}`: is it `--{near}`?"
    of_others = f"that is of {one_of(others)}; " if others else ""
    its_own = one_of(f"--{each}" for each in takes) if takes else "none"
    return f"`{command}` takes no `{word}`: {of_others}its options are {its_own}"


def check_value(about: Default, name: str, value: str) -> None:
    """Refuses a value that an option, or a word of this name, does not take."""
    if isinstance(about.takes[0], int):
        if not re.fullmatch("[0-9]{1,7}", value) or not about.allows(int(value)):
            raise Refusal(f"`{name} {value}`: a number from {about.range}")
    elif value not in about.takes:
        near = nearest(value, map(str, about.takes))
        raise Refusal(f"`{name} {value}`: " + (f"is it `{near}`? There are {about.range}" if near else about.range))


def check_plain(command: str, plain: List[str]) -> None:
    """Refuses too many and too few words besides options, and those that are files."""
    wants, about = COMMANDS[command].words, COMMANDS[command]
    many = wants[-1:] == ("BITS..",)
    for word in plain if about.reads else []:
        if word.endswith(".py"):
            raise Refusal(f"`{word}` is a file of Python: python3 -m revc {command} {word}")
        if word.endswith(TEXTS) or "/" in word or not word.isdigit() and os.path.isfile(word):
            raise Refusal(f"`{command}` reads {about.reads} from standard input: write `< {word}` in place of `{word}`")
    if len(plain) > len(wants) and not many:
        raise Refusal(f"`{command}` takes no `{plain[len(wants)]}`" + (f": it takes {' '.join(wants)} alone" if wants else
                                                                       f": it reads {about.reads} from standard input"))
    if len(plain) < len(wants):
        raise Refusal(f"`{command}` wants {' '.join(wants)}" + {"eval": ", a digit 0 or 1 for each input",
                                                              "run": ", a digit 0 or 1 for each line"}.get(command, ""))
    for want, word in zip(wants, plain):
        if want == "N":
            check_value(SIZE, command, word)
        elif want == "KIND" and word not in KINDS:
            near = nearest(word, KINDS)
            raise Refusal(f"`arith {word}`: " + (f"is it `{near}`?" if near else f"the kinds are {one_of(KINDS)}"))


def main(words: Optional[Sequence[str]] = None) -> int:
    """Says what is wrong with words, where something is found."""
    found = wrong(sys.argv[1:] if words is None else words)
    if found:
        print(found)
    return 0


if __name__ == "__main__":
    sys.exit(main())
