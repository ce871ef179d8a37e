"""A model of the words of the command line: the order that they give."""
from dataclasses import dataclass
from typing import Callable, Dict, List, NamedTuple, Optional

DIGITS = set("0123456789")


@dataclass
class Order:
    """A command, the values of its options, and its positional words, or the number that is its one or its last, behind
    the kind of a program."""

    command: str
    values: Dict[str, object]
    bits: List[str]
    number: int = 0
    kind: str = ""


class Option(NamedTuple):
    """What its value is where it is not given, and the value of a word, which is None where it has none."""

    default: object
    read: Callable[[str], object]


def number(default: int, least: int, most: int) -> Option:
    def read(word: str) -> Optional[int]:
        if not 1 <= len(word) <= 7 or not set(word) <= DIGITS:
            return None
        return int(word) if least <= int(word) <= most else None

    return Option(default, read)


def choice(default: str, *words: str) -> Option:
    return Option(default, lambda word: word if word in (default, *words) else None)


NODES = {"nodes": number(100_000, 1, 1_000_000)}
ASSUMED = {"assume": number(0, 0, 4_096)}
PLACED = {"outputs": Option("", lambda word: word if word == "inputs" else None)}  # else its plan tells their place
PLANNED = {
    "format": choice("real", "qasm"),
    "plan": choice("auto", "compact", "eager", "lean", "pebble", "shallow"),
    "lines": number(4_096, 1, 16_384),
    "gates": number(1_000_000, 1, 4_000_000),
    "borrow": number(0, 0, 64),
}
FROM = {"from": choice("real", "qasm")}
TO = {"to": choice("qasm", "real")}
AIMED = {"for": choice("gates", "depth", "order")}
NUMBERED = {"gen", "bench"}
BITS = number(0, 1, 200)
KINDS = {"add", "sub", "less", "inc", "mul"}
VERIFIED = {"outputs": choice("zero", "any", "inputs"), "by": choice("diagrams", "sums", "both")}
ARITH = {"by": number(0, 1, 9_999), "write": choice("program", "real", "qasm")}

# Of each command its options, and the least and most positional words
COMMANDS = {
    "compile": ({**NODES, **ASSUMED, **PLANNED, **PLACED}, 0, 0),
    "check": ({**NODES, **ASSUMED}, 0, 0),
    "ands": ({**NODES, **ASSUMED}, 0, 0),
    "eval": ({}, 1, 1),
    "stat": (FROM, 0, 0),
    "run": (FROM, 1, None),
    "convert": ({**FROM, **TO}, 0, 0),
    "gen": ({}, 1, 1),
    "verify": ({**FROM, **NODES, **ASSUMED, **VERIFIED, "borrow": PLANNED["borrow"]}, 0, 0),
    "tidy": ({**FROM, **TO, **AIMED}, 0, 0),
    "arith": (ARITH, 2, 2),
    "bench": ({**NODES, **{name: PLANNED[name] for name in PLANNED if name != "format"}}, 1, 1),
}


def order_of(words: List[str]) -> Optional[Order]:
    """The order that the words give, or None where they give none."""
    if not words or words[0] not in COMMANDS:
        return None
    options, least, most = COMMANDS[words[0]]
    given, positional, at = {}, [], 1
    while at < len(words):
        word, at = words[at], at + 1
        if word == "--":
            positional += words[at:]
            break
        if not word.startswith("-") or word == "-":
            positional.append(word)
            continue
        name, equals, value = word[2:].partition("=")
        if not word.startswith("--") or name not in options or name in given:
            return None
        if not equals:
            if at == len(words) or words[at] == "--":
                return None
            value, at = words[at], at + 1
        given[name] = options[name].read(value)
        if given[name] is None:
            return None
    if len(positional) < least or (most is not None and len(positional) > most):
        return None
    values = {name: given.get(name, option.default) for name, option in options.items()}
    if words[0] == "arith":
        return arith_order(values, positional, "by" in given)
    if words[0] not in NUMBERED:
        return Order(words[0], values, positional)
    bits = BITS.read(positional[0])
    return None if bits is None else Order(words[0], values, [], bits)


def arith_order(values: Dict[str, object], positional: List[str], has_factor: bool) -> Optional[Order]:
    """The order for a program of a kind: a factor is given exactly where it multiplies."""
    kind, bits = positional[0], BITS.read(positional[1])
    if kind not in KINDS or bits is None or has_factor != (kind == "mul"):
        return None
    return Order("arith", values, [], bits, kind)
