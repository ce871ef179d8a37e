"""The names that an author gives to values, read from the bytecode that stores them.

They are a courtesy: where a Python has other bytecode a name is lost, and nothing else.
"""
import bisect
import dis
import os
import re
import sys
from types import CodeType
from typing import Any, Dict, Iterator, List, Optional, Tuple

HERE = os.path.dirname(os.path.abspath(__file__)) + os.sep  # of this package, with those inside it
WORDS = set("main let fun clean assert append rotate reg true false bool for in do revs".split())
STORES = {"STORE_FAST", "STORE_NAME", "STORE_GLOBAL", "STORE_DEREF"}
SKIPPED = {"CACHE", "EXTENDED_ARG", "COPY", "DUP_TOP", "PRECALL", "RESUME"}
LONGEST = 56  # bytes of a name, so that `_2` and the like fit behind it

Place = Tuple[str, int]  # a file of Python, and a line of it


def author(unpacked: bool = False) -> Tuple[Any, Optional[Place]]:
    """The name that the author's code gives to the value that is made now, and the place of that code.

    With `unpacked` the name is a list of names where the value is unpacked, as by `x, y = ..`.
    """
    frame = sys._getframe(1)
    while frame is not None and frame.f_code.co_filename.startswith(HERE):
        frame = frame.f_back
    if frame is None:
        return None, None
    place = (frame.f_code.co_filename, frame.f_lineno)
    while frame is not None:
        kind, name = stored(frame.f_code, frame.f_lasti)
        if kind == "unpack":
            return name if unpacked else None, place
        if kind != "return":
            return name, place
        frame = frame.f_back
        if frame is None or frame.f_code.co_filename.startswith(HERE):
            break
    return None, place


_seen: Dict[CodeType, Tuple[List[int], Dict[int, Tuple[str, Any]]]] = {}


def stored(code: CodeType, at: int) -> Tuple[str, Any]:
    """Where the value goes that the instruction at this place makes: how, and under which name."""
    if code not in _seen:
        _seen[code] = [each.offset for each in dis.get_instructions(code)], dict(stores(code))
    offsets, found = _seen[code]
    # in a call, 3.11 has the place of the last cache of the instruction
    return found.get(offsets[bisect.bisect_right(offsets, at) - 1], ("", None))


def stores(code: CodeType) -> Iterator[Tuple[int, Tuple[str, Any]]]:
    """For each instruction that makes a value which goes somewhere: x = .., x, y = .., x[i] = .., return .."""
    each = [one for one in dis.get_instructions(code) if one.opname not in SKIPPED]
    pushed = None  # the list of the last `.append`
    for k in range(1, len(each)):
        before, now, rest = each[k - 1], each[k], [one.opname for one in each[k:k + 5]]
        if now.opname in ("LOAD_METHOD", "LOAD_ATTR") and now.argval == "append" and loads(before):
            pushed = before.argval
        if now.opname in STORES or now.opname.startswith("STORE_FAST_"):
            yield before.offset, ("store", named(now)[0])
        elif now.opname == "RETURN_VALUE":
            yield before.offset, ("return", None)
        elif now.opname == "UNPACK_SEQUENCE":
            names = [name for one in each[k + 1:k + 1 + now.argval] for name in named(one)][:now.argval]
            if len(names) == now.argval:
                yield before.offset, ("unpack", names)
        elif loads(now) and (rest[2:3] == ["STORE_SUBSCR"] and rest[1].startswith("LOAD_")
                             or rest[-1] == "STORE_SUBSCR" and all(one.startswith("LOAD_") for one in rest[1:3])):
            yield before.offset, ("store", now.argval)
        elif isinstance(now.argval, tuple) and rest[1:2] == ["STORE_SUBSCR"]:  # 3.13 loads the list and the place in one
            yield before.offset, ("store", now.argval[0])
        elif pushed and rest[:2] in (["CALL", "POP_TOP"], ["CALL_METHOD", "POP_TOP"]) and now.argval == 1:
            yield before.offset, ("store", pushed)
            pushed = None


def loads(instruction: dis.Instruction) -> bool:
    return instruction.opname.startswith("LOAD_") and isinstance(instruction.argval, str)


def named(instruction: dis.Instruction) -> List[str]:
    """The names that an instruction stores to, of which 3.13 may have two in one."""
    if instruction.opname in STORES:
        return [instruction.argval]
    if not instruction.opname.startswith("STORE_FAST_"):
        return []
    return list(instruction.argval)[:1 if instruction.opname.endswith("LOAD_FAST") else 2]


def as_name(hint: str) -> str:
    """A name of the language from one of Python's."""
    name = re.sub(r"[^A-Za-z0-9_]", "_", hint)[:LONGEST]
    if not name or name[0].isdigit():
        name = "v" + name
    return name + "_" if name in WORDS else name
