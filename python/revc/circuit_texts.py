"""The texts of circuits: `.real`, OpenQASM 2 and OpenQASM 3."""
import re
from pathlib import Path
from typing import Dict, Iterator, List, Sequence, Tuple

from .errors import RevcError
from .gates import Gate
from .line_names import registers

LONGEST = 64  # bytes of a name
RESERVED = set(  # words and gates of OpenQASM, which no register may be called
    "OPENQASM include qreg creg qubit bit gate opaque barrier measure reset if else for while in let def cal defcal const "
    "int uint float angle bool complex duration stretch box delay input output return extern array mutable readonly "
    "switch case default break continue end ctrl negctrl inv pow pi tau euler U CX u0 u1 u2 u3 u p x y z h s sdg t tdg sx "
    "sxdg rx ry rz cx cy cz ch cp cu cu1 cu3 crx cry crz ccx ccz swap cswap c3x c4x mcx id phase cphase gphase rxx rzz "
    "rccx rc3x csx c3sqrtx sin cos tan exp ln sqrt".split())
FILES = (".real", ".qasm", ".qasm3")  # endings of names


def ending_of(path: str, endings: Sequence[str], what: str) -> str:
    """The ending of a file's name, which has to be one of these."""
    kind = Path(path).suffix
    if kind not in endings:
        raise RevcError(f"{path}: {what} as {', '.join(endings[:-1])}{' or ' * (len(endings) > 1)}{endings[-1]}")
    return kind


def qasm_name(name: str) -> str:
    """A register's name in OpenQASM that comes nearest to a name; of a word or a gate it is `x_`."""
    name = re.sub(r"\W", "_", name, flags=re.ASCII)[:LONGEST - 4]
    if not name[:1].isalpha() or name[:1].isupper():
        name = "q" + name if not name[:1].isalpha() else name[0].lower() + name[1:]
    return name + "_" if name in RESERVED else name


def qasm_registers(names: Sequence[str]) -> Tuple[Dict[str, int], List[str]]:
    """The registers of lines with their sizes, in the order in which they begin, and what each line is called."""
    sizes: Dict[str, int] = {}
    called = [""] * len(names)
    for register, lines in registers(names).items():
        name = base = qasm_name(register)
        count = 1
        while name in sizes:
            count += 1
            name = f"{base}{count}"
        sizes[name] = len(lines)
        for place, line in enumerate(lines):
            called[line] = f"{name}[{place}]"
    return sizes, called


def qasm_head(names: Sequence[str], version: int = 2) -> Tuple[List[str], List[str]]:
    """The first lines of an OpenQASM file, with the registers of these lines, and what each line is called."""
    sizes, called = qasm_registers(names)
    head = ["OPENQASM 2.0;", 'include "qelib1.inc";'] if version == 2 else ["OPENQASM 3.0;", 'include "stdgates.inc";']
    head += [f"qreg {name}[{size}];" if version == 2 else f"qubit[{size}] {name};" for name, size in sizes.items()]
    return head, called


def qasm_text(names: Sequence[str], gates: Sequence[Gate], version: int = 2) -> str:
    """OpenQASM; in version 2 of X, CX and CCX gates alone, and in version 3 of any."""
    head, called = qasm_head(names, version)
    return "\n".join([*head, *(qasm_gate(gate, called) for gate in gates), ""])


def qasm_gate(gate: Gate, called: Sequence[str]) -> str:
    """A gate as OpenQASM says it."""
    bits = [bit for _, bit in gate.controls]
    usual = all(bits) and len(gate.lines) <= 3
    if usual:
        word = ("x", "cx", "ccx")[len(bits)] if len(gate.targets) == 1 else ("swap", "cswap")[len(bits)]
    else:
        word = "".join(modifiers(bits)) + ("x" if len(gate.targets) == 1 else "swap")
    return f"{word} {','.join(called[line] for line in gate.lines)};"


def modifiers(bits: Sequence[bool]) -> Iterator[str]:
    """`ctrl(2) @ negctrl @ `, for controls that are met by these bits."""
    at = 0
    while at < len(bits):
        end = at
        while end < len(bits) and bits[end] == bits[at]:
            end += 1
        number = f"({end - at})" if end - at > 1 else ""
        yield ("ctrl" if bits[at] else "negctrl") + number + " @ "
        at = end


def real_text(names: Sequence[str], gates: Sequence[Gate], marks: str, garbage: str) -> str:
    """RevLib's format, with the names as they are."""
    fits = all(len(name.encode()) <= LONGEST and not re.search(r"\s|^[-#.]", name) for name in names)
    called = list(names) if fits else [f"l{i}" for i in range(len(names))]
    all_ = " ".join(called)
    head = [".version 2.0", f".numvars {len(called)}", f".variables {all_}", f".inputs {all_}", f".outputs {all_}",
            f".constants {marks}", f".garbage {garbage}", ".begin"]
    return "\n".join([*head, *(real_gate(gate, called) for gate in gates), ".end", ""])


def real_gate(gate: Gate, called: Sequence[str]) -> str:
    words = [("" if bit else "-") + called[line] for line, bit in gate.controls] + [called[line] for line in gate.targets]
    return f"{'t' if len(gate.targets) == 1 else 'f'}{len(words)} {' '.join(words)}"
