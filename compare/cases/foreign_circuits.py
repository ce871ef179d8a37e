"""Circuits that someone else made of a compiled one: with its map, or with another one, in files of many forms."""
from random import Random
from typing import List, NamedTuple, Sequence

from cases.qasm_files import HEAD, INCLUDE, QasmFiles
from cases.real_files import RealFiles
from models.real import Gate

EDITS = ["left out", "doubled", "exchanged", "another control", "other lines", "a control less", "a control more"]
WIDE = ["negative", "wide", "swap"]
NAMES = {0: b"x", 1: b"cx", 2: b"ccx"}


class Lines(NamedTuple):
    """A circuit by its number of lines, and how many of the last ones it borrows."""

    count: int
    borrowed: int
    gates: List[Gate]


def flip(controls: Sequence[int], target: int) -> Gate:
    return Gate([(line, 1) for line in controls], [target])


def moved(gate: Gate, places: Sequence[int]) -> Gate:
    """A gate on other lines."""
    return Gate([(places[line], bit) for line, bit in gate.controls], [places[line] for line in gate.targets])


def are_free(one: Gate, other: Gate) -> bool:
    """Whether neither flips a control of the other."""
    return not any(first.targets[0] in dict(second.controls) for first, second in ((one, other), (other, one)))


class ForeignCircuits:
    """Random edits from one seed."""

    def __init__(self, seed: int):
        self.random = Random(seed)
        self.real_files, self.qasm_files = RealFiles(seed), QasmFiles(seed)

    def chance(self, probability: float) -> bool:
        return self.random.random() < probability

    def edited(self, lines: Lines, is_real: bool) -> Lines:
        """The circuit with its map, or with a small change."""
        for _ in range(self.random.choice([0, 0, 1, 2, 5])):
            lines = self.rewritten(lines)
        if self.chance(0.7):
            for _ in range(self.random.choice([1, 1, 1, 2])):
                lines = lines._replace(gates=self.changed(lines.gates, lines.count, self.random.choice(EDITS)))
        if self.chance(0.04):
            lines = self.on_fewer_lines(lines)
        if is_real and self.chance(0.04):
            lines = lines._replace(gates=self.changed(lines.gates, lines.count, self.random.choice(WIDE)))
        return lines

    # ---- The same map

    def rewritten(self, lines: Lines) -> Lines:
        """The same map: by two gates more that undo each other, free gates in another order, the other order of two
        controls, or a work line more."""
        gates, at = list(lines.gates), self.random.randint(0, len(lines.gates))
        form = self.random.choice(["pair", "order", "order", "controls", "line"])
        if form == "line":
            return self.on_more_lines(lines)
        if form == "pair":
            gates[at:at] = [self.gate(lines.count)] * 2
        elif form == "order" and 0 < at < len(gates) and are_free(gates[at - 1], gates[at]):
            gates[at - 1 : at + 1] = [gates[at], gates[at - 1]]
        elif form == "controls" and at < len(gates):
            gates[at] = Gate(gates[at].controls[::-1], gates[at].targets)
        return lines._replace(gates=gates)

    def gate(self, count: int) -> Gate:
        target, *controls = self.random.sample(range(count), self.random.randint(1, min(3, count)))
        return flip(controls, target)

    def on_more_lines(self, lines: Lines) -> Lines:
        """A line more before the borrowed ones."""
        first = lines.count - lines.borrowed
        places = [line + (line >= first) for line in range(lines.count)]
        return Lines(lines.count + 1, lines.borrowed, [moved(gate, places) for gate in lines.gates])

    # ---- Another map, mostly

    def changed(self, gates: List[Gate], count: int, edit: str) -> List[Gate]:
        if not gates:
            return [self.gate(count)]
        gates, at = list(gates), self.random.randrange(len(gates))
        controls, targets = list(gates[at].controls), list(gates[at].targets)
        others = [line for line in range(count) if line not in gates[at].lines]
        if edit == "left out":
            del gates[at]
        elif edit == "doubled":
            gates.insert(self.random.choice([at, self.random.randrange(len(gates))]), gates[at])
        elif edit == "exchanged":
            gates[at : at + 2] = gates[at : at + 2][::-1]
        elif edit == "other lines":
            places = list(range(count))
            one, other = self.random.randrange(count), self.random.randrange(count)
            places[one], places[other] = other, one
            whole = self.chance(0.3)
            gates = [moved(gate, places) if whole or number == at else gate for number, gate in enumerate(gates)]
        else:
            gates[at] = self.with_controls(edit, controls, targets, others)
        return gates

    def with_controls(self, edit: str, controls: list, targets: List[int], others: List[int]) -> Gate:
        place = self.random.randrange(len(controls)) if controls else None
        if edit == "a control less" and controls:
            del controls[place]
        elif edit == "negative" and controls:
            controls[place] = (controls[place][0], 0)
        elif edit == "swap" and others:
            targets.append(self.random.choice(others))
        elif edit == "wide" and len(others) > 2 - len(controls):
            controls += [(line, 1) for line in self.random.sample(others, 3 - len(controls))]
        elif edit == "a control more" and others and len(controls) < 2:
            controls.append((self.random.choice(others), 1))
        elif edit == "another control" and controls and others:
            controls[place] = (self.random.choice(others), 1)
        return Gate(controls, targets)

    def on_fewer_lines(self, lines: Lines) -> Lines:
        count = self.random.randint(1, lines.count)
        return Lines(count, 0, [gate for gate in lines.gates if max(gate.lines) < count])

    # ---- Files

    def file(self, lines: Lines, is_real: bool) -> bytes:
        return self.real_file(lines) if is_real else self.qasm_file(lines)

    def real_file(self, lines: Lines) -> bytes:
        """Names and marks have no part in what the file says of a program."""
        names = [b"l%d" % line for line in range(lines.count)]
        header = self.real_files.header(names, bytes(self.random.choice(b"---01") for _ in names))
        words = []
        for gate in lines.gates:
            controls = [names[line] if bit else b"-" + names[line] for line, bit in gate.controls]
            kind = b"t%d" if len(gate.targets) == 1 else b"f%d"
            words.append([kind % len(gate.lines)] + controls + [names[line] for line in gate.targets])
        return self.real_files.text(header + [[b".begin"]] + words + [[b".end"]])

    def qasm_file(self, lines: Lines) -> bytes:
        """The lines in one register, or in some."""
        places, tokens = [], HEAD + INCLUDE
        while len(places) < lines.count:
            size = self.random.randint(1, lines.count - len(places)) if self.chance(0.4) else lines.count - len(places)
            name = b"q%d" % len(places)
            tokens = tokens + [b"qreg", name, b"[", b"%d" % size, b"]", b";"]
            places += [[name, b"[", b"%d" % place, b"]"] for place in range(size)]
        for gate in lines.gates:
            word = b"CX" if len(gate.controls) == 1 and self.chance(0.2) else NAMES[len(gate.controls)]
            tokens = tokens + [word] + self.qasm_files.arguments([places[line] for line in gate.lines])
        return self.qasm_files.text(tokens)
