"""What only a real process shows: its words, its streams, and its time on texts of the greatest sizes."""
import os
import resource
import subprocess
import tempfile
import time
from contextlib import contextmanager
from itertools import chain
from typing import Iterator, List, Tuple

from cases.happy_calls import AND, UNREAD, Call, known
from cases.rows import LEAST, NO_GATES

UNBOUND = b"main (a : bool) = z"
SECONDS = 60
NO_ORDERS = [[], ["Compile"], ["compile", "x"], ["compile", "-"], ["eval"], ["eval", "1", "1"], ["eval", "-1"], ["run"],
             ["stat", "--from", "x"], ["gen", "201"], ["check", "--nodes", "0"], ["--help"], ["--", "compile"]]
COUNTS = (NO_GATES.replace(", ", "\n") + "\n").encode()
LARGE = LEAST.replace(".end", "t1 a\n" * 200_000 + ".end").encode()
LARGE_QASM = b"OPENQASM 2.0;\nqreg a[2];\n" + b"CX a[0],a[1];\n" * 200_000
MOST_GATES = 4_000_000
MOST_WRITES = 262_144
MOST_PROGRAM = 1_048_576
MOST_CIRCUIT = 134_217_728
MOST_TOGETHER = MOST_PROGRAM + MOST_CIRCUIT + 5  # with a parting line between
LITTLE = 64 << 20
CLAIMS = b"main (a : bool) = {\n" + b"clean (a <> a);\n" * 4_096 + b"a }"

Edge = Tuple[str, bool]


def limited(size: int):
    """Of a process: an address space of so many bytes."""
    return {"preexec_fn": lambda: resource.setrlimit(resource.RLIMIT_AS, (size, size))}


@contextmanager
def opened(path: str, flags: int = os.O_RDONLY) -> Iterator[int]:
    stream = os.open(path, flags)
    try:
        yield stream
    finally:
        os.close(stream)


@contextmanager
def file_of(text: bytes, size: int = 0):
    """An open file with a text, and zeros behind it up to a size, at its start."""
    with tempfile.TemporaryFile() as file:
        file.write(text)
        file.truncate(max(size, len(text)))
        file.seek(0)
        yield file


class Process:
    """The built program."""

    def __init__(self, program: str):
        self.program = program
        self.calls = known(program)

    @property
    def reading(self) -> List[Call]:
        """A call of each command that reads a source."""
        return [call for command, call in self.calls.items() if command not in UNREAD]

    def run(self, words, text=AND, **streams):
        """The status, what was written, and the line on standard error; no status where there is no end."""
        streams = {"stdout": subprocess.PIPE, "stderr": subprocess.PIPE, **streams}
        if "stdin" not in streams:
            streams["input"] = text
        try:
            done = subprocess.run([self.program] + words, timeout=SECONDS, **streams)
        except subprocess.TimeoutExpired:
            return None, b"", b""
        return done.returncode, done.stdout, done.stderr

    def begun(self, words, **streams) -> subprocess.Popen:
        return subprocess.Popen([self.program] + words, **{"stderr": subprocess.PIPE, **streams})


def is_fault(done, status: int, line: bytes) -> bool:
    return done == (status, b"", b"revc: " + line + b"\n")


def edges(program: str) -> Iterator[Edge]:
    """A title of each edge, and whether the program does there what docs/COMMANDS.md says."""
    process = Process(program)
    parts = [standard_error, full_devices, closed_pipes, folders, endless_sources, hung_up_terminals, no_orders,
             unread_sources, ends_of_options, greatest_programs, greatest_plans, little_memory, many_claims,
             greatest_circuits, most_gates, most_gates_in_qasm, greatest_gate]
    return chain.from_iterable(part(process) for part in parts)


# ---- Streams


def standard_error(process: Process) -> Iterator[Edge]:
    refused = process.run(["compile"], UNBOUND)
    yield "a refusal is written to standard error alone", is_fault(refused, 3, b"1:19 Unbound")
    yield "a claim that fails is written to standard error alone", is_fault(
        process.run(["eval", "1"], b"main (a : bool) = { clean a; true }"), 4, b"claim 1 at 1:21 fails on 1")


def full_devices(process: Process) -> Iterator[Edge]:
    with opened("/dev/full", os.O_WRONLY) as full:
        for words, text in process.calls.values():
            status, _, line = process.run(words, text, stdout=full)
            yield words[0] + " on a full device is a write fault", (status, line) == (10, b"revc: write fault\n")
        status, out, _ = process.run(["compile"], UNBOUND, stderr=full)
        yield "a full standard error changes no status", (status, out) == (3, b"")


def closed_pipes(process: Process) -> Iterator[Edge]:
    for words, text in process.calls.values():
        reading, writing = os.pipe()
        os.close(reading)
        status, _, line = process.run(words, text, stdout=writing, restore_signals=False)
        os.close(writing)
        yield words[0] + " on a pipe that was closed is a write fault", (status, line) == (10, b"revc: write fault\n")
    reading, writing = os.pipe()
    with file_of(LARGE) as source:  # its circuit is more than fits a pipe
        begun = process.begun(["convert"], stdin=source, stdout=writing, restore_signals=False)
        os.close(writing)
        front = os.read(reading, 1)
        os.close(reading)
        _, line = begun.communicate(timeout=SECONDS)
    faulty = (begun.returncode, front, line) == (10, b"O", b"revc: write fault\n")
    yield "a pipe that is closed later is a write fault", faulty


def folders(process: Process) -> Iterator[Edge]:
    with opened("/") as folder:
        for words, _ in process.reading:
            faulty = is_fault(process.run(words, stdin=folder), 9, b"read fault")
            yield words[0] + " of a source that cannot be read is a read fault", faulty


def endless_sources(process: Process) -> Iterator[Edge]:
    """A source without an end, and how much is read of a long one: one byte past the limit."""
    for words, _ in process.reading:
        is_program = words[0] in ("compile", "check", "ands", "eval")
        most = MOST_PROGRAM if is_program else MOST_TOGETHER if words[0] == "verify" else MOST_CIRCUIT
        fault = (3, b"source over 1048576 bytes") if is_program else (8, b"circuit over 134217728 bytes")
        with opened("/dev/zero") as endless:
            refused = is_fault(process.run(words, stdin=endless), *fault)
        yield words[0] + " of a source without an end is refused", refused
        with file_of(b"", 2 * most) as long:
            refused = is_fault(process.run(words, stdin=long), *fault)
            read = os.lseek(long.fileno(), 0, os.SEEK_CUR)
        yield words[0] + " reads one byte past its limit", refused and read == most + 1


def hung_up_terminals(process: Process) -> Iterator[Edge]:
    for words, text in process.calls.values():
        ours, theirs = os.openpty()
        os.close(ours)
        status, _, line = process.run(words, text, stdout=theirs)
        os.close(theirs)
        yield words[0] + " on a terminal that hung up is a write fault", (status, line) == (10, b"revc: write fault\n")
    ours, theirs = os.openpty()
    begun = process.begun(["compile"], stdin=theirs, stdout=subprocess.PIPE)
    os.close(theirs)
    os.write(ours, b"main (a : bool) =\n")
    wait_for_sleep(begun)
    os.close(ours)
    out, line = begun.communicate(timeout=SECONDS)
    yield "a terminal that hangs up is a read fault", is_fault((begun.returncode, out, line), 9, b"read fault")


def wait_for_sleep(process: subprocess.Popen) -> None:
    """Waits until a process has done what it can, and sleeps where it reads on."""
    asleep, end = 0, time.monotonic() + SECONDS
    while asleep < 10 and time.monotonic() < end:
        time.sleep(0.02)
        with open("/proc/%d/stat" % process.pid) as stat:
            asleep = asleep + 1 if stat.read().rpartition(") ")[2].startswith("S") else 0


# ---- Words


def no_orders(process: Process) -> Iterator[Edge]:
    for words in NO_ORDERS:
        with file_of(AND) as source:
            done = process.run(words, stdin=source)
            untouched = os.lseek(source.fileno(), 0, os.SEEK_CUR) == 0
        yield "the words %s give no order" % words, is_fault(done, 2, b"bad command line") and untouched
    for words in ([b"\xff"], ["eval", b"\xff"], ["check", "--nodes", b"\xff"]):
        yield "words that are no text end with status 1", process.run(words) == (1, b"", b"")


def unread_sources(process: Process) -> Iterator[Edge]:
    for words in (["gen", "2"], ["bench", "2"]):
        with file_of(AND) as source:
            done = process.run(words, stdin=source)
            untouched = os.lseek(source.fileno(), 0, os.SEEK_CUR) == 0
        yield words[0] + " leaves the source untouched", done[0] == 0 and untouched
        with opened("/") as folder:
            yield words[0] + " needs no source", process.run(words, stdin=folder) == done


def ends_of_options(process: Process) -> Iterator[Edge]:
    yield "`--` ends the options", process.run(["compile", "--"]) == process.run(["compile"])
    yield "`--` ends the options of `eval`", process.run(["eval", "--", "11"]) == (0, b"1\n", b"")
    for words in (["eval", "-"], ["eval", "--", "-1"]):
        yield "the words %s give an order" % words, is_fault(process.run(words), 12, b"bad bits in word 1")


# ---- Programs of the greatest sizes


def greatest_programs(process: Process) -> Iterator[Edge]:
    short = b"main (a : bool) = a"
    taken = process.run(["eval", "1"], short.ljust(MOST_PROGRAM)) == (0, b"1\n", b"")
    yield "a text of the greatest size is taken", taken
    too_long = process.run(["eval", "1"], short.ljust(MOST_PROGRAM + 1))
    yield "one byte more is refused", is_fault(too_long, 3, b"source over 1048576 bytes")

    lets = b"".join(b"let n%d=a;\n" % number for number in range(70_000))
    text = b"main (a : bool) = {\n" + lets + b"n0 <> n1 <> a }"
    yield "70,000 lets run in time", process.run(["eval", "1"], text.ljust(MOST_PROGRAM)) == (0, b"1\n", b"")

    text = AND + b" <> a && b" * 2_000 + b" <> false" * 100_000
    compiled = process.run(["compile"], text.ljust(MOST_PROGRAM))[0] == 0
    yield "a text of the greatest size compiles in time", compiled


def greatest_plans(process: Process) -> Iterator[Edge]:
    chained = b"main (a : bool) (b : bool) = " + b"<>".join([b"a", b"b"] * (MOST_WRITES // 2) + [b"a"])
    done = process.run(["compile", "--gates", str(MOST_GATES)], chained)
    planned = done[0] == 0 and b".numvars 5\n" in done[1] and done[1].count(b"\nt") == 6 * MOST_WRITES - 1
    yield "a chain of as many nodes as there may be is planned in time", planned
    done = process.run(["compile", "--plan", "pebble", "--lines", "300", "--gates", str(MOST_GATES)], chained)
    yield "and refused in time by all block sizes", is_fault(done, 7, b"more than 4000000 gates")


def little_memory(process: Process) -> Iterator[Edge]:
    for words, text in process.calls.values():
        done = process.run(words, text, **limited(LITTLE))
        yield words[0] + " in an address space of 64 MB answers", done == process.run(words, text)
    larges = [(["compile"], CLAIMS), (["check"], CLAIMS), (["eval", "1"], CLAIMS), (["stat"], LARGE),
              (["run", "1"], LARGE), (["convert"], LARGE), (["stat", "--from", "qasm"], LARGE_QASM),
              (["bench", "200", "--plan", "pebble"], b"")]
    for words, large in larges:
        answers, none = [process.run(words, large)], (11, b"", b"revc: out of memory\n")
        for size in range(5_500_000, 40_000_000, 1_500_000):
            answers.append(process.run(words, large, **limited(size)))
        yield words[0] + " in little memory wants memory, or answers", set(answers) == {answers[0], none}
    done = process.run(["stat"], LEAST.encode() + b"#".ljust(MOST_CIRCUIT // 2), **limited(LITTLE))
    yield "a text of 64 MB wants more than an address space of 64 MB", is_fault(done, 11, b"out of memory")


def many_claims(process: Process) -> Iterator[Edge]:
    settled = process.run(["check"], CLAIMS) == (0, b"claims 4096\n", b"")
    yield "as many claims as there may be are settled in time", settled
    text = b"main (a : bool) (b : bool) = { clean (a <> a" + b" <> a <> b <> b <> a" * 52_000 + b"); a }"
    yield "a claim on 208,001 writes is settled in time", process.run(["check"], text) == (0, b"claims 1\n", b"")


# ---- Circuits of the greatest sizes


def greatest_circuits(process: Process) -> Iterator[Edge]:
    least = LEAST.encode()
    longest = least + b"#".ljust(MOST_CIRCUIT - len(least), b"x")
    yield "a circuit text of the greatest size is taken", process.run(["stat"], longest) == (0, COUNTS, b"")
    too_long = process.run(["stat"], longest + b"x")
    yield "one byte more of a circuit is refused", is_fault(too_long, 8, b"circuit over 134217728 bytes")


def most_gates(process: Process) -> Iterator[Edge]:
    least = LEAST.encode()
    for more in (0, 1):
        text = least.replace(b".end", b"t1 a\n" * (MOST_GATES + more) + b".end")
        counts = COUNTS.replace(b"gates 0\nx 0", b"gates 4000000\nx 4000000").replace(b"depth 0", b"depth 4000000")
        done = process.run(["stat"], text)
        fits = is_fault(done, 8, b"circuit line 4000004 over a limit") if more else done == (0, counts, b"")
        yield "%d gates are %s" % (MOST_GATES + more, "over the limit" if more else "taken"), fits
    text = least.replace(b".end", b"t1 a\n" * MOST_GATES + b"t0 a\n.end")
    read_first = is_fault(process.run(["stat"], text), 8, b"circuit line 4000004")
    yield "the word of a gate over the limit is read first", read_first


def most_gates_in_qasm(process: Process) -> Iterator[Edge]:
    for more in (0, 1):
        text = b"OPENQASM 2.0; qreg a[2]; qreg b[2];" + b"CX a,b;" * (MOST_GATES // 2) + b"\nCX a[0],b[0];" * more
        done = process.run(["stat", "--from", "qasm"], text)
        fits = is_fault(done, 8, b"circuit at 2:13 over a limit") if more else b"\ngates 4000000\n" in done[1]
        yield "%d gates in OpenQASM are %s" % (MOST_GATES + more, "over the limit" if more else "taken"), fits
    text = b"OPENQASM 2.0; qreg a[2]; qreg b[2];" + b"CX a,b;" * (MOST_GATES // 2)
    done = process.run(["convert", "--from", "qasm"], text)
    yield "4,000,000 gates are converted in time", done[0] == 0 and done[1].count(b"\ncx ") == MOST_GATES


def greatest_gate(process: Process) -> Iterator[Edge]:
    names = b" ".join(b"l%d" % number for number in range(16_384))
    text = b".numvars 16384\n.variables %s\n.begin\nt16384 %s\n.end\n" % (names, names)
    counts = COUNTS.replace(b"lines 1\ngates 0", b"lines 16384\ngates 1").replace(b"wide 0", b"wide 1")
    stated = process.run(["stat"], text) == (0, counts.replace(b"depth 0", b"depth 1"), b"")
    yield "a gate over 16,384 lines is taken", stated
    ones, last = "1" * 16_384, b"1" * 16_383 + b"0\n"
    done = process.run(["convert"], text)
    yield "and has no line that could be added", is_fault(done, 6, b"lines 16385 over 16384")
    flipped = process.run(["run", ones, ones[:-1] + "0"], text) == (0, last + last.replace(b"0", b"1"), b"")
    yield "and flips the last", flipped
