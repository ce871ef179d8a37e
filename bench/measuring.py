"""What a run of a program takes: the time of the processor and the peak of its memory."""
import os
import resource
import subprocess
import tempfile
import time

SECONDS = 60


def processor_seconds(program, words, source):
    """The status of a run, or None where it was stopped, and the time of the processor that it took."""

    def so_far() -> float:
        usage = resource.getrusage(resource.RUSAGE_CHILDREN)
        return usage.ru_utime + usage.ru_stime

    before, nowhere = so_far(), subprocess.DEVNULL

    def limit() -> None:
        resource.setrlimit(resource.RLIMIT_CPU, (SECONDS, SECONDS))

    done = subprocess.run([program] + words, stdin=source, stdout=nowhere, stderr=nowhere, preexec_fn=limit)
    return None if done.returncode < 0 else done.returncode, so_far() - before


def peak_mb(program, words, source) -> float:
    """The peak memory of a run that is held up where it writes its first byte. All memory is taken before that."""
    reading, writing = os.pipe()
    os.set_blocking(writing, False)
    try:
        while True:
            os.write(writing, bytes(4096))
    except BlockingIOError:
        os.set_blocking(writing, True)
    process = subprocess.Popen([program] + words, stdin=source, stdout=writing, stderr=writing)
    status, end = {}, time.monotonic() + SECONDS
    while not status.get("State", "").startswith(("S", "Z")) and time.monotonic() < end:
        time.sleep(0.001)
        with open("/proc/%d/status" % process.pid) as lines:
            status = {name: value for name, _, value in (line.partition(":\t") for line in lines)}
    process.kill()
    process.wait()
    os.close(reading)
    os.close(writing)
    return int(status["VmHWM"].split()[0]) / 1024


def measured(program, words, text, repeat):
    """The status, the least time and the peak memory of some runs."""
    with tempfile.TemporaryFile() as source:

        def again(measure):
            source.seek(0)
            return measure(program, words, source)

        source.write(text)
        status, least = again(processor_seconds)
        if status is None:
            return "no end", least, 0
        return status, min([least] + [again(processor_seconds)[1] for _ in range(repeat - 1)]), again(peak_mb)
