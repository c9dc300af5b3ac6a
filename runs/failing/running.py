"""How the tests of failures run ./session, and what they hold it to."""

import os
import re
import signal
import subprocess
import termios
import time
from contextlib import suppress
from dataclasses import dataclass
from fcntl import ioctl
from pathlib import Path

ROOT = Path(__file__).resolve().parents[2]
SESSION = ROOT / "session"
STORED = sorted((ROOT / "runs").glob("*.in"))
# A stored session of a few lines, and its answers. Its first line is c 0.
SHORT = ROOT / "runs/document.in"
SHORT_ANSWERS = SHORT.with_suffix(".out").read_bytes()
# The operating system's sentences in English, whatever the reader's language is.
ENVIRONMENT = {**os.environ, "LC_ALL": "C"}

held = 0
started = []


class Untold(Exception):
    """Something that ./session does not do, or does not tell, as it should."""


@dataclass
class Ended:
    """A run that has ended: its status, its answers, and what it said on standard error."""

    status: int
    answers: bytes
    said: str


def hold(true, sentence):
    """Counts what was held, and stops at what is not so."""
    global held
    held += 1
    if not true:
        raise Untold(sentence)


def start(*arguments, program=SESSION, **others):
    """A run with pipes at its ends, where the test gives no others."""
    pipes = {"stdin": subprocess.PIPE, "stdout": subprocess.PIPE, "stderr": subprocess.PIPE}
    run = subprocess.Popen([program, *arguments], bufsize=0, **{"env": ENVIRONMENT, **pipes, **others})
    started.append(run)
    return run


def end(run, input=None):
    """What a run came to, after this last input."""
    answers, said = run.communicate(input)
    return Ended(run.returncode, answers or b"", (said or b"").decode())


def run(*arguments, input=b"", **others):
    """A run with its whole input in a pipe, or with other ends."""
    return end(start(*arguments, **others), None if "stdin" in others else input)


def on_file(path, *arguments, **others):
    """A run with a file as its standard input."""
    with open(path, "rb") as file:
        return run(*arguments, stdin=file, **others)


def in_shell(command, *arguments):
    """A command of bash in which "$0" is ./session: for closed ends and pipes, which are said by redirections."""
    return run("-c", command, SESSION, *arguments, program="bash", stdin=subprocess.DEVNULL)


def clear_up():
    """Ends what a test that failed has left running."""
    while started:
        run = started.pop()
        if run.poll() is None:
            for process in [*programs_of(run), run.pid]:
                with suppress(ProcessLookupError):
                    os.kill(process, signal.SIGKILL)
            run.wait()
        for pipe in (run.stdin, run.stdout, run.stderr):
            if pipe:
                pipe.close()


def complete(ended):
    """The answers of a run, which must have come to its end."""
    hold(ended.status == 0, f"status {ended.status} where the run came to its end; it said: {ended.said!r}")
    return ended.answers


def failed(ended, *words, status=1):
    """A run that failed says so: by its status, and by a sentence of its own with these words."""
    hold(ended.status == status, f"status {ended.status} instead of {status}; it said: {ended.said!r}")
    for word in words:
        hold(word in ended.said, f"it does not say '{word}', but: {ended.said!r}")
    hold(not re.search(r"session: line \d+: ", ended.said), f"bash speaks, and not the session: {ended.said!r}")


def same(found, wanted, what):
    """Two outputs are the same, byte by byte."""
    if found != wanted:
        pairs = enumerate(zip(found.splitlines(), wanted.splitlines()), 1)
        apart = next((f"line {number}: {a!r} instead of {b!r}" for number, (a, b) in pairs if a != b), "one ends before the other")
        raise Untold(f"{what}: {len(found)} bytes instead of {len(wanted)}; {apart}")
    hold(True, what)


def give(run, part):
    """Writes a part of the input and waits until it was taken out of the pipe: so each part is a read of its own."""
    pipe = run.stdin.fileno()
    os.write(pipe, part)
    until(lambda: waiting(pipe) == 0 or run.poll() is not None)


def take(run, count):
    """So many answers, as they come."""
    answers = b""
    while answers.count(b"\n") < count:
        part = os.read(run.stdout.fileno(), 65536)
        hold(part, f"{answers.count(10)} answers where {count} were due")
        answers += part
    return answers


def waiting(pipe):
    """How many bytes lie in a pipe or a socket and were not read yet."""
    return int.from_bytes(ioctl(pipe, termios.FIONREAD, bytes(4)), "little")


def until(true):
    """Waits until something is so; what never comes is ended by the test's limit of time."""
    while not true():
        time.sleep(0.0002)


def state_and_parent(process):
    """The state of a process, and the process that has started it; Z where there is none."""
    try:
        state, parent = Path(f"/proc/{process}/stat").read_text().rpartition(")")[2].split()[:2]
    except OSError:
        return "Z", 0
    return state, int(parent)


def lives(process):
    return state_and_parent(process)[0] not in "ZX"


def programs_of(run):
    """The processes that a run has started and that still live."""
    processes = [int(place.name) for place in Path("/proc").glob("[0-9]*")]
    return [process for process in processes if lives(process) and state_and_parent(process)[1] == run.pid]
