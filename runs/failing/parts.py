"""Inputs and outputs in parts: chopped, slow, not ready, larger than what the program holds at once."""

import os
import random
import time
from pathlib import Path

from .running import SHORT, SHORT_ANSWERS, STORED, complete, end, give, hold, on_file, programs_of, run, same, start, take, until, waiting

# Connections 0 and 1 are an input and an output; the numbers are small, so that many calls are accepted.
BEGINNING = b"c 0\ni 0 0\no 0 0\n"
LINES = ["p 0 1 {0} {1}", "p 0 1 {0} {1}", "g 0 0", "G 0 0", "f 0 0 {0}", "u 0 0 {0}", "x 0 0 {0}", "w", "W", "s 0 {0}", "q {0}", "", "p 0 1 {0}  {1}"]


def random_lines(count):
    dice = random.Random(20)
    lines = (dice.choice(LINES).format(dice.randrange(count), dice.randrange(2**64)) for _ in range(count))
    return BEGINNING + "".join(line + "\n" for line in lines).encode()


def long_file(work, count=30000):
    """A file of many calls, and its answers as they come into a file."""
    path, answers = work / "long.in", work / "long.out"
    path.write_bytes(random_lines(count))
    with open(answers, "wb") as out:
        complete(on_file(path, "--quiet", stdout=out))
    found = answers.read_bytes()
    hold(found.count(b"\n") == count + 3, f"{found.count(10)} answers to {count + 3} lines")
    hold(len(found) > 3 * 65536, "the answers are too few to fill a pipe")
    return path, found


def chopped(data, parts):
    """The answers to an input whose parts are read one by one."""
    talk = start("--quiet")
    answers = b""
    at = 0
    for size in parts:
        part = data[at : at + size]
        if not part:
            break
        give(talk, part)
        answers += take(talk, part.count(b"\n")) if b"\n" in part else b""
        at += size
    hold(at >= len(data), "the parts end before the input")
    ended = end(talk)
    return answers + complete(ended)


def test_each_line_is_answered_before_the_next(work):
    wanted = SHORT_ANSWERS.splitlines(keepends=True)
    talk = start()
    for line, answer in zip(SHORT.read_bytes().splitlines(keepends=True), wanted, strict=True):
        give(talk, line)
        same(take(talk, 1), answer, f"the answer to {line!r}")
    complete(end(talk))


def test_stored_runs_in_parts_of_1_to_100_bytes(work):
    dice = random.Random(7)
    for path in STORED:
        data = path.read_bytes()
        sizes = [dice.randint(1, 100) for _ in range(len(data))]
        same(chopped(data, sizes), path.with_suffix(".out").read_bytes(), f"{path.name} in parts")


def test_thousands_of_reads(work):
    """Each byte is a read of its own: more reads than a program makes that counts them in a small number."""
    data = random_lines(200)
    hold(len(data) > 2000, "the input is too short")
    path = work / "bytes"
    path.write_bytes(data)
    same(chopped(data, [1] * len(data)), complete(on_file(path, "--quiet")), "byte by byte")


def test_a_long_input_in_one_pipe(work):
    path, wanted = long_file(work)
    same(complete(run("--quiet", input=path.read_bytes())), wanted, "a long input through a pipe")


def test_a_part_with_more_answers_than_fit_at_once(work):
    """65,536 empty lines are one read, and seven times as many bytes of answers."""
    path = work / "empty lines"
    for count in (65536, 200001):
        path.write_bytes(b"\n" * count)
        same(complete(on_file(path, "--quiet")), b"99 0 0\n" * count, f"{count} empty lines")


def test_a_last_line_without_its_newline(work):
    data = SHORT.read_bytes().removesuffix(b"\n")
    wanted = SHORT_ANSWERS
    same(complete(run(input=data)), wanted, "a last line without its newline")
    same(chopped(data, [len(data) - 1, 1]), wanted, "a last line without its newline, in two parts")


def test_no_line_at_all(work):
    ended = run(input=b"")
    same(complete(ended), b"", "an empty input")
    hold(ended.said == "", f"it says of an empty input: {ended.said!r}")


def test_a_slow_reader_on_a_pipe_that_does_not_wait(work):
    """A full pipe that is not to be waited for is no failed write: all arrives, and the pipe stays as it was."""
    path, wanted = long_file(work)
    read_end, write_end = os.pipe()
    os.set_blocking(write_end, False)
    with open(path, "rb") as file:
        slow = start("--quiet", stdin=file, stdout=write_end)
    until(lambda: waiting(read_end) > 60000 or slow.poll() is not None)
    rests(slow)
    hold(not os.get_blocking(write_end), "the reader's pipe was changed")
    os.close(write_end)
    answers = b""
    while part := os.read(read_end, 4096):
        answers += part
        time.sleep(0.002)
    os.close(read_end)
    complete(end(slow))
    same(answers, wanted, "what a slow reader got")


def test_an_input_that_is_not_ready(work):
    """An empty pipe that is not to be waited for is neither an end nor a failure."""
    read_end, write_end = os.pipe()
    os.set_blocking(read_end, False)
    late = start(stdin=read_end)
    answers = b""
    for part in (b"c 0\ni 0", b" 0\n", b"o 0 0\n"):
        time.sleep(0.3)
        os.write(write_end, part)
        answers += take(late, 1)
    rests(late)
    hold(not os.get_blocking(read_end), "the writer's pipe was changed")
    os.close(write_end)
    os.close(read_end)
    same(answers + complete(end(late)), b"0 0 0\n0 0 0\n0 1 0\n", "the answers to a late input")


def rests(run):
    """The program, which can do nothing now, does next to nothing: looking again from time to time is no work."""
    time.sleep(0.2)
    programs = programs_of(run)
    hold(len(programs) == 1, f"{len(programs)} processes beside ./session where one waits")
    before = worked(programs[0])
    time.sleep(1)
    more = worked(programs[0]) - before
    hold(more < 0.15, f"{more:.2f} seconds of work in a second in which there was nothing to do")


def worked(process):
    """How long a process has worked until now, in seconds."""
    fields = Path(f"/proc/{process}/stat").read_text().rpartition(")")[2].split()
    return (int(fields[11]) + int(fields[12])) / os.sysconf("SC_CLK_TCK")
