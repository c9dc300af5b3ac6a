"""Ends that are closed, full or broken: standard input, standard output, and the reader of the answers."""

import os
import socket
import struct

from .running import SHORT, SHORT_ANSWERS, complete, end, failed, hold, in_shell, on_file, run, same, start, take, until, waiting


def test_full_device(work):
    """No space for the answers, be they few or many."""
    long = work / "long"
    long.write_bytes(b"c 0\n" * 40000)
    for path in (SHORT, long):
        with open("/dev/full", "wb") as full:
            failed(on_file(path, stdout=full), "the answers could not be written: No space left on device")


def test_closed_output(work):
    failed(in_shell('exec "$0" "$1" >&-', SHORT), "standard output is closed")
    failed(in_shell('exec "$0" <"$1" >&-', SHORT), "standard output is closed")
    failed(in_shell('exec "$0" --help >&-'), "standard output is closed")
    failed(in_shell('exec "$0" <&- >&-'), "standard output is closed")


def test_closed_input(work):
    failed(in_shell('exec "$0" <&-'), "standard input is closed")
    ended = in_shell('exec "$0" "$1" <&-', SHORT)
    same(complete(ended), SHORT_ANSWERS, "a named file while standard input is closed")


def test_closed_standard_error(work):
    """A sentence that cannot be shown changes neither the answers nor the status."""
    for away in ("2>&-", "2>/dev/full"):
        ended = in_shell(f'printf "c 0\\nq\\n" | "$0" {away}; exit "${{PIPESTATUS[1]}}"')
        same(complete(ended), b"0 0 0\n99 0 0\n", f"a run with {away}")
    read_end, write_end = os.pipe()
    os.close(read_end)
    same(complete(run(input=b"c 0\nq\n", stderr=write_end)), b"0 0 0\n99 0 0\n", "a run whose sentences have no reader")
    failed(run("--unknown", stderr=write_end), status=2)
    os.close(write_end)


def test_ends_of_the_wrong_direction(work):
    failed(in_shell('exec "$0" 0>/dev/null'), "standard input could not be read")
    failed(in_shell('exec "$0" "$1" 1</dev/null', SHORT), "the answers could not be written")


def test_directory_as_input(work):
    failed(in_shell('exec "$0" <"$1"', work), "standard input could not be read: Is a directory")


def test_full_help(work):
    with open("/dev/full", "wb") as full:
        failed(run("--help", stdout=full), "help could not be written")


def test_input_that_breaks_within_a_line(work):
    """Two lines come whole and are answered; a third is cut off by a reset of the connection, and is never run."""
    with socket.create_server(("127.0.0.1", 0)) as server:
        sender = socket.create_connection(server.getsockname())
        receiver = server.accept()[0]
    with sender, receiver:
        broken = start(stdin=receiver)
        sender.sendall(b"c 0\no 0 0\np 0 0 5 5")
        answers = take(broken, 2)
        until(lambda: waiting(receiver.fileno()) == 0)
        sender.setsockopt(socket.SOL_SOCKET, socket.SO_LINGER, struct.pack("ii", 1, 0))
        sender.close()
        ended = end(broken)
    same(answers + ended.answers, b"0 0 0\n0 0 0\n", "the answers before the break")
    failed(ended, "standard input could not be read: Connection reset by peer", "answers may be missing")


def test_reader_that_goes_away(work):
    long = work / "long"
    long.write_bytes(b"c 0\n" * 100000)
    ended = in_shell('"$0" <"$1" | head -n 1; exit "${PIPESTATUS[0]}"', long)
    failed(ended, status=141)
    same(ended.answers, b"0 0 0\n", "what the reader took")
    hold(ended.said == "", f"it says something of a reader that has what it wanted: {ended.said!r}")


def test_reader_that_goes_away_from_a_talk(work):
    """The input is a pipe that stays open, and the answer to its next line has no reader."""
    talk = start()
    os.write(talk.stdin.fileno(), b"c 0\n")
    same(take(talk, 1), b"0 0 0\n", "the first answer")
    talk.stdout.close()
    os.write(talk.stdin.fileno(), b"c 0\n")
    hold(talk.wait() == 141, f"status {talk.returncode} instead of 141")


def test_reader_that_goes_away_unnoticed(work):
    """Where the signal of a broken pipe is ignored, the failed write is told."""
    long = work / "long"
    long.write_bytes(b"c 0\n" * 100000)
    with open(long, "rb") as file:
        ignoring = start(stdin=file, restore_signals=False)
    take(ignoring, 1)
    ignoring.stdout.close()
    said = ignoring.stderr.read().decode()
    hold(ignoring.wait() == 1, f"status {ignoring.returncode} instead of 1")
    hold("the answers could not be written: Broken pipe" in said, f"it says: {said!r}")
