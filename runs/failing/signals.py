"""Signals: to the program, to ./session that waits for it, and from the keyboard of a terminal."""

import fcntl
import os
import pty
import signal
import socket
import struct
import sys
import termios
import time

from .running import SHORT, SHORT_ANSWERS, complete, end, failed, give, hold, lives, programs_of, same, start, state_and_parent, take, until

# A program that tells what one read of its own came to, and does not go on where it was interrupted.
ONE_READ = """import ctypes, errno, os
print("begun", flush=True)
ctypes.CDLL(None, use_errno=True).read(0, ctypes.create_string_buffer(9), 9)
print(errno.errorcode.get(ctypes.get_errno()))"""


def talking():
    """A run amid its input, with the one process that it has started."""
    talk = start()
    give(talk, b"c 0\n")
    same(take(talk, 1), b"0 0 0\n", "the first answer")
    programs = programs_of(talk)
    hold(len(programs) == 1, f"{len(programs)} processes beside ./session")
    return talk, programs[0]


def test_a_program_that_is_ended(work):
    """The program is ended amid its input: the status is the signal's, and a sentence says so."""
    for number in (signal.SIGKILL, signal.SIGTERM, signal.SIGSEGV):
        talk, program = talking()
        os.kill(program, number)
        failed(end(talk), "ended by a signal", number.name.removeprefix("SIG"), "answers may be missing", status=128 + number)


def test_a_session_that_is_ended(work):
    """./session itself is ended, also by what it cannot catch: the program ends with it, and does not go on with the input alone."""
    for number in (signal.SIGTERM, signal.SIGHUP, signal.SIGKILL):
        talk, program = talking()
        talk.send_signal(number)
        hold(talk.wait() == -number, f"status {talk.returncode} after {number.name}")
        until(lambda: not lives(program))
        same(os.read(talk.stdout.fileno(), 1), b"", "answers after the end")


def test_a_stop_loses_nothing(work):
    """Both are stopped, again and again, while input waits, and go on."""
    talk, program = talking()
    answers = b""
    for line in SHORT.read_bytes().splitlines(keepends=True)[1:]:
        for process in (program, talk.pid):
            os.kill(process, signal.SIGSTOP)
        os.write(talk.stdin.fileno(), line)
        time.sleep(0.01)
        for process in (talk.pid, program):
            os.kill(process, signal.SIGCONT)
        answers += take(talk, 1)
    same(b"0 0 0\n" + answers + complete(end(talk)), SHORT_ANSWERS, "a run that was stopped")


def interruptible():
    """Two ends of a socket. Linux interrupts a read of the second by a stop, since it has a limit of time: 100 seconds."""
    sender, receiver = socket.socketpair()
    receiver.setsockopt(socket.SOL_SOCKET, socket.SO_RCVTIMEO, struct.pack("ll", 100, 0))
    return sender, receiver


def interrupt(process):
    """Stops a process that waits in a read, and lets it go on."""
    time.sleep(0.05)
    for number, state in ((signal.SIGSTOP, "T"), (signal.SIGCONT, "S")):
        os.kill(process, number)
        until(lambda: state_and_parent(process)[0] in (state, "Z"))


def test_an_interrupted_read_loses_nothing(work):
    sender, receiver = interruptible()
    with sender, receiver:
        once = start("-c", ONE_READ, program=sys.executable, stdin=receiver)
        take(once, 1)
        interrupt(once.pid)
        same(end(once).answers, b"EINTR\n", "a read that a stop interrupts")
        talk = start(stdin=receiver)
        answers = b""
        for line in SHORT.read_bytes().splitlines(keepends=True):
            sender.sendall(line)
            answers += take(talk, 1)
            [program] = programs_of(talk)
            interrupt(program)
        sender.close()
        same(answers + complete(end(talk)), SHORT_ANSWERS, "a run whose reads were interrupted")


def test_interrupt_from_the_keyboard(work):
    """Ctrl-C at a terminal ends ./session and the program; ./session ends by the signal, as whoever called it expects."""
    keyboard, terminal = pty.openpty()
    talk = start(stdin=terminal, start_new_session=True, preexec_fn=lambda: fcntl.ioctl(0, termios.TIOCSCTTY, 0))
    os.close(terminal)
    os.write(keyboard, b"c 0\n")
    take(talk, 1)
    [program] = programs_of(talk)
    os.write(keyboard, b"\x03")
    hold(talk.wait() == -signal.SIGINT, f"status {talk.returncode} after Ctrl-C")
    until(lambda: not lives(program))
    os.close(keyboard)
