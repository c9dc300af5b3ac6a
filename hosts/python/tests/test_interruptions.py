"""One desk and several threads, a signal handler that uses the desk that it has interrupted, and a forked process."""

import os
import signal
import threading
import time
import unittest
import warnings
from functools import partial

from tests.desks import LONG, at_work, read_desk
from thondrimai import NEVER, Desk


def come_and_go(desk: Desk) -> None:
    """Two calls after which the desk is as it was."""
    desk.end(desk.new_thread(0, 5))


class Threads(unittest.TestCase):
    def test_each_call_is_made_alone(self) -> None:
        """Calls are short and seldom meet, so this alone shows little; test_library.py tests that each keeps the interpreter's lock."""
        desk = Desk()
        output = desk.attach_output(0, desk.channel(0))

        def put(first: int) -> None:
            for timestamp in range(first, first + 16):
                desk.put(0, output, timestamp, timestamp)
                for _ in range(50):
                    desk.weak_sweep(0)

        with at_work(*(partial(put, first) for first in (0, 16, 32, 48))):
            pass
        desk.set(0, NEVER)
        self.assertEqual(desk.strong_sweep().tickets, list(range(64)))


class Signals(unittest.TestCase):
    def setUp(self) -> None:
        self.desk = read_desk()
        self.handled = 0
        self.addCleanup(signal.signal, signal.SIGALRM, signal.SIG_DFL)
        self.addCleanup(signal.setitimer, signal.ITIMER_REAL, 0)

    def test_a_handler_uses_the_desk_that_it_has_interrupted(self) -> None:
        def handler(*_: object) -> None:
            come_and_go(self.desk)
            self.handled += 1
            # Set anew each time, so that a slow handler is not interrupted by itself, deeper and deeper.
            signal.setitimer(signal.ITIMER_REAL, 0.002)

        signal.signal(signal.SIGALRM, handler)
        before = bytes(self.desk)
        signal.setitimer(signal.ITIMER_REAL, 0.002)
        ends = time.monotonic() + LONG
        while self.handled < 100 and time.monotonic() < ends:
            come_and_go(self.desk)
        signal.setitimer(signal.ITIMER_REAL, 0)
        self.assertGreaterEqual(self.handled, 100)
        self.assertEqual(bytes(self.desk), before)

    def test_a_handler_wakes_the_get_that_it_has_interrupted(self) -> None:
        signal.signal(signal.SIGALRM, lambda *_: self.desk.put(0, 0, 5, 500))
        signal.setitimer(signal.ITIMER_REAL, 0.2)
        self.assertEqual(self.desk.get_earliest(1, 1, timeout=LONG), (500, 5))

    def test_a_handler_that_raises_ends_the_wait(self) -> None:
        def handler(*_: object) -> None:
            raise KeyboardInterrupt

        signal.signal(signal.SIGALRM, handler)
        with self.assertRaises(KeyboardInterrupt):
            signal.setitimer(signal.ITIMER_REAL, 0.2)
            self.desk.get_earliest(1, 1, timeout=None)
        self.assertEqual(self.desk._waiting._bells, set())


class Forks(unittest.TestCase):
    def child(self, desk: Desk) -> int:
        """A forked process that uses its copy of the desk: its exit status. One that hangs is ended by its alarm."""
        with warnings.catch_warnings():
            # Later Pythons warn of every fork beside threads.
            warnings.simplefilter("ignore", DeprecationWarning)
            process = os.fork()
        if process == 0:
            status = 1
            try:
                signal.alarm(20)
                come_and_go(desk)
                desk.put(0, 0, 7, 700)
                status = 0 if desk.get_earliest(1, 1, timeout=1) == (700, 7) else 2
            finally:
                os._exit(status)
        return os.waitstatus_to_exitcode(os.waitpid(process, 0)[1])

    def test_other_threads_are_at_work_at_the_fork(self) -> None:
        desk, over = read_desk(), threading.Event()

        def work() -> None:
            while not over.is_set():
                desk.weak_bound()

        with at_work(work, work):
            try:
                for _ in range(15):
                    self.assertEqual(self.child(desk), 0)
            finally:
                over.set()
        self.assertEqual(desk.items_present(), 0)

    def test_another_thread_waits_at_the_fork(self) -> None:
        desk = read_desk()
        with at_work(lambda: desk.get_earliest(1, 1, timeout=LONG)):
            while not desk._waiting._bells:
                time.sleep(0.01)
            status = self.child(desk)
            desk.put(0, 0, 5, 500)
        self.assertEqual(status, 0)
