"""Gets that wait for an item, puts that wait for a place, and nothing else that waits."""

import threading
import time
import unittest
from collections.abc import Callable
from ctypes import byref
from functools import partial
from unittest import mock

from tests.desks import LONG, at_work, full_desk, read_desk
from thondrimai import ITEMS, NEVER, Answer, Desk, ItemsFull, NoConnection, NothingUnseen, NoThread, Refused, boundary
from thondrimai.desk import _answer
from thondrimai.library import library


class CountingDesk(Desk):
    """A desk that keeps what is tried."""

    tried: list[str]

    def answer(self, name: str, *numbers: int) -> Answer:
        self.tried.append(name)
        return super().answer(name, *numbers)


def counting(desk: Desk) -> CountingDesk:
    again = CountingDesk.from_bytes(bytes(desk))
    again.tried = []
    return again


def later(work: Callable[[], object]) -> Callable[[], object]:
    """The work, done when the others have begun to wait."""

    def wait_and_work() -> None:
        time.sleep(0.2)
        work()

    return wait_and_work


class Gets(unittest.TestCase):
    def test_each_get_waits_for_a_put(self) -> None:
        gets: list[Callable[[Desk], object]] = [
            lambda desk: desk.get_earliest(1, 1, timeout=LONG),
            lambda desk: desk.get_latest(1, 1, timeout=None),
            lambda desk: desk.get_named(1, 1, 5, timeout=LONG),
        ]
        for get in gets:
            desk = read_desk()
            with at_work(later(lambda: desk.put(0, 0, 5, 500))):
                self.assertEqual(get(desk), (500, 5))

    def test_a_named_one_waits_for_its_own(self) -> None:
        desk = read_desk(3)

        def put() -> None:
            for timestamp in (7, 6, 5):
                desk.put(0, 0, timestamp, timestamp)

        with at_work(later(put)):
            self.assertEqual(desk.get_named(1, 1, 5, timeout=LONG), (5, 5))

    def test_time_is_over(self) -> None:
        for timeout in (0, 0.0, 0.3):
            began = time.monotonic()
            with self.assertRaises(NothingUnseen):
                read_desk().get_earliest(1, 1, timeout=timeout)
            self.assertGreaterEqual(time.monotonic() - began, timeout)

    def test_time_is_over_although_others_are_busy(self) -> None:
        desk, over = read_desk(), threading.Event()
        ends = time.monotonic() + 10

        def be_busy() -> None:
            while not over.is_set() and time.monotonic() < ends:
                desk.set(0, 0)

        with at_work(be_busy):
            with self.assertRaises(NothingUnseen):
                desk.get_earliest(1, 1, timeout=0.2)
            over.set()
            self.assertLess(time.monotonic(), ends)

    def test_other_refusals_do_not_wait(self) -> None:
        desk = read_desk()
        calls: list[Callable[[], object]] = [
            lambda: desk.get_earliest(9, 1, timeout=None),
            lambda: desk.get_earliest(0, 1, timeout=None),
            lambda: desk.get_earliest(0, 0, timeout=None),
            lambda: desk.get_named(1, 1, NEVER, timeout=None),
            lambda: desk.put(0, 0, NEVER, 1, timeout=None),
        ]
        for code, call in zip((1, 3, 4, 5, 5), calls):
            with self.assertRaises(Refused) as raised:
                call()
            self.assertEqual(raised.exception.code, code)

    def test_who_is_ended_does_not_wait_for_ever(self) -> None:
        desk = read_desk()
        with at_work(later(lambda: desk.detach(1, 1))), self.assertRaises(NoConnection):
            desk.get_earliest(1, 1, timeout=LONG)
        desk = read_desk()
        with at_work(later(lambda: desk.end(1))), self.assertRaises(NoThread):
            desk.get_earliest(1, 1, timeout=LONG)

    def test_wrong_timeouts(self) -> None:
        desk = read_desk(1)
        before = bytes(desk)
        wrong: object
        for wrong, error in ((-1, ValueError), (-(10**5000), ValueError), (float("nan"), ValueError), (True, TypeError), ("1", TypeError)):
            with self.assertRaisesRegex(error, "timeout has to be"):
                desk.get_earliest(1, 1, timeout=wrong)  # type: ignore[arg-type]
            with self.assertRaisesRegex(error, "timeout has to be"):
                desk.put(0, 0, 5, 5, timeout=wrong)  # type: ignore[arg-type]
        self.assertEqual(bytes(desk), before)
        self.assertEqual(desk.get_earliest(1, 1, timeout=10**5000), (500, 0))
        with at_work(later(lambda: desk.put(0, 0, 5, 550))):
            self.assertEqual(desk.get_earliest(1, 1, timeout=float("inf")), (550, 5))


class Puts(unittest.TestCase):
    def read_one(self, desk: Desk) -> None:
        desk.consume(1, 1, desk.get_earliest(1, 1).timestamp)

    def test_a_put_waits_for_the_sweep_of_another(self) -> None:
        desk = full_desk()
        handed_back: list[int] = []
        self.read_one(desk)
        with at_work(later(lambda: handed_back.extend(desk.strong_sweep().tickets))):
            desk.put(0, 0, 100, 1100, timeout=LONG)
        self.assertEqual((handed_back, desk.items_present()), ([500], ITEMS))

    def test_a_put_that_sweeps(self) -> None:
        desk = full_desk()
        handed_back: list[list[int]] = []
        self.read_one(desk)
        desk.put(0, 0, 100, 1100, swept=handed_back.append)
        with at_work(later(lambda: self.read_one(desk))):
            desk.put(0, 0, 101, 1101, timeout=LONG, swept=handed_back.append)
        self.assertEqual(handed_back, [[500], [501]])

    def test_without_a_function_nothing_is_swept(self) -> None:
        desk = full_desk()
        self.read_one(desk)
        before = bytes(desk)
        for timeout in (0, 0.2):
            with self.assertRaises(ItemsFull):
                desk.put(0, 0, 100, 1100, timeout=timeout)
        self.assertEqual(bytes(desk), before)

    def test_a_function_that_raises_has_all_tickets(self) -> None:
        desk = full_desk()
        handed_back: list[int] = []

        def fails(tickets: list[int]) -> None:
            handed_back.extend(tickets)
            raise OSError("the drawer is locked")

        desk.consume_until(1, 1, 4)
        with self.assertRaises(OSError):
            desk.put(0, 0, 100, 1100, timeout=LONG, swept=fails)
        self.assertEqual(handed_back, [500, 501, 502, 503, 504])
        desk.put(0, 0, 100, 1100)

    def test_time_is_over_and_nobody_is_busy(self) -> None:
        """Four puts that sweep in vain wait, and do not wake each other."""
        desk = counting(full_desk())

        def put(timestamp: int) -> None:
            with self.assertRaises(ItemsFull):
                desk.put(0, 0, timestamp, 1, timeout=1, swept=self.fail)

        with at_work(*(partial(put, timestamp) for timestamp in range(100, 104))):
            pass
        # Each of them has put, swept and put again, waited, and done so once more.
        self.assertEqual(desk.tried, ["put"] * 16)

    def test_a_wrong_function_is_refused_first(self) -> None:
        for desk in (full_desk(), read_desk()):
            before = bytes(desk)
            for wrong in ([], "extend", 0):
                with self.assertRaisesRegex(TypeError, f"swept has to be a function .*, not {type(wrong).__name__}"):
                    desk.put(0, 0, 100, 1100, swept=wrong)  # type: ignore[arg-type]
            self.assertEqual(bytes(desk), before)


class Waits(unittest.TestCase):
    def test_wait_for(self) -> None:
        desk = read_desk()
        self.assertTrue(desk.wait_for(lambda: True, timeout=0))
        self.assertFalse(desk.wait_for(lambda: desk.items_present(), timeout=0))
        self.assertFalse(desk.wait_for(lambda: desk.items_present(), timeout=0.2))
        with at_work(later(lambda: desk.set(0, 9))):
            self.assertTrue(desk.wait_for(lambda: desk.strong_bound() == 9, timeout=LONG))

    def test_a_sweep_that_raises_a_mark_is_a_change(self) -> None:
        desk = read_desk()
        desk.set(0, 9)
        with at_work(later(desk.strong_sweep)):
            self.assertTrue(desk.wait_for(lambda: desk.weak_bound() == 9, timeout=LONG))

    def test_questions_and_refusals_wake_nobody(self) -> None:
        desk = counting(read_desk())

        def ask() -> None:
            for _ in range(20):
                desk.strong_bound()
                desk.answer("channel", 9)

        with at_work(later(ask)), self.assertRaises(NothingUnseen):
            desk.get_earliest(1, 1, timeout=1)
        # At first, and when the time is over.
        self.assertEqual(desk.tried.count("get_earliest"), 2)
        self.assertEqual(len(desk.tried), 42)

    def test_a_last_look_when_the_time_is_over(self) -> None:
        def put_silently(desk: Desk) -> None:
            library.desk_put(byref(desk._raw), 0, 0, 5, 500)

        desk = read_desk()
        with at_work(later(partial(put_silently, desk))):
            self.assertEqual(desk.get_earliest(1, 1, timeout=1), (500, 5))
        desk = read_desk()
        with at_work(later(partial(put_silently, desk))):
            self.assertTrue(desk.wait_for(desk.items_present, timeout=1))

    def test_a_call_that_is_interrupted_wakes_who_waits(self) -> None:
        """The call is made, and then a handler raises before anybody is told."""
        desk = read_desk()

        def get() -> None:
            self.assertEqual(desk.get_earliest(1, 1, timeout=None), (500, 5))

        def interrupted(given: boundary.Answer) -> Answer:
            if threading.current_thread() is threading.main_thread():
                raise KeyboardInterrupt
            return _answer(given)

        with at_work(get):
            time.sleep(0.2)
            with mock.patch("thondrimai.desk._answer", interrupted), self.assertRaises(KeyboardInterrupt):
                desk.put(0, 0, 5, 500)
