"""The threaded reading line ends, and the one that a student writes first stops at the known trap."""

import contextlib
import copy
import io
import time
import unittest

import threaded_line
from tests.desks import LONG
from thondrimai import ITEMS, NEVER, Desk, ItemsFull
from threaded_line import ThreadedLine


class SlowFinder(ThreadedLine):
    """A line where to look at a photograph takes a while."""

    def signs_of(self, photograph: int) -> int:
        time.sleep(0.01)
        return super().signs_of(photograph)


class FinderInDoubt(ThreadedLine):
    """A line where the finder looks at its photograph until the desk is full. Puts give up soon, and gets wait as long as they may."""

    stopped: Desk

    def signs_of(self, photograph: int) -> int:
        if not self.desk.wait_for(lambda: self.desk.items_present() == ITEMS, timeout=LONG):
            raise AssertionError("the cutter has not filled the desk")
        return super().signs_of(photograph)

    def put(self, thread: int, connection: int, line: int, ticket: int) -> None:
        self.desk.put(thread, connection, line, ticket, timeout=1, swept=self.handed_back.extend)

    def stop(self) -> None:
        self.stopped = copy.copy(self.desk)
        super().stop()


class FinderThatFails(ThreadedLine):
    """A line where the finder cannot read its third photograph."""

    def signs_of(self, photograph: int) -> int:
        if photograph == 1003:
            raise OSError("the photograph is torn")
        return super().signs_of(photograph)


class Lines(unittest.TestCase):
    def test_the_example(self) -> None:
        with contextlib.redirect_stdout(io.StringIO()) as told:
            threaded_line.main()
        self.assertEqual(told.getvalue(), "100 lines are read, 200 tickets are handed back, 0 items stay.\n")

    def test_every_line_is_read_with_a_slow_finder(self) -> None:
        for window in (1, threaded_line.WINDOW):
            line = SlowFinder(70, window)
            line.run()
            self.assertEqual(line.read, list(range(1, 71)))
            tickets = [1000 * channel + number for channel in (1, 2) for number in range(1, 71)]
            self.assertEqual((sorted(line.handed_back), line.desk.items_present()), (tickets, 0))

    def test_without_a_window_it_stops_with_8(self) -> None:
        """The cutter runs ahead, and the finder has no place for the signs of the photograph that it holds open."""
        line = FinderInDoubt(200, window=200, patience=LONG)
        with self.assertRaises(ItemsFull):
            line.run()
        self.assertEqual((line.read, line.handed_back), ([], []))
        desk = line.stopped
        self.assertEqual(desk.items_present(), ITEMS)
        held_open = desk.visible_time(line.finder)
        self.assertEqual(held_open, desk.strong_bound())
        self.assertEqual(desk.strong_sweep().tickets, [])
        with self.assertRaises(ItemsFull):
            desk.put(line.finder, line.writes, held_open, 1)

    def test_what_one_raises_is_shown_at_once(self) -> None:
        """The others, who would wait for it, are ended."""
        line, began = FinderThatFails(200, patience=LONG), time.monotonic()
        with self.assertRaisesRegex(OSError, "the photograph is torn"):
            line.run()
        self.assertLess(time.monotonic() - began, LONG / 2)
        self.assertEqual(line.desk.strong_bound(), NEVER)
