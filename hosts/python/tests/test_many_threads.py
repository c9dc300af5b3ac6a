"""Many threads at one desk, each of which waits for others."""

import time
import unittest
from functools import partial

from tests.desks import LONG, at_work
from thondrimai import ITEMS, NEVER, Desk


class ManyThreads(unittest.TestCase):
    def test_no_wakeup_is_lost(self) -> None:
        """Two threads hand a line to and fro; each waits for the other every time."""
        desk, rounds = Desk(), 150
        there, back = desk.channel(0), desk.channel(0)
        other = desk.new_thread(0, 0)
        sends, answers = desk.attach_output(0, there), desk.attach_output(other, back)
        hears, receives = desk.attach_input(other, there).connection, desk.attach_input(0, back).connection
        desk.set(other, NEVER)

        def echo() -> None:
            for _ in range(rounds):
                ticket, line = desk.get_earliest(other, hears, timeout=LONG)
                desk.put(other, answers, line, ticket + 1)
                desk.consume(other, hears, line)

        with at_work(echo):
            for line in range(rounds):
                desk.put(0, sends, line, line, swept=lambda tickets: None)
                self.assertEqual(desk.get_earliest(0, receives, timeout=LONG), (line + 1, line))
                desk.consume(0, receives, line)
                desk.set(0, line + 1)

    def test_writers_and_readers_and_a_slow_one(self) -> None:
        desk, each = Desk(), 50
        handed_back: list[int] = []
        channel = desk.channel(0)
        writers = [(thread, desk.attach_output(thread, channel)) for thread in (desk.new_thread(0, 0) for _ in range(3))]
        readers = [(thread, desk.attach_input(thread, channel).connection) for thread in (desk.new_thread(0, 0) for _ in range(3))]
        for thread in (0, *(thread for thread, _ in readers)):
            desk.set(thread, NEVER)

        def write(number: int) -> None:
            thread, output = writers[number]
            for timestamp in range(number, 3 * each, 3):
                desk.set(thread, timestamp)
                self.assertTrue(desk.wait_for(lambda: timestamp < desk.strong_bound() + ITEMS, timeout=LONG))
                desk.put(thread, output, timestamp, timestamp, timeout=LONG, swept=handed_back.extend)
            desk.end(thread)

        def read(number: int) -> None:
            thread, connection = readers[number]
            got = []
            for _ in range(3 * each):
                time.sleep(0.005 if number == 0 else 0)
                got.append(desk.get_earliest(thread, connection, timeout=LONG).timestamp)
                desk.consume(thread, connection, got[-1])
            desk.end(thread)
            self.assertEqual(sorted(got), list(range(3 * each)))

        with at_work(*(partial(work, number) for work in (write, read) for number in range(3))):
            pass
        handed_back += desk.strong_sweep().tickets
        self.assertEqual(sorted(handed_back), list(range(3 * each)))
