"""What print(desk) shows."""

import random
import unittest

from thondrimai import NEVER, Desk

FRESH = """\
Desk with weak bound 0, strong bound 0
  threads:
    0: virtual time 0, visible time 0
  channels: none
  connections: none
  items: none"""

AT_WORK = """\
Desk with weak bound 0, strong bound 5
  threads:
    0: virtual time 8, visible time 8
    1: virtual time never, visible time 5
  channels: 0, 1
  connections:
    0: output of thread 0 to channel 1
    1: input of thread 1 from channel 1, mark 0
    2: input of thread 0 from channel 1, mark 0
  items:
    channel 1, timestamp 5, ticket 500: UNSEEN on 2, OPEN on 1
    channel 1, timestamp 6, ticket 600: UNSEEN on 1 and 2
    channel 1, timestamp 7, ticket 700: neither UNSEEN nor OPEN on any connection"""

ENDED = """\
Desk with weak bound never, strong bound never
  threads: none
  channels: none
  connections: none
  items: none"""


def desk_at_work() -> Desk:
    desk = Desk()
    desk.channel(0)
    channel = desk.channel(0)
    output = desk.attach_output(0, channel)
    reader = desk.new_thread(0, 0)
    first = desk.attach_input(reader, channel).connection
    second = desk.attach_input(0, channel).connection
    desk.set(reader, NEVER)
    for timestamp in (7, 6, 5):
        desk.put(0, output, timestamp, 100 * timestamp)
    for thread, connection in ((reader, first), (0, second)):
        desk.get_named(thread, connection, 7)
        desk.consume(thread, connection, 7)
    desk.get_earliest(reader, first)
    desk.set(0, 8)
    return desk


class Telling(unittest.TestCase):
    def test_desks(self) -> None:
        ended = Desk()
        ended.end(0)
        for desk, told in ((Desk(), FRESH), (desk_at_work(), AT_WORK), (ended, ENDED)):
            before = bytes(desk)
            self.assertEqual(str(desk), told)
            self.assertEqual(repr(desk), told)
            self.assertEqual(bytes(desk), before)

    def test_a_class_below_is_told_by_its_name(self) -> None:
        class Lectern(Desk):
            """A desk that forgets to be begun as one, and is one all the same."""

            def __init__(self) -> None:
                self.notes = "none"

        self.assertEqual(repr(Lectern()), FRESH.replace("Desk", "Lectern"))

    def test_any_bytes_are_told(self) -> None:
        """A desk that no calls have made makes no sense, but telling it raises nothing."""
        size = len(bytes(Desk()))
        for data in (bytes(size), bytes([255]) * size, random.Random(1).randbytes(size)):
            self.assertTrue(str(Desk.from_bytes(data)).startswith("Desk with weak bound "))
