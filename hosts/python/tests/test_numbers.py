"""Numbers that do not fit never reach the desk."""

import unittest
from collections.abc import Callable
from ctypes import byref

from tests.desks import desk_with_items
from thondrimai import LARGEST_TIMESTAMP, Attached, Code, Desk, Got, State, boundary
from thondrimai.library import library


class Numbers(unittest.TestCase):
    def each_number(self, wrong: Callable[[int], object], error: type[Exception]) -> None:
        """Every number of every call and question in turn is wrong; the desk has to stay as it was."""
        desk = desk_with_items(3)
        before = bytes(desk)
        for name, numbers in boundary.NUMBERS.items():
            for index, number in enumerate(numbers):
                given: list[object] = [0] * len(numbers)
                given[index] = wrong(numbers[number])
                with self.subTest(name=name, given=given), self.assertRaises(error) as raised:
                    getattr(desk, name)(*given)
                self.assertIn(number, str(raised.exception))
        self.assertEqual(bytes(desk), before)

    def test_too_large(self) -> None:
        self.each_number(lambda bits: 1 << bits, ValueError)
        self.each_number(lambda bits: 1 << 200, ValueError)

    def test_a_number_of_very_many_digits_is_described(self) -> None:
        for wrong, bits in ((1 << 20000, 20001), (-(1 << 200), 201)):
            with self.assertRaisesRegex(ValueError, f"thread has to be a number from 0 to 4294967295, not a number of {bits} bits"):
                Desk().channel(wrong)
        with self.assertRaisesRegex(TypeError, "^.{1,100}$"):
            Desk().channel("1" * 10000)  # type: ignore[arg-type]

    def test_negative(self) -> None:
        self.each_number(lambda bits: -1, ValueError)

    def test_no_whole_number(self) -> None:
        for wrong in (1.0, "1", b"1", None, [1], float("nan"), True, False):
            self.each_number(lambda bits: wrong, TypeError)

    def test_places(self) -> None:
        desk = desk_with_items(1)
        wrong: object
        for wrong, error in ((True, TypeError), (1.0, TypeError), (-1, ValueError), (1 << 32, ValueError)):
            with self.subTest(wrong=wrong), self.assertRaises(error):
                desk.strong_sweep(wrong)  # type: ignore[arg-type]
        self.assertEqual(desk.items_present(), 1)

    def test_what_ctypes_would_do(self) -> None:
        """Without the check a thread number of 33 bits would name thread 0."""
        answer = library.desk_channel(byref(Desk()._raw), 1 << 32)
        self.assertEqual(answer.code, 0)

    def test_largest_numbers_arrive(self) -> None:
        desk = Desk()
        channel = desk.channel(0)
        self.assertEqual(desk.attach_input(0, channel), Attached(connection=0, mark=0))
        output = desk.attach_output(0, channel)
        desk.put(0, output, LARGEST_TIMESTAMP, 2**64 - 1)
        self.assertEqual(desk.get_latest(0, 0), Got(ticket=2**64 - 1, timestamp=LARGEST_TIMESTAMP))
        self.assertIs(desk.state(0, LARGEST_TIMESTAMP), State.OPEN)

    def test_answers(self) -> None:
        desk = Desk()
        self.assertEqual(desk.answer("channel", 0), (Code.ACCEPTED, 0, 0))
        self.assertIs(desk.answer("channel", 7).code, Code.NO_THREAD)
        with self.assertRaisesRegex(TypeError, "put takes 4 numbers .thread, connection, timestamp, ticket., not 2"):
            desk.answer("put", 0, 0)
        with self.assertRaisesRegex(ValueError, "there is no 'strong_sweep' that takes numbers alone"):
            desk.answer("strong_sweep")
