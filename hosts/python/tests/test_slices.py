"""Sweeps, and the slices that are refused before one is made."""

import unittest
from array import array
from ctypes import c_uint64

from tests.desks import desk_with_items
from thondrimai import ITEMS, NEVER, SliceTooShort, Swept


class Slices(unittest.TestCase):
    def test_places(self) -> None:
        for places in (0, 1, 2):
            desk = desk_with_items(3)
            before = bytes(desk)
            with self.assertRaises(SliceTooShort) as raised:
                desk.strong_sweep(places)
            self.assertEqual(raised.exception.value, 3)
            self.assertEqual(bytes(desk), before)
        for places in (3, 4, ITEMS, 10**9):
            expected = Swept([2**64 - 1, 2**64 - 2, 2**64 - 3], NEVER)
            self.assertEqual(desk_with_items(3).weak_sweep(places), expected)

    def test_lent_slice(self) -> None:
        desk = desk_with_items(2)
        places = array("Q", [7] * 4)
        self.assertEqual(desk.strong_sweep_into(memoryview(places)[1:3]), (2, NEVER))
        self.assertEqual(list(places), [7, 2**64 - 1, 2**64 - 2, 7])

    def test_a_slice_that_was_too_short_can_be_made_longer(self) -> None:
        desk = desk_with_items(2)
        places = array("Q", [7])
        try:
            desk.strong_sweep_into(places)
        except SliceTooShort as refusal:
            # Where the refusal still held the slice's memory, this would be a BufferError.
            places.extend([7] * (refusal.value - len(places)))
        self.assertEqual(desk.strong_sweep_into(places), (2, NEVER))
        self.assertEqual(list(places), [2**64 - 1, 2**64 - 2])

    def test_empty_slice(self) -> None:
        for empty in (array("Q"), memoryview(array("Q", [7]))[:0], (c_uint64 * 0)()):
            self.assertEqual(desk_with_items(0).weak_sweep_into(empty), (0, NEVER))
            with self.assertRaises(SliceTooShort):
                desk_with_items(1).weak_sweep_into(empty)

    def refused(self, wrong: object, error: type[Exception], sentence: str) -> None:
        desk = desk_with_items(2)
        for sweep in (desk.weak_sweep_into, desk.strong_sweep_into):
            with self.subTest(wrong=wrong), self.assertRaisesRegex(error, sentence):
                sweep(wrong)
        self.assertEqual(desk.items_present(), 2)

    def test_other_things(self) -> None:
        for wrong in ([0] * 64, None, 64):
            self.refused(wrong, TypeError, f"such as array.'Q'., not {type(wrong).__name__}")
        for row in (bytearray(64), array("I", [0] * 64), array("q", [0] * 64), array("d", [0.0])):
            self.refused(row, TypeError, "a row of 64-bit unsigned numbers")

    def test_read_only(self) -> None:
        self.refused(memoryview(bytes(64)).cast("Q"), TypeError, "has to be writable")

    def test_with_gaps(self) -> None:
        self.refused(memoryview(array("Q", range(8)))[::2], TypeError, "in one piece")

    def test_unaligned(self) -> None:
        places = memoryview(bytearray(8 * 9))
        for offset in range(1, 8):
            self.refused(places[offset : offset + 64].cast("Q"), ValueError, "at an address that 8 divides")
        self.assertEqual(bytes(places), bytes(8 * 9))

    def test_inside_the_desk(self) -> None:
        desk = desk_with_items(2)
        with self.assertRaisesRegex(ValueError, "outside the desk"):
            desk.strong_sweep_into((c_uint64 * 8).from_buffer(desk._raw))
        self.assertEqual(desk.items_present(), 2)
