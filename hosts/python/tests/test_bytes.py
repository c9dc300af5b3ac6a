"""A copy, a pickle and == go by the desk's bytes."""

import copy
import pickle
import unittest

from tests.desks import read_desk
from thondrimai import NEVER, Desk


class NamedDesk(Desk):
    """A desk to which a student has added something."""

    def __init__(self, name: str) -> None:
        super().__init__()
        self.notes = [name]


class Copies(unittest.TestCase):
    def copies(self, desk: Desk) -> list[Desk]:
        pickles = [pickle.loads(pickle.dumps(desk, protocol)) for protocol in range(pickle.HIGHEST_PROTOCOL + 1)]
        return [copy.copy(desk), copy.deepcopy(desk), type(desk).from_bytes(bytes(desk)), *pickles]

    def test_a_copy_is_equal_and_goes_its_own_way(self) -> None:
        desk = read_desk(3)
        for again in self.copies(desk):
            self.assertEqual(again, desk)
            self.assertEqual(bytes(again), bytes(desk))
            self.assertEqual(again.get_earliest(1, 1), (500, 0))
            self.assertNotEqual(again, desk)
            self.assertTrue(again.wait_for(lambda: again.items_present() == 3, timeout=0))
        self.assertEqual(desk.get_earliest(1, 1), (500, 0))

    def test_what_was_added_is_copied_too(self) -> None:
        desk = NamedDesk("morning")
        for again in (copy.copy(desk), copy.deepcopy(desk), pickle.loads(pickle.dumps(desk))):
            self.assertIs(type(again), NamedDesk)
            self.assertEqual((again.notes, again), (["morning"], desk))
        self.assertIs(copy.copy(desk).notes, desk.notes)
        self.assertIsNot(copy.deepcopy(desk).notes, desk.notes)

    def test_equal(self) -> None:
        self.assertEqual(Desk(), Desk())
        self.assertFalse(Desk() != Desk())
        self.assertNotEqual(Desk(), read_desk())
        self.assertNotEqual(Desk(), bytes(Desk()))
        self.assertNotEqual(Desk(), None)

    def test_no_hash(self) -> None:
        self.assertIsNone(Desk.__hash__)
        with self.assertRaises(TypeError):
            hash(Desk())

    def test_wrong_size(self) -> None:
        whole = bytes(Desk())
        for wrong in (b"", whole[:-1], whole + b"\0"):
            with self.assertRaisesRegex(ValueError, f"a desk has {len(whole)} bytes, and these are {len(wrong)}"):
                Desk.from_bytes(wrong)
            broken = Desk()
            broken.__class__ = WrongSize
            broken.__dict__["wrong"] = wrong
            with self.assertRaisesRegex(ValueError, f"a desk has {len(whole)} bytes, and these are {len(wrong)}"):
                pickle.loads(pickle.dumps(broken))
        with self.assertRaisesRegex(TypeError, "not list"):
            Desk.from_bytes([0] * len(whole))  # type: ignore[arg-type]

    def test_another_version(self) -> None:
        for layout, told in (("2", "2"), (None, "unknown")):
            broken = Desk()
            broken.__class__ = OfAnotherVersion
            broken.__dict__["layout"] = layout
            for protocol in range(pickle.HIGHEST_PROTOCOL + 1):
                kept = pickle.dumps(broken, protocol)
                with self.assertRaisesRegex(ValueError, f"kept by version {told} of the package, and this is version 1"):
                    pickle.loads(kept)

    def test_nothing_is_begun_with(self) -> None:
        with self.assertRaises(TypeError):
            Desk(5)  # type: ignore[call-arg]

    def test_never_survives(self) -> None:
        desk = Desk()
        desk.set(0, NEVER)
        self.assertEqual(Desk.from_bytes(bytes(desk)).weak_bound(), NEVER)


class WrongSize(Desk):
    """A desk whose pickle was cut."""

    def __getstate__(self) -> dict[str, object]:
        return {**super().__getstate__(), "_raw": self.__dict__["wrong"]}


class OfAnotherVersion(Desk):
    """A desk that another version of the package has kept, or one before there were versions."""

    def __getstate__(self) -> dict[str, object]:
        state = {**super().__getstate__(), "_layout": self.__dict__["layout"]}
        return {name: value for name, value in state.items() if value is not None}
