"""A class for each refusal, and a sentence for every public name."""

import inspect
import pickle
import unittest
from collections.abc import Callable

import thondrimai
from tests.desks import full_desk, read_desk
from thondrimai import LARGEST_TIMESTAMP, NEVER, Code, Desk, Refused


def refused_calls() -> dict[type[Refused], Callable[[], object]]:
    """For each class a call that raises it."""
    desk, full, unseen = read_desk(), full_desk(), read_desk(1)
    unseen.set(0, NEVER)
    unseen.consume_until(1, 1, 0)
    return {
        thondrimai.NoThread: lambda: desk.channel(NEVER),
        thondrimai.NoChannel: lambda: desk.attach_input(0, 7),
        thondrimai.NoConnection: lambda: desk.detach(0, 1),
        thondrimai.OtherDirection: lambda: desk.get_earliest(0, 0),
        thondrimai.NoTimestamp: lambda: desk.put(0, 0, NEVER, 1),
        thondrimai.BelowVisibleTime: lambda: full.set(0, 63),
        thondrimai.AlreadyPresent: lambda: read_desk(1).put(0, 0, 0, 1),
        thondrimai.ItemsFull: lambda: full.put(0, 0, LARGEST_TIMESTAMP, 1),
        thondrimai.TableFull: lambda: [Desk().channel(0), *(desk.channel(0) for _ in range(8))],
        thondrimai.NothingUnseen: lambda: desk.get_latest(1, 1),
        thondrimai.NotOpen: lambda: full.consume(1, 1, 0),
        thondrimai.SliceTooShort: lambda: unseen.strong_sweep(0),
    }


class Refusals(unittest.TestCase):
    def test_each_class_is_raised(self) -> None:
        calls = refused_calls()
        self.assertEqual({refusal.code for refusal in calls}, set(Code) - {Code.ACCEPTED})
        for refusal, call in calls.items():
            with self.subTest(refusal=refusal.__name__), self.assertRaises(Refused) as raised:
                call()
            found = raised.exception
            self.assertIs(type(found), refusal)
            self.assertEqual((found.value, found.time), (1 if refusal is thondrimai.SliceTooShort else 0, 0))

    def test_names_are_those_of_the_codes(self) -> None:
        for refusal in refused_calls():
            self.assertEqual(refusal.__name__.lower(), refusal.code.name.replace("_", "").lower())

    def test_sentence(self) -> None:
        with self.assertRaises(thondrimai.NoThread) as raised:
            Desk().channel(NEVER)
        self.assertEqual(str(raised.exception), "refused (1): no such living thread; the thread has ended, or never was")
        told = str(thondrimai.SliceTooShort(3, 5))
        self.assertTrue(told.startswith(f"refused (12): {thondrimai.SliceTooShort.meaning}; {thondrimai.SliceTooShort.advice}"))
        self.assertTrue(told.endswith(" (value 3) (time 5)"))
        self.assertEqual(str(Refused()), "refused")

    def test_pickle(self) -> None:
        again = pickle.loads(pickle.dumps(thondrimai.SliceTooShort(3, 5)))
        self.assertIs(type(again), thondrimai.SliceTooShort)
        self.assertEqual((again.code, again.value, again.time), (Code.SLICE_TOO_SHORT, 3, 5))

    def test_code_of_another_version(self) -> None:
        from thondrimai.boundary import Answer
        from thondrimai.desk import _answer

        with self.assertRaisesRegex(RuntimeError, "answers 77, a code of another version"):
            _answer(Answer(77, 0, 0))


class Sentences(unittest.TestCase):
    def test_every_public_name_has_one(self) -> None:
        public = [getattr(thondrimai, name) for name in thondrimai.__all__]
        classes = [each for each in public if inspect.isclass(each)]
        methods = [each for name, each in inspect.getmembers(Desk, inspect.isroutine) if not name.startswith("_")]
        self.assertGreater(len(classes), 12)
        self.assertGreater(len(methods), 20)
        for each in [*classes, *methods]:
            with self.subTest(name=each.__qualname__):
                self.assertRegex(each.__doc__ or "", r"^[A-Z0-9].*[.:]")

    def test_the_trap_is_told_where_8_is(self) -> None:
        self.assertIn("hosts/python/threaded_line.py", thondrimai.ItemsFull.__doc__ or "")
