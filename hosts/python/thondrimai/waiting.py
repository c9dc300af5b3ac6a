"""Threads that wait for a change of one desk.

There is no lock in it, so a fork or a signal handler that makes calls finds none that is held: each thread that waits has a
bell, a queue.SimpleQueue, which may also be rung by a signal handler, and each accepted call rings the bells.
"""

import threading
from collections.abc import Callable, Iterator
from contextlib import contextmanager
from math import inf
from queue import Empty, SimpleQueue
from time import monotonic
from typing import TypeVar

from .arguments import shown
from .refusals import Refused

Result = TypeVar("Result")


def _deadline(timeout: float | None) -> float:
    if timeout is None:
        return inf
    if isinstance(timeout, bool) or not isinstance(timeout, (int, float)):
        raise TypeError(f"timeout has to be a number of seconds, or None to wait without end, not {shown(timeout)}")
    if not timeout >= 0:
        raise ValueError(f"timeout has to be 0 or more seconds, not {shown(timeout)}")
    # A whole number may be larger than any float.
    return monotonic() + min(timeout, threading.TIMEOUT_MAX)


def _heard(bell: SimpleQueue[None], deadline: float) -> bool:
    """Waits for the bell, and tells whether it rang in time."""
    left = deadline - monotonic()
    if left <= 0:
        return False
    try:
        bell.get(timeout=min(left, threading.TIMEOUT_MAX))
    except Empty:
        return False
    return True


class Waiting:
    """The threads that wait for a change of one desk."""

    def __init__(self) -> None:
        self._bells: set[SimpleQueue[None]] = set()

    def ring(self) -> None:
        """Lets all that wait try again."""
        # A set is copied in one step. A tuple of it is made one by one, and in between another thread may change the set.
        for bell in self._bells.copy():
            # One ring is enough: who hears it looks at the desk afterwards.
            if bell.empty():
                bell.put(None)

    @contextmanager
    def _listening(self) -> Iterator[SimpleQueue[None]]:
        """A bell that rings from now on: it is there before the desk is looked at, so that no change after that look is missed."""
        bell: SimpleQueue[None] = SimpleQueue()
        self._bells.add(bell)
        try:
            yield bell
        finally:
            self._bells.discard(bell)

    def until_accepted(self, attempt: Callable[[], Result], refusal: type[Refused], timeout: float | None) -> Result:
        """What the attempt gives. While it meets this refusal it is made again after each ring, and once more when the time is over."""
        deadline = _deadline(timeout)
        if timeout == 0:
            return attempt()
        over = False
        with self._listening() as bell:
            while True:
                try:
                    return attempt()
                except refusal:
                    if over:
                        raise
                over = not _heard(bell, deadline)

    def until_true(self, predicate: Callable[[], object], timeout: float | None) -> bool:
        """Whether the predicate came true in time; it is asked at once, again after each ring, and once more when the time is over."""
        deadline = _deadline(timeout)
        over = timeout == 0
        with self._listening() as bell:
            while not predicate():
                if over:
                    return False
                over = not _heard(bell, deadline)
            return True
