"""Desks to begin a test with, and threads that end."""

import threading
import time
from collections.abc import Callable, Iterator
from contextlib import contextmanager

from thondrimai import ITEMS, NEVER, Desk

# Longer than any wait in a test that goes well, and shorter than what checks.py allows for all of them.
LONG = 60


def desk_with_items(number: int) -> Desk:
    """A desk where thread 0 has put so many items, and nobody will read them."""
    desk = Desk()
    output = desk.attach_output(0, desk.channel(0))
    for timestamp in range(number):
        desk.put(0, output, timestamp, 2**64 - 1 - timestamp)
    desk.set(0, NEVER)
    return desk


def read_desk(items: int = 0) -> Desk:
    """A desk where thread 0 writes through connection 0, at time 0, and thread 1 reads through connection 1, at never."""
    desk = Desk()
    channel = desk.channel(0)
    desk.attach_output(0, channel)
    reader = desk.new_thread(0, 0)
    desk.attach_input(reader, channel)
    desk.set(reader, NEVER)
    for timestamp in range(items):
        desk.put(0, 0, timestamp, 500 + timestamp)
    return desk


def full_desk() -> Desk:
    """The same, where all places hold items that the reader has not seen, and the writer is past them."""
    desk = read_desk(ITEMS)
    desk.set(0, ITEMS)
    return desk


@contextmanager
def at_work(*works: Callable[[], object]) -> Iterator[None]:
    """Threads that do these works meanwhile; what one of them raises is raised at the end."""
    raised: list[BaseException] = []

    def do(work: Callable[[], object]) -> None:
        try:
            work()
        except BaseException as error:
            raised.append(error)

    threads = [threading.Thread(target=do, args=(work,), daemon=True) for work in works]
    for thread in threads:
        thread.start()
    try:
        yield
    finally:
        ends = time.monotonic() + LONG
        for thread in threads:
            thread.join(max(0, ends - time.monotonic()))
    if any(thread.is_alive() for thread in threads):
        raise AssertionError("a thread did not end")
    if raised:
        raise raised[0]
