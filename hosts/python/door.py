"""The door of a host in Python: reads a door script from standard input (hosts/README.md has its lines), and prints the
answer to each line. It goes through the methods of Desk, so that what they make of an answer is compared too."""

import sys
from array import array
from collections.abc import Iterable
from typing import Any

from thondrimai import Desk, Refused, Swept

DESKS = 8

# What a slice holds before a sweep: this and the number of the place.
UNTOUCHED = 7_000_000_000_000_000_000

# The methods whose one number is a time.
TIMES = ("visible_time", "weak_bound", "strong_bound")


def told(name: str, result: Any) -> Iterable[int]:
    """The value and the time that a method's result stands for, and the tickets of a sweep."""
    if result is None:
        return [0, 0]
    if isinstance(result, Swept):
        return [len(result.tickets), result.bound, *result.tickets]
    if isinstance(result, tuple):
        return result
    return [0, result] if name in TIMES else [int(result), 0]


def answer(desk: Desk, name: str, given: list[int]) -> list[int]:
    """A sweep into a lent slice tells the whole slice, and the place after its end."""
    numbers: list[Any] = [*given]
    places = array("Q")
    if name.endswith("_into"):
        length = numbers.pop()
        places = array("Q", [UNTOUCHED + place for place in range(length + 1)])
        numbers.append(memoryview(places)[:length])
    try:
        return [0, *told(name, getattr(desk, name)(*numbers)), *places]
    except Refused as refusal:
        return [refusal.code, refusal.value, refusal.time, *places]


def main() -> None:
    desks = [Desk() for _ in range(DESKS)]
    current = 0
    for line in sys.stdin:
        name, *digits = line.split()
        numbers = [int(number) for number in digits]
        words: list[Any] = [0, 0, 0]
        if name == "desk":
            current = numbers[0]
        elif name == "fresh":
            desks[current] = Desk()
        elif name == "bytes":
            words = [bytes(desks[current]).hex()]
        else:
            words = answer(desks[current], name, numbers)
        print(*words)


if __name__ == "__main__":
    main()
