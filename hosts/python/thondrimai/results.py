"""What the calls of a desk give."""

from typing import NamedTuple

from .constants import Code


class Answer(NamedTuple):
    """An answer as the desk gives it."""

    code: Code
    value: int
    time: int


class Got(NamedTuple):
    """What a get hands out."""

    ticket: int
    timestamp: int


class Attached(NamedTuple):
    """A new input connection."""

    connection: int
    mark: int


class Swept(NamedTuple):
    """What a sweep hands back, by channel number, then timestamp: all that lay below the bound."""

    tickets: list[int]
    bound: int


class HandedBack(NamedTuple):
    """How many tickets a sweep has put at the front of a lent slice."""

    number: int
    bound: int
