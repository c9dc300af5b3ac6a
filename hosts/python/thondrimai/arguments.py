"""What is refused before a call is made: numbers that do not fit, and slices that the library may not be lent."""

import operator
import reprlib
from ctypes import Array, Structure, addressof, c_uint64, sizeof
from typing import Any

from .boundary import Desk

# A number of more bits is described in a message, and not printed.
LONGEST = 128


def shown(given: object) -> str:
    """What was given, as a message has it: cut where it is long, and a number of very many digits only described."""
    if isinstance(given, int) and given.bit_length() > LONGEST:
        return f"a number of {given.bit_length()} bits"
    return reprlib.repr(given)


def whole(name: str, number: int, bits: int) -> int:
    """The number as an int that fits. ctypes would cut off what does not, and the desk would see another number."""
    try:
        if isinstance(number, bool):
            raise TypeError
        found = operator.index(number)
    except TypeError:
        raise TypeError(f"{name} has to be a whole number, not {shown(number)}") from None
    if not 0 <= found < 1 << bits:
        raise ValueError(f"{name} has to be a number from 0 to {(1 << bits) - 1}, not {shown(found)}")
    return found


def memory(lent: Any, desk: Structure) -> Array[c_uint64]:
    """The memory of a writable buffer of 64-bit unsigned numbers outside the desk, as the library takes it."""
    try:
        view = memoryview(lent)
    except TypeError:
        raise TypeError(f"a slice has to be a row of 64-bit unsigned numbers, such as array('Q'), not {type(lent).__name__}") from None
    if view.format not in ("Q", "L", "=Q", "<Q", "@Q") or view.itemsize != 8 or view.ndim != 1:
        raise TypeError("a slice has to be a row of 64-bit unsigned numbers, such as array('Q')")
    if view.readonly:
        raise TypeError("a slice has to be writable: the sweep writes its tickets there")
    if not view.c_contiguous:
        raise TypeError("a slice has to be in one piece: a step of 1, as in slice[2:6]")
    found = (c_uint64 * len(view)).from_buffer(view)
    if len(view) and addressof(found) % 8:
        raise ValueError("a slice has to begin at an address that 8 divides, as an array('Q') does")
    if _overlap(found, desk):
        raise ValueError("a slice has to lie outside the desk")
    return found


def _overlap(one: Array[c_uint64], other: Structure) -> bool:
    starts = max(addressof(one), addressof(other))
    ends = min(addressof(one) + sizeof(one), addressof(other) + sizeof(other))
    return starts < ends


def desk_of(data: bytes) -> Desk:
    """A desk with these bytes, in memory of its own."""
    size = sizeof(Desk)
    if not isinstance(data, (bytes, bytearray, memoryview)):
        raise TypeError(f"the bytes of a desk are bytes, not {type(data).__name__}")
    if len(bytes(data)) != size:
        raise ValueError(f"a desk has {size} bytes, and these are {len(bytes(data))}; they are no desk, or one of another version")
    return Desk.from_buffer_copy(bytes(data))
