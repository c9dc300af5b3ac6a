"""A desk as a person would want to see it."""

from __future__ import annotations

from collections.abc import Iterator
from typing import TYPE_CHECKING

from .constants import CHANNELS, CONNECTIONS, ITEMS, NEVER, THREADS, Code, State

if TYPE_CHECKING:
    from .boundary import Desk as Columns
    from .desk import Desk


def told(name: str, desk: Desk, columns: Columns) -> str:
    """The desk in lines, under this name; nothing may change it meanwhile. Also a desk that no calls have made is told."""
    lines = [f"{name} with weak bound {_time(desk.weak_bound())}, strong bound {_time(desk.strong_bound())}"]
    lines += _part("threads", list(_threads(desk, columns)))
    channels = ", ".join(map(str, _places(columns.channels, CHANNELS)))
    lines.append(f"  channels: {channels or 'none'}")
    lines += _part("connections", list(_connections(columns)))
    lines += _part("items", list(_items(desk, columns)))
    return "\n".join(lines)


def _part(title: str, lines: list[str]) -> list[str]:
    if not lines:
        return [f"  {title}: none"]
    return [f"  {title}:", *(f"    {line}" for line in lines)]


def _time(time: int) -> str:
    return "never" if time == NEVER else str(time)


def _places(word: int, size: int) -> list[int]:
    """The places of a table that a word holds."""
    return [place for place in range(size) if word >> place & 1]


def _threads(desk: Desk, columns: Columns) -> Iterator[str]:
    for thread in _places(columns.living, THREADS):
        yield f"{thread}: virtual time {_time(columns.times[thread])}, visible time {_time(desk.visible_time(thread))}"


def _connections(columns: Columns) -> Iterator[str]:
    for connection in _places(columns.inputs | columns.outputs, CONNECTIONS):
        owners = [str(thread) for thread in range(THREADS) if columns.owned[thread] >> connection & 1]
        of_thread = f"of thread {' and '.join(owners)}" if owners else "of no thread"
        channel = columns.leads[connection]
        if columns.inputs >> connection & 1:
            yield f"{connection}: input {of_thread} from channel {channel}, mark {_time(columns.marks[connection])}"
        else:
            yield f"{connection}: output {of_thread} to channel {channel}"


def _items(desk: Desk, columns: Columns) -> Iterator[str]:
    for channel in range(CHANNELS):
        places = _places(columns.held[channel] & columns.present, ITEMS)
        readers = [reader for reader in _places(columns.inputs, CONNECTIONS) if columns.leads[reader] == channel]
        for place in sorted(places, key=lambda place: (columns.timestamps[place], place)):
            timestamp = columns.timestamps[place]
            seen = _seen(desk, readers, timestamp)
            yield f"channel {channel}, timestamp {timestamp}, ticket {columns.tickets[place]}: {seen}"


def _seen(desk: Desk, readers: list[int], timestamp: int) -> str:
    """On which connections the item is UNSEEN, and on which it is OPEN."""
    answers = {reader: desk.answer("state", reader, timestamp) for reader in readers}
    parts = []
    for state in (State.UNSEEN, State.OPEN):
        found = [str(reader) for reader, answer in answers.items() if answer == (Code.ACCEPTED, state, 0)]
        if found:
            parts.append(f"{state.name} on {' and '.join(found)}")
    return ", ".join(parts) or "neither UNSEEN nor OPEN on any connection"
