"""The class Desk."""

from collections.abc import Callable, Sequence
from ctypes import byref, c_uint64
from typing import Any, Self

from . import boundary
from .arguments import desk_of, memory, whole
from .constants import ITEMS, VERSION, Code, State
from .library import AGAIN, library
from .refusals import REFUSALS, ItemsFull, NothingUnseen
from .results import Answer, Attached, Got, HandedBack, Swept
from .telling import told
from .waiting import Waiting

# The first number of the version: bytes of another one are no desk here.
LAYOUT_VERSION = VERSION.partition(".")[0]


def _answer(given: boundary.Answer) -> Answer:
    try:
        return Answer(Code(given.code), given.value, given.time)
    except ValueError:
        raise RuntimeError(f"the desk library answers {given.code}, a code of another version; {AGAIN}") from None


def _accepted(answer: Answer) -> Answer:
    if answer.code is not Code.ACCEPTED:
        raise REFUSALS[answer.code](answer.value, answer.time)
    return answer


class Desk:
    """One desk, fresh at first: thread 0 at virtual time 0, and nothing else.

    Numbers that do not fit their 32 bits (a ticket its 64) are a ValueError, other things than whole numbers a
    TypeError, and calls that the rules forbid raise a class below Refused; each of them leaves the desk as it was.

    Threads may share a desk, a signal handler may use the one that it has interrupted, and a forked process has a copy
    of its own: each call is made whole, and alone. Only what the interrupted thread would do, a handler waits for in vain.
    A handler that raises (as Ctrl-C does) may lose the answer of the call that it interrupts, and with it the tickets of a
    sweep: the call is made, and nobody is told what it gave. strong_sweep_into an array of one's own keeps the tickets there.
    A copy, a pickle and == go by the desk's bytes.
    """

    _raw: boundary.Desk
    _waiting: Waiting

    def __new__(cls, *_: object, **__: object) -> Self:
        """Also a class below this one that forgets to call __init__ of this one has its desk."""
        desk = super().__new__(cls)
        desk._raw = library.desk_fresh()
        desk._waiting = Waiting()
        return desk

    def __init__(self) -> None:
        """A fresh desk: thread 0 at virtual time 0, and nothing else."""

    def answer(self, name: str, *numbers: int) -> Answer:
        """The whole answer to a call or a question, and nothing raised for a refusal: answer("put", 0, 1, 5, 500)."""
        widths = boundary.NUMBERS.get(name)
        if widths is None:
            raise ValueError(f"there is no {name!r} that takes numbers alone; there are {', '.join(boundary.NUMBERS)}")
        if len(numbers) != len(widths):
            raise TypeError(f"{name} takes {len(widths)} numbers ({', '.join(widths)}), not {len(numbers)}")
        wholes = [whole(key, number, bits) for (key, bits), number in zip(widths.items(), numbers)]
        return self._called(name, wholes, lambda: name not in boundary.QUESTIONS)

    def _called(self, name: str, words: Sequence[Any], changed: Callable[[], bool]) -> Answer:
        """The answer of the library. Whoever waits looks again where the call is accepted and may have changed something."""
        try:
            answer = _answer(getattr(library, "desk_" + name)(byref(self._raw), *words))
            if answer.code is Code.ACCEPTED and changed():
                self._waiting.ring()
            return answer
        except BaseException:
            # A signal handler may have raised after the call was made, or in the midst of ringing.
            self._waiting.ring()
            raise

    def _ask(self, name: str, *numbers: int) -> Answer:
        return _accepted(self.answer(name, *numbers))

    def _get(self, timeout: float | None, name: str, *numbers: int) -> Got:
        answer = self._waiting.until_accepted(lambda: self._ask(name, *numbers), NothingUnseen, timeout)
        return Got(answer.value, answer.time)

    def _sweep_answer(self, name: str, lent: Any) -> Answer:
        """The answer to a sweep. Nothing is raised for a refusal here: its traceback would hold the slice's memory, and the slice keep its length."""
        tickets = memory(lent, self._raw)
        # A sweep that changes nothing wakes nobody: two puts that wait and sweep would else wake each other without end. No later call
        # undoes what a sweep has changed, so that the bytes differ then, whatever other threads have done between the two looks.
        before = bytes(self._raw)
        return self._called(name, (tickets, len(tickets)), lambda: bytes(self._raw) != before)

    def _sweep_into(self, name: str, lent: Any) -> HandedBack:
        answer = _accepted(self._sweep_answer(name, lent))
        return HandedBack(answer.value, answer.time)

    def _sweep(self, name: str, places: int) -> Swept:
        # More than ITEMS places would never be used.
        tickets = (c_uint64 * min(whole("places", places, 32), ITEMS))()
        back = self._sweep_into(name, tickets)
        return Swept(tickets[: back.number], back.bound)

    # Calls.

    def channel(self, thread: int) -> int:
        """Creates a channel, and gives its number."""
        return self._ask("channel", thread).value

    def new_thread(self, thread: int, time: int) -> int:
        """Creates a thread with this virtual time, and gives its number."""
        return self._ask("new_thread", thread, time).value

    def attach_input(self, thread: int, channel: int) -> Attached:
        """Attaches an input connection. Its mark is the thread's visible time."""
        answer = self._ask("attach_input", thread, channel)
        return Attached(answer.value, answer.time)

    def attach_output(self, thread: int, channel: int) -> int:
        """Attaches an output connection, and gives its number."""
        return self._ask("attach_output", thread, channel).value

    def detach(self, thread: int, connection: int) -> None:
        """Detaches the connection. What was put through it stays."""
        self._ask("detach", thread, connection)

    def end(self, thread: int) -> None:
        """Ends the thread, and detaches its connections. Its items stay."""
        self._ask("end", thread)

    def set(self, thread: int, time: int) -> None:
        """Sets the thread's virtual time, up or down."""
        self._ask("set", thread, time)

    def put(
        self,
        thread: int,
        connection: int,
        timestamp: int,
        ticket: int,
        timeout: float | None = 0,
        swept: Callable[[list[int]], object] | None = None,
    ) -> None:
        """Puts an item through an output connection.

        Where 64 items are present, the put waits for so many seconds (None: without end) until there is a place, and raises
        ItemsFull when there is none. With a function for swept tickets it makes strong sweeps itself, and hands the function a list
        of the tickets of each; without one it sweeps nothing, for tickets that a sweep hands back are handed back once.
        """
        if swept is not None and not callable(swept):
            raise TypeError(f"swept has to be a function that takes a list of tickets, such as drawer.extend, not {type(swept).__name__}")

        def attempt() -> None:
            try:
                self._ask("put", thread, connection, timestamp, ticket)
                return
            except ItemsFull:
                if swept is None:
                    raise
            if tickets := self.strong_sweep().tickets:
                swept(tickets)
            self._ask("put", thread, connection, timestamp, ticket)

        self._waiting.until_accepted(attempt, ItemsFull, timeout)

    def get_earliest(self, thread: int, connection: int, timeout: float | None = 0) -> Got:
        """Gets the earliest item that is UNSEEN on the connection. It becomes OPEN.

        Where there is none, a get waits for so many seconds (None: without end) until there is one, and then raises NothingUnseen.
        """
        return self._get(timeout, "get_earliest", thread, connection)

    def get_latest(self, thread: int, connection: int, timeout: float | None = 0) -> Got:
        """Gets the latest item that is UNSEEN on the connection, and waits as get_earliest does. It becomes OPEN."""
        return self._get(timeout, "get_latest", thread, connection)

    def get_named(self, thread: int, connection: int, timestamp: int, timeout: float | None = 0) -> Got:
        """Gets the item with this timestamp, if it is UNSEEN on the connection, and waits as get_earliest does. It becomes OPEN."""
        return self._get(timeout, "get_named", thread, connection, timestamp)

    def consume(self, thread: int, connection: int, timestamp: int) -> None:
        """The item, which must be OPEN on the connection, becomes CONSUMED there."""
        self._ask("consume", thread, connection, timestamp)

    def consume_until(self, thread: int, connection: int, timestamp: int) -> None:
        """All up to the timestamp becomes CONSUMED on the connection."""
        self._ask("consume_until", thread, connection, timestamp)

    def weak_sweep(self, places: int = ITEMS) -> Swept:
        """A weak sweep into a new slice; with fewer places than items to hand back it raises SliceTooShort."""
        return self._sweep("weak_sweep", places)

    def strong_sweep(self, places: int = ITEMS) -> Swept:
        """A strong sweep into a new slice; with fewer places than items to hand back it raises SliceTooShort."""
        return self._sweep("strong_sweep", places)

    def weak_sweep_into(self, lent: Any) -> HandedBack:
        """A weak sweep into a lent slice, such as an array('Q'); only its front is written."""
        return self._sweep_into("weak_sweep", lent)

    def strong_sweep_into(self, lent: Any) -> HandedBack:
        """A strong sweep into a lent slice, such as an array('Q'); only its front is written."""
        return self._sweep_into("strong_sweep", lent)

    # Questions. They change nothing.

    def visible_time(self, thread: int) -> int:
        """The smallest of the thread's virtual time and of all timestamps OPEN on its inputs."""
        return self._ask("visible_time", thread).time

    def weak_bound(self) -> int:
        """The smallest of all virtual times and all marks."""
        return self._ask("weak_bound").time

    def strong_bound(self) -> int:
        """The smallest of all virtual times and of all items UNSEEN or OPEN on some input."""
        return self._ask("strong_bound").time

    def state(self, connection: int, timestamp: int) -> State:
        """What the timestamp is on an input connection."""
        return State(self._ask("state", connection, timestamp).value)

    def items_present(self) -> int:
        """How many items lie on the desk."""
        return self._ask("items_present").value

    # Waiting.

    def wait_for(self, predicate: Callable[[], object], timeout: float | None = None) -> bool:
        """Waits until the predicate is true: whether it came true in time.

        It is asked at once, again after accepted calls of this desk, after sweeps that changed something, and once more when the time is
        over, as of threading.Condition: desk.wait_for(lambda: desk.strong_bound() > 5, timeout=1). It only asks: one that makes
        calls itself would be woken by them, without end.
        """
        return self._waiting.until_true(predicate, timeout)

    # The desk's bytes.

    @classmethod
    def from_bytes(cls, data: bytes) -> Self:
        """The desk that has these bytes, which bytes(desk) has given; a wrong number of bytes is a ValueError."""
        desk = cls.__new__(cls)
        desk._raw = desk_of(data)
        return desk

    def __bytes__(self) -> bytes:
        """The desk's bytes, as docs/BOUNDARY.md of the repository has them."""
        return bytes(self._raw)

    def __eq__(self, other: object) -> bool:
        """Whether both are desks with equal bytes; what a class below this one has added is not compared."""
        if not isinstance(other, Desk):
            return NotImplemented
        return bytes(self._raw) == bytes(other._raw)

    def __getstate__(self) -> dict[str, object]:
        """For a copy or a pickle: the bytes and their layout, and what a class below this one has added. Who waits is left behind."""
        added = {name: value for name, value in self.__dict__.items() if name != "_waiting"}
        return {**added, "_raw": bytes(self._raw), "_layout": LAYOUT_VERSION}

    def __setstate__(self, state: dict[str, Any]) -> None:
        """A desk of the bytes; one of another layout is a ValueError, although it may have as many bytes."""
        added = {**state}
        layout, data = added.pop("_layout", "unknown"), added.pop("_raw", b"")
        if layout != LAYOUT_VERSION:
            raise ValueError(f"this desk was kept by version {layout} of the package, and this is version {LAYOUT_VERSION}, where its bytes mean something else")
        self.__dict__.update(added, _raw=desk_of(data), _waiting=Waiting())

    def __repr__(self) -> str:
        """Threads, channels, connections and items, and both bounds, as they are at one moment."""
        still = Desk.from_bytes(bytes(self._raw))
        return told(type(self).__name__, still, still._raw)
