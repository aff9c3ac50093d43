"""Token rings that are proved, and the separate checker of their histories, by ctypes over the shared library.

    from wozgirt.ring import Ring

    with Ring(n=3, k=3, start=[0, 2, 0], seats=2) as ring:
        grant = ring.pass_(seat=0, machine=0, order=5)

`wozgirt.h` says what each call returns. Each call that is refused raises the exception of its reason, from
`wozgirt.refusals`. A number that the library's type cannot hold is refused with `ValueError`, and another value with
`TypeError`. A ring holds a lock of its own, so threads may share it. The library is the one that WOZGIRT_LIBRARY names, that
of the wheel, or the system's; it is loaded at the first call.
"""

from __future__ import annotations

import ctypes
import threading
import weakref
from ctypes import byref, c_uint8, c_uint64
from dataclasses import dataclass
from enum import IntEnum
from typing import Any, Callable, Iterable, Iterator, NoReturn, Optional, SupportsIndex, Type, TypeVar

from .library import RawAnswer, RawEvent, RawGroup, RawRing, RawSight, RawSums, Text, load, number, numbers, text_of
from .refusals import (BadCount, BadGroup, BadLength, BadMachines, BadNumbers, BadParameter, BadRange, BadReply, BadSeats,
                       BadStart, BadSurvey, BadSyntax, BadValues, Closed, Code, HistoryFull, ManyRings, NoChain, NoEvent,
                       NoJournal, NoMachine, NoMemory, NoRing, NoSeat, NoTill, NoValue, NotLegal, NotPrivileged, NotRising,
                       Refused, RingError, Truncated, WholeRing, error_of)

__all__ = ["BadCount", "BadGroup", "BadLength", "BadMachines", "BadNumbers", "BadParameter", "BadRange", "BadReply", "BadSeats",
           "BadStart", "BadSurvey", "BadSyntax", "BadValues", "Closed", "Code", "Event", "Grant", "Group", "HistoryFull", "Kind",
           "ManyRings", "NoChain", "NoEvent", "NoJournal", "NoMachine", "NoMemory", "NoRing", "NoSeat", "NoTill", "NoValue",
           "NotLegal", "NotPrivileged", "NotRising", "Refused", "Ring", "RingError", "Sight", "Sums", "Truncated", "WholeRing",
           "check"]

SomeRing = TypeVar("SomeRing", bound="Ring")


@dataclass(frozen=True)
class Grant:
    """A granted pass: how many events came before it, its number, which is a fencing token, and the resource's answer. The numbers
    count all segments of the history."""

    position: int
    number: int
    result: int


@dataclass(frozen=True)
class Group:
    """A group that passed: how many events came before its first member, that member's number and the resource's answer to it,
    and how many members it has. Their numbers follow one another; over a till each further answer is more by the order."""

    first: int
    number: int
    result: int
    count: int


@dataclass(frozen=True)
class Sight:
    """A survey of a ring: how many events there are, how many passes were granted since the last fault, how many are left at
    most until one machine is privileged, how many are privileged, and the least of them."""

    position: int
    calm: int
    rest: int
    privileged: int
    first: int


class Kind(IntEnum):
    """What an event of a history is."""

    PASSED = 0  # a pass that was granted
    WAITED = 1  # a pass by a machine that was not privileged
    MEMBER = 2  # the pass of one machine of a group
    FAULT = 3  # a value was written into a machine


@dataclass(frozen=True)
class Event:
    """An event of a history; what does not belong to its kind is 0. `number` is which grant it is, `result` the resource's answer
    or the value that a fault was written over; `value` is what a fault wrote, or how many of a member's group are still to come."""

    kind: Kind
    seat: int
    machine: int
    order: int
    number: int
    result: int
    value: int


@dataclass(frozen=True)
class Sums:
    """The sums of a legal text."""

    rings: int
    events: int
    granted: int
    corrupted: int
    surveys: int


def check(text: Text) -> Sums:
    """The sums of a saved text; `NotLegal` if it is not legal."""
    bytes_, sums = text_of(text), RawSums()
    code = load().wozgirt_check(bytes_, len(bytes_), byref(sums))
    _stop_on(code, line=sums.line)
    return Sums(sums.rings, sums.events, sums.granted, sums.corrupted, sums.surveys)


def _stop_on(code: int, *, group: Optional[RawGroup] = None, line: Optional[int] = None) -> bool:
    """Raises what a call refused; else whether it was done, and not left waiting."""
    if code > Code.WAITS:
        raise error_of(code, machine=None if group is None else group.machine, line=line)
    return code == Code.DONE


def _close(close: Callable[[Any], object], raw: RawRing) -> None:
    """Closes what is open. It is a ring's finalizer, and so knows nothing of the ring."""
    close(byref(raw))


class Ring:
    """A ring over a till: each granted pass adds its order. A refused call changes nothing. It is a context manager, which closes
    it; it is true as long as it is open."""

    def __init__(self, n: SupportsIndex, k: SupportsIndex, start: Iterable[SupportsIndex], seats: SupportsIndex):
        self._open("wozgirt_open", n, k, start, seats)

    @classmethod
    def idle(cls: Type[SomeRing], n: SupportsIndex, k: SupportsIndex, start: Iterable[SupportsIndex],
             seats: SupportsIndex) -> SomeRing:
        """A ring over a resource that does no work; it cannot be saved."""
        self = cls.__new__(cls)
        self._open("wozgirt_open_idle", n, k, start, seats)
        return self

    @classmethod
    def from_saved(cls: Type[SomeRing], text: Text, place: SupportsIndex, seats: SupportsIndex) -> SomeRing:
        """A ring that resumes the one at this place of a saved text; `NotLegal` just as `check` says, with the line."""
        self = cls.__new__(cls)
        bytes_, at, count = text_of(text), number(place, 32, "place"), number(seats, 32, "seats")
        self._own()
        sums = RawSums()
        code = self._library.wozgirt_open_saved(byref(self._raw), bytes_, len(bytes_), at, count, byref(sums))
        _stop_on(code, line=sums.line)
        return self

    @classmethod
    def from_segment(cls: Type[SomeRing], file: Text, seats: SupportsIndex) -> SomeRing:
        """A ring that resumes where the last file of a chain ends, whatever was cut off of it; `NotLegal` with the bad line."""
        self = cls.__new__(cls)
        bytes_, count = text_of(file), number(seats, 32, "seats")
        self._own()
        line = c_uint64()
        code = self._library.wozgirt_open_segment(byref(self._raw), bytes_, len(bytes_), count, byref(line))
        _stop_on(code, line=line.value)
        return self

    def _own(self) -> None:
        # the lock may be taken twice: the handler of a signal runs between the calls of the thread that it interrupts
        self._lock, self._raw, self._library = threading.RLock(), RawRing(), load()
        self._end = weakref.finalize(self, _close, self._library.wozgirt_close, self._raw)
        self._end.atexit = False  # a thread may still be in a call, and the process gives all back

    def _open(self, opener: str, n: SupportsIndex, k: SupportsIndex, start: Iterable[SupportsIndex], seats: SupportsIndex) -> None:
        values, length = numbers(start, "start")
        sizes, count = (number(n, 32, "n"), number(k, 32, "k")), number(seats, 32, "seats")
        self._own()
        _stop_on(getattr(self._library, opener)(byref(self._raw), *sizes, values, length, count))

    def _call(self, name: str, *given: Any) -> int:
        """The code of a call, which no other call is beside."""
        with self._lock:
            return int(getattr(self._library, f"wozgirt_{name}")(byref(self._raw), *given))

    def _pass(self, name: str, seat: SupportsIndex, machine: SupportsIndex, order: SupportsIndex) -> Optional[Grant]:
        answer = RawAnswer()
        given = number(seat, 32, "seat"), number(machine, 32, "machine"), number(order, 64, "order")
        if not _stop_on(self._call(name, *given, byref(answer))):
            return None
        return Grant(answer.position, answer.number, answer.result)

    def pass_(self, seat: SupportsIndex, machine: SupportsIndex, order: SupportsIndex) -> Optional[Grant]:
        """The grant, or none where the machine is not privileged, which the history records too."""
        return self._pass("pass", seat, machine, order)

    def try_pass(self, seat: SupportsIndex, machine: SupportsIndex, order: SupportsIndex) -> Optional[Grant]:
        """The same, but nothing is recorded where the machine is not privileged: the call to poll with."""
        return self._pass("try", seat, machine, order)

    def pass_group(self, seat: SupportsIndex, machines: Iterable[SupportsIndex], order: SupportsIndex) -> Group:
        """Machines whose numbers rise pass at once."""
        answer, (values, count) = RawGroup(), numbers(machines, "machine")
        given = number(seat, 32, "seat"), values, count, number(order, 64, "order")
        _stop_on(self._call("pass_group", *given, byref(answer)), group=answer)
        return Group(answer.first, answer.number, answer.result, answer.count)

    def corrupt(self, seat: SupportsIndex, machine: SupportsIndex, value: SupportsIndex) -> int:
        """Writes a value into a machine, and returns the old one."""
        answer = RawAnswer()
        given = number(seat, 32, "seat"), number(machine, 32, "machine"), number(value, 32, "value")
        _stop_on(self._call("corrupt", *given, byref(answer)))
        return int(answer.result)

    def survey(self, seat: SupportsIndex) -> Sight:
        """The survey of the ring, which the seat's log keeps."""
        sight = RawSight()
        _stop_on(self._call("survey", number(seat, 32, "seat"), byref(sight)))
        return Sight(sight.position, sight.calm, sight.rest, sight.privileged, sight.first)

    def glance(self) -> Sight:
        """The same, which is kept nowhere."""
        sight = RawSight()
        _stop_on(self._call("glance", byref(sight)))
        return Sight(sight.position, sight.calm, sight.rest, sight.privileged, sight.first)

    def __len__(self) -> int:
        """How many events there were, over all segments of the history."""
        length = c_uint64()
        _stop_on(self._call("history_length", byref(length)))
        return length.value

    def event(self, at: SupportsIndex) -> Event:
        """The event at this place of the history, from 0; `NoEvent` for one before the last `cut`."""
        event = RawEvent()
        _stop_on(self._call("event_at", number(at, 64, "at"), byref(event)))
        return Event(Kind(event.kind), event.seat, event.machine, event.order, event.number, event.result, event.value)

    def __iter__(self) -> Iterator[Event]:
        """The events of the segment, from its first to the one that is the last then."""
        first = c_uint64()
        with self._lock:
            _stop_on(self._call("events_before", byref(first)))
            return map(self.event, range(first.value, len(self)))

    def __bool__(self) -> bool:
        """Whether the ring is open."""
        return bool(self._raw.at)

    def _text(self, name: str) -> bytes:
        """The text that a call copies into a buffer, which is as large as is needed."""
        size, room = c_uint64(), (c_uint8 * 1)()
        code = self._call(name, room, 0, byref(size))
        while code == Code.TOO_SMALL:  # other threads may have made it longer since
            room = (c_uint8 * size.value)()
            code = self._call(name, room, size.value, byref(size))
        _stop_on(code)
        return ctypes.string_at(room, size.value)

    def save(self) -> bytes:
        """The saved text of the ring's segment as it is now, which `check` and `ring_tool check` judge."""
        return self._text("save")

    def open_journal(self) -> bytes:
        """The beginning of a journal: the file of the segment, with all of it so far. The journal is kept from then on."""
        return self._text("open_journal")

    def take_journal(self) -> bytes:
        """What was recorded since the journal was opened or taken from, each line once: append it to the file and fsync that, before
        any program acts on the answers."""
        return self._text("take_journal")

    def cut(self) -> bytes:
        """Seals the segment: its whole file, which replaces the file. The ring continues in the next segment, with its
        numbers, and no journal of that is kept yet."""
        return self._text("cut")

    def close(self) -> None:
        """Ends the ring. It may be called again."""
        with self._lock:
            self._end()

    def __enter__(self: SomeRing) -> SomeRing:
        return self

    def __exit__(self, *given: object) -> None:
        self.close()

    def __reduce__(self) -> NoReturn:
        raise TypeError("a ring is not copied or pickled: save it, and resume it by Ring.from_saved")

    def __repr__(self) -> str:
        return f"<{type(self).__name__}, {f'{len(self)} events' if self else 'closed'}>"
