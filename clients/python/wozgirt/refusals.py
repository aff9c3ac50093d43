"""What the library of rings refuses: its codes, and an exception with a name of its own for each."""

from __future__ import annotations

from enum import IntEnum
from typing import ClassVar, Dict, Optional, Type


class Code(IntEnum):
    """The codes of `enum wozgirt_code`, each with its text."""

    _value_: int
    text: str

    def __new__(cls, value: int, text: str) -> Code:
        code = int.__new__(cls, value)
        code._value_ = value
        code.text = text
        return code

    DONE = 0, "done"
    WAITS = 1, "the machine is not privileged"
    BUSY = 2, "somebody holds the lock"
    NO_MORE = 3, "there is no further grant"
    NO_SEAT = 16, "there is no such seat"
    NO_MACHINE = 17, "there is no such machine"
    NO_VALUE = 18, "the value is not below K"
    NOT_RISING = 19, "the machines of the group do not rise, or there are none"
    WHOLE_RING = 20, "the group is the whole ring"
    NOT_PRIVILEGED = 21, "a machine of the group is not privileged"
    HISTORY_FULL = 22, "the history is full"
    NO_MEMORY = 23, "out of memory"
    CLOSED = 24, "it is closed"
    BAD_SEATS = 32, "a ring has 1 to 10 seats"
    BAD_MACHINES = 33, "a ring has 2 to 1,024 machines"
    BAD_VALUES = 34, "a ring has at least as many values as machines, and at most 65,536"
    BAD_LENGTH = 35, "there is not one start value for each machine"
    BAD_START = 36, "a start value is not below K"
    OPEN = 37, "it is open already"
    BAD_LOCKS = 38, "there are 1 to 1,000,000 locks"
    SYNTAX = 48, "a line cannot be in a saved text"
    TRUNCATED = 49, "the saved text is cut short"
    NO_RING = 50, "the saved text has no ring at this place"
    NO_CHAIN = 52, "no chain of files ends with this one"
    MANY_RINGS = 53, "the file is not of one ring"
    PARAMETER = 64, "parameter"
    RANGE = 65, "range"
    REPLY = 66, "reply"
    COUNT = 67, "count"
    SURVEY = 68, "survey"
    GROUP = 69, "group"
    NO_TILL = 80, "the ring is over no till, so it has no saved text"
    TOO_SMALL = 81, "the buffer is too small"
    NO_EVENT = 82, "there is no such event"
    NO_JOURNAL = 83, "no journal is kept"
    NO_LOCK = 96, "there is no such lock"
    HOLDS = 97, "the client holds the lock already"
    STANDS = 98, "the client waits already"
    CIRCLE = 99, "the client would wait for itself"
    NOT_HELD = 100, "the client does not hold the lock with this token"
    NOT_WAITING = 101, "the client does not wait for the lock"
    GRANTS_LEFT = 102, "grants were not taken"


class RingError(Exception):
    """What the library refuses. Each class has the `code` of its reason."""

    code: ClassVar[Code]

    def __str__(self) -> str:
        return self.code.text


class Refused(RingError):
    """A call that was refused, and changed nothing."""


class NoSeat(Refused):
    """There is no such seat."""

    code = Code.NO_SEAT


class NoMachine(Refused):
    """There is no such machine."""

    code = Code.NO_MACHINE


class NoValue(Refused):
    """The value is not below K."""

    code = Code.NO_VALUE


class NotRising(Refused):
    """The machines of the group do not rise below n, or there are none."""

    code = Code.NOT_RISING


class WholeRing(Refused):
    """The group is the whole ring."""

    code = Code.WHOLE_RING


class NotPrivileged(Refused):
    """A machine of the group is not privileged; `machine` is the least such one."""

    code = Code.NOT_PRIVILEGED

    def __init__(self, machine: int):
        super().__init__(machine)
        self.machine = machine

    def __str__(self) -> str:
        return f"machine {self.machine} of the group is not privileged"


class HistoryFull(Refused):
    """A segment of a history has at most 4,000,000 events: `Ring.cut` begins the next."""

    code = Code.HISTORY_FULL


class NoMemory(Refused, MemoryError):
    """Out of memory, and nothing has changed."""

    code = Code.NO_MEMORY


class Closed(Refused, ValueError):
    """The ring is closed, or the locks are."""

    code = Code.CLOSED


class BadNumbers(Refused, ValueError):
    """A ring is not opened: there is none of these numbers."""


class BadSeats(BadNumbers):
    """The seats are not 1 to 10."""

    code = Code.BAD_SEATS


class BadMachines(BadNumbers):
    """n is not 2 to 1,024."""

    code = Code.BAD_MACHINES


class BadValues(BadNumbers):
    """K is not n to 65,536."""

    code = Code.BAD_VALUES


class BadLength(BadNumbers):
    """There are not n start values."""

    code = Code.BAD_LENGTH


class BadStart(BadNumbers):
    """A start value is not below K."""

    code = Code.BAD_START


class BadLocks(BadNumbers):
    """There are 1 to 1,000,000 locks."""

    code = Code.BAD_LOCKS


class NoRing(Refused):
    """The saved text has no ring at this place."""

    code = Code.NO_RING


class NoTill(Refused):
    """The ring is over a resource that does no work, and a saved text is of tills."""

    code = Code.NO_TILL


class NoJournal(Refused):
    """No journal is kept of the segment."""

    code = Code.NO_JOURNAL


class NoChain(Refused):
    """No chain of files ends with this one: what it says of those before it cannot be."""

    code = Code.NO_CHAIN


class ManyRings(Refused):
    """The file is not of one ring."""

    code = Code.MANY_RINGS


class NoEvent(Refused, IndexError):
    """The segment has no event of this number."""

    code = Code.NO_EVENT


class NoLock(Refused):
    """There is no such lock."""

    code = Code.NO_LOCK


class Holds(Refused):
    """The client holds the lock already."""

    code = Code.HOLDS


class Stands(Refused):
    """The client waits already."""

    code = Code.STANDS


class Circle(Refused):
    """The client would wait, step by step, for itself."""

    code = Code.CIRCLE


class NotHeld(Refused):
    """The client does not hold the lock with this token."""

    code = Code.NOT_HELD


class NotWaiting(Refused):
    """The client does not wait for the lock."""

    code = Code.NOT_WAITING


class NotLegal(RingError):
    """A text that is not the text of a legal history. `line` is the first bad line, from 1, or 0 if it is not a line's fault."""

    def __init__(self, line: int = 0):
        super().__init__(line)
        self.line = line

    def __str__(self) -> str:
        return f"line {self.line}: {self.code.text}" if self.line else self.code.text


class BadSyntax(NotLegal):
    """A line cannot be in a saved text."""

    code = Code.SYNTAX


class Truncated(NotLegal):
    """The text is cut short."""

    code = Code.TRUNCATED


class BadParameter(NotLegal):
    """The line is a ring's, and its numbers are out of the limits."""

    code = Code.PARAMETER


class BadRange(NotLegal):
    """A number of the line is not one that the ring has."""

    code = Code.RANGE


class BadReply(NotLegal):
    """The reply of the line is not the ring's."""

    code = Code.REPLY


class BadCount(NotLegal):
    """The line counts wrongly."""

    code = Code.COUNT


class BadSurvey(NotLegal):
    """The survey of the line is not the ring's."""

    code = Code.SURVEY


class BadGroup(NotLegal):
    """The group that the line begins is not one."""

    code = Code.GROUP


def _classes(base: Type[RingError]) -> Dict[Code, Type[RingError]]:
    found: Dict[Code, Type[RingError]] = {}
    if "code" in vars(base):
        found[base.code] = base
    for kind in base.__subclasses__():
        found.update(_classes(kind))
    return found


_BY_CODE = _classes(RingError)


def error_of(code: int, *, machine: Optional[int] = None, line: Optional[int] = None) -> Exception:
    """The exception of a code that says that something is refused."""
    if code not in _BY_CODE:
        return RuntimeError(f"the library answers with a code that this package does not know: {code}")
    kind = _BY_CODE[Code(code)]
    if issubclass(kind, NotPrivileged):
        return kind(machine or 0)
    if issubclass(kind, NotLegal):
        return kind(line or 0)
    return kind()
