"""What is said to the server and what it answers: shared by both clients, without any input or output."""

from __future__ import annotations

import errno
import hashlib
import operator
import os
import re
from dataclasses import dataclass
from typing import TYPE_CHECKING, Dict, List, NamedTuple, Optional, Sequence, Tuple, Union

if TYPE_CHECKING:
    _Path = os.PathLike[str]
else:
    _Path = os.PathLike  # Python 3.8 has no parameter for it

#: Where a server is: the path of its socket, or host and port, also as tcp:HOST:PORT, or tls:HOST:PORT.
Place = Union[str, _Path, Tuple[str, int]]
#: One server, or several that share their locks: a list, or in one text with commas.
Places = Union[Place, Sequence[Place]]

#: The label of a hold: a number below 2^64, or a text, of which the server gets `label_number`.
Label = Union[int, str]

#: The names that locks can have.
NAME = re.compile("[A-Za-z0-9._/-]{1,128}")
MOST = 1 << 64
LONGEST_LEASE = 365 * 24 * 3600.0
#: The lease that a client asks for that has to have one, in seconds.
USUAL_LEASE = 30.0
#: The line that asks for the lease that the server gave by itself.
GIVEN_LEASE = b"lease\n"


class TlsPlace(NamedTuple):
    """Where a server is that speaks TLS."""

    host: str
    port: int


class LockError(Exception):
    """What can go wrong with a lock."""


class LockLost(LockError, ConnectionError):
    """The connection is gone, or was silent for too long: others may hold what this client held."""


class NotInTime(LockError, TimeoutError):
    """The lock was not granted within the time. What was asked is withdrawn, or the connection is closed: the text says which."""


class Inherited(LockError, RuntimeError):
    """This client came over a fork: it is its parent's, and a child makes one of its own."""


class Refused(LockError):
    """The server or the engine refused, and nothing has changed. `why` is the word of the protocol."""

    def __init__(self, why: str, lock: Optional[str] = None):
        super().__init__(why if lock is None else f"{why}: {lock}")
        self.why, self.lock = why, lock


class NoSuchLock(Refused):
    """There is no lock of this name."""


class NotPermitted(Refused):
    """This user may not use the lock."""


class Holds(Refused):
    """This client holds the lock already."""


class Waits(Refused):
    """This client waits for a lock already."""


class Circle(Refused):
    """The lock's holder waits, over one step or several, for this client: it would wait for itself."""


class NotHolder(Refused):
    """This client does not hold the lock with this token."""


class NotWaiter(Refused):
    """This client does not wait for the lock."""


class TooMany(Refused):
    """There are too many connections, too many clients wait for the lock, this one has as many locks as it may, or as many locks of any
    name are held as may be."""


_BY_WORD = {"lock": NoSuchLock, "permission": NotPermitted, "holds": Holds, "waits": Waits, "circle": Circle,
            "holder": NotHolder, "waiter": NotWaiter, "connections": TooMany, "waiters": TooMany, "many": TooMany,
            "names": TooMany}

#: For its name, where a lock was gone before the server had sent how it was.
GONE = "*"


@dataclass(frozen=True)
class LockStatus:
    """How a lock is, as the server knows. Times are in seconds."""

    name: str
    #: `free`, `held`, or `before`: held by a client of an engine that ended
    state: str
    client: Optional[int]
    label: Optional[int]
    token: Optional[int]
    age: Optional[float]
    waiting: int
    oldest_wait: float
    grants: int
    longest_wait: float


def place(given: Place) -> Union[str, Tuple[str, int]]:
    """The same place, where a text tcp:HOST:PORT or tls:HOST:PORT is host and port, and a path is its text."""
    if isinstance(given, tuple):
        return given
    given = os.fspath(given)
    if not isinstance(given, str):
        raise TypeError(f"no server: {given!r}")
    if not given.startswith(("tcp:", "tls:")):
        return given
    host, _, port = given[4:].rpartition(":")
    if not host or not port.isdigit() or not 0 < int(port) < 65536:
        raise ValueError(f"no server: {given!r}")
    found = TlsPlace(host.strip("[]"), int(port))
    return found if given.startswith("tls:") else (found.host, found.port)


def places(given: Places) -> List[Union[str, Tuple[str, int]]]:
    """One server or several: a text is cut at each comma after which another place begins, with tcp:, tls:, / or ./."""
    if isinstance(given, (tuple, os.PathLike)):
        return [place(given)]  # type: ignore[arg-type]  # a tuple is host and port
    pieces = re.split(",(?=tcp:|tls:|/|[.]/)", given) if isinstance(given, str) else given
    if not pieces:
        raise ValueError("no server")
    return [place(it) for it in pieces]


def at(server: Union[str, Tuple[str, int]]) -> str:
    """A place as it is written, on one line."""
    if not isinstance(server, tuple):
        return server
    kind, host = "tls" if isinstance(server, TlsPlace) else "tcp", f"[{server[0]}]" if ":" in server[0] else server[0]
    return f"{kind}:{host}:{server[1]}"


def why_not(code: int, path: str) -> OSError:
    """Why no socket of this path answers. The error has the path, and says how a server over TCP is named where that was meant."""
    is_tcp = code == errno.ENOENT and re.fullmatch(r"[^/]+:\d+", path)
    return OSError(code, os.strerror(code) + (f" (a server over TCP is tcp:{path})" if is_tcp else ""), path)


def checked_name(name: str) -> str:
    """The name of a lock, if it can be one."""
    if not NAME.fullmatch(name):
        raise ValueError(f"no name of a lock: {name!r}")
    return name


def checked_number(number: int) -> int:
    """A number that is a label, or a token, if it can be one."""
    number = operator.index(number)
    if not 0 <= number < MOST:
        raise ValueError(f"not 0 to 2 ** 64 - 1: {number}")
    return number


def label_number(label: Label) -> int:
    """The number that the journal keeps for a label: a number itself; of a text the first 8 bytes of the SHA-256 of its UTF-8, the
    greatest first. `printf %s TEXT | sha256sum | cut -c 1-16` prints it in hexadecimal. The text "7" is not the number 7."""
    if isinstance(label, str):
        return int.from_bytes(hashlib.sha256(label.encode()).digest()[:8], "big")
    return checked_number(label)


def acquire(name: str, label: Label, verb: str = "acquire") -> bytes:
    """The line that asks for a lock."""
    return f"{verb} {checked_name(name)} {label_number(label)}\n".encode()


def release(name: str, token: int) -> bytes:
    """The line that gives a lock back."""
    return f"release {checked_name(name)} {checked_number(token)}\n".encode()


def cancel(name: str) -> bytes:
    """The line that waits no longer."""
    return f"cancel {checked_name(name)}\n".encode()


def lease(seconds: float) -> bytes:
    """The line that asks for a lease."""
    if not 0 < seconds <= LONGEST_LEASE:
        raise ValueError(f"no lease: {seconds}")
    return f"lease {max(1, round(seconds * 1000))}\n".encode()


def lease_of(seconds: Optional[float], server: Union[str, Tuple[str, int]]) -> bytes:
    """The line that asks for this lease. Without one it is the usual one over TCP, where each client has a lease, and on a Unix socket
    the one that the server gave."""
    if seconds is None and not isinstance(server, tuple):
        return GIVEN_LEASE
    return lease(USUAL_LEASE if seconds is None else seconds)


def words_of(line: bytes) -> list[str]:
    """The words of an answer."""
    words = line.decode("ascii", "replace").split()
    if not words:
        raise LockLost("the server sent an empty line")
    return words


def refusal(words: list[str]) -> Optional[Refused]:
    """The error in an answer, if it is a refusal."""
    if words[0] != "refused":
        return None
    why = words[1] if len(words) > 1 else "?"
    return _BY_WORD.get(why, Refused)(why, words[2] if len(words) > 2 else None)


def is_denial(words: list[str], name: str) -> bool:
    """Whether the rules forbid by now to wait for the lock: this comes after `waiting`, and nothing waits for it any more."""
    return words == ["refused", "permission", name]


def is_number(word: str) -> bool:
    """Whether this is a decimal below 2 ** 64."""
    return word.isascii() and word.isdigit() and int(word) < MOST


def number(words: list[str], place: int) -> int:
    """The number at this place of an answer."""
    if place >= len(words) or not is_number(words[place]):
        raise LockLost(f"the server sent {' '.join(words)!r}")
    return int(words[place])


#: The first words of the answers to each verb, with how many words there are.
_ANSWERS: Dict[str, Dict[str, int]] = {
    "acquire": {"granted": 3, "waiting": 3}, "try": {"granted": 3, "busy": 2}, "release": {"released": 2},
    "cancel": {"cancelled": 2}, "leave": {"left": 1}, "status": {"status": 2}, "lease": {"lease": 2}, "ping": {"pong": 1}}


class Question:
    """A line that is asked, and its answer, as soon as it is there. An answer that belongs to another question is none."""

    __slots__ = ("line", "verb", "name", "number", "at", "sent", "words", "locks")

    def __init__(self, line: bytes, at: float, number: int = 0):
        verb, _, rest = line.decode("ascii").partition(" ")
        self.line, self.verb, self.name = line, verb.rstrip(), rest.partition(" ")[0].rstrip()
        #: its number in a session, or 0; when it was asked; how many bytes of it were sent, in parts
        self.number, self.at, self.sent = number, at, []  # type: int, float, List[int]
        self.words: List[str] = []
        #: what follows the answer to `status`
        self.locks: List[LockStatus] = []

    @property
    def data(self) -> bytes:
        """What is sent."""
        return b"%d %s" % (self.number, self.line) if self.number else self.line

    @property
    def named_locks(self) -> List[LockStatus]:
        """Those of which the server knew the name when it sent how they are."""
        return [it for it in self.locks if it.name != GONE]

    @property
    def is_answered(self) -> bool:
        """Whether all of the answer is there."""
        return bool(self.words) and (self.words[0] != "status" or len(self.locks) >= number(self.words, 1))

    def hear(self, words: List[str]) -> None:
        """The next line of its answer; `LockLost` if it cannot be one."""
        if self.words:
            self.locks.append(status(words))
        elif self._takes(words):
            self.words = words
        else:
            raise LockLost(f"the server sent {' '.join(words)!r} as an answer to {self.line.decode().strip()!r}")

    def _takes(self, words: List[str]) -> bool:
        count = len(words)
        if words[0] == "refused":
            return count == 2 or count == 3 and words[2] == self.name
        if _ANSWERS[self.verb].get(words[0]) != count:
            return False
        if count == 3:
            return words[1] == self.name and is_number(words[2])
        return count < 2 or (is_number(words[1]) if self.verb in ("status", "lease") else words[1] == self.name)


def seconds_of(lease: Question) -> float:
    """The lease in an answer, in seconds; 0 if there is none."""
    return number(lease.words, 1) / 1000


def no_lease(line: bytes, refused: Refused) -> float:
    """0, if an older server refuses the question which lease it gave, since it gives none on a Unix socket. Else it is raised."""
    if line == GIVEN_LEASE and refused.why == "syntax":
        return 0.0
    raise refused


def status(words: list[str]) -> LockStatus:
    """One line of the answer to `status`."""
    if len(words) != 11 or words[0] != "lock":
        raise LockLost(f"the server sent {' '.join(words)!r}")

    def known(place: int) -> Optional[int]:
        return None if words[place] == "-" else number(words, place)

    age = known(6)
    return LockStatus(words[1], words[2], known(3), known(4), known(5), None if age is None else age / 1000,
                      number(words, 7), number(words, 8) / 1000, number(words, 9), number(words, 10) / 1000)


def is_own(fault: Exception) -> bool:
    """Whether this is what the system or a server says, and not what a signal handler raised meanwhile."""
    return isinstance(fault, (LockLost, ValueError)) or getattr(fault, "errno", None) is not None
