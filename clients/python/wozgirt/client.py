"""The client for threads: one call at a time, and each waits for its answer."""

from __future__ import annotations

import collections
import errno
import threading
import time
import weakref
from typing import Callable, Deque, Dict, List, NoReturn, Optional, Tuple, TypeVar

from . import lines
from .lines import LockError, LockLost, LockStatus, NotHolder, NotInTime, NotWaiter, Place, Question, Refused
from .tls import Tls
from .turns import Turns
from .wire import CONNECT, START, TRY, Late, Wire, connected, wire_to

__all__ = ["CONNECT", "Client", "connected"]

PING, STATUS = b"ping\n", b"status\n"
#: How long the server may take to say that a lock is no longer waited for: after a deadline, and after an interrupt.
WITHDRAW, INTERRUPTED = 0.15, 1.0
#: How long a server may take to say that a client that closes has left.
CLOSE = 2.0
#: A client speaks after a silence of this part of its lease.
PART = 4

Answer = TypeVar("Answer", int, Optional[int])


class Client(Turns):
    """A connection, made within `timeout` seconds, of which a server that starts may take 5 to be there. Threads may share it, but a call waits until the one before it is answered; while
    one waits for a lock, the others wait for that. A child that inherits it over a fork cannot use it (`Inherited`).

    An exception out of a signal handler may break off a call. What was asked is then withdrawn, and what was granted is given back,
    within a second; or the connection is closed, and the next call raises `LockLost`. A handler itself calls only `check` and `close`.

    With a lease (seconds) the server takes a silence of this length for the client's end. A thread of this client then speaks
    each quarter of it, and `check` raises `LockLost` when half of it is over without an answer. Over TCP each connection has a
    lease, so one is asked for there in any case. On a Unix socket the server says whether it gave one, which is kept in the same way.

    `tls` has the files for a place tls:HOST:PORT."""

    _part = PART

    def __init__(self, place: Place, *, lease: Optional[float] = None, timeout: float = CONNECT, tls: Tls = Tls()):
        server = lines.place(place)
        now = time.monotonic()
        until, started = now + timeout, now + min(START, timeout)
        asked = lines.lease_of(lease, server)
        while not self._is_met(server, tls, asked, until, started):
            time.sleep(TRY)
        if self._lease:
            self._start_keeper()

    def _is_met(self, server: Place, tls: Tls, asked: bytes, until: float, started: float) -> bool:
        """Connects, and asks for the lease. Until `started` it is false if the connection ends before an answer, as of a server that is
        started again, or that a proxy does not find yet."""
        now = time.monotonic()
        self._prepare([server], wire_to(server, tls, max(0.0, until - now), max(0.0, started - now)))
        try:
            self._lease = self._in_turn(lambda: self._granted_lease(asked, until))
            return True
        except BaseException as fault:
            self.close()
            if isinstance(fault, LockLost) and time.monotonic() >= until:
                raise TimeoutError(errno.ETIMEDOUT, "the server does not answer") from None
            if isinstance(fault, LockLost) and self._is_ended and time.monotonic() < started:
                return False
            raise

    def _granted_lease(self, line: bytes, until: float) -> float:
        try:
            return lines.seconds_of(self._ask_or_lose(line, until))
        except Refused as refused:
            return lines.no_lease(line, refused)

    def _prepare(self, servers: List[Place], wire: Wire) -> None:
        super().__init__(wire)
        self.servers = servers
        self._questions: Deque[Question] = collections.deque()  # without an answer yet
        self._latest = Question(PING, 0.0)  # what was asked last
        self._waits: Optional[str] = None
        self._grant: Optional[Tuple[str, int]] = None  # that no caller has yet
        self._denied: Optional[LockError] = None  # why the place in the queue is gone, if the rules forbid it by now
        self._held: Dict[str, int] = {}
        self._unclaimed: Dict[str, int] = {}  # holds whose holder never learned of them, or gave up
        self._is_closed, self._wake = False, threading.Event()
        self._lease, self._is_ended = 0.0, False  # whether the other end has ended the connection
        self._spoken = self._said = time.monotonic()  # the server has heard this client by then, or later; the last line was sent

    def acquire(self, name: str, *, label: lines.Label = 0, wait: Optional[float] = None) -> int:
        """The token, as soon as the lock is granted. `NotInTime` if it is not within `wait` seconds, at most WITHDRAW seconds
        later: what was asked is then withdrawn, or the connection is closed if the server does not answer."""
        until = None if wait is None else time.monotonic() + wait
        line, taken = lines.acquire(name, label), []  # type: bytes, List[int]
        try:
            return self._hand_over(taken, lambda: self._acquired(line, name, until), until)
        except Late:
            raise NotInTime(f"{name}: this client was busy all the time, so nothing was asked") from None
        except BaseException:
            if taken:
                self._unclaimed[name] = taken[0]  # before any call, at whose begin another handler may run
                self._give_back(name, taken[0])
            raise

    def try_acquire(self, name: str, *, label: lines.Label = 0) -> Optional[int]:
        """The token, or None if another holds the lock."""
        line, taken = lines.acquire(name, label, "try"), []  # type: bytes, List[int]
        try:
            return self._hand_over(taken, lambda: self._tried(line))
        except BaseException:
            if taken:
                self._unclaimed[name] = taken[0]
                self._give_back(name, taken[0])
            raise

    def release(self, name: str, token: int) -> None:
        """Ends the hold with this token, also where an interrupt ends the call."""
        self._release(name, token)

    def _release(self, name: str, token: int, until: Optional[float] = None) -> None:
        try:
            line = lines.release(name, token)
            self._refuse_misuse()
            self._in_turn(lambda: self._ask_or_lose(line, until))
        except LockError:
            raise
        except BaseException:
            if name in self._held and self._held[name] == token:
                self._unclaimed[name] = token
            self._give_back(name, token)
            raise

    def leave(self) -> None:
        """Gives up all that this client holds. The connection stays."""
        self._call(b"leave\n")

    def status(self) -> list[LockStatus]:
        """How the locks are that this client may use."""
        return self._call(STATUS).named_locks

    def check(self) -> None:
        """Raises `LockLost` if others may hold what this client held. Never waits."""
        self._refuse_a_child()
        if self._caller != threading.get_ident():
            self._look_if_free()
        if self._lost is None and self._lease and time.monotonic() > self._spoken + self._lease / 2:
            self._lost = "the server has not answered for half of the lease"
        if self._lost is not None:
            raise LockLost(self._lost)

    def close(self) -> None:
        """Closes the connection; the server lets others have what this client held. It may be called again. In a child that
        inherited the client, only the child's copy is closed."""
        if self._is_inherited:
            self._close_copy()
        else:
            self._close_within(CLOSE)

    def _close_within(self, seconds: float) -> None:
        """As `close`, but a server that has to be asked has only this time to answer."""
        self._is_closed = True
        self._wake.set()
        self._drop("the client is closed")

    def fileno(self) -> int:
        """The socket's file, which can be read when the connection is gone."""
        return self._wire.fileno()

    def __enter__(self) -> Client:
        return self

    def __exit__(self, *_: object) -> None:
        self.close()

    def _call(self, line: bytes) -> Question:
        self._refuse_misuse()
        return self._in_turn(lambda: self._ask(line))

    def _hand_over(self, taken: List[int], do: Callable[[], Answer], until: Optional[float] = None) -> Answer:
        """What `do` returns, a token or None. A token is noted, for a caller that an exception keeps from having it."""
        self._refuse_misuse()

        def take() -> Answer:
            token = do()
            if token is not None:
                taken.append(token)
                self._grant = None
            return token
        return self._in_turn(take, until)

    def _acquired(self, line: bytes, name: str, until: Optional[float]) -> int:
        self._denied = None
        try:
            self._ask(line, until)
            while self._waits is not None:
                self._pump(until)
        except Late:
            self._withdraw_in_time(name)
        if self._grant is None:
            raise self._denied or NotInTime(f"{name}: it was not granted in time, and is no longer waited for")
        return self._grant[1]

    def _tried(self, line: bytes) -> Optional[int]:
        self._ask(line)
        return None if self._grant is None else self._grant[1]

    def _withdraw_in_time(self, name: str) -> None:
        """After the deadline: nothing waits any more, or NotInTime. The grant may have come first."""
        try:
            self._withdraw(time.monotonic() + WITHDRAW)
        except Late:
            raise NotInTime(f"{name}: the server did not answer in time, {self._give_up('the server did not answer')}") from None

    def _withdraw(self, until: Optional[float]) -> None:
        """Reads what is not answered yet, and waits for no lock any more."""
        while self._is_asking():
            self._pump(until)
        while self._waits is not None:
            try:
                self._ask(lines.cancel(self._waits), until)
            except NotWaiter:  # the grant came first
                if self._waits is not None:
                    self._cut("the server neither grants nor keeps a place in the queue")

    def _settle(self, until: Optional[float]) -> None:
        """Puts in order what a call that was broken off has left: nothing is asked or waited for, or held unknown to the caller."""
        if self._wire.is_torn:
            self._cut("a call was broken off within a line")
        self._flush()
        self._withdraw(until)
        if self._grant is not None:
            self._unclaimed[self._grant[0]] = self._grant[1]
        for name, token in list(self._unclaimed.items()):
            try:
                self._ask(lines.release(name, token), until)
            except NotHolder:
                self._let_go(name)

    def _clean_up(self) -> None:
        """After an exception: in order, or given up."""
        if self._lost is not None or self._is_quiet() or self._is_given_up():
            return
        try:
            self._settle(time.monotonic() + INTERRUPTED)
        except LockLost:
            pass
        except (Late, LockError):
            self._give_up("a call was broken off, and the server did not answer")

    def _give_back(self, name: str, token: int) -> None:
        """Ends a hold whose holder does not know of it, or the connection."""
        if self._held.get(name) != token or self._caller == threading.get_ident():
            return
        self._unclaimed[name] = token
        try:
            self._in_turn(lambda: None, time.monotonic() + INTERRUPTED)
        except LockError:
            pass  # it is over
        except BaseException as fault:
            self._give_up("a call was broken off twice")
            if not isinstance(fault, Late):
                raise

    def _is_quiet(self) -> bool:
        """Whether nothing is asked or waited for, and nothing granted unknown to the caller."""
        return not (self._wire.is_torn or self._waits or self._grant or self._unclaimed or self._is_asking())

    def _is_asking(self) -> bool:
        return bool(self._questions) and any(question.verb != "ping" for question in self._questions)

    def _is_given_up(self) -> bool:
        return False

    def _ask(self, line: bytes, until: Optional[float] = None) -> Question:
        """The question with its answer; Late if that is not there by then."""
        self._send(line)
        question = self._latest
        while not question.is_answered:
            self._pump(until)
        refused = lines.refusal(question.words)
        if refused is not None:
            raise refused
        return question

    def _ask_or_lose(self, line: bytes, until: Optional[float]) -> Question:
        try:
            return self._ask(line, until)
        except Late:
            self._lose("the server does not answer")

    def _send(self, line: bytes) -> None:
        if self._lost is not None:
            raise LockLost(self._lost)
        question = Question(line, time.monotonic())
        self._questions.append(question)  # from here on it counts as asked, whether or not it is sent
        self._latest = question
        self._put(question)

    def _flush(self) -> None:
        """Sends what is not sent yet of what counts as asked."""
        for question in list(self._questions):
            self._put(question)

    def _put(self, question: Question) -> None:
        self._said = question.at
        try:
            self._wire.send(question.data, question.sent, WITHDRAW)
        except Late:
            self._cut("the server takes nothing")
        except OSError as fault:
            self._fail(fault)

    def _fail(self, fault: OSError) -> None:
        """The connection is over, unless a signal handler raised this."""
        if not lines.is_own(fault):
            raise fault
        self._is_ended = isinstance(fault, ConnectionResetError)
        self._cut(str(fault))

    def _pump(self, until: Optional[float]) -> None:
        """Reads what comes next; Late after the deadline. Speaks if the lease needs it."""
        if until is None and not self._lease:
            self._receive(waits=True)
            return
        now = time.monotonic()
        if until is not None and now >= until:
            raise Late
        wake = self._speak_in_time(now) if self._lease else until
        if wake is not None:
            wake = (wake if until is None else min(wake, until)) - now
        if self._wire.has_more or self._wire.wait(wake):
            self._receive()

    def _speak_in_time(self, now: float) -> float:
        """Says a ping if it is time to; when the next one is due."""
        if now > self._spoken + self._lease:
            self._lose("the server has not answered for its lease")
        if now >= self._said + self._lease / self._part:
            self._send(PING)
        return min(self._said + self._lease / self._part, self._spoken + self._lease + 0.001)

    def _receive(self, waits: bool = False) -> None:
        try:
            is_open = self._wire.has_more or self._wire.receive(waits)
        except OSError as fault:
            self._fail(fault)
            return
        try:
            while True:
                line = self._wire.line()
                if line is None:
                    break
                self._heard(line)
        except LockLost as fault:
            self._lose(str(fault))
        self._wire.is_torn = False
        if not is_open:
            self._is_ended = True
            self._cut("the server closed the connection")

    def _heard(self, line: bytes) -> None:
        """One line: the grant that is waited for, or the answer to the oldest question."""
        words = lines.words_of(line)
        if words[0] == "granted" and self._waits is not None and words[1:2] == [self._waits] and len(words) == 3:
            self._hold(words[1], lines.number(words, 2))
            return
        if self._waits is not None and lines.is_denial(words, self._waits):
            self._waits, self._denied = None, lines.refusal(words)
            return
        if not self._questions:
            raise LockLost(f"the server sent {' '.join(words)!r}, for which it was not asked")
        question = self._questions[0]
        question.hear(words)
        if question.is_answered:
            self._questions.popleft()
            self._happened(question)

    def _happened(self, question: Question) -> None:
        """Notes what an answer means. It shows that the server has heard this client since the question was sent."""
        if question.at > self._spoken:
            self._spoken = question.at
        word = question.words[0]
        if word == "granted":
            self._hold(question.name, int(question.words[2]))
        elif word == "waiting":
            self._waits = question.name
        elif word == "cancelled":
            self._waits = None
        elif word == "released":
            self._let_go(question.name)
        elif word == "left":
            self._waits = self._grant = None
            self._held.clear()
            self._unclaimed.clear()

    def _hold(self, name: str, token: int) -> None:
        self._held[name], self._grant, self._waits = token, (name, token), None

    def _let_go(self, name: str) -> None:
        self._held.pop(name, None)
        self._unclaimed.pop(name, None)
        if self._grant is not None and self._grant[0] == name:
            self._grant = None

    def _look(self) -> None:
        """Sees whether the connection was closed, without waiting."""
        if self._wire.is_torn:
            self._cut("a call was broken off within a line")
        self._receive()

    def _cut(self, why: str) -> None:
        """The connection cannot be used any more."""
        self._lose(why)

    def _give_up(self, why: str) -> str:
        """Ends a connection whose server does not answer; what that means."""
        self._drop(why)
        return "so the connection is closed"

    def _lose(self, why: str) -> NoReturn:
        self._drop(why)
        raise LockLost(self._lost)

    def _drop(self, why: str) -> None:
        """Ends the connection. The thread that has the turn closes its file, since another thread may be waiting for it."""
        self._lost = self._lost or why
        self._wire.shut()
        if self._mutex.acquire(blocking=False):
            try:
                if self._caller is None:
                    self._wire.close()
            finally:
                self._mutex.release()

    def _start_keeper(self) -> None:
        threading.Thread(target=_keep, args=(weakref.ref(self), self._wake, self._lease / self._part), name="wozgirt-lease",
                         daemon=True).start()

    def _keep_on(self) -> bool:
        """Speaks if no other call does. False if there is nothing more to keep."""
        until = time.monotonic() + self._lease / self._part / 2
        try:
            self._in_turn(self._speak, until)
        except Late:
            pass  # a call is at work, and speaks itself
        except LockError:
            return False
        return not self._is_closed

    def _speak(self) -> None:
        now = time.monotonic()
        if now < self._said + self._lease / self._part / 2:
            return
        try:
            self._ask(PING, now + self._lease)
        except Late:
            self._lose("the server has not answered for its lease")


def _keep(client: "weakref.ref[Client]", wake: threading.Event, pause: float) -> None:
    """Keeps a client's lease until it is closed, or no variable has it any more."""
    while True:
        wake.wait(pause)
        wake.clear()
        it = client()
        if it is None or it._is_closed or not it._keep_on():
            return
        del it
