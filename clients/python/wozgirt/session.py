"""The client of a session: it continues with another server when its own does not answer, or with the same one after a restart."""

from __future__ import annotations

import collections
import errno
import secrets
import socket
import threading
import time
from typing import Dict, List, NoReturn, Optional, Tuple

from . import lines
from .client import CONNECT, PING, STATUS, Client
from .lines import LockLost, Places, Question, Refused, TlsPlace
from .tls import Tls
from .wire import Late, Wire, wire_to

#: How long one server may take to be there, and to say how the session is, where there are others.
CONNECT_ONE, ANSWER = 2.0, 5.0
#: Seconds until all servers are tried again, if none of them answers.
PAUSE = 0.05
#: How often all servers are tried at first.
ROUNDS = 3
#: After this part of its lease a client speaks, and after another one without an answer it looks for another server. So a quarter
#: is left for that, until what it holds is lost after half of the lease.
PART = 8


def _is_of_server(fault: Exception) -> bool:
    """Whether another server may do without it."""
    return isinstance(fault, Refused) or lines.is_own(fault)


class Session(Client):
    """A `Client` of several servers that share their locks, or of one that is started again. It has a key that it drew, and numbers what
    it asks: another server, or the new start, continues with the same holds, and does not do again what was done. It has a lease in any
    case; if no server answers for this time, it is lost.

    `Refused` with the word `session`: no server has one for this client, since they keep none, or this user or address has its part.

    What cannot be withdrawn in time, since no server answers, is withdrawn as soon as one does; if none does, when the lease is over."""

    _part = PART

    def __init__(self, servers: Places, *, lease: Optional[float] = None, timeout: float = CONNECT, tls: Tls = Tls()):
        until = time.monotonic() + timeout
        self._tls, found = tls, lines.places(servers)
        if any(isinstance(it, TlsPlace) for it in found):
            tls.context()  # a file that is wrong stays so at each server
        self._prepare(found, Wire(socket.socket()))
        self._at, self._key = -1, secrets.randbelow(lines.MOST - 1) + 1
        self._number, self._failures, self._why = 0, 0, "no server answers"
        self._asked: Optional[Question] = None  # the input that has no answer yet
        self._tokens: Dict[str, int] = {}  # the last of each lock that this client held
        self._grants: Dict[str, int] = {}  # those that came before the answer that says to wait
        self._lease, self._is_broken, self._is_left = lines.USUAL_LEASE if lease is None else lease, True, False
        self._wanted = lines.lease(self._lease)
        try:
            self._find_first(until)
        except BaseException:
            self._drop("no server answers")
            self._wire.close()
            raise
        self._start_keeper()

    def close(self) -> None:
        """Leaves, and closes the connection. Without a server, others get what this client held when its lease is over."""
        super().close()

    def _close_within(self, seconds: float) -> None:
        is_there = self._lost is None and not self._is_broken and self._caller != threading.get_ident()
        self._is_closed = True
        if is_there and not self._is_inherited and self._mutex.acquire(timeout=seconds):
            try:
                self._leave(time.monotonic() + seconds)
            except (OSError, Late):
                pass  # then its lease ends
            finally:
                self._mutex.release()
        super()._close_within(seconds)

    def _leave(self, until: float) -> None:
        self._wire.send(b"%d leave\n" % (self._number + 1), [], until - time.monotonic())
        while not self._wire.line_until(until).endswith(b" left"):
            pass

    def _send(self, line: bytes) -> None:
        if self._lost is not None:
            raise LockLost(self._lost)
        question = self._latest = Question(line, time.monotonic())
        if line in (PING, STATUS):
            self._questions.append(question)
        else:
            self._number = question.number = self._number + 1
            self._asked = question
        if not self._is_broken:
            self._put(question)

    def _flush(self) -> None:
        if not self._is_broken:
            super()._flush()
            if self._asked is not None:
                self._put(self._asked)

    def _is_asking(self) -> bool:
        return self._asked is not None or super()._is_asking()

    def _is_given_up(self) -> bool:
        return self._is_left

    def _settle(self, until: Optional[float]) -> None:
        super()._settle(until)
        self._is_left = False

    def _heard(self, line: bytes) -> None:
        words = lines.words_of(line)
        if words[0].isdigit():
            self._answered(int(words[0]), words[1:])
        elif words[0] == "granted" and len(words) == 3:
            self._is_granted(words[1], lines.number(words, 2))
        elif self._questions or words != ["pong"]:
            super()._heard(line)

    def _answered(self, number: int, words: List[str]) -> Optional[List[str]]:
        """The answer to what was asked last, or nothing if it had one. If this is broken off, the next connection has the same
        answer, since the question is open to the end."""
        asked = self._asked
        if asked is None or asked.number != number or not words:
            return None
        asked.hear(words)
        if words[0] != "waiting" or asked.name not in self._held:
            self._happened(asked)
        if self._waits in self._grants:
            self._hold(self._waits, self._grants[self._waits])
        self._grants.clear()
        self._asked = None
        return words

    def _is_granted(self, name: str, token: int) -> Optional[List[str]]:
        """The grant, if this client waits for it and has not had it."""
        if token <= self._tokens.get(name, 0):
            return None
        if self._waits == name:
            self._hold(name, token)
            return ["granted", name, str(token)]
        if self._asked is not None and self._asked.name == name:
            self._grants[name] = token
        return None

    def _hold(self, name: str, token: int) -> None:
        super()._hold(name, token)
        self._tokens[name] = token

    def _pump(self, until: Optional[float]) -> None:
        now = time.monotonic()
        if until is not None and now >= until:
            raise Late
        if self._lost is not None:
            raise LockLost(self._lost)
        if not self._is_broken and self._questions and now > self._questions[0].at + self._lease / PART:
            self._break("the server does not answer")
        if self._is_broken:
            self._try_next(now, until)
        else:
            super()._pump(until)

    def _look(self) -> None:
        if not self._is_broken:
            super()._look()

    def _cut(self, why: str) -> None:
        self._break(why)

    def _break(self, why: str) -> None:
        """This connection is over; the session is not."""
        self._is_broken, self._why = True, why
        self._wire.is_torn = False
        self._wire.shut()
        self._wake.set()

    def _give_up(self, why: str) -> str:
        self._is_left = True
        self._break(why)
        return f"so the connection is closed, and the next server learns of it, or else the lease ends ({self._lease:g} s)"

    def _find_first(self, until: float) -> None:
        """Connects to a server, or raises what kept the last one from it."""
        most = ROUNDS * len(self.servers)
        for tried in range(1, most + 1):
            try:
                self._attach_next(until)
                return
            except (OSError, ValueError, Refused) as fault:
                if not _is_of_server(fault) or tried == most or time.monotonic() > until:
                    raise
            if tried % len(self.servers) == 0:
                time.sleep(PAUSE)

    def _try_next(self, now: float, until: Optional[float]) -> None:
        """Tries the next server, and pauses if all were tried. The session is lost if none answers for its lease."""
        end = self._spoken + self._lease
        if now > end:
            self._lose(self._why)
        until = end if until is None else min(end, until)
        try:
            self._attach_next(until)
            self._failures = 0
        except (OSError, ValueError, Refused) as fault:
            if self._lost is not None:
                raise LockLost(self._lost) from None
            if not _is_of_server(fault):
                raise
            self._failures += 1
            if self._failures % len(self.servers) == 0:
                time.sleep(max(0.0, min(PAUSE, until - time.monotonic())))

    def _attach_next(self, until: float) -> None:
        """Continues with the next server, or an OSError. What is done before the connection is this session's leaves no trace."""
        self._at = (self._at + 1) % len(self.servers)
        begun = time.monotonic()
        wire = wire_to(self.servers[self._at], self._tls, max(0.05, min(CONNECT_ONE, until - begun)))
        try:
            end = min(until, time.monotonic() + ANSWER)
            wire.send(b"session %d\n" % self._key, [], ANSWER)
            words = lines.words_of(wire.line_until(end))
            refused = lines.refusal(words)
            if refused is not None:
                raise refused
            if words[:2] != ["session", str(self._key)]:
                raise OSError(errno.EPROTO, f"the server sent {' '.join(words)!r}")
            if words[3:] == ["alone"] and len(self.servers) > 1:
                raise OSError(errno.EPROTO, "the server runs without --etcd, so its locks are not those of the others")
            told = [lines.words_of(wire.line_until(end)) for _ in range(lines.number(words, 2))]
            wire.send(self._wanted, [], ANSWER)
            others, lease = self._settled_lease(wire, end)
        except BaseException as fault:
            wire.close()
            if isinstance(fault, Late):
                raise TimeoutError(errno.ETIMEDOUT, "the server takes nothing") from None
            raise
        self._use(wire, begun, lease)
        self._compare(told)
        wire.put_back(b"".join(others))
        self._ask_again()

    def _use(self, wire: Wire, begun: float, lease: float) -> None:
        """This is the session's connection from here on. Broken off from here to its end, it is torn, and another one is made."""
        wire.is_torn = True
        before, self._wire = self._wire, wire
        before.close()
        self._lease, self._spoken, self._said = lease, begun, time.monotonic()
        self._is_broken = False

    @staticmethod
    def _settled_lease(wire: Wire, end: float) -> Tuple[List[bytes], float]:
        """Reads up to the answer about the lease; the lines before it, and the lease."""
        others: List[bytes] = []
        while True:
            line = wire.line_until(end)
            if line.startswith(b"lease "):
                return others, lines.number(lines.words_of(line), 1) / 1000
            others.append(line + b"\n")

    def _compare(self, told: List[List[str]]) -> None:
        """What the new server says of this session is what this client knows, or what it asked last came to."""
        holds = {words[1]: lines.number(words, 2) for words in told if words[0] == "holds" and len(words) == 3}
        waits = [words[1] for words in told if words[0] == "waits" and len(words) == 2]
        asked = self._asked
        for name, token in self._held.items():
            is_given = asked is not None and (asked.verb == "leave" or asked.verb == "release" and asked.name == name)
            if holds.get(name) != token and not is_given:
                self._lose(f"{name} is no longer held")
        name = self._waits
        if name is not None and name in holds:
            self._hold(name, holds[name])
        elif name is not None and name not in waits and (asked is None or asked.verb not in ("cancel", "leave")):
            self._lose(f"{name} is no longer waited for")
        if asked is not None and asked.name in holds and asked.name not in self._held:
            self._grants[asked.name] = holds[asked.name]

    def _ask_again(self) -> None:
        """Asks what has no answer. That of a ping is the new connection."""
        now = time.monotonic()
        self._questions = collections.deque(it for it in self._questions if it.verb == "status")
        for it in self._questions:
            it.words, it.locks, it.at, it.sent = [], [], now, []
        if self._asked is not None:
            self._asked.words, self._asked.sent = [], []
        self._flush()
        self._wire.is_torn = False

    def _keep_on(self) -> bool:
        goes_on = super()._keep_on()
        if self._is_broken:
            self._wake.set()
        return goes_on

    def _speak(self) -> None:
        until = time.monotonic() + self._lease / PART
        while self._is_broken:
            self._pump(until)
        if time.monotonic() > self._said + self._lease / PART / 2:
            self._send(PING)
            ping = self._latest
            while ping in self._questions:
                self._pump(until)

    def _lose(self, why: str) -> NoReturn:
        self._is_broken = True
        super()._lose(why)
