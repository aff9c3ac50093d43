"""`Lock`: a lock that a `with` statement holds."""

from __future__ import annotations

import functools
import inspect
import time
from types import TracebackType
from typing import Any, Callable, Optional, Type, TypeVar, Union

from . import lines, nesting
from .client import CONNECT, WITHDRAW, Client
from .lines import Inherited, LockError, LockLost, NotInTime, Places, Refused
from .session import Session
from .tls import Tls

#: How much earlier than asked for the system may end a wait, in seconds.
EARLY = 0.005

Function = TypeVar("Function", bound=Callable[..., Any])


class Default:
    """A timeout that is not given: the `wait` of the object."""


def client_of(given: Places, lease: Optional[float] = None, timeout: float = CONNECT, tls: Tls = Tls()) -> Client:
    """A client of the server, or of the servers."""
    servers = lines.places(given)
    kind = Client if len(servers) == 1 else Session
    return kind(servers[0] if len(servers) == 1 else servers, lease=lease, timeout=timeout, tls=tls)


def until(seconds: Optional[float]) -> Optional[float]:
    """The moment this many seconds from now."""
    return None if seconds is None else time.monotonic() + seconds


def left(deadline: Optional[float]) -> Optional[float]:
    """The seconds until then."""
    return None if deadline is None else max(0.0, deadline - time.monotonic())


def to_connect(deadline: Optional[float]) -> float:
    """The seconds that a server may take to be there: some even if there is no time to wait."""
    return CONNECT if deadline is None else min(CONNECT, max(WITHDRAW, deadline - time.monotonic()))


def is_too_late(fault: OSError, deadline: Optional[float]) -> bool:
    """Whether the deadline ended the try to connect, and not something else or a signal handler."""
    return deadline is not None and time.monotonic() >= deadline - EARLY and lines.is_own(fault)


class Settings:
    """What `Lock` for threads and for asyncio have in common: a hold, or none."""

    def __init__(self, place: Any, name: str, *, wait: Optional[float] = None, label: lines.Label = 0, lease: Optional[float] = None,
                 tls: Tls = Tls()):
        self._place, self.name, self._wait, self._label, self._lease, self._tls = place, name, wait, label, lease, tls
        self.client: Any = None
        #: The token of the hold, or None.
        self.token: Optional[int] = None
        self._hold: Optional[nesting.Hold] = None

    def __repr__(self) -> str:
        hold = "not held" if self.token is None else f"token {self.token}"
        return f"<{type(self).__module__}.{type(self).__qualname__} {self.name!r} at {self._place!r}, {hold}>"

    @property
    def locked(self) -> bool:
        """Whether this object holds the lock, as far as its client knows. Never waits."""
        try:
            self.check()
            return True
        except (LockError, RuntimeError):
            return False

    def check(self) -> None:
        """Raises `LockLost` if others may hold the lock by now."""
        if self.client is None or self.token is None:
            raise RuntimeError("this object does not hold the lock")
        self.client.check()

    def _again(self) -> Any:
        """An object like this one."""
        return type(self)(self._place, self.name, wait=self._wait, label=self._label, lease=self._lease, tls=self._tls)

    def _deadline(self, timeout: Union[float, None, Type[Default]]) -> Optional[float]:
        """That of a call that begins now."""
        if self.token is not None:
            raise RuntimeError("this object holds the lock already")
        if timeout is Default:
            return until(self._wait)
        if timeout is not None and not timeout >= 0:  # type: ignore[operator]
            raise ValueError(f"not a timeout: {timeout}; None is without a limit")
        return until(timeout)  # type: ignore[arg-type]

    def _take(self, client: Any, token: int) -> int:
        self.client, self.token = client, token
        self._hold = nesting.Hold(self, client.servers, self.name)
        return token

    def _let_go(self) -> int:
        """The token of the hold, which this object has no more."""
        token, self.token, self._hold = self.token, None, None
        if token is None:
            raise RuntimeError("this object does not hold the lock")
        return token


class Lock(Settings):
    """`with Lock(place, name, wait=5) as token:` holds the lock inside. `place` is that of a server, or those of several that
    share their locks, or a `Client` that is shared. One object holds once at a time, and can be used again.

    It is a decorator too: `@Lock(place, name)` has each call of a function hold the lock.

    `token` is the number of the hold, or None. It is above those of all earlier holds of this lock: give it to what you write to, and
    have that refuse a token that is below one it has seen.

    A thread that holds the lock by such an object, and asks for it by another one, would wait for itself: `Holds`."""

    def __init__(self, place: Union[Places, Client], name: str, *, wait: Optional[float] = None, label: lines.Label = 0,
                 lease: Optional[float] = None, tls: Tls = Tls()):
        """`wait`: how many seconds `acquire` and `with` may take, the time to connect included; None: no limit. `label`: a number below
        2^64 that `wozgirt status` and the journal show, as a process or a host; of a text they show `label_number`. `lease`: after this
        many seconds of silence the server takes this client's program for dead, and others get the lock; a thread speaks meanwhile. None: the server's choice, and over
        TCP and with several servers 30. `tls`: the files for a place tls:HOST:PORT; those that it does not name are named by
        WOZGIRT_CACERT, WOZGIRT_CERT and WOZGIRT_KEY."""
        super().__init__(place, name, wait=wait, label=label, lease=lease, tls=tls)

    def acquire(self, *, timeout: Union[float, None, Type[Default]] = Default) -> int:
        """Takes the lock; its token. `NotInTime` if it is not granted within `timeout` seconds (None: no limit; if it is not
        given, `wait`), the time to connect included."""
        deadline = self._deadline(timeout)
        is_shared = isinstance(self._place, Client)
        nesting.refuse(self._place.servers if is_shared else lines.places(self._place), self.name, is_task=False)
        client, token = self._place if is_shared else self._connected(deadline), None
        try:
            token = client.acquire(self.name, label=self._label, wait=left(deadline))
            return self._take(client, token)
        except BaseException:
            if not is_shared:
                client._close_within(WITHDRAW)
            elif token is not None:
                self.token = self._hold = None
                client._unclaimed[self.name] = token  # before any call, at whose begin another handler may run
                client._give_back(self.name, token)
            raise

    def release(self) -> None:
        """Gives the lock back. `LockLost` if it was lost before, and RuntimeError if this object does not hold it."""
        client, token = self.client, self._let_go()
        try:
            client._release(self.name, token, None if client is self._place else time.monotonic() + CONNECT)
        except LockError:
            raise
        except BaseException:
            if self.name in client._held and client._held[self.name] == token:
                client._unclaimed[self.name] = token
            client._give_back(self.name, token)  # where an interrupt came before the client knew
            raise
        finally:
            if client is not self._place:
                client.close()

    def _connected(self, deadline: Optional[float]) -> Client:
        try:
            return client_of(self._place, self._lease, to_connect(deadline), self._tls)
        except OSError as fault:
            if is_too_late(fault, deadline):
                raise NotInTime(f"{self.name}: no server answered in time, so nothing was asked ({fault})") from fault
            raise

    def __call__(self, function: Function) -> Function:
        """Has each call of the function hold the lock, by an object of its own."""
        if any(it(function) for it in (inspect.iscoroutinefunction, inspect.isgeneratorfunction, inspect.isasyncgenfunction)):
            raise TypeError(f"{function!r} would run after its call, without the lock")

        @functools.wraps(function)
        def run(*words: Any, **more: Any) -> Any:
            with self._again():
                return function(*words, **more)
        return run  # type: ignore[return-value]

    def __enter__(self) -> int:
        return self.acquire()

    def __exit__(self, kind: Optional[Type[BaseException]], value: Optional[BaseException],
                 trace: Optional[TracebackType]) -> None:
        if self.token is None:
            return
        try:
            self.release()
        except (LockLost, Refused, Inherited):
            if kind is None:
                raise
