"""Locks for the threads of one process, by the library of rings: waiters are served first come, first served, and the token of each hold
is greater than all earlier tokens of its lock.

    from wozgirt.local import Locks

    with Locks(count=4, machines=8) as locks:
        with locks.hold(0, wait=5) as token:
            ...

A thread that would wait for itself, over other threads, is refused with `Circle` (a deadlock). There is no server, and nothing is kept
when the process ends: `wozgirt.Lock` is for programs. What a thread holds when it ends stays held.
"""

from __future__ import annotations

import contextlib
import threading
import weakref
from ctypes import byref
from typing import Any, Dict, Iterator, NoReturn, Optional, SupportsIndex, Tuple

from .library import RawGrant, RawHold, RawLocks, load, number
from .lines import NotInTime
from .refusals import (BadLocks, BadMachines, Circle, Closed, Code, Holds, NoLock, NoMemory, NotHeld, NotWaiting,
                       Refused, Stands, error_of)

__all__ = ["BadLocks", "BadMachines", "Circle", "Closed", "Holds", "Locks", "NoLock", "NoMemory", "NotHeld",
           "NotInTime", "NotWaiting", "Refused", "Stands"]


class _Waiter:
    """A thread that waits, until it has a token. It sleeps on a condition of its own."""

    def __init__(self, mutex: threading.Lock):
        self.granted = threading.Condition(mutex)
        self.token: Optional[int] = None

    def has_token(self) -> bool:
        return self.token is not None


def _close(close: Any, raw: RawLocks) -> None:
    """Closes what is open. It is a finalizer, and so knows nothing of the locks."""
    close(byref(raw))


class Locks:
    """Locks, from 0, each over a ring with this number of machines. Threads share them. It is a context manager, which closes them;
    it is true as long as they are open."""

    def __init__(self, count: SupportsIndex, machines: SupportsIndex = 8):
        sizes = number(count, 32, "count"), number(machines, 32, "machines")
        self._mutex, self._raw, self._library = threading.Lock(), RawLocks(), load()
        self._waiters: Dict[Tuple[int, int], _Waiter] = {}
        self._end = weakref.finalize(self, _close, self._library.wozgirt_locks_close, self._raw)
        self._end.atexit = False  # a thread may still be in a call, and the process gives all back
        self._stop_on(self._library.wozgirt_locks_open(byref(self._raw), *sizes))

    @staticmethod
    def _stop_on(code: int) -> int:
        if code > Code.NO_MORE:
            raise error_of(code)
        return code

    def _ask(self, name: str, *given: Any) -> int:
        """The code of an input, in new segments if a history is full; what it granted goes to the threads that wait. Under the mutex."""
        ask, grant = getattr(self._library, f"wozgirt_locks_{name}"), RawGrant()
        code = ask(byref(self._raw), *given)
        if code == Code.HISTORY_FULL and self._library.wozgirt_locks_cut(byref(self._raw)) == Code.DONE:
            code = ask(byref(self._raw), *given)
        while self._library.wozgirt_locks_next(byref(self._raw), byref(grant)) == Code.DONE:
            waiter = self._waiters[grant.client, grant.lock]
            waiter.token = grant.token
            waiter.granted.notify()
        return self._stop_on(code)

    def acquire(self, lock: SupportsIndex, *, order: SupportsIndex = 0, wait: Optional[float] = None) -> int:
        """The token, as soon as the lock is granted to this thread; `NotInTime` if it is not within `wait` seconds. The history keeps
        the order."""
        client, which, kept = threading.get_ident(), number(lock, 32, "lock"), number(order, 64, "order")
        hold = RawHold()
        with self._mutex:
            if self._ask("acquire", client, which, kept, byref(hold)) == Code.DONE:
                return int(hold.token)
            return self._stand(client, which, wait)

    def _stand(self, client: int, lock: int, wait: Optional[float]) -> int:
        waiter = self._waiters[client, lock] = _Waiter(self._mutex)
        try:
            waiter.granted.wait_for(waiter.has_token, wait)
        except BaseException:  # this thread is interrupted: it keeps nothing
            self._give_up(client, lock)
            if waiter.token is not None:
                self._ask("release", client, lock, waiter.token)
            raise
        if waiter.token is None:
            self._give_up(client, lock)
            raise NotInTime(f"lock {lock}")
        del self._waiters[client, lock]
        return waiter.token

    def _give_up(self, client: int, lock: int) -> None:
        """Stops waiting."""
        if self._waiters.pop((client, lock)).token is None:
            self._ask("cancel", client, lock)

    def try_acquire(self, lock: SupportsIndex, *, order: SupportsIndex = 0) -> Optional[int]:
        """The token, or None if another thread holds the lock."""
        given, hold = (threading.get_ident(), number(lock, 32, "lock"), number(order, 64, "order")), RawHold()
        with self._mutex:
            return int(hold.token) if self._ask("try", *given, byref(hold)) == Code.DONE else None

    def release(self, lock: SupportsIndex, token: SupportsIndex) -> None:
        """Ends this thread's hold with this token."""
        given = threading.get_ident(), number(lock, 32, "lock"), number(token, 64, "token")
        with self._mutex:
            self._ask("release", *given)

    def leave(self) -> None:
        """Ends all that this thread holds."""
        with self._mutex:
            self._ask("leave", threading.get_ident())

    @contextlib.contextmanager
    def hold(self, lock: SupportsIndex, *, order: SupportsIndex = 0, wait: Optional[float] = None) -> Iterator[int]:
        """Holds the lock inside: `with locks.hold(0, wait=5) as token:`."""
        token = self.acquire(lock, order=order, wait=wait)
        try:
            yield token
        finally:
            self.release(lock, token)

    def close(self) -> None:
        """Closes the locks, for which no thread may wait. It may be called again."""
        with self._mutex:
            if self._waiters:
                raise RuntimeError("a thread waits for a lock")
            self._end()

    def __bool__(self) -> bool:
        return bool(self._raw.at)

    def __enter__(self) -> Locks:
        return self

    def __exit__(self, *given: object) -> None:
        self.close()

    def __reduce__(self) -> NoReturn:
        raise TypeError("locks are neither copied nor pickled")
