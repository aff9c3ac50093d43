"""The client of several servers for asyncio: a `wozgirt.Session`, each of whose calls has a thread."""

from __future__ import annotations

import asyncio
import threading
import time
from typing import Callable, List, Optional, TypeVar

from . import lines, session
from .client import CLOSE, WITHDRAW, Answer
from .lines import LockError, LockStatus, Places
from .tls import Tls
from .wire import CONNECT, Late

Result = TypeVar("Result")
#: How often a call looks whether its task was cancelled, in seconds.
LOOK = 0.02


class _CalledOff(Exception):
    """The task was cancelled."""


class _Stoppable(session.Session):
    """A session whose call can be called off by another thread."""

    def __init__(self, servers: Places, lease: Optional[float], timeout: float, tls: Tls):
        self.of_thread = threading.local()
        super().__init__(servers, lease=lease, timeout=timeout, tls=tls)

    def _hand_over(self, taken: List[int], do: Callable[[], Answer], until: Optional[float] = None) -> Answer:
        stop: Optional[threading.Event] = getattr(self.of_thread, "stop", None)

        def do_unless_called_off() -> Answer:
            token = do()
            if token is not None and stop is not None and stop.is_set():
                self.of_thread.stop = None
                raise _CalledOff  # before the next call has its turn
            return token
        return super()._hand_over(taken, do_unless_called_off, until)

    def _pump(self, until: Optional[float]) -> None:
        stop: Optional[threading.Event] = getattr(self.of_thread, "stop", None)
        if stop is None or self._is_broken:
            super()._pump(until)
            return
        if stop.is_set():
            self.of_thread.stop = None  # what follows puts things in order
            raise _CalledOff
        look = time.monotonic() + LOOK
        try:
            super()._pump(look if until is None else min(until, look))
        except Late:
            if until is not None and time.monotonic() >= until:
                raise


class Session:
    """A client of several servers, made by `await Session.connect(servers)`: what `wozgirt.Session` is for threads. Tasks may share it,
    but a call waits until the one before it is answered; while one waits for a lock, the others wait for that."""

    def __init__(self, client: _Stoppable):
        self._client, self.servers = client, client.servers

    @classmethod
    async def connect(cls, servers: Places, *, lease: Optional[float] = None, timeout: float = CONNECT, tls: Tls = Tls()) -> Session:
        """Connects to one of them within `timeout` seconds."""
        made: List[_Stoppable] = []
        is_wanted = [True]

        def make() -> None:
            made.append(_Stoppable(servers, lease, timeout, tls))
            if not is_wanted[0]:
                made[0].close()
        try:
            await asyncio.shield(_begun(make))
        except asyncio.CancelledError:
            is_wanted[0] = False
            for it in made:
                it.close()
            raise
        return cls(made[0])

    async def acquire(self, name: str, *, label: lines.Label = 0, wait: Optional[float] = None) -> int:
        """The token, as soon as the lock is granted; `NotInTime` if it is not within `wait` seconds."""
        token = await self._call(lambda: self._client.acquire(name, label=label, wait=wait), name)
        assert token is not None
        return token

    async def try_acquire(self, name: str, *, label: lines.Label = 0) -> Optional[int]:
        """The token, or None if another holds the lock."""
        return await self._call(lambda: self._client.try_acquire(name, label=label), name)

    async def release(self, name: str, token: int) -> None:
        """Ends the hold with this token, also where the task is cancelled."""
        await asyncio.shield(_begun(lambda: self._client.release(name, token)))

    async def leave(self) -> None:
        """Gives up all that this client holds. The connection stays."""
        await asyncio.shield(_begun(self._client.leave))

    async def status(self) -> list[LockStatus]:
        """How the locks are that this client may use, as its server knows."""
        return await asyncio.shield(_begun(self._client.status))

    def check(self) -> None:
        """Raises `LockLost` if others may hold what this client held. Never waits."""
        self._client.check()

    async def close(self) -> None:
        """Leaves, and closes the connection. Without a server, others get what this client held when its lease is over."""
        await self._close_within(CLOSE)

    async def _close_within(self, seconds: float) -> None:
        if self._client._is_inherited:
            self._client.close()
        else:
            await asyncio.shield(_begun(lambda: self._client._close_within(seconds)))

    async def __aenter__(self) -> Session:
        return self

    async def __aexit__(self, *_: object) -> None:
        await self.close()

    async def _call(self, do: Callable[[], Optional[int]], name: str) -> Optional[int]:
        """The token. If the task is cancelled, the call is called off, and a token that comes all the same is given back."""
        stop = threading.Event()

        def run() -> Optional[int]:
            self._client.of_thread.stop = stop
            return do()
        outcome = _begun(run)
        try:
            return await asyncio.shield(outcome)
        except asyncio.CancelledError:
            stop.set()
            outcome.add_done_callback(lambda it: self._unwanted(it, name))
            await asyncio.wait([outcome], timeout=WITHDRAW)
            raise

    def _unwanted(self, outcome: "asyncio.Future[Optional[int]]", name: str) -> None:
        if not outcome.cancelled() and outcome.exception() is None and outcome.result() is not None:
            token = outcome.result()
            if self._client._held.get(name) == token:
                self._client._unclaimed[name] = token  # type: ignore[assignment] # the next call gives it back, if it is earlier
            _begun(lambda: self._client._give_back(name, token))  # type: ignore[arg-type]


def _begun(do: Callable[[], Result]) -> asyncio.Future[Result]:
    """Begins it in a thread; the future of what it comes to."""
    loop = asyncio.get_running_loop()
    outcome: "asyncio.Future[Result]" = loop.create_future()
    outcome.add_done_callback(lambda it: it.cancelled() or it.exception()) # seen, whether or not somebody waits

    def tell(set_it: Callable[..., None], value: object) -> None:
        if not outcome.done():
            set_it(value)

    def run() -> None:
        try:
            told = (outcome.set_result, do())
        except (LockError, OSError, ValueError, TypeError, RuntimeError, _CalledOff) as fault:
            told = (outcome.set_exception, fault)  # type: ignore[assignment]
        try:
            loop.call_soon_threadsafe(tell, *told)
        except RuntimeError:
            pass  # the loop is closed
    threading.Thread(target=run, name="wozgirt-call", daemon=True).start()
    return outcome
