"""The clients for asyncio: `async with Lock(path, "deploy", wait=5) as token:`."""

from __future__ import annotations

import asyncio
import collections
import errno
import functools
import inspect
import socket
import time
from types import TracebackType
from typing import Any, Deque, NamedTuple, NoReturn, Optional, Tuple, Type, Union

from . import lines, nesting
from .aio_session import Session
from .aio_tls import TlsReader
from .client import INTERRUPTED, PART, PING, STATUS, WITHDRAW
from .lines import Inherited, LockError, LockLost, LockStatus, NotInTime, NotWaiter, Place, Places, Question, Refused, TlsPlace
from .lock import Default, Function, Settings, is_too_late, left, to_connect, until
from .process import OfOneProcess
from .tls import Tls, Tunnel
from .wire import ABSENT, AGAIN, CONNECT, START, TRY

__all__ = ["Client", "Lock", "Session"]


class _Call(NamedTuple):
    """A question that is not answered yet, and the future of its outcome: of an acquire that is the grant."""

    question: Question
    outcome: "asyncio.Future[Question]"


class Client(OfOneProcess):
    """A connection, made by `await Client.connect(place)`. Tasks may share it; it waits for one lock at a time. What a
    lease is, and what a child may do with it, the client for threads says.

    A task that is cancelled leaves nothing that waits or that is held. Its cancellation takes WITHDRAW seconds at most: a server that
    takes longer gets it in the background, and if it does not answer within a second, the connection is closed."""

    def __init__(self, reader: Union[asyncio.StreamReader, TlsReader], writer: asyncio.StreamWriter,
                 sock: Optional[socket.socket] = None, servers: Tuple[Any, ...] = (), tunnel: Optional[Tunnel] = None):
        super().__init__()
        self._reader, self._writer, self._sock, self.servers, self._tunnel = reader, writer, sock, list(servers), tunnel
        self._calls: Deque[_Call] = collections.deque()  # answers come in the order of the calls
        self._wait: Optional[_Call] = None
        self._lost: Optional[str] = None
        self._lease, self._is_ended = 0.0, False  # whether the other end has ended the connection
        self._spoken = self._said = time.monotonic()  # the server has heard this client by then, or later; the last line was sent
        self._tasks = [asyncio.create_task(self._read())]
        self._undoing: set[asyncio.Task[None]] = set()

    @classmethod
    async def connect(cls, place: Place, *, lease: Optional[float] = None, timeout: float = CONNECT, tls: Tls = Tls()) -> Client:
        """Connects within `timeout` seconds, of which a server that starts may take 5 to be there."""
        now = time.monotonic()
        deadline, started = now + timeout, now + min(START, timeout)
        server = lines.place(place)
        asked = lines.lease_of(lease, server)
        while True:
            client = await cls._met(server, tls, asked, deadline, started)
            if client is not None:
                return client
            await asyncio.sleep(TRY)

    @classmethod
    async def _met(cls, server: Union[str, Tuple[str, int]], tls: Tls, asked: bytes, deadline: float, started: float) -> Optional[Client]:
        """A client that has its lease. Until `started` it is None if the connection ends before an answer, as that for threads says."""
        tunnel = Tunnel(server, tls) if isinstance(server, TlsPlace) else None
        sock = await _connected(server, deadline, started)
        try:
            client = await cls._over(sock, server, tunnel, deadline)
        except BaseException:
            sock.close()
            raise
        try:
            client._lease = await client._granted_lease(asked, max(deadline, time.monotonic() + WITHDRAW / 2))
        except BaseException as fault:
            await client.close()
            if isinstance(fault, LockLost) and time.monotonic() >= deadline:
                raise TimeoutError(errno.ETIMEDOUT, "the server does not answer") from None
            if isinstance(fault, LockLost) and client._is_ended and time.monotonic() < started:
                return None
            raise
        if client._lease:
            client._tasks.append(asyncio.create_task(client._speak()))
        return client

    @classmethod
    async def _over(cls, sock: socket.socket, server: Union[str, Tuple[str, int]], tunnel: Optional[Tunnel], deadline: float) -> Client:
        reader, writer = await (asyncio.open_connection if isinstance(server, tuple) else asyncio.open_unix_connection)(sock=sock)
        if tunnel is None:
            return cls(reader, writer, sock, (server,))
        opened = TlsReader(reader, writer, tunnel)
        try:
            await opened.shake(deadline)
        except BaseException:
            writer.transport.abort()
            raise
        return cls(opened, writer, sock, (server,), tunnel)

    async def _granted_lease(self, line: bytes, deadline: float) -> float:
        try:
            return lines.seconds_of(await self._ask_until(line, deadline))
        except Refused as refused:
            return lines.no_lease(line, refused)

    async def acquire(self, name: str, *, label: lines.Label = 0, wait: Optional[float] = None) -> int:
        """The token, as soon as the lock is granted. `NotInTime` if it is not within `wait` seconds, at most WITHDRAW seconds
        later: what was asked is then withdrawn, or the connection is closed if the server does not answer."""
        deadline = until(wait)
        line = lines.acquire(name, label)
        await self._others_undone(name, deadline)
        grant = self._send(line)
        try:
            await asyncio.wait([grant], timeout=left(deadline))
            if not grant.done():
                await self._withdraw(name, grant, time.monotonic() + WITHDRAW)
            return lines.number(grant.result().words, 2)
        except asyncio.CancelledError:
            await self._undo(name, grant)
            raise

    async def try_acquire(self, name: str, *, label: lines.Label = 0) -> Optional[int]:
        """The token, or None if another holds the lock."""
        line = lines.acquire(name, label, "try")
        await self._others_undone(name, None)
        outcome = self._send(line)
        try:
            words = (await asyncio.shield(outcome)).words
        except asyncio.CancelledError:
            await self._undo(name, outcome)
            raise
        return lines.number(words, 2) if words[0] == "granted" else None

    async def release(self, name: str, token: int) -> None:
        """Ends the hold with this token, also where the task is cancelled."""
        await asyncio.shield(self._send(lines.release(name, token)))

    async def leave(self) -> None:
        """Gives up all that this client holds. The connection stays."""
        await asyncio.shield(self._send(b"leave\n"))

    async def status(self) -> list[LockStatus]:
        """How the locks are that this client may use."""
        return (await asyncio.shield(self._send(STATUS))).named_locks

    def check(self) -> None:
        """Raises `LockLost` if others may hold what this client held."""
        self._refuse_a_child()
        if self._lost is None and self._lease and time.monotonic() > self._spoken + self._lease / 2:
            self._drop("the server has not answered for half of the lease")
        if self._lost is not None:
            raise LockLost(self._lost)

    async def close(self) -> None:
        """Closes the connection; the server lets others have what this client held. In a child that inherited the client, only
        the child's copy is closed."""
        await self._close_within(WITHDRAW)

    async def _close_within(self, seconds: float) -> None:
        """As `close`, but a connection that does not end has only this time."""
        if self._is_inherited:
            self._close_copy()
            return
        for task in self._tasks:
            task.cancel()
        self._drop("the client is closed")
        try:
            await asyncio.wait_for(self._writer.wait_closed(), seconds)
        except (OSError, asyncio.TimeoutError):
            pass  # it is gone

    async def __aenter__(self) -> Client:
        return self

    async def __aexit__(self, *_: object) -> None:
        await self.close()

    def _close_copy(self) -> None:
        self._lost = "this client is that of the parent"
        if self._sock is not None:
            self._sock.close()

    def _send(self, line: bytes) -> asyncio.Future[Question]:
        self._refuse_a_child()
        if self._lost is not None:
            raise LockLost(self._lost)
        outcome: asyncio.Future[Question] = asyncio.get_running_loop().create_future()
        outcome.add_done_callback(lambda it: it.cancelled() or it.exception())  # seen, whether or not somebody waits
        self._said = time.monotonic()
        self._calls.append(_Call(Question(line, self._said), outcome))
        self._put(line)
        return outcome

    def _put(self, line: bytes) -> None:
        """Sends it. It does not report that the server has closed the connection: `_read` gets first what it said before. (A transport
        whose write fails reads nothing more.) If the system refuses it for another reason, no answer would ever come."""
        if self._tunnel is not None:
            try:
                line = self._tunnel.seal(line)
            except OSError as fault:
                self._drop(str(fault))
                return
        if self._sock is not None and not self._writer.transport.get_write_buffer_size():
            try:
                line = line[self._sock.send(line):]
            except BlockingIOError:
                pass
            except (BrokenPipeError, ConnectionResetError):
                return
            except OSError as fault:
                self._drop(str(fault))
                return
        if line:
            self._writer.write(line)

    async def _ask_until(self, line: bytes, deadline: float) -> Question:
        """The answer. If it is not there by then, the client is lost."""
        outcome = self._send(line)
        await asyncio.wait([outcome], timeout=left(deadline))
        if not outcome.done():
            self._lose("the server does not answer")
        return outcome.result()

    async def _withdraw(self, name: str, grant: asyncio.Future[Question], deadline: float) -> None:
        """Waits no longer: NotInTime, unless the grant was on its way, or the refusal."""
        if grant.done():
            return
        try:
            await self._ask_until(lines.cancel(name), deadline)
        except NotWaiter:  # the grant came first
            if not grant.done():
                self._lose("the server neither grants nor keeps a place in the queue")
        except LockLost as lost:
            if time.monotonic() < deadline:
                raise
            raise NotInTime(f"{name}: the server did not answer in time, so the connection is closed") from lost
        else:
            raise NotInTime(f"{name}: it was not granted in time, and is no longer waited for")

    async def _undo(self, name: str, outcome: asyncio.Future[Question]) -> None:
        """After a cancellation: nothing waits, and nothing is held unknown to the caller. A task of its own does this to its end. This call
        waits for it as long as a healthy server takes; after that the next call that asks for a lock waits for it."""

        async def undo() -> None:
            deadline = time.monotonic() + INTERRUPTED
            try:
                if self._lost is None and not outcome.done():
                    await self._withdraw(name, outcome, deadline)
                words = outcome.result().words
                if words[0] == "granted":
                    await self._ask_until(lines.release(name, lines.number(words, 2)), deadline)
            except LockError:
                pass  # then nothing is held

        task = asyncio.create_task(undo())
        self._undoing.add(task)
        task.add_done_callback(self._undoing.discard)
        await asyncio.wait([task], timeout=WITHDRAW)

    async def _others_undone(self, name: str, deadline: Optional[float]) -> None:
        if self._undoing and (await asyncio.wait(list(self._undoing), timeout=left(deadline)))[1]:
            raise NotInTime(f"{name}: a cancelled call was not withdrawn in time, so nothing was asked")

    async def _read(self) -> None:
        try:
            while line := await self._reader.readline():
                self._hear(lines.words_of(line))
            self._is_ended = True
            self._drop("the server closed the connection")
        except (OSError, ValueError, LockError) as fault:
            self._is_ended = isinstance(fault, ConnectionResetError)
            self._drop(str(fault))

    def _hear(self, words: list[str]) -> None:
        wait = self._wait
        if words[0] == "granted" and wait is not None and words[1:2] == [wait.question.name]:
            lines.number(words, 2)
            wait.question.words, self._wait = words, None
            _tell(wait)
            return
        if wait is not None and lines.is_denial(words, wait.question.name):
            self._wait = None
            _tell(wait, lines.refusal(words))
            return
        if not self._calls:
            raise LockLost(f"the server sent {' '.join(words)!r}, which nobody asked for")
        call = self._calls[0]
        call.question.hear(words)
        if call.question.is_answered:
            self._calls.popleft()
            self._spoken = max(self._spoken, call.question.at)
            self._happened(call)

    def _happened(self, call: _Call) -> None:
        word, refused = call.question.words[0], lines.refusal(call.question.words)
        if word == "waiting":
            self._wait = call
            return
        if word in ("cancelled", "left") and self._wait is not None:
            _tell(self._wait, NotWaiter("waiter", self._wait.question.name))
            self._wait = None
        _tell(call, refused)

    def _lose(self, why: str) -> NoReturn:
        self._drop(why)
        raise LockLost(self._lost)

    def _drop(self, why: str) -> None:
        """Ends the connection. What is not sent yet is not sent: its end gives back everything."""
        self._lost = self._lost or why
        self._writer.transport.abort()
        open_ = [*self._calls, *([self._wait] if self._wait else [])]
        self._calls.clear()
        self._wait = None
        for call in open_:
            _tell(call, LockLost(self._lost))

    async def _speak(self) -> None:
        while self._lost is None:
            await asyncio.sleep(max(0.0, self._said + self._lease / PART - time.monotonic()))
            if self._lost is None and time.monotonic() >= self._said + self._lease / PART:
                try:
                    await self._ask_until(PING, time.monotonic() + self._lease)
                except LockError:
                    return


def _tell(call: _Call, fault: Optional[LockError] = None) -> None:
    if not call.outcome.done():
        if fault is None:
            call.outcome.set_result(call.question)
        else:
            call.outcome.set_exception(fault)


async def _connected(server: Union[str, Tuple[str, int]], deadline: float, started: float) -> socket.socket:
    """As that of the client for threads. Until `started` a server that is not there is taken for one that starts."""
    while True:
        try:
            return await (_over_tcp(server[0], server[1], deadline) if isinstance(server, tuple) else _over_unix(server, deadline))
        except ABSENT:
            if time.monotonic() >= started:
                raise
        await asyncio.sleep(max(0.0, min(TRY, started - time.monotonic())))


async def _over_unix(server: str, deadline: float) -> socket.socket:
    sock = socket.socket(socket.AF_UNIX)
    try:
        sock.setblocking(False)
        while True:
            try:
                sock.connect(server)
                return sock
            except BlockingIOError:  # its queue is full
                if time.monotonic() >= deadline:
                    raise TimeoutError(errno.ETIMEDOUT, "the server accepts no connection", server) from None
                await asyncio.sleep(AGAIN)
            except OSError as fault:
                raise lines.why_not(fault.errno or errno.EIO, server) from None
    except BaseException:
        sock.close()
        raise


async def _over_tcp(host: str, port: int, deadline: float) -> socket.socket:
    loop = asyncio.get_running_loop()
    late = TimeoutError(errno.ETIMEDOUT, f"{host}:{port} does not answer")
    fault: OSError = late
    try:
        addresses = await asyncio.wait_for(loop.getaddrinfo(host, port, type=socket.SOCK_STREAM), left(deadline))
    except asyncio.TimeoutError:
        raise late from None
    for i, (family, kind, protocol, _, address) in enumerate(addresses):
        sock = socket.socket(family, kind, protocol)
        try:
            sock.setblocking(False)
            share = (deadline - time.monotonic()) / (len(addresses) - i)
            await asyncio.wait_for(loop.sock_connect(sock, address), max(0.001, share))
            sock.setsockopt(socket.IPPROTO_TCP, socket.TCP_NODELAY, 1)
            return sock
        except asyncio.TimeoutError:
            sock.close()
        except OSError as why:
            sock.close()
            fault = why
        except BaseException:
            sock.close()
            raise
    raise fault


class Lock(Settings):
    """`async with Lock(place, name, wait=5) as token:` holds the lock inside. `place` is that of a server, or those of several that
    share their locks, or a `Client` or `Session` of this module that is shared. One object holds once at a time, and can be used again.

    It is a decorator too: `@Lock(place, name)` has each call of a coroutine function hold the lock.

    A task that holds the lock by such an object, and asks for it by another one, would wait for itself: `Holds`."""

    def __init__(self, place: Union[Places, Client, Session], name: str, *, wait: Optional[float] = None, label: lines.Label = 0,
                 lease: Optional[float] = None, tls: Tls = Tls()):
        """`wait`, `label`, `lease` and `tls` are those of `wozgirt.Lock`."""
        super().__init__(place, name, wait=wait, label=label, lease=lease, tls=tls)

    async def acquire(self, *, timeout: Union[float, None, Type[Default]] = Default) -> int:
        """Takes the lock; its token. `NotInTime` if it is not granted within `timeout` seconds (None: no limit; if it is not
        given, `wait`), the time to connect included."""
        deadline = self._deadline(timeout)
        is_shared = isinstance(self._place, (Client, Session))
        nesting.refuse(self._place.servers if is_shared else lines.places(self._place), self.name, is_task=True)
        client = self._place if is_shared else await self._connected(deadline)
        try:
            return self._take(client, await client.acquire(self.name, label=self._label, wait=left(deadline)))
        except BaseException:
            if not is_shared:
                await client._close_within(WITHDRAW)
            raise

    async def release(self) -> None:
        """Gives the lock back. `LockLost` if it was lost before, and RuntimeError if this object does not hold it."""
        client, token = self.client, self._let_go()
        if client is self._place:
            await client.release(self.name, token)
            return
        try:
            await asyncio.wait_for(client.release(self.name, token), CONNECT)
        except asyncio.TimeoutError:
            raise LockLost("the server does not answer") from None
        finally:
            await client.close()

    async def _connected(self, deadline: Optional[float]) -> Union[Client, Session]:
        servers = lines.places(self._place)
        try:
            if len(servers) > 1:
                return await Session.connect(servers, lease=self._lease, timeout=to_connect(deadline), tls=self._tls)
            return await Client.connect(servers[0], lease=self._lease, timeout=to_connect(deadline), tls=self._tls)
        except OSError as fault:
            if is_too_late(fault, deadline):
                raise NotInTime(f"{self.name}: no server answered in time, so nothing was asked ({fault})") from fault
            raise

    def __call__(self, function: Function) -> Function:
        """Has each call of the coroutine function hold the lock, by an object of its own."""
        if not inspect.iscoroutinefunction(function):
            raise TypeError(f"{function!r} is not a coroutine function")

        @functools.wraps(function)
        async def run(*words: Any, **more: Any) -> Any:
            async with self._again():
                return await function(*words, **more)
        return run  # type: ignore[return-value]

    async def __aenter__(self) -> int:
        return await self.acquire()

    async def __aexit__(self, kind: Optional[Type[BaseException]], value: Optional[BaseException],
                        trace: Optional[TracebackType]) -> None:
        if self.token is None:
            return
        try:
            await self.release()
        except (LockLost, Refused, Inherited):
            if kind is None:
                raise
