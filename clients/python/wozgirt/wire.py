"""Connections: how one is made within a time, and lines over it, with deadlines."""

from __future__ import annotations

import errno
import os
import select
import socket
import threading
import time
from typing import Any, List, Optional

from .lines import LockLost, Place, TlsPlace, is_own, why_not
from .tls import Tls, Tunnel

#: How long the server may take to be there.
CONNECT = 10.0
#: How much is read at once, and the longest line that is read.
ROOM = 1 << 16
#: How long a server that is not there may take to start: as long as the command `wozgirt` waits for one.
START = 5.0
#: Seconds between two tries at a server whose queue of connections is full, and at one that may be starting.
AGAIN, TRY = 0.01, 0.05
#: What is said of a server that is not there
ABSENT = (FileNotFoundError, ConnectionRefusedError)


_SIZE, _WAIT, _NOW, _QUIETLY = (ROOM,), (0,), (socket.MSG_DONTWAIT,), (socket.MSG_DONTWAIT | socket.MSG_NOSIGNAL,)


class Late(Exception):
    """The deadline came first."""


def connected(place: Place, timeout: float = CONNECT, start: float = 0.0) -> socket.socket:
    """A socket that is connected to the server, or an OSError: a TimeoutError after `timeout` seconds. For `start` of them a server that
    is not there is taken for one that starts."""
    deadline = time.monotonic() + timeout
    started = time.monotonic() + min(start, timeout)
    while True:
        try:
            sock = _over_tcp(place[0], place[1], deadline) if isinstance(place, tuple) else _over_unix(place, deadline)
            sock.settimeout(None)
            return sock
        except ABSENT as fault:
            if not is_own(fault) or time.monotonic() >= started:
                raise
        time.sleep(max(0.0, min(TRY, started - time.monotonic())))


def _over_unix(path: str, deadline: float) -> socket.socket:
    sock = socket.socket(socket.AF_UNIX, socket.SOCK_STREAM)
    try:
        sock.setblocking(False)
        while True:
            try:
                sock.connect(path)
                return sock
            except BlockingIOError:  # its queue is full
                left = deadline - time.monotonic()
                if left <= 0:
                    raise TimeoutError(errno.ETIMEDOUT, "the server accepts no connection", path) from None
                time.sleep(min(AGAIN, left))
            except OSError as fault:
                if fault.errno is None:  # of a signal handler
                    raise
                raise why_not(fault.errno, path) from None
    except BaseException:
        sock.close()
        raise


def _over_tcp(host: str, port: int, deadline: float) -> socket.socket:
    """To the first address that answers. Each of those that are left has an equal part of the time that is left."""
    fault: OSError = TimeoutError(errno.ETIMEDOUT, f"{host} has no address")
    addresses = _addresses(host, port, deadline)
    for i, (family, kind, protocol, _, address) in enumerate(addresses):
        sock = socket.socket(family, kind, protocol)
        try:
            sock.setblocking(False)
            code = sock.connect_ex(address)
            if code == errno.EINPROGRESS:
                code = _outcome(sock, (deadline - time.monotonic()) / (len(addresses) - i))
            if code == 0:
                sock.setsockopt(socket.IPPROTO_TCP, socket.TCP_NODELAY, 1)
                return sock
        except BaseException:
            sock.close()
            raise
        sock.close()
        fault = OSError(code, f"{os.strerror(code)}: {host}:{port}")
    raise fault


def _outcome(sock: socket.socket, seconds: float) -> int:
    """What a connection that is being made comes to within the time: 0 or a number of errno."""
    poll = select.poll()
    poll.register(sock, select.POLLOUT)
    if not poll.poll(max(0.0, seconds * 1000)):
        return errno.ETIMEDOUT
    return sock.getsockopt(socket.SOL_SOCKET, socket.SO_ERROR)


def _addresses(host: str, port: int, deadline: float) -> List[Any]:
    """What the system knows of the host. It is asked by a thread, since it cannot be asked for a while only."""
    try:
        return socket.getaddrinfo(host, port, 0, socket.SOCK_STREAM, flags=socket.AI_NUMERICHOST)
    except socket.gaierror:
        pass  # a name
    found: List[Any] = []

    def ask() -> None:
        try:
            found.append(socket.getaddrinfo(host, port, 0, socket.SOCK_STREAM))
        except OSError as fault:
            found.append(fault)

    thread = threading.Thread(target=ask, name="wozgirt-address", daemon=True)
    thread.start()
    thread.join(max(0.0, deadline - time.monotonic()))
    if not found:
        raise TimeoutError(errno.ETIMEDOUT, f"no address of {host} was found in time")
    if isinstance(found[0], OSError):
        raise found[0]
    return found[0]


class Wire:
    """Lines over a socket. An exception out of a signal handler may come at any moment. Python runs handlers between its own
    instructions: none between the end of a call by `extend` and the note of what it returned. So what was sent and what was read
    is known, whatever is broken off; but what is made of a line is not: meanwhile the wire is torn."""

    def __init__(self, sock: socket.socket):
        self._sock, self._bytes, self._chunks = sock, b"", []  # type: socket.socket, bytes, List[bytes]
        self.is_torn = False
        self._poll = select.poll()
        self._poll.register(sock, select.POLLIN)

    def wait(self, seconds: Optional[float]) -> bool:
        """Whether something has come, or the connection is over, within the time."""
        return bool(self._poll.poll(None if seconds is None else min(1e6, max(0.0, seconds * 1000))))

    def send(self, data: bytes, sent: List[int], patience: float) -> None:
        """Sends what is left of the data. `sent` lists how many bytes were sent, and gets how many are. Late if the other end takes
        nothing for `patience` seconds. It does not report that the other end has closed the connection: the next read gets first what
        that said before."""
        while not sent or sum(sent) < len(data):
            try:
                sent.extend(map(self._sock.send, (data[sum(sent):] if sent else data,), _QUIETLY))
            except (BrokenPipeError, ConnectionResetError) as fault:
                if not is_own(fault):
                    raise
                return
            except BlockingIOError:
                writable = select.poll()
                writable.register(self._sock, select.POLLOUT)
                if not writable.poll(patience * 1000):
                    raise Late from None

    @property
    def has_more(self) -> bool:
        """Whether something was received that `line` has not looked at, since a call was broken off."""
        return bool(self._chunks)

    def receive(self, waits: bool = False) -> bool:
        """Takes what has come; it waits for that only if `waits` is true. False if the other end has closed the connection."""
        try:
            self._chunks.extend(map(self._sock.recv, _SIZE, _WAIT if waits else _NOW))
        except BlockingIOError:
            return True
        return bool(self._chunks[-1])

    def line(self) -> Optional[bytes]:
        """The next line that is complete, without its end. It is torn from here on, until the caller has noted what it means."""
        self.is_torn = True
        if self._chunks:
            self._bytes += self._chunks[0] if len(self._chunks) == 1 else b"".join(self._chunks)
            self._chunks.clear()
        line, end, rest = self._bytes.partition(b"\n")
        if end:
            self._bytes = rest
            return line
        if len(line) > ROOM:
            raise LockLost("the server sent a line without an end")
        return None

    def line_until(self, deadline: float) -> bytes:
        """The next line, or an OSError."""
        while True:
            line = self.line()
            if line is not None:
                return line
            if not self.wait(deadline - time.monotonic()):
                raise TimeoutError(errno.ETIMEDOUT, "the server does not answer")
            if not self.receive():
                raise ConnectionResetError(errno.ECONNRESET, "the server closed the connection")

    def put_back(self, more: bytes) -> None:
        """Has these be read first."""
        self._bytes = more + self._bytes

    def fileno(self) -> int:
        """The socket's file, or -1."""
        return self._sock.fileno()

    def shut(self) -> None:
        """Ends the connection; whoever waits for it wakes."""
        try:
            self._sock.shutdown(socket.SHUT_RDWR)
        except OSError:
            pass  # it is gone

    def close(self) -> None:
        """Closes this process's end of it."""
        self._sock.close()


class TlsWire(Wire):
    """Lines over TLS. It is torn while a line is sealed and sent, too: what a call that was broken off there has sent is not known."""

    def __init__(self, sock: socket.socket, tunnel: Tunnel):
        super().__init__(sock)
        self._tunnel = tunnel

    def shake(self, until: float) -> None:
        """The handshake, or an OSError."""
        while not self._tunnel.is_shaken(self._came()):
            self._send_leaving(until - time.monotonic())
            if not self.wait(until - time.monotonic()):
                raise TimeoutError(errno.ETIMEDOUT, "the server does not answer")
            if not self.receive():
                raise ConnectionResetError(errno.ECONNRESET, "the server closed the connection")
        self._send_leaving(until - time.monotonic())
        self._bytes = self._tunnel.open(b"")

    def send(self, data: bytes, sent: List[int], patience: float) -> None:
        if not sent:
            was_torn, self.is_torn = self.is_torn, True
            super().send(self._tunnel.seal(data), [], patience)
            sent.append(len(data))
            self.is_torn = was_torn

    def receive(self, waits: bool = False) -> bool:
        return super().receive(waits) and not self._tunnel.is_over

    def line(self) -> Optional[bytes]:
        self.is_torn = True
        if self._chunks:
            self._bytes += self._tunnel.open(self._came())
            self._send_leaving(0)
        return super().line()

    def _came(self) -> bytes:
        """What was received and not looked at; it is not there any more."""
        came = b"".join(self._chunks)
        self._chunks.clear()
        return came

    def _send_leaving(self, patience: float) -> None:
        try:
            super().send(self._tunnel.leaving(), [], max(0.0, patience))
        except Late:
            raise LockLost("the server takes nothing") from None


def wire_to(place: Place, files: Tls, timeout: float = CONNECT, start: float = 0.0) -> Wire:
    """Lines to the server, as `connected` says; the handshake of TLS is within `timeout`, too."""
    until = time.monotonic() + timeout
    if not isinstance(place, TlsPlace):
        return Wire(connected(place, timeout, start))
    tunnel = Tunnel(place, files)  # the files are looked at first
    wire = TlsWire(connected(place, timeout, start), tunnel)
    try:
        wire.shake(until)
    except BaseException:
        wire.close()
        raise
    return wire
