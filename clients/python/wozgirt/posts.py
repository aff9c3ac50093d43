"""Posts over a connection that is kept: as much of HTTP/1.1 as etcd's gateway speaks, with only the standard library.

An entry of the log waits for a post. By `http.client` that takes three times the processor time, most of it for the headers."""

from __future__ import annotations

import re
import socket
import ssl
from typing import Dict, Iterator, Optional

#: How much is read at once, and how long the headers of an answer may be, or the line before a chunk.
ROOM = 1 << 16
STATUS = re.compile(rb"HTTP/1\.1 ([0-9]{3})(?: |$)")


class Garbled(OSError):
    """What came is not an answer by HTTP."""


class Line:
    """A connection to a place. One post goes after the other: the body of an answer is to be read to its end before the next."""

    def __init__(self, host: str, port: int, tls: Optional[ssl.SSLContext], patience: float):
        plain = socket.create_connection((host, port), timeout=patience)
        try:
            plain.setsockopt(socket.IPPROTO_TCP, socket.TCP_NODELAY, 1)
            self._socket = tls.wrap_socket(plain, server_hostname=host) if tls else plain
        except BaseException:
            plain.close()
            raise
        self._got = b""
        self._fields: Dict[bytes, bytes] = {}
        named = f"[{host}]:{port}" if ":" in host else f"{host}:{port}"
        # a member that has lost the others ends a stream with this word, and is not just silent
        self._headers = f"Host: {named}\r\nContent-Type: application/json\r\nGrpc-Metadata-hasleader: true\r\n".encode()

    def post(self, path: str, body: bytes) -> int:
        """Sends it, and waits for the headers of the answer; its status."""
        self._socket.sendall(b"POST %s HTTP/1.1\r\n%sContent-Length: %d\r\n\r\n%s" % (path.encode(), self._headers, len(body), body))
        first, *fields = self._until(b"\r\n\r\n").split(b"\r\n")
        status = STATUS.match(first)
        if not status:
            raise Garbled(f"it does not speak HTTP: {first[:40]!r}")
        parted = (field.partition(b":") for field in fields)
        self._fields = {name.lower(): value.strip() for name, _, value in parted}
        return int(status[1])

    def wait(self, patience: float) -> None:
        """How long the other end may be silent from now on."""
        self._socket.settimeout(patience)

    def authorize(self, token: str) -> None:
        """Has all posts from now on show this token."""
        self._headers += f"Authorization: {token}\r\n".encode("ascii")

    @property
    def is_over(self) -> bool:
        """Whether the other end closes the connection after this answer."""
        return self._fields.get(b"connection", b"").lower() == b"close"

    def body(self) -> bytes:
        """The whole body."""
        return b"".join(self.parts())

    def parts(self) -> Iterator[bytes]:
        """The body, as it comes."""
        if self._fields.get(b"transfer-encoding") == b"chunked":
            while (size := self._number(self._until(b"\r\n").partition(b";")[0], 16)) > 0:
                yield self._exactly(size)
                if self._exactly(2) != b"\r\n":
                    raise Garbled("a chunk does not end where it should")
            while self._until(b"\r\n"):
                pass  # what follows the last chunk says nothing here
        else:
            yield self._exactly(self._number(self._fields.get(b"content-length", b"none"), 10))

    def close(self) -> None:
        """Ends the connection."""
        self._socket.close()

    @staticmethod
    def _number(text: bytes, base: int) -> int:
        try:
            return int(text, base)
        except ValueError:
            raise Garbled(f"this is not a size: {text[:40]!r}") from None

    def _more(self) -> None:
        got = self._socket.recv(ROOM)
        if not got:
            raise ConnectionResetError("it ended the connection")
        self._got += got

    def _until(self, mark: bytes) -> bytes:
        while (end := self._got.find(mark)) < 0:
            if len(self._got) > ROOM:
                raise Garbled("headers without an end")
            self._more()
        found, self._got = self._got[:end], self._got[end + len(mark):]
        return found

    def _exactly(self, size: int) -> bytes:
        while len(self._got) < size:
            self._more()
        found, self._got = self._got[:size], self._got[size:]
        return found
