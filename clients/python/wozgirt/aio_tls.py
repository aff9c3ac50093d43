"""TLS for the client for asyncio: lines that come through a tunnel."""

from __future__ import annotations

import asyncio
import errno

from .lines import LockLost
from .lock import left
from .tls import Tunnel
from .wire import ROOM


class TlsReader:
    """Lines that come over TLS, as a StreamReader has them."""

    def __init__(self, reader: asyncio.StreamReader, writer: asyncio.StreamWriter, tunnel: Tunnel):
        self._reader, self._writer, self._tunnel, self._bytes = reader, writer, tunnel, b""

    async def shake(self, deadline: float) -> None:
        """The handshake, or an OSError."""
        came = b""
        while not self._tunnel.is_shaken(came):
            self._writer.write(self._tunnel.leaving())
            try:
                came = await asyncio.wait_for(self._reader.read(ROOM), left(deadline))
            except asyncio.TimeoutError:
                raise TimeoutError(errno.ETIMEDOUT, "the server does not answer") from None
            if not came:
                raise ConnectionResetError(errno.ECONNRESET, "the server closed the connection")
        self._writer.write(self._tunnel.leaving())
        self._bytes = self._tunnel.open(b"")

    async def readline(self) -> bytes:
        """The next line with its end; nothing when the connection is over."""
        while b"\n" not in self._bytes:
            if len(self._bytes) > ROOM:
                raise LockLost("the server sent a line without an end")
            came = b"" if self._tunnel.is_over else await self._reader.read(ROOM)
            if not came:
                return b""
            self._bytes += self._tunnel.open(came)
            self._writer.write(self._tunnel.leaving())
        line, end, self._bytes = self._bytes.partition(b"\n")
        return line + end
