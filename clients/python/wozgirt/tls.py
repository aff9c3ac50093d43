"""TLS, by the standard library's ssl: the files that it takes, and what it makes of bytes, without any input or output."""

from __future__ import annotations

import errno
import os
import ssl
from dataclasses import dataclass
from typing import TYPE_CHECKING, List, NoReturn, Optional, Tuple, Union

from .lines import LockLost, TlsPlace, at

if TYPE_CHECKING:
    _File = Union[str, os.PathLike[str]]
else:
    _File = Union[str, os.PathLike]  # Python 3.8 has no parameter for it

#: How much of what was opened is read at once.
ROOM = 1 << 16
#: How each file is named, as an argument and as a variable.
CACERT, CERT, KEY = "cacert, WOZGIRT_CACERT", "cert, WOZGIRT_CERT", "key, WOZGIRT_KEY"


@dataclass(frozen=True)
class Tls:
    """The files by which a server with the place tls:HOST:PORT and its client know each other, as PEM.

    `cacert` has the certificates of the authorities that are trusted to sign the server's; without it those of the system are. `cert` is
    the client's certificate, which has its name, and `key` its key, if that is not in the same file. What is None is named by a variable:
    WOZGIRT_CACERT; WOZGIRT_CERT and WOZGIRT_KEY, which go together. The files are read for each connection."""

    cacert: Optional[_File] = None
    cert: Optional[_File] = None
    key: Optional[_File] = None

    def context(self) -> ssl.SSLContext:
        """What a connection needs: the server's certificate has to be right, for the host that is asked for. An OSError names the file
        that is wrong."""
        cacert = self.cacert or os.environ.get("WOZGIRT_CACERT")
        cert, key = self._own()
        made = ssl.SSLContext(ssl.PROTOCOL_TLS_CLIENT)  # it looks at the certificate and at the host's name
        made.minimum_version = ssl.TLSVersion.TLSv1_2
        if cacert:
            _load_authorities(made, cacert, CACERT)
        else:
            made.load_default_certs()
        if cert:
            _load_authorities(ssl.SSLContext(ssl.PROTOCOL_TLS_CLIENT), cert, CERT)  # of load_cert_chain nobody knows which file is wrong
            _load_own(made, cert, key or cert)
        elif key:
            raise OSError(errno.EINVAL, f"a key without its certificate ({CERT})", os.fspath(key))
        return made

    def _own(self) -> Tuple[Optional[_File], Optional[_File]]:
        if self.cert or self.key:
            return self.cert, self.key
        return os.environ.get("WOZGIRT_CERT"), os.environ.get("WOZGIRT_KEY")


def _wrong(fault: OSError, path: _File, name: str, what: str) -> OSError:
    """The error that says which file is wrong: the system's, or what the file does not have."""
    if isinstance(fault, ssl.SSLError) or fault.errno is None:
        return OSError(errno.EINVAL, f"{what} ({name})", os.fspath(path))
    return OSError(fault.errno, f"{os.strerror(fault.errno)} ({name})", os.fspath(path))


def _load_authorities(context: ssl.SSLContext, path: _File, name: str) -> None:
    try:
        context.load_verify_locations(path)
    except OSError as fault:
        raise _wrong(fault, path, name, "no certificate in PEM") from None


def _load_own(context: ssl.SSLContext, cert: _File, key: _File) -> None:
    def no_password() -> NoReturn:
        raise OSError(errno.EINVAL, f"the key has a password ({KEY})", os.fspath(key))

    try:
        with open(key, "rb"):
            pass  # ssl names no file that is missing
    except OSError as fault:
        raise _wrong(fault, key, KEY, "") from None
    try:
        context.load_cert_chain(cert, key, no_password)
    except ssl.SSLError as fault:
        is_another = fault.reason == "KEY_VALUES_MISMATCH"
        what = f"not the key of {os.fspath(cert)}" if is_another else "no private key in PEM"
        raise _wrong(fault, key, KEY, what) from None


class Tunnel:
    """One connection's TLS. What came is opened, what is to be sent is sealed; the caller receives and sends."""

    def __init__(self, place: TlsPlace, files: Tls):
        self._at, self._came, self._leaves = at(place), ssl.MemoryBIO(), ssl.MemoryBIO()
        self._tls = files.context().wrap_bio(self._came, self._leaves, server_hostname=place.host)
        #: whether the other end has ended it
        self.is_over = False

    def is_shaken(self, came: bytes = b"") -> bool:
        """Continues the handshake; whether it is over. An OSError says why there is none."""
        self._came.write(came)
        try:
            self._tls.do_handshake()
        except ssl.SSLWantReadError:
            return False
        except ssl.SSLError as fault:
            raise OSError(errno.EPROTO, self._why(fault)) from None
        return True

    def seal(self, data: bytes) -> bytes:
        """What is to be sent for these bytes."""
        self._tls.write(data)
        return self._leaves.read()

    def leaving(self) -> bytes:
        """What is to be sent for the tunnel's own sake."""
        return self._leaves.read()

    def open(self, came: bytes) -> bytes:
        """What these bytes say; `LockLost` if the other end refuses."""
        self._came.write(came)
        opened: List[bytes] = []
        while not self.is_over:
            try:
                opened.append(self._tls.read(ROOM))
            except ssl.SSLWantReadError:
                break
            except (ssl.SSLZeroReturnError, ssl.SSLEOFError):
                self.is_over = True
            except ssl.SSLError as fault:
                raise LockLost(self._why(fault)) from None
            else:
                self.is_over = not opened[-1]
        return b"".join(opened)

    def _why(self, fault: ssl.SSLError) -> str:
        if isinstance(fault, ssl.SSLCertVerificationError):
            return f"{self._at}: the server's certificate is refused: {fault.verify_message}"
        words = (fault.reason or "no reason").lower().replace("_", " ")
        if "alert" in words and ("certificate" in words or "unknown ca" in words):
            return f"{self._at}: the server refuses this client's certificate: {words}"
        return f"{self._at}: no TLS: {words}"
