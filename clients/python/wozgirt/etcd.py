"""Members of etcd, asked through their JSON gateways, with only the standard library."""

from __future__ import annotations

import base64
import json
import socket
import ssl
import threading
from typing import Any, Dict, Iterator, List, Optional, Tuple, Union
from urllib.parse import urlsplit

from .posts import Line

Answer = Dict[str, Any]
#: Where a member is: whether by TLS, its host, and its port.
Place = Tuple[bool, str, int]

#: How long a member may be silent, in seconds; and how many times longer where it makes a token, for which it has to do much.
PATIENCE = 2.0
TIMES_FOR_A_TOKEN = 5


class NoAnswer(OSError):
    """A member did not answer, or not with what was asked. What was asked may be done all the same, or later."""


class Silent(NoAnswer):
    """A stream is open, and nothing came for a while."""


class Denied(NoAnswer):
    """A member answered that it will not."""


class NoRoom(Denied):
    """It will not, since etcd's database has reached its quota."""


def coded(text: Union[str, bytes]) -> str:
    """As keys and values are written in JSON."""
    return base64.b64encode(text.encode() if isinstance(text, str) else text).decode()


def decoded(text: str) -> str:
    """The text of a key or value."""
    return base64.b64decode(text).decode("utf-8", "replace")


def below(prefix: str) -> Dict[str, str]:
    """The range of the keys that begin so."""
    return {"key": coded(prefix), "range_end": coded(prefix[:-1] + chr(ord(prefix[-1]) + 1))}


def place(url: str) -> Place:
    """The place that a URL names, or HOST:PORT."""
    parts = urlsplit(url if "//" in url else f"http://{url}")
    if parts.scheme not in ("http", "https") or not parts.hostname or parts.path not in ("", "/"):
        raise ValueError(f"not a URL of a member: {url!r}")
    return parts.scheme == "https", parts.hostname, parts.port or 2379


def reason(text: str) -> str:
    """Why etcd did not do something: `{"error": TEXT}` or `{"error": {"message": TEXT}}`, or else what it sent."""
    try:
        fault = json.loads(text)["error"]
        return str(fault["message"] if isinstance(fault, dict) else fault)
    except (ValueError, KeyError, TypeError):
        return text[:200]


def revision_of(answer: Answer) -> int:
    """The revision of etcd at which it was answered."""
    return int(answer["header"]["revision"])


def context(cacert: Optional[str], cert: Optional[str], key: Optional[str]) -> ssl.SSLContext:
    """What TLS needs: the certificate that signed those of the members, and our own certificate."""
    made = ssl.create_default_context(cafile=cacert)
    if cert is not None:
        made.load_cert_chain(cert, key)
    return made


class Stale(Denied):
    """It does not know this token: it was started again, or its users have changed."""

    def __init__(self, why: str, token: Optional[str]):
        super().__init__(why)
        self.token = token


#: What etcd says then.
STALE = ("invalid auth token", "revision of auth store is old")


class User:
    """A user of etcd, the file with its password, and the token that etcd gave for these, which all connections show: to make one takes
    etcd long. The file is read for each token."""

    def __init__(self, name: str, file: str):
        self.name, self._file = name, file
        self.token: Optional[str] = None
        self.changing = threading.Lock()
        self.password()

    def password(self) -> str:
        """What the file has, without the end of its line."""
        with open(self._file, encoding="utf-8") as file:
            return file.read().rstrip("\n")


class Member:
    """A connection that is kept, to one member at a time of those at `places`, and to the next one when that fails. It is for
    one thread."""

    def __init__(self, places: List[Place], tls: Optional[ssl.SSLContext] = None, patience: float = PATIENCE,
                 user: Optional[User] = None):
        self._places, self._tls, self._patience, self._user, self._at = places, tls, patience, user, 0
        self._line: Optional[Line] = None
        self._count = 0

    @property
    def name(self) -> str:
        """The member's HOST:PORT."""
        return "%s:%d" % self._places[self._at][1:]

    @property
    def connection(self) -> int:
        """The number of the connection over which the next question goes, to the same process as the last; 0 if that is a new one."""
        return self._count if self._line is not None else 0

    def turn(self) -> bool:
        """Leaves the member for the next one; whether all have been tried."""
        self._drop()
        self._at = (self._at + 1) % len(self._places)
        return self._at == 0

    def ask(self, path: str, body: Answer) -> Answer:
        """What the member answers."""
        try:
            return self._known(json.loads(self._body(self._send(path, [body]))))
        except NoAnswer:
            raise
        except (OSError, ValueError) as fault:
            self._drop()
            raise NoAnswer(f"{self.name}: {fault or type(fault).__name__}") from fault

    def stream(self, path: str, bodies: List[Answer]) -> Iterator[Answer]:
        """The results that the member sends, one after the other. It ends with `NoAnswer`, which is `Silent` if the member may
        well be there; the connection is closed then."""
        try:
            rest = b""
            for part in self._send(path, bodies).parts():
                *texts, rest = (rest + part).split(b"\n")
                for text in texts:
                    yield self._known(json.loads(text))
            raise NoAnswer(f"{self.name}: it ended the stream")
        except NoAnswer:
            raise
        except socket.timeout as fault:
            raise Silent(f"{self.name}: {fault}") from fault
        except (OSError, ValueError) as fault:
            raise NoAnswer(f"{self.name}: {fault or type(fault).__name__}") from fault
        finally:
            self._drop()

    def _connected(self) -> Line:
        if self._line is None:
            safe, host, port = self._places[self._at]
            self._line = Line(host, port, self._tls if safe else None, self._patience)
            self._count += 1
            if self._user is not None:
                self._line.authorize(self._token(self._line, self._user))
        return self._line

    def _token(self, line: Line, user: User) -> str:
        with user.changing:
            if user.token is None:
                line.wait(TIMES_FOR_A_TOKEN * self._patience)
                body = {"name": user.name, "password": user.password()}
                status = line.post("/v3/auth/authenticate", json.dumps(body).encode())
                text = line.body().decode("utf-8", "replace")
                line.wait(self._patience)
                if status != 200:
                    self._drop()
                    raise Denied(f"{self.name}: the user {user.name} is refused: {reason(text)}")
                user.token = str(json.loads(text)["token"])
            return user.token

    def _send(self, path: str, bodies: List[Answer]) -> Line:
        try:
            return self._post(path, bodies)
        except Stale as stale:  # nothing was done: it is asked again with a new token
            self._drop()
            if self._user is not None and self._user.token == stale.token:
                self._user.token = None
            return self._post(path, bodies)

    def _post(self, path: str, bodies: List[Answer]) -> Line:
        line = self._connected()
        if line.post(f"/v3/{path}", "".join(map(json.dumps, bodies)).encode()) != 200:
            why = reason(self._body(line).decode("utf-8", "replace"))
            if self._user is not None and any(it in why for it in STALE):
                raise Stale(f"{self.name}: {why}", self._user.token)
            raise (NoRoom if "database space exceeded" in why else Denied)(f"{self.name}: {why}")
        return line

    def _body(self, line: Line) -> bytes:
        body = line.body()
        if line.is_over:
            self._drop()
        return body

    @staticmethod
    def _known(answer: Any) -> Answer:
        if not isinstance(answer, dict) or "error" in answer:
            raise NoAnswer(f"etcd says: {reason(json.dumps(answer))}")
        return answer.get("result", answer)

    def _drop(self) -> None:
        line, self._line = self._line, None
        if line is not None:
            line.close()
