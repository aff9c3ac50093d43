"""Which log of a lock service is meant, and up to which entry it was read: compared with what etcd has.

An etcd that was wiped has another identity, or none. One that was restored has the identity, but fewer entries than were read, or another
entry instead of the one that was read last. Nothing is written to either."""

from __future__ import annotations

import threading
from typing import Callable, List, Optional, Tuple

from .etcd import Answer, Denied, Member, below, coded, decoded


class Lost(Exception):
    """The log is not the one that is wanted: `kind` is `other` if it is another log, or an earlier state of it, and `gone` if it
    does not reach back to what is wanted."""

    def __init__(self, kind: str, why: str):
        super().__init__(why)
        self.kind = kind


class Taken(Exception):
    """Another server of this name is alive: this start of it."""


class Place:
    """The log's identity and the last entry that was read, for several threads. The position is 0 before the first entry."""

    def __init__(self, identity: Optional[str], position: int, revision: int):
        self.identity, self._mutex = identity, threading.Lock()
        self._position, self._revision = position, revision
        self._value: Optional[str] = None

    def get(self) -> Tuple[int, int, Optional[str]]:
        """Position, revision, and the entry as JSON has it, if it was read by this process."""
        with self._mutex:
            return self._position, self._revision, self._value

    def note(self, position: int, revision: int, value: str) -> None:
        """An entry was read. One of before, which is read again, changes nothing."""
        with self._mutex:
            if position >= self._position:
                self._position, self._revision, self._value = position, revision, value


def identified(member: Member, key: str, known: Optional[str], mine: str) -> str:
    """The identity of the log, which has to be the known one. Without that it is the one that is there, or else `mine`, which is put."""
    at = coded(key)
    if known is not None:
        found = member.ask("kv/range", {"key": at}).get("kvs", [])
        if [decoded(it["value"]) for it in found] != [known]:
            raise Lost("other", "it has another identity" if found else "etcd has no log, or another one's")
        return known
    said = member.ask("kv/txn", {"compare": [{"key": at, "target": "CREATE", "create_revision": "0"}],
                                 "success": [{"request_put": {"key": at, "value": coded(mine)}}],
                                 "failure": [{"request_range": {"key": at}}]})
    return mine if said.get("succeeded") else decoded(said["responses"][0]["response_range"]["kvs"][0]["value"])


def is_identity(key: str, identity: str) -> Answer:
    """The condition of a transaction: the log is this one."""
    return {"key": coded(key), "target": "VALUE", "value": coded(identity)}


def reaches(key: str, position: int, revision: int) -> List[Answer]:
    """The conditions of a transaction: the log has at least this many entries, and the last of them at least this revision."""
    return [{"key": coded(key), "target": "VERSION", "result": "GREATER", "version": str(position - 1)},
            {"key": coded(key), "target": "MOD", "result": "GREATER", "mod_revision": str(revision - 1)}]


def compare(member: Member, key: str, position: int, revision: int, value: Optional[str] = None) -> None:
    """An entry that was read has to be where it was, with this text if that is known; `Lost` if it is not."""
    if position == 0:
        return
    found = member.ask("kv/range", {"key": coded(key)}).get("kvs", [])
    count = int(found[0]["version"]) if found else 0
    if count < position:
        raise Lost("other", f"it has {count} entries, and {position} were read")
    if count > position:  # only then: of the last entry etcd may have compacted all but the value
        found = _at(member, key, position, revision)
    if [(int(it["version"]), int(it["mod_revision"])) for it in found] != [(position, revision)]:
        raise Lost("other", f"it has another entry than {position} at revision {revision}")
    if value is not None and found[0].get("value", "") != value:
        raise Lost("other", f"entry {position} is another one than was read")


def _at(member: Member, key: str, position: int, revision: int) -> List[Answer]:
    """The entry as it was at a revision."""
    try:
        return member.ask("kv/range", {"key": coded(key), "revision": str(revision)}).get("kvs", [])
    except Denied as denied:
        if "compacted" in str(denied):
            raise Lost("gone", f"entry {position} is gone: {denied}") from denied
        if "future" in str(denied):
            raise Lost("other", f"entry {position} is not there yet: {denied}") from denied
        raise


def alone(member: Member, prefix: str, is_own: Callable[[int], bool]) -> int:
    """`Taken` if there is a key PREFIX + INCARNATION that is not this server's own; else the revision of the newest one, or 0."""
    return _newest(member.ask("kv/range", {**below(prefix), "keys_only": True}).get("kvs", []), prefix, is_own)


def claim(member: Member, prefix: str, is_own: Callable[[int], bool], incarnation: int, conditions: List[Answer], lease: str) -> None:
    """Puts the key PREFIX + INCARNATION with the lease, if no other such key is there than its own; else `Taken`."""
    newest = alone(member, prefix, is_own)
    said = member.ask("kv/txn", {
        "compare": [*conditions, {**below(prefix), "target": "CREATE", "result": "LESS", "create_revision": str(newest + 1)}],
        "success": [{"request_put": {"key": coded(f"{prefix}{incarnation}"), "lease": lease}}],
        "failure": [{"request_range": {**below(prefix), "keys_only": True}}]})
    if not said.get("succeeded"):
        _newest(said["responses"][0]["response_range"].get("kvs", []), prefix, is_own)
        raise Lost("other", "it was replaced meanwhile")


def _newest(found: List[Answer], prefix: str, is_own: Callable[[int], bool]) -> int:
    others = [it for it in (int(decoded(it["key"])[len(prefix):]) for it in found) if not is_own(it)]
    if others:
        raise Taken(others[-1])
    return max((int(it["create_revision"]) for it in found), default=0)
