"""Which locks this program holds by `Lock` objects: one that asks for what it holds itself would wait for itself, for ever."""

from __future__ import annotations

import asyncio
import os
import threading
import weakref
from typing import Iterable, List, Optional, Tuple, Union

from .lines import Holds
from .process import IN_CHILD

Server = Union[str, Tuple[str, int]]


class Hold:
    """A hold of a `Lock` object by this thread, and its task if it has one, as long as the object has this."""

    def __init__(self, owner: object, servers: Iterable[Server], name: str):
        self.owner, self.thread, self.task = weakref.ref(owner), threading.current_thread(), _task()
        for key in _keys(servers, name):
            _HOLDS[key] = self


_HOLDS: "weakref.WeakValueDictionary[Tuple[Server, str], Hold]" = weakref.WeakValueDictionary()
IN_CHILD.append(_HOLDS.clear)


def _task() -> "Optional[asyncio.Task[object]]":
    try:
        return asyncio.current_task()
    except RuntimeError:
        return None  # no loop runs in this thread


def _keys(servers: Iterable[Server], name: str) -> "List[Tuple[Server, str]]":
    return [(server if isinstance(server, tuple) else os.path.realpath(server), name) for server in servers]


def refuse(servers: Iterable[Server], name: str, is_task: bool) -> None:
    """Raises `Holds` if the caller holds the lock. A thread that waits keeps all of its tasks from giving back what they hold; a
    task that waits keeps only itself from it, and what called its loop."""
    for key in _keys(servers, name):
        hold = _HOLDS.get(key)
        if hold is None or hold.thread is not threading.current_thread() or not getattr(hold.owner(), "locked", False):
            continue
        if not is_task or hold.task is None or hold.task is _task():
            raise Holds("holds", name)
