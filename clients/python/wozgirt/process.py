"""What belongs to one process: a child that came over a fork cannot use it."""

from __future__ import annotations

import os
import weakref
from typing import Callable, List

from .lines import Inherited

_ALL: "weakref.WeakSet[OfOneProcess]" = weakref.WeakSet()
#: What else a child does at its begin.
IN_CHILD: List[Callable[[], None]] = []


class OfOneProcess:
    """A connection of this process. A child's copy of it is closed at its begin, so that the connection ends with the parent."""

    def __init__(self) -> None:
        self._process = os.getpid()
        _ALL.add(self)

    @property
    def _is_inherited(self) -> bool:
        return os.getpid() != self._process

    def _refuse_a_child(self) -> None:
        """Raises `Inherited` in a child."""
        if os.getpid() != self._process:
            self._close_copy()
            raise Inherited("this client came over a fork: it is its parent's, and a child makes one of its own")

    def _close_copy(self) -> None:
        """Closes this process's copy of the connection, which stays open for the parent."""
        raise NotImplementedError


def _begin_child() -> None:
    for it in list(_ALL):
        it._close_copy()
    _ALL.clear()
    for do in IN_CHILD:
        do()


os.register_at_fork(after_in_child=_begin_child)
