"""Which servers of a lock service are alive, and since when others are not."""

from __future__ import annotations

import threading
import time
from typing import Callable, Dict, Optional, Set, Tuple


class Crowd:
    """Which servers are alive, for several threads. `tell` gets a line as soon as that changes."""

    def __init__(self, tell: Callable[[str], None], own: str):
        self._tell, self._own, self._mutex = tell, own, threading.Lock()
        self._alive: Set[str] = set()
        self._told: Optional[Set[str]] = None
        self._has_left, self._begun = False, time.monotonic()
        self._seen: Dict[str, float] = {}

    def leave(self) -> None:
        """This server is not alive any more."""
        with self._mutex:
            self._has_left = True
        self.tell()

    def set(self, alive: Set[str]) -> None:
        """These are alive."""
        now = time.monotonic()
        with self._mutex:
            self._seen.update((who.split(":")[0], now) for who in self._alive | alive)
            self._alive = set(alive)
        self.tell()

    def change(self, who: str, is_there: bool) -> None:
        """This one is alive, or no longer."""
        self.set(self._alive | {who} if is_there else self._alive - {who})

    def tell(self) -> None:
        """Reports which servers are alive, if that has changed since the last report."""
        with self._mutex:
            alive = self._alive - ({self._own} if self._has_left else set())
            if alive == self._told:
                return
            self._told = alive
            self._tell(" ".join(["alive", *sorted(alive, key=by_number)]))

    def away(self, name: str) -> float:
        """For how many seconds this host has no server that is alive."""
        with self._mutex:
            if any(who.split(":")[0] == name for who in self._alive):
                return 0.0
            return time.monotonic() - self._seen.get(name, self._begun)


def by_number(who: str) -> Tuple[str, int]:
    """How NAME:INCARNATION are sorted."""
    name, _, incarnation = who.partition(":")
    return name, int(incarnation)
