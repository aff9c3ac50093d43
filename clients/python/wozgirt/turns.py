"""One call at a time, whatever breaks it off: the turns of a client's threads with its connection."""

from __future__ import annotations

import inspect
import itertools
import os
import threading
import time
from typing import Callable, List, NoReturn, Optional, TypeVar

from .process import OfOneProcess
from .wire import Late, Wire

Result = TypeVar("Result")


class Turns(OfOneProcess):
    """A connection that one thread has at a time. Before and after each turn, what a call that was broken off has left is put in
    order by `_settle` and `_clean_up`, unless it `_is_quiet`."""

    def __init__(self, wire: Wire):
        super().__init__()
        self._wire = wire
        self._mutex = threading.RLock()
        self._caller: Optional[int] = None  # the thread whose turn it is
        self._lost: Optional[str] = None  # why the connection is over

    def _close_copy(self) -> None:
        self._lost = "this client is that of the parent"
        self._wire.close()

    def _refuse_misuse(self) -> None:
        if os.getpid() != self._process:
            self._refuse_a_child()
        if self._caller == threading.get_ident():
            if self._is_within_a_call():
                raise RuntimeError("a call of this client is at work in this thread: a signal handler can only check or close it")
            self._end_turn([True])  # its end was broken off twice
            self._lose("a call was broken off twice")

    def _is_within_a_call(self) -> bool:
        frame = inspect.currentframe()
        while frame is not None and not (frame.f_code is Turns._in_turn.__code__ and frame.f_locals.get("self") is self):
            frame = frame.f_back
        return frame is not None

    def _in_turn(self, do: Callable[[], Result], until: Optional[float] = None) -> Result:
        """Does it when it is this thread's turn with the connection; Late if that does not come by then. What a call that was broken
        off has left is put in order after it, or before the next one."""
        taken: List[Optional[bool]] = []
        left = -1.0 if until is None else min(threading.TIMEOUT_MAX, max(0.0, until - time.monotonic()))
        try:
            taken.extend(map(self._mutex.acquire, (True,), (left,)))  # in one step for signal handlers, see Wire
            if not taken[0]:
                raise Late
            self._caller = threading.get_ident()
            if not self._is_quiet():
                self._settle(until)
            return do()
        except BaseException:
            if taken and taken[0]:
                try:
                    self._clean_up()
                except BaseException:
                    self._give_up("a call was broken off twice")
                    raise
            raise
        finally:
            try:
                self._end_turn(taken)
            except BaseException:
                self._end_turn(taken)
                raise

    def _end_turn(self, taken: List[Optional[bool]]) -> None:
        """Lets others have the mutex, if it was taken. If this is broken off, it can be called again."""
        if len(taken) == 1 and taken[0]:
            self._caller = None
            if self._lost is not None:
                self._wire.close()
            taken.extend(itertools.starmap(self._mutex.release, ((),)))

    def _look_if_free(self) -> None:
        taken: List[Optional[bool]] = []
        try:
            taken.extend(map(self._mutex.acquire, (False,)))
            if taken[0] and self._lost is None:
                self._look()
        finally:
            try:
                self._end_turn(taken)
            except BaseException:
                self._end_turn(taken)
                raise

    def _is_quiet(self) -> bool:
        raise NotImplementedError

    def _settle(self, until: Optional[float]) -> None:
        raise NotImplementedError

    def _clean_up(self) -> None:
        raise NotImplementedError

    def _give_up(self, why: str) -> str:
        raise NotImplementedError

    def _look(self) -> None:
        raise NotImplementedError

    def _lose(self, why: str) -> NoReturn:
        raise NotImplementedError
