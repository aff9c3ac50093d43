"""The library of rings, by ctypes: its structs, its functions, and where it is found."""

from __future__ import annotations

import ctypes
import functools
import operator
import os
from ctypes import POINTER, Structure, c_char_p, c_size_t, c_uint8, c_uint32, c_uint64, c_void_p
from typing import Iterable, SupportsIndex, Tuple, Union

#: The version that this package is written for, as `wozgirt_version` has it. Patches of it serve too.
VERSION = 100
#: The name of the library, beside this file in a wheel, and for the loader of the system.
NAME = "libwozgirt.so.0"

Text = Union[bytes, bytearray, memoryview]


class RawRing(Structure):
    """`struct wozgirt_ring`."""

    _fields_ = [("at", c_void_p)]


class RawAnswer(Structure):
    """`struct wozgirt_answer`."""

    _fields_ = [("position", c_uint64), ("number", c_uint64), ("result", c_uint64)]


class RawGroup(Structure):
    """`struct wozgirt_group`."""

    _fields_ = [("first", c_uint64), ("number", c_uint64), ("result", c_uint64), ("count", c_uint32), ("machine", c_uint32)]


class RawSight(Structure):
    """`struct wozgirt_sight`."""

    _fields_ = [("position", c_uint64), ("calm", c_uint64), ("rest", c_uint64), ("privileged", c_uint32), ("first", c_uint32)]


class RawSums(Structure):
    """`struct wozgirt_sums`."""

    _fields_ = [(name, c_uint64) for name in ("events", "granted", "corrupted", "surveys", "line")] + [("rings", c_uint32)]


class RawEvent(Structure):
    """`struct wozgirt_event`."""

    _fields_ = ([(name, c_uint64) for name in ("order", "number", "result")]
                + [(name, c_uint32) for name in ("kind", "seat", "machine", "value")])


class RawLocks(Structure):
    """`struct wozgirt_locks`."""

    _fields_ = [("at", c_void_p)]


class RawHold(Structure):
    """`struct wozgirt_hold`."""

    _fields_ = [("token", c_uint64), ("ahead", c_uint64)]


class RawGrant(Structure):
    """`struct wozgirt_grant`."""

    _fields_ = [("client", c_uint64), ("token", c_uint64), ("lock", c_uint32)]


def _declare(library: ctypes.CDLL) -> None:
    ring, locks, numbers = POINTER(RawRing), POINTER(RawLocks), POINTER(c_uint32)
    opens = [ring, c_uint32, c_uint32, numbers, c_size_t, c_uint32]
    passes = [ring, c_uint32, c_uint32, c_uint64, POINTER(RawAnswer)]
    texts = [ring, POINTER(c_uint8), c_size_t, POINTER(c_uint64)]
    asks = [locks, c_uint64, c_uint32, c_uint64, POINTER(RawHold)]
    for name, answers, takes in [
        ("open", c_uint32, opens),
        ("open_idle", c_uint32, opens),
        ("open_saved", c_uint32, [ring, c_char_p, c_size_t, c_uint32, c_uint32, POINTER(RawSums)]),
        ("pass", c_uint32, passes),
        ("try", c_uint32, passes),
        ("pass_group", c_uint32, [ring, c_uint32, numbers, c_size_t, c_uint64, POINTER(RawGroup)]),
        ("corrupt", c_uint32, [ring, c_uint32, c_uint32, c_uint32, POINTER(RawAnswer)]),
        ("survey", c_uint32, [ring, c_uint32, POINTER(RawSight)]),
        ("glance", c_uint32, [ring, POINTER(RawSight)]),
        ("history_length", c_uint32, [ring, POINTER(c_uint64)]),
        ("events_before", c_uint32, [ring, POINTER(c_uint64)]),
        ("event_at", c_uint32, [ring, c_uint64, POINTER(RawEvent)]),
        ("save", c_uint32, texts),
        ("open_journal", c_uint32, texts),
        ("take_journal", c_uint32, texts),
        ("cut", c_uint32, texts),
        ("open_segment", c_uint32, [ring, c_char_p, c_size_t, c_uint32, POINTER(c_uint64)]),
        ("close", None, [ring]),
        ("check", c_uint32, [c_char_p, c_size_t, POINTER(RawSums)]),
        ("locks_open", c_uint32, [locks, c_uint32, c_uint32]),
        ("locks_acquire", c_uint32, asks),
        ("locks_try", c_uint32, asks),
        ("locks_release", c_uint32, [locks, c_uint64, c_uint32, c_uint64]),
        ("locks_cancel", c_uint32, [locks, c_uint64, c_uint32]),
        ("locks_leave", c_uint32, [locks, c_uint64]),
        ("locks_next", c_uint32, [locks, POINTER(RawGrant)]),
        ("locks_cut", c_uint32, [locks]),
        ("locks_close", None, [locks]),
    ]:
        function = getattr(library, f"wozgirt_{name}")
        function.restype, function.argtypes = answers, takes


def place() -> str:
    """The library that is loaded: the one that WOZGIRT_LIBRARY names, that of the wheel, or the system's."""
    named = os.environ.get("WOZGIRT_LIBRARY")
    if named:
        return named
    beside = os.path.join(os.path.dirname(os.path.abspath(__file__)), NAME)
    return beside if os.path.exists(beside) else NAME


@functools.lru_cache(maxsize=None)
def load() -> ctypes.CDLL:
    """The library, loaded once. `ImportError` if there is none, or one of another version."""
    path = place()
    try:
        library = ctypes.CDLL(path)
        version = library.wozgirt_version
    except (OSError, AttributeError) as fault:
        raise ImportError(f"no library of rings: {fault}; WOZGIRT_LIBRARY may name it", path=path) from fault
    version.restype, version.argtypes = c_uint32, []
    if version() // 100 != VERSION // 100:
        raise ImportError(f"{path} is of version {version()}, and this package needs {VERSION}", path=path)
    _declare(library)
    return library


def number(given: SupportsIndex, bits: int, what: str) -> int:
    """The number, if that many bits hold it. ctypes would cut it off; and no seat is `True`."""
    if isinstance(given, bool):
        raise TypeError(f"{what} is a number, and no bool")
    it = operator.index(given)
    if not 0 <= it < 1 << bits:
        raise ValueError(f"{what} is not 0 to 2 ** {bits} - 1: {it}")
    return it


def numbers(given: Iterable[SupportsIndex], what: str) -> Tuple[ctypes.Array[c_uint32], int]:
    """The numbers for the library, and how many they are; for none, an address that is not null."""
    checked = [number(it, 32, what) for it in given]
    return (c_uint32 * max(1, len(checked)))(*checked), len(checked)


def text_of(given: Text) -> bytes:
    """The bytes of a text. What somebody could write meanwhile is copied, since the library reads it with no lock of Python's."""
    return given if isinstance(given, bytes) else memoryview(given).tobytes()
