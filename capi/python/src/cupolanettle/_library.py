"""The C library by ``ctypes``: what its header, ``clsm.h``, declares.

Calls that never wait and are short keep the interpreter's lock (``PyDLL``): to release it would
take longer. All others release it (``CDLL``).
"""

from __future__ import annotations

import ctypes
from ctypes import POINTER, c_bool, c_char_p, c_int, c_int64, c_size_t, c_uint64, c_void_p
from typing import Any, Callable, Dict, NamedTuple, Sequence, Tuple

from ._finding import VERSION, find_library

Call = Callable[..., int]


# ---- Types of the header


class Value(ctypes.Structure):
    """The first ``length`` of the words; no value if that is 0."""

    length: int
    words: ctypes.Array[c_uint64]
    _fields_ = [("length", c_uint64), ("words", c_uint64 * 8)]


class Row(ctypes.Structure):
    """A key and its value."""

    key: int
    value: Value
    _fields_ = [("key", c_uint64), ("value", Value)]


class Changed(ctypes.Structure):
    """The value of a key before a call and after it."""

    before: Value
    after: Value
    _fields_ = [("before", Value), ("after", Value)]


class PageEnd(ctypes.Structure):
    """How many rows a page has, and the key of the row behind them if there are more."""

    rows: int
    next: int
    more: bool
    _fields_ = [("rows", c_uint64), ("next", c_uint64), ("more", c_bool)]


class RangeCount(ctypes.Structure):
    """A range, and how many of its keys are to have a value."""

    _fields_ = [("first", c_uint64), ("last", c_uint64), ("keys", c_uint64)]


class Options(ctypes.Structure):
    """How to open a store; 0 leaves a choice to the library."""

    _fields_ = [
        ("keys", c_size_t),
        ("epoch", c_size_t),
        ("patience", c_int),
        ("merge", c_int),
        ("versions", c_size_t),
        ("wait", c_int64),
        ("zero", c_uint64 * 2),
    ]


class Statistics(ctypes.Structure):
    """What a store tells of itself."""

    _fields_ = [
        ("bytes", c_uint64),
        ("callers", c_uint64),
        ("snapshots", c_uint64),
        ("scans", c_uint64),
        ("oldest_time", c_uint64),
        ("oldest_age", c_uint64),
        ("clock", c_uint64),
        ("epoch_writes", c_uint64),
        ("level_zero", c_uint64),
        ("level_one", c_uint64),
        ("room_for_keys", c_uint64),
        ("room_for_versions", c_uint64),
        ("merges", c_uint64),
        ("last_merge", c_uint64),
        ("longest_merge", c_uint64),
        ("waits", c_uint64),
        ("longest_wait", c_uint64),
        ("run_full", c_uint64),
        ("versions_full", c_uint64),
        ("no_seat", c_uint64),
    ]


# ---- Calls of the header: what they answer, and their parameters

# Stores, callers and snapshots are pointers to what only the library knows.
_HANDLE = c_void_p
_WORDS = POINTER(c_uint64)

DECLARED: Dict[str, Tuple[Any, Sequence[Any]]] = {
    "clsm_version": (c_char_p, []),
    "clsm_strerror": (c_char_p, [c_int]),
    "clsm_open": (c_int, [POINTER(Options), POINTER(_HANDLE)]),
    "clsm_copy": (c_int, [_HANDLE, POINTER(Options), POINTER(_HANDLE)]),
    "clsm_close_at": (c_int, [POINTER(_HANDLE)]),
    "clsm_stats": (c_int, [_HANDLE, POINTER(Statistics)]),
    "clsm_sweep": (c_int, [_HANDLE]),
    "clsm_caller_open": (c_int, [_HANDLE, POINTER(_HANDLE)]),
    "clsm_caller_close_at": (None, [POINTER(_HANDLE)]),
    "clsm_seen": (c_uint64, [_HANDLE]),
    "clsm_follow": (c_int, [_HANDLE, c_uint64]),
    "clsm_put": (c_int, [_HANDLE, c_uint64, _WORDS, c_size_t]),
    "clsm_remove": (c_int, [_HANDLE, c_uint64]),
    "clsm_try_put": (c_int, [_HANDLE, c_uint64, _WORDS, c_size_t]),
    "clsm_try_remove": (c_int, [_HANDLE, c_uint64]),
    "clsm_get": (c_int, [_HANDLE, c_uint64, POINTER(Value)]),
    "clsm_get_many": (c_int, [_HANDLE, _WORDS, c_size_t, POINTER(Value)]),
    "clsm_count": (c_int, [_HANDLE, c_uint64, c_uint64, _WORDS]),
    "clsm_page": (
        c_int,
        [_HANDLE, c_uint64, c_uint64, POINTER(Row), c_size_t, POINTER(PageEnd)],
    ),
    "clsm_page_down": (
        c_int,
        [_HANDLE, c_uint64, c_uint64, POINTER(Row), c_size_t, POINTER(PageEnd)],
    ),
    "clsm_first": (c_int, [_HANDLE, c_uint64, c_uint64, POINTER(Row)]),
    "clsm_last": (c_int, [_HANDLE, c_uint64, c_uint64, POINTER(Row)]),
    "clsm_snapshot_open": (c_int, [_HANDLE, POINTER(_HANDLE)]),
    "clsm_snapshot_close_at": (None, [POINTER(_HANDLE)]),
    "clsm_snapshot_time": (c_uint64, [_HANDLE]),
    "clsm_snapshot_get": (c_int, [_HANDLE, c_uint64, POINTER(Value)]),
    "clsm_snapshot_get_many": (c_int, [_HANDLE, _WORDS, c_size_t, POINTER(Value)]),
    "clsm_snapshot_count": (c_int, [_HANDLE, c_uint64, c_uint64, _WORDS]),
    "clsm_snapshot_page": (
        c_int,
        [_HANDLE, c_uint64, c_uint64, POINTER(Row), c_size_t, POINTER(PageEnd)],
    ),
    "clsm_snapshot_page_down": (
        c_int,
        [_HANDLE, c_uint64, c_uint64, POINTER(Row), c_size_t, POINTER(PageEnd)],
    ),
    "clsm_snapshot_first": (c_int, [_HANDLE, c_uint64, c_uint64, POINTER(Row)]),
    "clsm_snapshot_last": (c_int, [_HANDLE, c_uint64, c_uint64, POINTER(Row)]),
    "clsm_add": (c_int, [_HANDLE, c_uint64, c_uint64, POINTER(Changed)]),
    "clsm_put_if_absent": (c_int, [_HANDLE, c_uint64, POINTER(Value), POINTER(Changed)]),
    "clsm_replace": (
        c_int,
        [_HANDLE, c_uint64, POINTER(Value), POINTER(Value), POINTER(Changed)],
    ),
    "clsm_batch": (c_int, [_HANDLE, POINTER(Row), c_size_t]),
    "clsm_batch_if": (
        c_int,
        [
            *(_HANDLE, POINTER(Row), c_size_t, POINTER(RangeCount), c_size_t),
            *(POINTER(Row), c_size_t, POINTER(c_size_t)),
        ],
    ),
    "clsm_remove_range": (c_int, [_HANDLE, c_uint64, c_uint64, _WORDS]),
}


# ---- Loading


def _bind(library: ctypes.CDLL, name: str) -> Any:
    """The call of this name, which the library must have."""
    try:
        function = getattr(library, name)
    except AttributeError as error:
        raise ImportError(f"{PATH} has no {name}") from error
    function.restype, function.argtypes = DECLARED[name]
    return function


PATH = find_library()
try:
    _releasing = ctypes.CDLL(PATH)
    _keeping = ctypes.PyDLL(PATH)
except OSError as error:
    raise ImportError(f"{PATH} cannot be loaded: {error}") from error


def _text(answer: bytes) -> str:
    return answer.decode("ascii")


_version = _text(_bind(_keeping, "clsm_version")())
if _version != VERSION:
    raise ImportError(f"{PATH} is of version {_version}; this package needs {VERSION}")

_strerror = _bind(_keeping, "clsm_strerror")


def name_of(code: int) -> str:
    """The name of a code in a few words."""
    return _text(_strerror(code))


# ---- The calls


class WriteCalls(NamedTuple):
    """The two calls that make a write: one tries once, one waits."""

    attempt: Call
    wait: Call


store_open: Call = _bind(_releasing, "clsm_open")
store_copy: Call = _bind(_releasing, "clsm_copy")
store_close_at: Call = _bind(_releasing, "clsm_close_at")
stats: Call = _bind(_releasing, "clsm_stats")
sweep: Call = _bind(_releasing, "clsm_sweep")
caller_open: Call = _bind(_releasing, "clsm_caller_open")
caller_close_at: Call = _bind(_keeping, "clsm_caller_close_at")
seen: Call = _bind(_keeping, "clsm_seen")
follow: Call = _bind(_keeping, "clsm_follow")

get: Call = _bind(_keeping, "clsm_get")
page: Call = _bind(_keeping, "clsm_page")  # of few rows
page_down: Call = _bind(_keeping, "clsm_page_down")
first: Call = _bind(_keeping, "clsm_first")
last: Call = _bind(_keeping, "clsm_last")
get_few: Call = _bind(_keeping, "clsm_get_many")
get_many: Call = _bind(_releasing, "clsm_get_many")
count: Call = _bind(_releasing, "clsm_count")
PUT = WriteCalls(_bind(_keeping, "clsm_try_put"), _bind(_releasing, "clsm_put"))
REMOVE = WriteCalls(_bind(_keeping, "clsm_try_remove"), _bind(_releasing, "clsm_remove"))
add: Call = _bind(_releasing, "clsm_add")
put_if_absent: Call = _bind(_releasing, "clsm_put_if_absent")
replace: Call = _bind(_releasing, "clsm_replace")
batch: Call = _bind(_releasing, "clsm_batch")
batch_if: Call = _bind(_releasing, "clsm_batch_if")
remove_range: Call = _bind(_releasing, "clsm_remove_range")

snapshot_open: Call = _bind(_releasing, "clsm_snapshot_open")
snapshot_close_at: Call = _bind(_keeping, "clsm_snapshot_close_at")
snapshot_time: Call = _bind(_keeping, "clsm_snapshot_time")
snapshot_get: Call = _bind(_keeping, "clsm_snapshot_get")
snapshot_count: Call = _bind(_releasing, "clsm_snapshot_count")
snapshot_page: Call = _bind(_releasing, "clsm_snapshot_page")
snapshot_page_down: Call = _bind(_releasing, "clsm_snapshot_page_down")
snapshot_first: Call = _bind(_keeping, "clsm_snapshot_first")
snapshot_last: Call = _bind(_keeping, "clsm_snapshot_last")
snapshot_get_many: Call = _bind(_releasing, "clsm_snapshot_get_many")
