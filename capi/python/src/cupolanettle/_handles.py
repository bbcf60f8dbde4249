"""Open handles of the library, as ``ctypes`` has them.

An interrupt, which is an exception out of a signal's handler, may come between any two steps of
Python. So the library writes a handle into memory that an object owns already, and closing it and
setting the memory to null is one call. What nothing refers to any more is closed by a weak
reference whose callback is a call of the library: an interrupt in a callback of Python would be
swallowed.
"""

from __future__ import annotations

import ctypes
import sys
import threading
import warnings
import weakref
from itertools import count, filterfalse
from typing import Any, Callable, Optional, Set

from . import _library as library

_LEAST_PRUNED = 64


class _Closer(weakref.ref):  # type: ignore[type-arg]
    """Calls the library with its parameter once the handle is gone."""

    _as_parameter_: Any = None


def prune(references: Set[Any]) -> None:
    """Takes out references to what is gone, in one step."""
    references.difference_update(filterfalse(weakref.ref.__call__, list(references)))


# A weak reference that is collected together with its object calls nothing.
_closers: Set[_Closer] = set()
_pruned_at = _LEAST_PRUNED


def _keep(closer: _Closer) -> None:
    global _pruned_at
    _closers.add(closer)
    if len(_closers) > _pruned_at:
        prune(_closers)
        _pruned_at = 2 * len(_closers) + _LEAST_PRUNED


class Handle:
    """Memory for a handle, and what keeps that open which is to be closed after it."""

    __slots__ = ("pointer", "_address", "_below", "_closer", "_closes", "__weakref__")

    def __init__(self, closes: library.Call, below: Optional[Handle] = None) -> None:
        self.pointer = ctypes.c_void_p()
        self._address: Any = ctypes.byref(self.pointer)
        self._below = below
        self._closes = closes
        closer = _Closer(self, closes)
        closer._as_parameter_ = self._address
        self._closer = closer
        _keep(closer)

    def close(self) -> Optional[int]:
        """Closes it, unless it is closed, and sets it to null: the library's answer."""
        return self._closes(self._address)

    def abandon(self) -> None:
        """Leaves it as it is, in a child process."""
        self.pointer.value = None


# ---- Threads

_local = threading.local()
_numbers = count()


def thread_number() -> int:
    """A number that no other thread has, nor will have."""
    try:
        number: int = _local.number
    except AttributeError:
        number = _local.number = next(_numbers)
    return number


class Lease:
    """A call that has a caller: it is over if it says so, or when nothing refers to it."""

    __slots__ = ("is_over", "thread", "__weakref__")

    def __init__(self) -> None:
        self.is_over = False
        self.thread = thread_number()


class Caller(Handle):
    """A caller, and the call that has it."""

    __slots__ = ("_lease",)

    def __init__(self, below: Handle) -> None:
        super().__init__(library.caller_close_at, below)
        self._lease: Optional[weakref.ref[Lease]] = None

    def lend(self, lease: Lease) -> None:
        self._lease = weakref.ref(lease)

    def user(self) -> Optional[Lease]:
        """The call that has it, if one does."""
        lease = self._lease() if self._lease is not None else None
        return None if lease is None or lease.is_over else lease

    def is_of_others(self) -> bool:
        """Whether a call of another thread has it. One of this thread is between two steps."""
        user = self.user()
        return user is not None and user.thread != thread_number()


class View(Handle):
    """A snapshot, its thread, and the number of the caller that opened it."""

    __slots__ = ("lock", "opener", "thread")

    def __init__(self, below: Handle) -> None:
        super().__init__(library.snapshot_close_at, below)
        self.lock = threading.RLock()
        self.opener = 0
        self.thread = thread_number()

    def close_after_calls(self) -> None:
        """Closes it after the call that is running on it."""
        with self.lock:
            self.close()

    def is_open(self) -> bool:
        return self.pointer.value is not None


# ---- Stores that are given up


class Silent:
    """An alarm that was switched off."""

    __slots__ = ()


class Alarm:
    """Warns when a store is given up that was not closed."""

    __slots__ = ()

    def __del__(self, is_finalizing: Callable[[], bool] = sys.is_finalizing) -> None:
        if not is_finalizing():
            warnings.warn("a Store was not closed", ResourceWarning)


def switch_off(alarm: object) -> None:
    """From now on no step of Python comes with its end."""
    if type(alarm) is Alarm:
        alarm.__class__ = Silent  # type: ignore[assignment]
