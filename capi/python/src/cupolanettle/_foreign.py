"""Stores and snapshots by ``ctypes``, where the C extension is not.

All threads share one caller for calls that never wait. Each of the others borrows one from a pool
while it runs: of the callers that open snapshots, that read, or that write. A thread that has a
snapshot open writes by the caller that opened it, so that the library knows. A caller follows what
the shared one has seen, and that one follows it: so nothing that a thread saw runs back.

No lock is held while another one is waited for, and those that a handler of a signal may find held
by its own thread let it in.
"""

from __future__ import annotations

import ctypes
import os
import sys
import threading
import time
import weakref
from typing import (
    Any,
    Dict,
    List,
    NoReturn,
    Optional,
    Sequence,
    Set,
    Tuple,
    TypeVar,
)

from . import _library as library
from ._errors import IDLE, KEPT, NOT_FOUND, OK, Code, error_of
from ._foreign_buffers import Into, batches_of
from ._foreign_values import (
    ROW,
    Page,
    array_of,
    many_of,
    packed,
    packed_or_none,
    page_of,
    row_of,
    value_of,
)
from ._handles import Alarm, Caller, Handle, Lease, Silent, View, prune, switch_off, thread_number
from ._values import Row, Value, key_of, word_of

# The callers of the pool, by their numbers. The first of each kind is always open.
_OPENERS = range(0, 4)
_READERS = range(4, 8)
_WRITERS = range(8, 16)
_KINDS = (_OPENERS, _READERS, _WRITERS)

Kind = TypeVar("Kind")

# Whether threads of Python run one at a time.
_HAS_LOCK: bool = getattr(sys, "_is_gil_enabled", lambda: True)()

# Refusals that the library counts, by their names in its statistics.
_COUNTED: Dict[int, str] = {
    Code.VERSIONS_FULL: "versions_full",
    Code.RUN_FULL: "run_full",
    Code.NO_SEAT: "no_seat",
}

_LONGEST_WAIT = 100  # milliseconds that a call waits for a snapshot to be closed
_SECOND = 1_000  # milliseconds
_PAUSE = 0.001  # seconds until somebody who waits looks again

_FEW_KEYS = 256  # that are read while the interpreter's lock is kept
_COUNT_SIZE = ctypes.sizeof(library.RangeCount)


def _add(references: Set[weakref.ref[Kind]], value: Kind) -> None:
    """Adds a reference, without those to what is gone, in steps that each leave the set whole."""
    prune(references)
    references.add(weakref.ref(value))


class Store:
    """An open store of the library, and its callers."""

    _alarm: object = Silent()

    def __init__(
        self,
        keys: int,
        epoch: int,
        patience: int,
        merge: int,
        versions: int,
        wait: int,
        source: Optional[Store] = None,
    ) -> None:
        self._closing = True  # until it is open
        self._is_forked = False
        self._views: Set[weakref.ref[View]] = set()
        self._callers: List[Optional[Caller]] = [None] * _WRITERS.stop
        self._renew_locks()
        self._handle = Handle(library.store_close_at)
        self._main = Caller(self._handle)
        self._wait = wait / _SECOND
        self._tried_again: Dict[int, int] = dict.fromkeys(_COUNTED, 0)
        wait = min(wait, _LONGEST_WAIT)
        options = library.Options(keys, epoch, patience, merge, versions, wait)
        _remember(self)
        address = self._handle._address
        if source is None:
            self._check(library.store_open(ctypes.byref(options), address))
        else:
            source._copy_into(options, address)
        self._check(library.caller_open(self._handle.pointer, self._main._address))
        for kind in _KINDS:
            self._open_caller(kind.start)
        self._closing = False
        self._alarm = Alarm()

    def _renew_locks(self) -> None:
        self._lock = threading.RLock()  # of the pool and of what is open
        self._main_lock = threading.RLock()
        self._handle_lock = threading.RLock()

    def _check(self, code: int) -> None:
        if code != OK:
            self._refuse(code)

    def _refuse(self, code: int) -> NoReturn:
        raise error_of(code, self._is_forked)

    def _exclusively(self, call: library.Call, *arguments: Any) -> int:
        """Makes a call that keeps the interpreter's lock, which keeps out all other threads."""
        if _HAS_LOCK:
            return call(*arguments)
        with self._main_lock:
            return call(*arguments)

    def _note_try(self, code: int) -> None:
        """Notes what the library refused, if that is tried again, as it counts that."""
        if code in self._tried_again:
            self._tried_again[code] += 1

    # ---- The pool

    def _open_caller(self, number: int) -> Optional[Caller]:
        """Opens a caller of the pool, if there is a seat."""
        caller = Caller(self._handle)
        code = library.caller_open(self._handle.pointer, caller._address)
        self._note_try(code)
        if code == Code.NO_SEAT:
            return None
        self._check(code)
        self._callers[number] = caller
        return caller

    def _take(self, lease: Lease, kind: Sequence[int]) -> Caller:
        """Borrows a caller; waits for one if all are in calls of other threads."""
        while True:
            with self._lock:
                if self._closing:
                    self._refuse(Code.BAD_POINTER)
                for number in kind:
                    caller = self._callers[number] or self._open_caller(number)
                    if caller is not None and not caller.is_of_others():
                        caller.lend(lease)
                        return caller
            time.sleep(_PAUSE)

    def _give_up_seats(self) -> None:
        """Closes callers that are in no call and opened no snapshot, for another snapshot."""
        with self._lock:
            kept = {kind.start for kind in _KINDS} | {view.opener for view in self._open_views()}
            for number, caller in enumerate(self._callers):
                if caller is not None and caller.user() is None and number not in kept:
                    self._callers[number] = None
                    caller.close()

    def _follow(self, caller: Caller, leader: Caller) -> int:
        return self._exclusively(library.follow, caller.pointer, library.seen(leader.pointer))

    def _call(self, kind: Sequence[int], call: library.Call, *arguments: Any) -> int:
        """Makes a call that may wait, by a caller of the pool."""
        lease = Lease()
        try:
            caller = self._take(lease, kind)
            self._check(self._follow(caller, self._main))
            code = call(caller.pointer, *arguments)
            self._follow(self._main, caller)
            return code
        finally:
            lease.is_over = True

    def _for_writing(self) -> Sequence[int]:
        """Who writes for this thread: the opener of a snapshot that it has open, or any writer."""
        thread = thread_number()
        for view in self._open_views():
            if view.thread == thread:
                return range(view.opener, view.opener + 1)
        return _WRITERS

    def _call_to_write(self, call: library.Call, *arguments: Any) -> int:
        """Makes a call that writes. While it waits for a snapshot to be closed, it comes back now
        and then, for handlers of signals and for other writers."""
        began = time.monotonic()
        while True:
            code = self._call(self._for_writing(), call, *arguments)
            if code != Code.VERSIONS_FULL or time.monotonic() - began >= self._wait:
                return code
            self._note_try(code)

    # ---- Reads

    def _get(self, key: int, default: object) -> Any:
        found = library.Value()
        return value_of(found) if self._look_up(key, found) else default

    def _has(self, key: int) -> bool:
        return self._look_up(key, None)

    def _look_up(self, key: int, found: Optional[library.Value]) -> bool:
        """Whether the key has a value, which goes where it was found."""
        number = key_of(key)
        code = self._exclusively(library.get, self._main.pointer, number, found)
        if code not in (OK, NOT_FOUND):
            self._refuse(code)
        return code == OK

    def _get_many(self, keys: List[int]) -> List[Optional[Value]]:
        numbers, values = many_of(keys)
        count = len(numbers)
        if count <= _FEW_KEYS:
            code = self._exclusively(library.get_few, self._main.pointer, numbers, count, values)
        else:
            code = self._call(_READERS, library.get_many, numbers, count, values)
        self._check(code)
        return [value_of(value) for value in values]

    def _get_into(
        self, keys: memoryview, values: memoryview, default: int, found: memoryview
    ) -> int:
        into = Into(keys, values, found)
        if into.count <= _FEW_KEYS:
            pointer = self._main.pointer
            code = self._exclusively(library.get_few, pointer, *into.arguments())
        else:
            code = self._call(_READERS, library.get_many, *into.arguments())
        self._check(code)
        return into.leave_words(default)

    def _end(self, first: int, last: int, falls: bool) -> Optional[Row]:
        """The row of the least key of the range, or of the greatest one."""
        row = library.Row()
        call = library.last if falls else library.first
        bounds = key_of(first), key_of(last)
        code = self._exclusively(call, self._main.pointer, *bounds, row)
        if code not in (OK, NOT_FOUND):
            self._refuse(code)
        return row_of(row)

    def _count(self, first: int, last: int) -> int:
        keys = ctypes.c_uint64()
        self._check(self._call(_READERS, library.count, first, last, ctypes.byref(keys)))
        return keys.value

    def _page(self, start: int, end_of_range: int, room: int, falls: bool) -> Page:
        """The first rows of the range, or the last ones by falling key, and the key of the next
        one if there are more."""
        rows = (library.Row * room)()
        end = library.PageEnd()
        call = library.page_down if falls else library.page
        pointer = self._main.pointer
        code = self._exclusively(call, pointer, start, end_of_range, rows, room, end)
        self._check(code)
        return page_of(rows, end)

    def _stats(self) -> Tuple[int, ...]:
        found = library.Statistics()
        with self._handle_lock:
            code = library.stats(self._handle.pointer, found)
        self._check(code)
        for refused, name in _COUNTED.items():
            setattr(found, name, getattr(found, name) - self._tried_again[refused])
        return tuple(getattr(found, name) for name, _ in found._fields_)

    # ---- Merging

    def _sweep(self) -> None:
        """Sweeps, with a caller lent to it, so that the store is closed after it. While a read
        holds what a merge replaced, it asks again."""
        code = self._call(_WRITERS, self._sweep_once)
        while code == Code.PINNED:
            time.sleep(_PAUSE)
            code = self._call(_WRITERS, self._sweep_once)
        if code != IDLE:
            self._check(code)

    def _sweep_once(self, _: object) -> int:
        code: int = library.sweep(self._handle.pointer)
        return code

    # ---- Copying

    def _copy_into(self, options: library.Options, address: object) -> None:
        """Opens a store with its rows there. A caller is lent to it, so that the store is closed
        after it."""

        def copy(_: object) -> int:
            pointer = self._handle.pointer
            code: int = library.store_copy(pointer, ctypes.byref(options), address)
            return code

        code = self._call(_READERS, copy)
        if code == Code.NO_SEAT:
            self._note_try(code)
            self._give_up_seats()
            code = self._call(_READERS, copy)
        self._check(code)

    # ---- Writes

    def _put(self, key: int, value: Value) -> None:
        number = key_of(key)
        words = array_of(value)
        self._write(library.PUT, number, words, len(words))

    def _remove(self, key: int) -> None:
        self._write(library.REMOVE, key_of(key))

    def _write(self, calls: library.WriteCalls, *arguments: Any) -> None:
        code = self._exclusively(calls.attempt, self._main.pointer, *arguments)
        if code != OK:  # it may be another one if the write waits
            self._note_try(code)
            self._check(self._call_to_write(calls.wait, *arguments))

    def _write_rows(self, rows: bytearray) -> None:
        """Writes a batch, and takes what it wrote out of it."""
        written = bytes(rows)
        count = len(written) // ROW.size
        copied = (library.Row * count).from_buffer_copy(written)
        self._check(self._call_to_write(library.batch, copied, count))
        if rows.startswith(written):  # a handler of a signal may have written or cleared them
            del rows[: len(written)]

    def _put_words(
        self, keys: memoryview, words: memoryview, room: int, written: List[int]
    ) -> None:
        """Writes batches of so many rows; the first item of the list tells how many were written."""
        for rows, count in batches_of(keys, words, room):
            self._check(self._call_to_write(library.batch, rows, count))
            written[0] += count

    def _write_if(self, expected: bytes, counts: bytes, rows: bytes) -> Optional[int]:
        """Writes rows if the conditions hold: the place of the first one that does not."""
        sizes = len(expected) // ROW.size, len(counts) // _COUNT_SIZE, len(rows) // ROW.size
        unmet = ctypes.c_size_t()
        code = self._call_to_write(
            library.batch_if,
            *((library.Row * sizes[0]).from_buffer_copy(expected), sizes[0]),
            *((library.RangeCount * sizes[1]).from_buffer_copy(counts), sizes[1]),
            *((library.Row * sizes[2]).from_buffer_copy(rows), sizes[2]),
            ctypes.byref(unmet),
        )
        if code not in (OK, KEPT):
            self._refuse(code)
        return unmet.value if code == KEPT else None

    def _remove_range(self, first: int, last: int, removed: List[int]) -> None:
        """Removes keys; the first item of the list tells how many. Made again it goes on."""

        def remove(caller: object) -> int:
            part = ctypes.c_uint64()
            code: int = library.remove_range(caller, first, last, ctypes.byref(part))
            removed[0] += part.value
            return code

        self._check(self._call_to_write(remove))

    def _change(self, call: library.Call, *arguments: Any) -> Tuple[bool, library.Changed]:
        """Whether the call has written, and what the key had and has."""
        changed = library.Changed()
        code = self._call_to_write(call, *arguments, changed)
        if code not in (OK, KEPT):
            self._refuse(code)
        return code == OK, changed

    def _add(self, key: int, by: int) -> int:
        is_written, changed = self._change(library.add, key_of(key), word_of(by))
        if not is_written:
            if changed.before.length > 1:
                raise ValueError("a tuple cannot be added to")
            raise OverflowError("the sum is greater than 2**64 - 1")
        total: int = changed.after.words[0]
        return total

    def _put_if_absent(self, key: int, value: Value) -> Any:
        _, changed = self._change(library.put_if_absent, key_of(key), packed(value))
        return value_of(changed.after)

    def _replace(
        self, key: int, expected: Optional[Value], desired: Optional[Value]
    ) -> Tuple[bool, Optional[Value], Optional[Value]]:
        """Whether it has written, and what the key had and has."""
        arguments = key_of(key), packed_or_none(expected), packed_or_none(desired)
        is_written, changed = self._change(library.replace, *arguments)
        return is_written, value_of(changed.before), value_of(changed.after)

    # ---- Snapshots

    def _open_view(self) -> View:
        view = View(self._handle)
        code = self._open_once(view)
        if code == Code.NO_SEAT:
            self._note_try(code)
            self._give_up_seats()
            code = self._open_once(view)
        self._check(code)
        return view

    def _open_views(self) -> List[View]:
        views = [reference() for reference in list(self._views)]
        return [view for view in views if view is not None and view.is_open()]

    def _open_once(self, view: View) -> int:
        lease = Lease()
        try:
            caller = self._take(lease, _OPENERS)
            self._check(self._follow(caller, self._main))
            _add(self._views, view)
            view.opener = self._callers.index(caller)
            code = library.snapshot_open(caller.pointer, view._address)
            self._follow(self._main, caller)
            return code
        finally:
            lease.is_over = True

    # ---- Closing

    def _is_open(self) -> bool:
        """Whether nobody has begun to close it."""
        return not self._closing

    def close(self) -> None:
        if self._is_forked:
            return
        with self._lock:
            self._closing = True
        self._close_views()  # for which writes may be waiting
        while any(caller is not None and caller.is_of_others() for caller in self._callers):
            time.sleep(_PAUSE)
        self._close_views()
        with self._lock:
            for caller in self._callers:
                if caller is not None:
                    caller.close()
        self._exclusively(library.caller_close_at, self._main._address)
        with self._handle_lock:
            if self._handle.pointer.value is not None:
                self._check(self._handle.close() or OK)
        switch_off(self._alarm)

    def _close_views(self) -> None:
        for reference in list(self._views):
            view = reference()
            if view is not None:
                view.close_after_calls()

    def _abandon(self) -> None:
        """Closes all without the library, in a child process, which has not its parent's locks."""
        was_open = not self._closing
        self._closing = True
        self._is_forked = was_open
        self._renew_locks()
        switch_off(self._alarm)
        for handle in [self._handle, self._main, *self._callers]:
            if handle is not None:
                handle.abandon()
        for reference in self._views:
            view = reference()
            if view is not None:
                view.abandon()
                view.lock = threading.RLock()

    def __enter__(self) -> Any:
        return self

    def __exit__(self, *_: object) -> None:
        self.close()


class Snapshot:
    """An open snapshot of the library."""

    def __init__(self, store: Store) -> None:
        self._store = store  # which would be closed if nothing referred to it
        self._view = view = store._open_view()
        with view.lock:
            if not view.is_open():
                store._refuse(Code.BAD_POINTER)
            self._time = library.snapshot_time(view.pointer)

    def _get(self, key: int, default: object) -> Any:
        found = library.Value()
        return value_of(found) if self._look_up(key, found) else default

    def _has(self, key: int) -> bool:
        return self._look_up(key, None)

    def _look_up(self, key: int, found: Optional[library.Value]) -> bool:
        number = key_of(key)
        view = self._view
        with view.lock:
            code = library.snapshot_get(view.pointer, number, found)
        if code not in (OK, NOT_FOUND):
            self._store._refuse(code)
        return code == OK

    def _get_many(self, keys: List[int]) -> List[Optional[Value]]:
        numbers, values = many_of(keys)
        view = self._view
        with view.lock:
            code = library.snapshot_get_many(view.pointer, numbers, len(numbers), values)
        self._store._check(code)
        return [value_of(value) for value in values]

    def _get_into(
        self, keys: memoryview, values: memoryview, default: int, found: memoryview
    ) -> int:
        into = Into(keys, values, found)
        view = self._view
        with view.lock:
            code = library.snapshot_get_many(view.pointer, *into.arguments())
        self._store._check(code)
        return into.leave_words(default)

    def _end(self, first: int, last: int, falls: bool) -> Optional[Row]:
        """The row of the least key of the range, or of the greatest one."""
        row = library.Row()
        call = library.snapshot_last if falls else library.snapshot_first
        bounds = key_of(first), key_of(last)
        view = self._view
        with view.lock:
            code = call(view.pointer, *bounds, row)
        if code not in (OK, NOT_FOUND):
            self._store._refuse(code)
        return row_of(row)

    def _count(self, first: int, last: int) -> int:
        keys = ctypes.c_uint64()
        view = self._view
        with view.lock:
            code = library.snapshot_count(view.pointer, first, last, ctypes.byref(keys))
        self._store._check(code)
        return keys.value

    def _page(self, start: int, end_of_range: int, room: int, falls: bool) -> Page:
        """The first rows of the range, or the last ones by falling key, and the key of the next
        one if there are more."""
        rows = (library.Row * room)()
        end = library.PageEnd()
        call = library.snapshot_page_down if falls else library.snapshot_page
        view = self._view
        with view.lock:
            code = call(view.pointer, start, end_of_range, rows, room, end)
        self._store._check(code)
        return page_of(rows, end)

    def close(self) -> None:
        self._view.close_after_calls()

    def __enter__(self) -> Any:
        return self

    def __exit__(self, *_: object) -> None:
        self.close()


# ---- Forks

_stores: Set[weakref.ref[Store]] = set()


def _remember(store: Store) -> None:
    _add(_stores, store)


def _abandon_all() -> None:
    for reference in list(_stores):
        store = reference()
        if store is not None:
            store._abandon()


os.register_at_fork(after_in_child=_abandon_all)
