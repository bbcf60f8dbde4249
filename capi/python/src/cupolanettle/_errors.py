"""What calls are refused with."""

from __future__ import annotations

import enum
from typing import Dict, Type

from ._finding import native

if native is None:
    from ._library import name_of
else:
    name_of = native.name_of


class Code(enum.IntEnum):
    """The codes of the C library, by their names in ``clsm.h``.

    >>> Code.RUN_FULL == 18
    True
    """

    OK = 0
    NOT_FOUND = 1
    KEPT = 2
    DONE = 3
    IDLE = 4
    FULL = 8
    BUSY = 9
    RACED = 10
    OVERTAKEN = 11
    PINNED = 12
    CONFLICT = 13
    MEMORY = 16
    NO_SEAT = 17
    RUN_FULL = 18
    WORN = 19
    IN_USE = 20
    NO_THREAD = 21
    CLOSED = 22
    VERSIONS_FULL = 25
    OWN_SNAPSHOT = 26
    BAD_KEYS = 32
    BAD_EPOCH = 33
    BAD_PATIENCE = 34
    BAD_VALUE = 35
    BAD_BATCH = 36
    BAD_POINTER = 37
    BAD_BUILD = 38
    BAD_MERGE = 41
    EMPTY_BATCH = 42
    BAD_VERSIONS = 43
    BAD_WAIT = 44


# Plain numbers, for calls that compare them each time.
OK = int(Code.OK)
NOT_FOUND = int(Code.NOT_FOUND)
KEPT = int(Code.KEPT)
IDLE = int(Code.IDLE)


class Error(Exception):
    """The library refused a call, which has changed nothing.

    But :meth:`Store.put_many`, :meth:`Store.remove_range` and :meth:`Store.clear` have written, or
    removed, the first rows then, so many as ``written`` says.

    ``code`` says why; the text is its name. Some codes have classes of their own:
    :class:`RunFull`, :class:`VersionsFull`, :class:`OwnSnapshot`, :class:`NoSeat`,
    :class:`Conflict` and :class:`Closed`. The others are ``MEMORY`` (memory ran out), ``WORN`` (the
    times of writes end at 2**62), ``NO_THREAD`` (the system started no thread) and ``BAD_BUILD``
    (package and library do not fit).

    >>> error = Error(Code.MEMORY)
    >>> error.code, str(error)
    (16, 'no memory')
    """

    code: int
    written: int = 0

    def __init__(self, code: int) -> None:
        super().__init__(code)
        self.code = int(code)

    def __str__(self) -> str:
        return name_of(self.code)


class RunFull(Error):
    """More keys have a value than the store was opened for.

    Only writes of keys that have none raise it: writes of the others, and removals, are taken. Once
    keys were removed, the same write is taken, too.

    >>> with Store(keys=1, epoch=4) as store:
    ...     for key in range(100):
    ...         store[key] = 70
    Traceback (most recent call last):
    cupolanettle.RunFull: too many keys
    """


class VersionsFull(Error):
    """An open snapshot or scan keeps more old versions than the store has room for.

    Only writes raise it, once they have waited for that to be closed, for as long as ``wait`` of
    the store says. While no snapshot is open, a write always finds room.

    >>> with Store(keys=1, epoch=4, wait=0) as store:
    ...     try:
    ...         with store.snapshot():
    ...             while True:
    ...                 store[7] = 70
    ...     except VersionsFull:
    ...         store[7] = 71
    ...     store[7]
    71
    """


class OwnSnapshot(VersionsFull):
    """The same, and the thread that writes has such a snapshot or scan open itself.

    The write did not wait: it would wait for its own thread. So a loop that writes what it scans
    may raise it; :meth:`Store.walk` keeps no versions.

    >>> with Store(keys=1, epoch=4) as store, store.snapshot():
    ...     while True:
    ...         store[7] = 70
    Traceback (most recent call last):
    cupolanettle.OwnSnapshot: too many versions for the caller's own snapshot
    """


class NoSeat(Error):
    """The store has 64 seats, and all that are left are snapshots' and scans'.

    Each snapshot and each scan keeps one until it is closed: 47 may always be open at once, and
    some more while few threads call. Threads themselves need none; they wait for one another.

    >>> with Store() as store:
    ...     snapshots = [store.snapshot() for _ in range(64)]
    Traceback (most recent call last):
    cupolanettle.NoSeat: no seat: each snapshot and scan keeps one until it is closed
    """

    def __str__(self) -> str:
        return f"{super().__str__()}: each snapshot and scan keeps one until it is closed"


class Conflict(Error):
    """Others have changed what a transaction read. Nothing was written: run it again.

    >>> with Store() as store:
    ...     with store.transaction() as t:
    ...         t[7] = t.get(7, 0) + 1
    ...         store[7] = 70
    Traceback (most recent call last):
    cupolanettle.Conflict: conflict: what the transaction read has changed
    """

    def __init__(self, code: int = Code.CONFLICT) -> None:
        super().__init__(code)


class Closed(Error):
    """The store or the snapshot is closed.

    So are, in a child process, all those that were open when it was forked: the text says so. The
    code is ``BAD_POINTER``.

    >>> store = Store()
    >>> store.close()
    >>> store[7]
    Traceback (most recent call last):
    cupolanettle.Closed: closed
    """

    def __init__(self, code: int = Code.BAD_POINTER, why: str = "closed") -> None:
        super().__init__(code)
        self.args = code, why

    def __str__(self) -> str:
        return str(self.args[1])


_FORKED = "closed: it was opened before a fork; a child process opens stores of its own"

# A closed handle is a null pointer.
_CLASSES: Dict[int, Type[Error]] = {
    Code.RUN_FULL: RunFull,
    Code.VERSIONS_FULL: VersionsFull,
    Code.OWN_SNAPSHOT: OwnSnapshot,
    Code.NO_SEAT: NoSeat,
    Code.BAD_POINTER: Closed,
}


def error_of(code: int, is_forked: bool = False) -> Error:
    """The exception for a code of 8 or more."""
    if is_forked:
        return Closed(Code.BAD_POINTER, _FORKED)
    return _CLASSES.get(code, Error)(code)
