"""Snapshots."""

from __future__ import annotations

from typing import Any, ItemsView, Iterator, KeysView, Mapping, Optional, Tuple, ValuesView

from . import _core as core
from ._errors import Closed
from ._reading import Reader, Rows
from ._values import K, V

# Short scans read little, long ones make few calls.
FIRST_ROOM = 64
GREATEST_ROOM = 1_024


class Keys(KeysView[K]):
    """The keys of a snapshot."""

    _mapping: Snapshot[K, Any]

    def __reversed__(self) -> Iterator[K]:
        return reversed(self._mapping)


class Items(ItemsView[K, V]):
    """The rows of a snapshot."""

    _mapping: Snapshot[K, V]

    def __iter__(self) -> Iterator[Tuple[K, V]]:
        return self._mapping.scan()

    def __reversed__(self) -> Iterator[Tuple[K, V]]:
        return self._mapping.scan(reverse=True)


class Values(ValuesView[V]):
    """The values of a snapshot."""

    _mapping: Snapshot[Any, V]

    def __iter__(self) -> Iterator[V]:
        return (value for _, value in self._mapping.scan())

    def __reversed__(self) -> Iterator[V]:
        return (value for _, value in self._mapping.scan(reverse=True))


class Snapshot(core.Snapshot, Reader[K, V], Mapping[K, V]):
    """The map as it was when the snapshot was opened, by :meth:`Store.snapshot`.

    It is a ``collections.abc.Mapping``, by rising key, which is read by any thread while threads
    write beside it. ``len`` visits all keys, and ``==`` all rows. It keeps one of
    the store's 64 seats. Use it with ``with``, or close it: while it is open, the store keeps all
    versions that it may read. It is also closed with its store, or when nothing refers to it, nor
    to a scan of it.

    >>> with Store() as store:
    ...     store[7] = 70
    ...     with store.snapshot() as snapshot:
    ...         store[7] = 71
    ...         snapshot[7], store[7], dict(snapshot), snapshot == {7: 70}
    (70, 71, {7: 70}, True)
    """

    __hash__ = object.__hash__

    # ---- As a mapping

    def __iter__(self) -> Iterator[K]:
        """The keys, by rising key."""
        return (key for key, _ in self.scan())

    def __reversed__(self) -> Iterator[K]:
        """The keys, by falling key.

        >>> with Store() as store:
        ...     store.update({7: 70, 3: 30})
        ...     with store.snapshot() as snapshot:
        ...         list(reversed(snapshot)), list(reversed(snapshot.items()))
        ([7, 3], [(7, 70), (3, 30)])
        """
        return (key for key, _ in self.scan(reverse=True))

    def __len__(self) -> int:
        """How many keys have a value; visits all of them."""
        return self.count()

    def __bool__(self) -> bool:
        """Whether a key has a value."""
        return next(self.scan(), None) is not None

    def keys(self) -> Keys[K]:
        """The keys, by rising key: a view that can be gone over again, and reversed.

        >>> with Store() as store:
        ...     store.update({7: 70, 3: 30})
        ...     with store.snapshot() as snapshot:
        ...         list(snapshot.keys()), list(reversed(snapshot.keys()))
        ([3, 7], [7, 3])
        """
        return Keys(self)

    def items(self) -> Items[K, V]:
        """The rows, by rising key: a view that can be gone over again.

        >>> with Store() as store:
        ...     store.update({7: 70, 3: 30})
        ...     with store.snapshot() as snapshot:
        ...         list(snapshot.items())
        [(3, 30), (7, 70)]
        """
        return Items(self)

    def values(self) -> Values[V]:
        """The values, by rising key: a view that can be gone over again.

        >>> with Store() as store:
        ...     store.update({7: 70, 3: 30})
        ...     with store.snapshot() as snapshot:
        ...         sum(snapshot.values())
        100
        """
        return Values(self)

    def __repr__(self) -> str:
        try:
            return f"<Snapshot of time {self._time}>"
        except Closed:
            return "<Snapshot, closed>"

    @property
    def time(self) -> int:
        """The time at which it reads: it sees all writes before that, and no other.

        Each write has a time of its own, a number; later writes have greater ones.

        >>> with Store() as store, store.snapshot() as before:
        ...     store[7] = 70
        ...     with store.snapshot() as after:
        ...         before.time < after.time
        True
        """
        return self._time

    def scan(
        self, start: Optional[K] = None, stop: Optional[K] = None, reverse: bool = False
    ) -> Rows[K, V]:
        """The snapshot's iterator: its rows from ``start`` on and below ``stop``, of its moment.

        A row is a key and its value; they come by rising key, or by falling key, where each costs
        more. Without ``stop`` there is no upper end. The scan keeps the snapshot open.

        >>> with Store() as store:
        ...     for key in 20, 3, 7:
        ...         store[key] = 10 * key
        ...     with store.snapshot() as snapshot:
        ...         list(snapshot.scan(3, 20)), list(snapshot.scan(reverse=True))
        ([(3, 30), (7, 70)], [(20, 200), (7, 70), (3, 30)])
        """
        rooms = FIRST_ROOM, GREATEST_ROOM
        return self._rows(self, *self._range(start, stop), *rooms, False, bool(reverse))

    def close(self) -> None:
        """Closes the snapshot, after the calls that are running on it. Closes a closed one, too.

        >>> with Store() as store:
        ...     snapshot = store.snapshot()
        ...     snapshot.close()
        ...     7 in snapshot
        Traceback (most recent call last):
        cupolanettle.Closed: closed
        """
        super().close()
