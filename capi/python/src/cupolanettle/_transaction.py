"""Transactions."""

from __future__ import annotations

import struct
from types import TracebackType
from typing import (
    TYPE_CHECKING,
    Any,
    Dict,
    Generic,
    Iterable,
    Iterator,
    List,
    Mapping,
    NoReturn,
    Optional,
    Tuple,
    Type,
    TypeVar,
    Union,
    overload,
)

from . import _core as core
from ._errors import Code, Conflict, Error
from ._values import NONE, K, Row, V, Value, rows_of

if TYPE_CHECKING:
    from ._reading import Default
    from ._snapshot import Snapshot
    from ._store import Store

Itself = TypeVar("Itself", bound="Transaction[Any, Any]")
Sum = TypeVar("Sum", float, str, bytes)

# A range, and how many of its keys have a value, as the library has them.
RANGE_COUNT = struct.Struct("=3Q")
_ROW = struct.Struct("=10Q")
_ROWS_AT_A_TIME = 64
_GREATEST_KEY = 2**64 - 1


def _words_in(packed: bytes) -> Optional[Value]:
    """The value in a row as the library has it; ``None`` stands for no value."""
    numbers: Tuple[int, ...] = _ROW.unpack(packed)
    count, first = numbers[1], 2
    if count == 0:
        return None
    return numbers[first] if count == 1 else numbers[first : first + count]


class Transaction(Generic[K, V]):
    """Reads the map of one moment, that of its first read, with its own writes in it.

    With ``with``, its writes are made at its end, all at one moment, if all that it read still has
    the same values then, and else none: :class:`Conflict`. An exception inside writes nothing. So
    transactions have the effect that they would have one after another. Nobody waits for one
    meanwhile. :meth:`Store.transact` runs a function on one again after a conflict.

    It is one thread's. From its first read to its end it keeps a seat of the store, and old
    versions, as a snapshot does. One that has written nothing never has a conflict.

    >>> with Store() as store:
    ...     store[1] = 10
    ...     with store.transaction() as t:
    ...         t[1] -= 3
    ...         t[2] = t.get(2, 0) + 3
    ...     list(store.scan())
    [(1, 7), (2, 3)]
    """

    # A class with __getitem__ would otherwise be asked for the keys 0, 1, 2 ..
    __iter__: None = None

    def __init__(self, store: Store[K, V]) -> None:
        self._store = store
        self._begin()

    def _begin(self) -> None:
        self._snapshot: Optional[Snapshot[K, V]] = None
        # What it read, and what it is to write with that as the library has it, by numbers.
        self._reads: Dict[int, Optional[Value]] = {}
        self._writes: Dict[int, Tuple[Optional[Value], bytes]] = {}
        self._ranges: List[List[int]] = []

    def _reader(self) -> Snapshot[K, V]:
        if self._snapshot is None:
            self._snapshot = self._store.snapshot()
        return self._snapshot

    # ---- Reads

    def _found(self, number: int) -> Optional[Value]:
        """What the key has, of which it knows."""
        own = self._writes.get(number)
        return self._reads[number] if own is None else own[0]

    def _look(self, numbers: List[int]) -> None:
        """Reads what the keys have in the snapshot, where it has not."""
        reads = self._reads
        unknown = [number for number in numbers if number not in reads]
        if unknown:
            found = core.Snapshot._get_many(self._reader(), unknown)
            reads.update(zip(unknown, found))

    def _read(self, numbers: List[int]) -> List[Optional[Value]]:
        writes = self._writes
        self._look([number for number in numbers if number not in writes])
        return [self._found(number) for number in numbers]

    def __getitem__(self, key: K) -> V:
        """The value that the key has to it; ``KeyError`` if it has none.

        >>> with Store() as store, store.transaction() as t:
        ...     t[7] = 70
        ...     t[7]
        70
        """
        value = self.get(key)
        if value is None:
            raise KeyError(key)
        return value

    @overload
    def get(self, key: K) -> Optional[V]: ...

    @overload
    def get(self, key: K, default: Default) -> Union[V, Default]: ...

    def get(self, key: K, default: object = None) -> Any:
        """The value that the key has to it, or the default if it has none.

        >>> with Store() as store, store.transaction() as t:
        ...     t.get(7), t.get(7, 0)
        (None, 0)
        """
        words = self._read([self._store._number(key)])[0]
        return default if words is None else self._store._decoded(words)

    def get_many(self, keys: Iterable[K]) -> List[Optional[V]]:
        """The values of the keys, each at the place of its key; ``None`` for none.

        >>> with Store() as store, store.transaction() as t:
        ...     t[7] = 70
        ...     t.get_many([8, 7])
        [None, 70]
        """
        found = self._read([self._store._number(key) for key in keys])
        return [self._store._decoded(words) for words in found]

    def __contains__(self, key: object) -> bool:
        """Whether the key has a value to it.

        >>> with Store() as store, store.transaction() as t:
        ...     t[7] = 70
        ...     7 in t, 8 in t
        (True, False)
        """
        return self._read([self._store._number(key)])[0] is not None

    def scan(
        self, start: Optional[K] = None, stop: Optional[K] = None, reverse: bool = False
    ) -> Iterator[Tuple[K, V]]:
        """The rows from ``start`` on and below ``stop``, by rising or falling key, with its own writes.

        It has read the range up to the last row that it gave, or all of it at its end: what others
        change there is a conflict. What it writes behind the first row is for the next scan.
        ``RuntimeError`` if the transaction has ended since then.

        >>> with Store() as store:
        ...     store.update({3: 30, 7: 70})
        ...     with store.transaction() as t:
        ...         t[5] = 50
        ...         t.remove(7)
        ...         list(t.scan()), next(t.scan(reverse=True))
        ([(3, 30), (5, 50)], (5, 50))
        """
        return self._scan(*self._store._range(start, stop), bool(reverse), _ROWS_AT_A_TIME)

    def first(
        self, start: Optional[K] = None, stop: Optional[K] = None
    ) -> Optional[Tuple[K, V]]:
        """The row of the least key from ``start`` on and below ``stop`` with a value, if any.

        It has read the range up to that key, or all of it if there is none.

        >>> with Store() as store:
        ...     store.update({3: 30, 7: 70})
        ...     with store.transaction() as t:
        ...         t.remove(3)
        ...         t.first(), t.first(8)
        ((7, 70), None)
        """
        return self._end(*self._store._range(start, stop), False)

    def last(
        self, start: Optional[K] = None, stop: Optional[K] = None
    ) -> Optional[Tuple[K, V]]:
        """The row of the greatest key from ``start`` on and below ``stop`` with a value, if any.

        It has read the range down to that key, or all of it if there is none.

        >>> with Store() as store:
        ...     store.update({3: 30, 7: 70})
        ...     with store.transaction() as t:
        ...         t[9] = 90
        ...         t.last(), t.last(0, 9), t.last(0, 3)
        ((9, 90), (7, 70), None)
        """
        return self._end(*self._store._range(start, stop), True)

    def floor(self, key: K) -> Optional[Tuple[K, V]]:
        """The row of the greatest key that has a value and is not above this one, if any.

        >>> with Store() as store, store.transaction() as t:
        ...     t[3] = 30
        ...     t.floor(3), t.floor(7), t.floor(2)
        ((3, 30), (3, 30), None)
        """
        return self._end(0, self._store._number(key), True)

    def ceiling(self, key: K) -> Optional[Tuple[K, V]]:
        """The row of the least key that has a value and is not below this one, if any.

        >>> with Store() as store, store.transaction() as t:
        ...     t[7] = 70
        ...     t.ceiling(7), t.ceiling(3), t.ceiling(8)
        ((7, 70), (7, 70), None)
        """
        return self._end(self._store._number(key), _GREATEST_KEY, False)

    def count(self, start: Optional[K] = None, stop: Optional[K] = None) -> int:
        """How many keys from ``start`` on and below ``stop`` have a value to it; visits all of them.

        It has read their number: others may write other values there, or remove as many keys as
        they add, but for the keys that it has written itself.

        >>> with Store() as store:
        ...     store.update({3: 30, 7: 70})
        ...     with store.transaction() as t:
        ...         t[5] = 50
        ...         t.count(), t.count(4), t.count(4, 7)
        (3, 2, 1)
        """
        first, last = self._store._range(start, stop)
        count = core.Snapshot._count(self._reader(), first, last)
        own = [number for number in self._writes if first <= number <= last]
        self._look(own)
        self._ranges.append([first, last, count])
        for number in own:
            count += (self._writes[number][0] is not None) - (self._reads[number] is not None)
        return count

    def _end(self, first: int, last: int, falls: bool) -> Optional[Tuple[K, V]]:
        """The first row of a scan, which reads no further."""
        return next(self._scan(first, last, falls, 1), None)

    def _scan(self, first: int, last: int, falls: bool, room: int) -> Iterator[Tuple[K, V]]:
        store = self._store
        writes = self._writes
        numbers = [number for number in writes if first <= number <= last]
        own = {number: writes[number][0] for number in sorted(numbers, reverse=falls)}
        covered = [1, 0, 0]  # so far: no key, of which none has a value
        ranges = self._ranges
        ranges.append(covered)
        rows = core.Rows(self._reader(), first, last, room, _ROWS_AT_A_TIME, False, falls)
        for number, words, is_there in self._merged(rows, own, falls):
            ends = (number, last) if falls else (first, number)
            covered[:] = *ends, covered[2] + is_there
            if words is not None:
                yield store._key_of(number), store._decoded(words)
                if self._ranges is not ranges:
                    raise RuntimeError("the transaction ended during the scan")
        covered[:] = first, last, covered[2]

    def _merged(
        self, rows: Iterator[Row], own: Dict[int, Optional[Value]], falls: bool
    ) -> Iterator[Tuple[int, Optional[Value], bool]]:
        """The keys that the snapshot has and its own, each with what it has, and whether the snapshot
        has it."""
        places = iter(own)
        mine = next(places, None)
        for number, words in rows:
            while mine is not None and (mine > number if falls else mine < number):
                yield mine, own[mine], False
                mine = next(places, None)
            self._reads[number] = words
            yield number, own.get(number, words), True
            if mine == number:
                mine = next(places, None)
        while mine is not None:
            yield mine, own[mine], False
            mine = next(places, None)

    # ---- Writes, which nobody sees before its end

    def __setitem__(self, key: K, value: V) -> None:
        """Notes a write of the value at the key; ``ValueError`` as for ``store[key] = value``.

        >>> with Store() as store:
        ...     with store.transaction() as t:
        ...         t[7] = 70, 71
        ...         before = 7 in store
        ...     before, store[7]
        (False, (70, 71))
        """
        if value is None:
            raise TypeError(NONE)
        self._note(key, value)

    @overload
    def update(self, rows: Mapping[K, V]) -> None: ...

    @overload
    def update(self, rows: Iterable[Tuple[K, V]]) -> None: ...

    def update(self, rows: Any) -> None:
        """Notes a write of each row of a mapping, or of an iterable of pairs, in its order.

        What one of them raises ends it, with those before it noted.

        >>> with Store() as store:
        ...     with store.transaction() as t:
        ...         t.update({7: 70, 8: (80, 81)})
        ...     list(store.scan())
        [(7, 70), (8, (80, 81))]
        """
        for key, value in rows_of(rows):
            self[key] = value

    def _note(self, key: K, value: Optional[V]) -> None:
        packed = self._store._pack(key, value)
        self._writes[self._store._number(key)] = _words_in(packed), packed

    def remove(self, key: K) -> None:
        """Notes the removal of the key, whether or not it has a value.

        >>> with Store() as store:
        ...     store[7] = 70
        ...     with store.transaction() as t:
        ...         t.remove(7)
        ...         7 in t, 7 in store
        (False, True)
        """
        self._note(key, None)

    @overload
    def add(
        self: Union[Transaction[K, Value], Transaction[K, int]], key: K, by: int = ...
    ) -> int: ...

    @overload
    def add(self: Transaction[K, Sum], key: K, by: Sum = ...) -> Sum: ...

    @overload
    def add(self, key: K, by: V = ...) -> Any: ...

    def add(self, key: K, by: Any = 1) -> Any:
        """Adds to the int that the key has to it, or to 0 if it has no value. The sum.

        It reads the key, and notes the sum. Raises what :meth:`Store.add` raises of its arguments,
        and then notes nothing.

        >>> with Store() as store, store.transaction() as t:
        ...     t.add(7), t.add(7, 5), t[7]
        (1, 6, 6)
        """
        total: Any = self._store._sum(self.get(key), by)
        self[key] = total
        return total

    def __delitem__(self, key: K) -> None:
        """Notes the removal of the key; ``KeyError`` if it has no value.

        >>> with Store() as store, store.transaction() as t:
        ...     del t[7]
        Traceback (most recent call last):
        KeyError: 7
        """
        if key not in self:
            raise KeyError(key)
        self._note(key, None)

    # ---- The end

    def commit(self) -> None:
        """Makes its writes, as the end of its ``with`` does, and begins anew.

        :class:`Conflict` if what it read has changed. ``ValueError`` if it writes more keys than an
        epoch of the store has writes; :class:`RunFull`, :class:`VersionsFull`, or :class:`Error` if
        memory ran out. Nothing was written then.

        >>> with Store() as store:
        ...     t = store.transaction()
        ...     t[7] = 70
        ...     t.commit()
        ...     store[7]
        70
        """
        if not self._commit():
            raise Conflict(Code.CONFLICT)

    def _commit(self) -> bool:
        """Whether there was no conflict."""
        expected = b"".join(core.pack(number, words) for number, words in self._reads.items())
        counts = b"".join(RANGE_COUNT.pack(*covered) for covered in self._ranges)
        rows = b"".join(packed for _, packed in self._writes.values())
        self.cancel()  # a write that waits for room must not wait for its own snapshot
        if not rows:
            return True
        try:
            return self._store._write_if(expected, counts, rows) is None
        except Error as error:
            if error.code != Code.BAD_BATCH:
                raise
            raise ValueError("a transaction writes at most as many keys as an epoch") from None

    def cancel(self) -> None:
        """Forgets what it read and was to write, and begins anew.

        >>> with Store() as store, store.transaction() as t:
        ...     t[7] = 70
        ...     t.cancel()
        ...     7 in t
        False
        """
        snapshot = self._snapshot
        self._begin()
        if snapshot is not None:
            snapshot.close()

    def __enter__(self: Itself) -> Itself:
        return self

    def __exit__(
        self,
        kind: Optional[Type[BaseException]],
        error: Optional[BaseException],
        trace: Optional[TracebackType],
    ) -> None:
        if kind is None:
            self.commit()
        else:
            self.cancel()

    def __repr__(self) -> str:
        return f"<Transaction of {len(self._writes)} writes>"

    def __reduce__(self) -> NoReturn:
        raise TypeError("a Transaction cannot be copied or pickled")
