"""Writes of many keys, in several batches."""

from __future__ import annotations

from itertools import islice
from typing import Any, Iterable, List, Mapping, Optional, Tuple, Union, overload

from . import _core as core
from ._buffers import words_in
from ._errors import Code, Error
from ._reading import Reader
from ._transaction import RANGE_COUNT
from ._values import NONE, K, Row, V, Value, rows_of, word_of

# Rows of a batch, if the epoch has four times as much room.
_BATCH = 256
_LEAST_EPOCH = 4_096  # of those that are not given
_GREATEST_WORD = 2**64 - 1
_COUNT = "a count is a pair of a range, which is a pair of bounds, and a number"

AnyRows = Union[Mapping[K, V], Iterable[Tuple[K, V]]]
Bounds = Tuple[Optional[K], Optional[K]]


class Writer(Reader[K, V]):
    """Writes many keys, in batches that leave most of an epoch's room to other writes."""

    _batch_rows = _BATCH

    def _write_rows(self, rows: bytearray) -> None:
        raise NotImplementedError

    def _put_words(
        self, keys: memoryview, words: memoryview, room: int, written: List[int]
    ) -> None:
        raise NotImplementedError

    def _remove_range(self, first: int, last: int, removed: List[int]) -> None:
        raise NotImplementedError

    def _pack(self, key: Any, value: Any) -> bytes:
        raise NotImplementedError

    def _write_if(self, expected: bytes, counts: bytes, rows: bytes) -> Optional[int]:
        raise NotImplementedError

    def _plain_end(self, first: int, last: int, falls: bool) -> Optional[Row]:
        """As :meth:`_end`, without codecs."""
        raise NotImplementedError

    def _sum(self, old: Any, by: Any) -> Any:
        """What the key has once this was added."""
        added = word_of(by)
        if isinstance(old, tuple):
            raise ValueError("a tuple cannot be added to")
        total = (old or 0) + added
        if total > _GREATEST_WORD:
            raise OverflowError("the sum is greater than 2**64 - 1")
        return total

    def _choose_batches(self, epoch: Optional[int]) -> None:
        self._batch_rows = max(1, min(_BATCH, (_LEAST_EPOCH if epoch is None else epoch) // 4))

    @overload
    def put_many(self, rows: Mapping[K, V]) -> None: ...

    @overload
    def put_many(self, rows: Iterable[Tuple[K, V]]) -> None: ...

    @overload
    def put_many(self, rows: Any, words: Any) -> None: ...

    def put_many(self, rows: Any, words: Any = None) -> None:
        """Writes the rows of a mapping or of pairs, or keys and their words out of two buffers.

        They are written in batches, in their order: of up to 256 rows, or of a quarter of an epoch
        if that is less. So this is not one moment: threads see all of a batch or none of it, and
        some batches before others. :meth:`batch` makes all of its writes at one moment, and
        :meth:`update` each by itself. Other threads of the interpreter run meanwhile.

        Buffers are of 64-bit unsigned items, as ``array("Q")``, as many keys as words; a store with
        codecs takes none. ``TypeError`` if they have other items, ``ValueError`` if one is longer,
        ``BufferError`` if their items do not lie side by side: nothing was written then. What the
        pairs raise ends it, with the batches before written.

        It waits as writes do. :class:`RunFull`, :class:`VersionsFull`, or :class:`Error`: the
        exception's ``written`` says how many of the rows, the first ones, were written.

        >>> from array import array
        >>> with Store() as store:
        ...     store.put_many(array("Q", [7, 8]), array("Q", [70, 80]))
        ...     store.put_many({8: (80, 81), 9: 90})
        ...     list(store.scan())
        [(7, 70), (8, (80, 81)), (9, 90)]
        """
        if words is None:
            self._put_rows(rows_of(rows))
            return
        written = [0]
        with words_in("keys", rows) as keys, words_in("words", words) as values:
            try:
                self._put_words(keys, values, self._batch_rows, written)
            except Error as error:
                error.written = written[0]
                raise

    def _put_rows(self, pairs: Iterable[Any]) -> None:
        written = 0
        left = iter(pairs)
        while True:
            next_rows = islice(left, self._batch_rows)
            packed = [self._pack_value(key, value) for key, value in next_rows]
            if not packed:
                return
            try:
                self._write_rows(bytearray().join(packed))
            except Error as error:
                error.written = written
                raise
            written += len(packed)

    def _pack_value(self, key: Any, value: Any) -> bytes:
        if value is None:
            raise TypeError(NONE)
        return self._pack(key, value)

    @overload
    def batch_if(
        self,
        expected: Mapping[K, Optional[V]],
        rows: Mapping[K, Optional[V]],
        counts: Mapping[Bounds[K], int] = ...,
    ) -> bool: ...

    @overload
    def batch_if(
        self,
        expected: AnyRows[K, Optional[V]],
        rows: AnyRows[K, Optional[V]],
        counts: AnyRows[Bounds[K], int] = ...,
    ) -> bool: ...

    def batch_if(self, expected: Any, rows: Any, counts: Any = ()) -> bool:
        """Writes all rows at one moment, if all that is expected is there at that moment. Whether
        it is.

        Rows are a mapping or pairs. Of what is expected, ``None`` stands for no value; of what is
        written, it removes its key. ``counts`` tells how many keys of ranges, which are pairs of
        ``start`` and ``stop``, have a value. So a thread reads, decides, and writes if all that it
        read still stands. Without rows it only tests.

        No other write runs while it tests, which costs a read of each key, and a visit of each key
        of the ranges. It waits as a write does. ``ValueError`` if there are more rows than an epoch
        of the store has; :class:`RunFull`, :class:`VersionsFull`, or :class:`Error` if memory ran
        out. Nothing was written then.

        >>> with Store() as store:
        ...     store[1] = 10
        ...     store.batch_if({1: 10, 2: None}, {1: 3, 2: 7}, {(0, 100): 1})
        ...     store.batch_if({1: 10}, {1: None}), store.batch_if({1: 3, 2: 7}, {})
        ...     list(store.scan())
        True
        (False, True)
        [(1, 3), (2, 7)]
        """
        ranges = counts.items() if isinstance(counts, Mapping) else counts
        packed = b"".join(map(self._pack_count, ranges))
        try:
            unmet = self._write_if(self._pack_all(expected), packed, self._pack_all(rows))
        except Error as error:
            if error.code != Code.BAD_BATCH:
                raise
            raise ValueError("a batch has at most as many writes as an epoch") from None
        return unmet is None

    def _pack_all(self, rows: Any) -> bytes:
        return b"".join(self._pack(key, value) for key, value in rows_of(rows))

    def _pack_count(self, count: Any) -> bytes:
        try:
            (start, stop), keys = count
        except TypeError:
            raise TypeError(_COUNT) from None
        except ValueError:
            raise ValueError(_COUNT) from None
        return RANGE_COUNT.pack(*self._range(start, stop), word_of(keys))

    def remove_range(self, start: Optional[K] = None, stop: Optional[K] = None) -> int:
        """Removes the keys from ``start`` on and below ``stop``. How many it removed.

        It is not one moment: it reads pages of up to 64 rows, and removes the keys of each by a
        batch, so that threads see some of the keys gone and some not yet. It removes a key that it
        has read with whatever value the key has by then; one that gets its first value where it has
        read already may stay. :meth:`retain` removes no value that it was not shown. Other threads
        of the interpreter run meanwhile.

        It waits as writes do. :class:`VersionsFull`, or :class:`Error` if memory ran out: the
        exception's ``written`` says how many keys were removed, and the same call goes on.

        >>> with Store() as store:
        ...     store.put_many({key: 0 for key in range(500)})
        ...     store.remove_range(100, 400), store.remove_range(100, 400), store.count()
        (300, 0, 200)
        """
        removed = [0]
        try:
            self._remove_range(*self._range(start, stop), removed)
        except Error as error:
            error.written = removed[0]
            raise
        return removed[0]

    def pop_first(
        self, start: Optional[K] = None, stop: Optional[K] = None
    ) -> Optional[Tuple[K, V]]:
        """Removes the least key from ``start`` on and below ``stop``. Its row; ``None`` without one.

        It is one step: at that moment the row was the first of these, and so threads that take rows
        out get each of them once. It reads the row, and removes it by a :meth:`batch_if` that no
        other key is before it; both again, while other writes come between. :class:`Error` as for
        :meth:`remove`, with nothing removed.

        >>> with Store() as store:
        ...     store.update({8: 80, 3: 30, 5: 50})
        ...     store.pop_first(4), store.pop_first(4, 8), store.count()
        ((5, 50), None, 2)
        """
        return self._pop(*self._range(start, stop), False)

    def pop_last(
        self, start: Optional[K] = None, stop: Optional[K] = None
    ) -> Optional[Tuple[K, V]]:
        """Removes the greatest key from ``start`` on and below ``stop``, as :meth:`pop_first`.

        >>> with Store() as store:
        ...     store.update({8: 80, 3: 30, 5: 50})
        ...     store.pop_last(), store.pop_last(0, 3), store.count()
        ((8, 80), None, 2)
        """
        return self._pop(*self._range(start, stop), True)

    def _pop(self, first: int, last: int, falls: bool) -> Optional[Tuple[K, V]]:
        while True:
            row = self._plain_end(first, last, falls)
            if row is None:
                return None
            number, words = row
            before = (number + 1, last) if falls else (first, number - 1)
            is_first = number == (last if falls else first)
            count = RANGE_COUNT.pack(*((1, 0) if is_first else before), 0)
            if self._write_if(core.pack(number, words), count, core.pack(number, None)) is None:
                return self._key_of(number), self._decoded(words)

    def clear(self) -> int:
        """Removes all keys, as :meth:`remove_range`: that is not one moment. How many it removed.

        >>> with Store() as store:
        ...     store[7] = 70
        ...     store.clear(), store.count()
        (1, 0)
        """
        return self.remove_range()
