"""Stores."""

from __future__ import annotations

import time
from typing import (
    Any,
    Callable,
    ClassVar,
    Dict,
    Iterable,
    Mapping,
    Optional,
    Tuple,
    Type,
    TypeVar,
    Union,
    overload,
)

from . import _core as core
from ._batch import Batch
from ._codecs import AnyKeyCodec, AnyValueCodec, KeyCodec, ValueCodec
from ._errors import Closed, Code, Conflict, Error
from ._options import (
    NO_DEFAULT,
    SignatureOfInit,
    error_of_option,
    milliseconds,
    option,
    option_or_zero,
    patience_of,
)
from ._reading import Default, Rows
from ._snapshot import FIRST_ROOM, GREATEST_ROOM, Snapshot
from ._statistics import Statistics, statistics_of
from ._transaction import Transaction
from ._values import K, Row, V, Value, rows_of
from ._writing import Writer

Itself = TypeVar("Itself", bound="Store[Any, Any]")
Answer = TypeVar("Answer")
Sum = TypeVar("Sum", float, str, bytes)
Function = Callable[[Optional[V]], Optional[V]]
Keep = Callable[[K, V], object]

_FIRST_PAUSE = 10e-6  # seconds, behind a conflict
_LONGEST_PAUSE = 1e-3


def _nothing(_: object) -> None:
    """No value, whatever the key had."""


class Store(core.Store, Writer[K, V]):
    """An ordered map in memory, for many threads, from ints to ints or tuples of ints.

    Keys and words are from 0 to 2**64 - 1. A value is an int, or a tuple of 2 to 8 ints.

    - ``keys``: the most keys that have a value, from 1 on; 4,194,304 with the versions at most.
    - ``epoch``: the most writes between two merges, 4 to 65,536. Unless it is given, a sixteenth of
      the keys, but at least 4,096.
    - ``versions``: room for old versions that open snapshots keep, from 6 * ``epoch`` + 64 on.
      Unless it is given, as many as keys, but not over 100,000 if that is enough.
    - ``wait``: for how many seconds a write waits for a snapshot to be closed that keeps it from
      finding room. 0: not at all; ``None``: until then.
    - ``patience``: how often a read looks again at an unfinished write before it cancels that,
      0 to 64.
    - ``merge_in_calls``: writes merge, instead of a thread of the store.

    The store takes all its memory at once: 37 MiB unless told otherwise. ``ValueError`` if an
    option is out of range, ``TypeError`` if it is of another type or no codec; :class:`Error` if
    memory ran out or the system started no thread.

    Any thread may call. A read waits for no write and no merge, and gives the map of one moment.
    Writes wait for other writes, and for a merge if the epoch is full. :class:`RunFull` if a write
    would give one more key a value than there may be; :class:`VersionsFull` if an open snapshot
    keeps too many versions.
    Changes, as :meth:`add`, read a key and write it in one step: no other write of the key comes
    between. They wait as writes do.
    Threads need nothing of their own. A snapshot or a scan keeps one of the store's 64 seats:
    :class:`NoSeat` if none is left. Each call of a closed store raises :class:`Closed`.

    Use it with ``with``, or close it. After a fork it is closed in the child, which may open stores
    of its own.

    >>> with Store(keys=1_000) as store:
    ...     store[7] = 70
    ...     store[8] = 80, 81
    ...     list(store.scan())
    [(7, 70), (8, (80, 81))]

    Keys and values of other types are written by codecs, ``key`` and ``value``: keys by
    :data:`signed`, :data:`floating`, :data:`pairs`, :data:`octets` or :data:`text`, values by each
    of these but pairs. Keys keep their order. Calls raise ``ValueError`` or ``TypeError`` if a key
    or a value has no code. A call takes about a microsecond more.

    >>> with Store(key=text, value=floating) as store:
    ...     store["pear"], store["fig"] = 2.5, 0.5
    ...     store.add("fig", 0.25), list(store.scan("g"))
    (0.75, [('pear', 2.5)])
    """

    # What a store with codecs is made of.
    _coded: ClassVar[Type[Store[Any, Any]]]

    # A class with __getitem__ would otherwise be asked for the keys 0, 1, 2 ..
    __iter__: None = None
    __reversed__: None = None

    __signature__: ClassVar[Any] = SignatureOfInit()

    def __new__(cls: Type[Itself], *_: Any, **options: Any) -> Itself:
        is_coded = options.get("key") is not None or options.get("value") is not None
        chosen: Type[Any] = cls._coded if cls is Store and is_coded else cls
        made: Itself = super().__new__(chosen)
        return made

    @overload
    def __init__(
        self: Store[int, Value], *, key: None = ..., value: None = ...,
        keys: int = ..., epoch: Optional[int] = ..., versions: Optional[int] = ...,
        wait: Optional[float] = ..., patience: int = ..., merge_in_calls: bool = ...,
    ) -> None: ...

    @overload
    def __init__(
        self: Store[K, Value], *, key: KeyCodec[K], value: None = ...,
        keys: int = ..., epoch: Optional[int] = ..., versions: Optional[int] = ...,
        wait: Optional[float] = ..., patience: int = ..., merge_in_calls: bool = ...,
    ) -> None: ...

    @overload
    def __init__(
        self: Store[int, V], *, key: None = ..., value: ValueCodec[V],
        keys: int = ..., epoch: Optional[int] = ..., versions: Optional[int] = ...,
        wait: Optional[float] = ..., patience: int = ..., merge_in_calls: bool = ...,
    ) -> None: ...

    @overload
    def __init__(
        self: Store[K, V], *, key: KeyCodec[K], value: ValueCodec[V],
        keys: int = ..., epoch: Optional[int] = ..., versions: Optional[int] = ...,
        wait: Optional[float] = ..., patience: int = ..., merge_in_calls: bool = ...,
    ) -> None: ...

    def __init__(
        self,
        *,
        key: Optional[AnyKeyCodec] = None,
        value: Optional[AnyValueCodec] = None,
        keys: int = 100_000,
        epoch: Optional[int] = None,
        versions: Optional[int] = None,
        wait: Optional[float] = 1.0,
        patience: int = 64,
        merge_in_calls: bool = False,
        _source: Optional[Store[Any, Any]] = None,
    ) -> None:
        self._options: Dict[str, Any] = dict(
            keys=keys,
            epoch=epoch,
            versions=versions,
            wait=wait,
            patience=patience,
            merge_in_calls=merge_in_calls,
        )
        chosen = (
            option("keys", keys, 1),
            option_or_zero("epoch", epoch),
            patience_of(patience),
            int(bool(merge_in_calls)),
            option_or_zero("versions", versions),
            milliseconds(wait),
        )
        try:
            super().__init__(*chosen, *(() if _source is None else (_source,)))
        except Error as error:
            wrong = error_of_option(error.code)
            if wrong is None:
                raise
            raise wrong from None
        self._choose_batches(epoch)

    def __repr__(self) -> str:
        try:
            now = self.stats()
        except Closed:
            return "<Store, closed>"
        return (
            f"<Store of {now.bytes:,} bytes: {now.epoch_writes:,} writes in the epoch, "
            f"{now.merges:,} merges, {now.snapshots:,} snapshots, room for "
            f"{now.room_for_keys:,} keys and {now.room_for_versions:,} versions>"
        )

    def _codecs(self) -> Dict[str, Any]:
        """The codecs of keys and values, by the names of the options."""
        return {}

    def copy(self, **options: Any) -> Store[K, V]:
        """A store of its own with all rows that this one has at one moment: a larger one, say.

        It has the options of this store but for those that are given, and the same codecs. What is
        written to this one later is not in it. It costs a read and a write of each row, and while
        it runs it is a snapshot; other threads of the interpreter run meanwhile.

        :class:`RunFull` if more keys have a value than the copy is to have; :class:`NoSeat`. Else
        as for a store that is opened. Nothing is left of it then.

        >>> with Store(keys=100) as store:
        ...     store.update((key, 0) for key in range(100))
        ...     with store.copy(keys=1_000) as larger:
        ...         larger[100] = 0
        ...         store.count(), larger.count()
        (100, 101)
        """
        if not options.keys() <= self._options.keys():
            raise TypeError(f"copy takes {', '.join(self._options)}")
        opened: Callable[..., Store[K, V]] = Store
        return opened(**self._codecs(), **{**self._options, **options}, _source=self)

    def stats(self) -> Statistics:
        """What the store tells of itself: memory, what is open, room, merges, waits and refusals.

        It costs a read.

        >>> with Store(keys=1_000) as store:
        ...     store[7] = 70
        ...     now = store.stats()
        ...     now.epoch_writes, now.room_for_keys, now.versions_full
        (1, 1000, 0)
        """
        return statistics_of(self._stats())

    # ---- Writes

    def _pack(self, key: Any, value: Any) -> bytes:
        """A row as the library has it; ``None`` stands for no value."""
        return core.pack(key, value)

    def __setitem__(self, key: K, value: V) -> None:
        """Writes the value at the key.

        ``ValueError`` if the key or a word is out of range, or the tuple has not 2 to 8 words: a
        tuple of one would come back as an int. :class:`RunFull` or :class:`VersionsFull` if there
        is no room.

        >>> with Store() as store:
        ...     store[7] = 70
        ...     store[7] = 70, 71
        ...     store[7]
        (70, 71)
        """
        self._put(key, value)

    def remove(self, key: K) -> None:
        """Removes the key, whether or not it has a value.

        It takes room as a write does: :class:`VersionsFull` if there is none.

        >>> with Store() as store:
        ...     store[7] = 70
        ...     store.remove(7)
        ...     store.remove(7)
        ...     7 in store
        False
        """
        self._remove(key)

    @overload
    def update(self, rows: Mapping[K, V]) -> None: ...

    @overload
    def update(self, rows: Iterable[Tuple[K, V]]) -> None: ...

    def update(self, rows: Any) -> None:
        """Writes each row of a mapping, or of an iterable of pairs, in its order.

        Each is a write of its own, so that threads see some of them before others; :meth:`batch`
        makes all at one moment, and :meth:`put_many` is faster. What one of them raises ends it,
        with those before it written.

        >>> with Store() as store:
        ...     store.update({7: 70, 8: (80, 81)})
        ...     store.update((key, 0) for key in range(7, 10))
        ...     store.count(), store[7]
        (3, 0)
        """
        for key, value in rows_of(rows):
            self._put(key, value)

    def batch(self) -> Batch[K, V]:
        """A batch: writes that are made at one moment, at the end of its ``with``.

        >>> with Store() as store:
        ...     store[1] = 10
        ...     with store.batch() as batch:
        ...         batch[2] = store[1]
        ...         batch.remove(1)
        ...     list(store.scan())
        [(2, 10)]
        """
        return Batch(self)

    def transaction(self) -> Transaction[K, V]:
        """A transaction: it reads one moment, and its writes are made if that still stands.

        They are made at the end of its ``with``; :class:`Conflict` if others have changed what it
        read, with nothing written.

        >>> with Store() as store:
        ...     store[1] = 10
        ...     with store.transaction() as t:
        ...         t[1] -= 5
        ...         t[2] = t.get(2, 0) + 5
        ...     list(store.scan())
        [(1, 5), (2, 5)]
        """
        return Transaction(self)

    def transact(self, function: Callable[[Transaction[K, V]], Answer], tries: int = 100) -> Answer:
        """Runs the function on a transaction, again after a conflict. What the function answers.

        It runs so many times at most, and once at least, after pauses that grow up to a
        millisecond, and then it raises :class:`Conflict`. So it should do nothing but read and
        write by its transaction. What it raises ends it, and nothing is written.

        >>> with Store() as store:
        ...     def count(t):
        ...         t[7] = t.get(7, 0) + 1
        ...         return t[7]
        ...     store.transact(count), store.transact(count)
        (1, 2)
        """
        pause = 0.0
        for made in range(max(tries, 1)):
            if made > 0:
                pause = min(2 * pause or _FIRST_PAUSE, _LONGEST_PAUSE)
                time.sleep(pause)
            transaction = Transaction(self)
            try:
                answer = function(transaction)
                if transaction._commit():
                    return answer
            finally:
                transaction.cancel()
        raise Conflict(Code.CONFLICT)

    def _plain_end(self, first: int, last: int, falls: bool) -> Optional[Row]:
        return core.Store._end(self, first, last, falls)

    # ---- Changes

    @overload
    def add(self: Union[Store[K, Value], Store[K, int]], key: K, by: int = ...) -> int: ...

    @overload
    def add(self: Store[K, Sum], key: K, by: Sum = ...) -> Sum: ...

    @overload
    def add(self, key: K, by: V = ...) -> Any: ...

    def add(self, key: K, by: Any = 1) -> Any:
        """Adds to the int of the key, which counts as 0 if it has no value. The sum.

        ``OverflowError`` if the sum would pass 2**64 - 1. ``ValueError`` if the value is a tuple,
        or ``by`` is not from 0 to 2**64 - 1. Neither changes the value. :class:`RunFull` if there
        is no room.

        ``store[key] += by`` is a read and then a write, and loses what others add in between.

        >>> with Store() as store:
        ...     store.add(7), store.add(7, 5), store[7]
        (1, 6, 6)
        """
        return self._add(key, by)

    def setdefault(self, key: K, value: V) -> V:
        """Writes the value at the key if the key has none. The value that the key has then.

        ``ValueError`` and :class:`Error` as for ``store[key] = value``; it takes no room if the
        key has a value.

        >>> with Store() as store:
        ...     store.setdefault(7, 70), store.setdefault(7, 71), store[7]
        (70, 70, 70)
        """
        held: V = self._put_if_absent(key, value)
        return held

    def replace(self, key: K, expected: Optional[V], desired: Optional[V]) -> bool:
        """Writes the desired value at the key if the key has the expected one. Whether it had.

        ``None`` stands for no value: if it is expected, the key is to have none; if it is desired,
        the key is removed. ``ValueError`` and :class:`Error` as for ``store[key] = value``; it
        takes no room if the key has another value.

        >>> with Store() as store:
        ...     store.replace(7, None, 70), store.replace(7, None, 71), store[7]
        ...     store.replace(7, 71, 72), store.replace(7, 70, None), 7 in store
        (True, False, 70)
        (False, True, False)
        """
        return self._replace(key, expected, desired)[0]

    def alter(self, key: K, function: Function[V]) -> Optional[V]:
        """Writes what the function makes of the key's value. The value that the key has then.

        ``None`` stands for no value: the function gets it if the key has none, and answers it to
        remove the key. It is asked again if another write came between, so it should do nothing
        but answer. What it raises leaves the value. ``ValueError`` and :class:`Error` as for
        ``store[key] = value``.

        >>> def half(old):
        ...     return (10 if old is None else old) // 2 or None
        >>> with Store() as store:
        ...     [store.alter(7, half) for _ in range(5)]
        [5, 2, 1, None, 5]
        """
        return self._alter(key, function)[1]

    @overload
    def pop(self, key: K) -> V: ...

    @overload
    def pop(self, key: K, default: Default) -> Union[V, Default]: ...

    def pop(self, key: K, default: object = NO_DEFAULT) -> object:
        """Removes the key. The value that it had.

        If it had none, the default, or ``KeyError`` without one; that takes no room.
        :class:`VersionsFull` if there is no room to remove it.

        >>> with Store() as store:
        ...     store[7] = 70
        ...     store.pop(7), store.pop(7, None)
        (70, None)
        """
        value = self._alter(key, _nothing)[0]
        if value is not None:
            return value
        if default is NO_DEFAULT:
            raise KeyError(key)
        return default

    def __delitem__(self, key: K) -> None:
        """Removes the key; ``KeyError`` if it has no value.

        Of several threads that delete a value, one does. :meth:`remove` is faster: it does not look
        whether there is a value.

        >>> with Store() as store:
        ...     store[7] = 70
        ...     del store[7]
        ...     del store[7]
        Traceback (most recent call last):
        KeyError: 7
        """
        self.pop(key)

    def _alter(self, key: K, function: Function[V]) -> Tuple[Optional[V], Optional[V]]:
        """What the key had, and what it has since the function changed that."""
        old: Optional[V] = self._get(key, None)
        while True:
            new = function(old)
            if new is None and old is None:
                return None, None
            is_written, old, held = self._replace(key, old, new)
            if is_written:
                return old, held

    # ---- Reads of one moment

    def snapshot(self) -> Snapshot[K, V]:
        """Opens a snapshot of the present; keeps a seat until it is closed.

        >>> with Store() as store:
        ...     with store.snapshot() as snapshot:
        ...         store[7] = 70
        ...         7 in snapshot
        False
        """
        return Snapshot(self)

    def scan(
        self, start: Optional[K] = None, stop: Optional[K] = None, reverse: bool = False
    ) -> Rows[K, V]:
        """A snapshot's iterator: the rows from ``start`` on and below ``stop``, all of one moment.

        A row is a key and its value; they come by rising key, or by falling key, where each costs
        more. Without ``stop`` there is no upper end. The scan opens a snapshot, and closes it
        behind the last row: a loop that writes as it reads may come to :class:`OwnSnapshot`, and
        :meth:`walk` is for that. A scan that is left before its end stays open until nothing refers
        to it any more, until its ``close``, or until the end of its ``with``.

        >>> with Store() as store:
        ...     for key in 20, 3, 7:
        ...         store[key] = 10 * key
        ...     list(store.scan(3, 20)), list(store.scan(7, reverse=True))
        ([(3, 30), (7, 70)], [(20, 200), (7, 70)])
        """
        first, last = self._range(start, stop)
        rooms = FIRST_ROOM, GREATEST_ROOM
        return self._rows(self.snapshot(), first, last, *rooms, True, bool(reverse))

    # ---- Each page's own moment

    def walk(self, start: Optional[K] = None, stop: Optional[K] = None) -> Rows[K, V]:
        """No snapshot, but an iterator for loops that write: each 64 rows are of their own moment.

        It has the rows from ``start`` on and below ``stop`` by rising key, and keeps no versions and
        no seat. A row may have been changed since it was read, and of keys that are written
        meanwhile behind the walk it tells nothing: it is weakly consistent.

        >>> with Store(keys=1_000, epoch=4) as store:
        ...     for key in range(500):
        ...         store[key] = key
        ...     for key, value in store.walk(100):
        ...         store[key] = 2 * value
        ...     store[99], store[100], store[499]
        (99, 200, 998)
        """
        return self._rows(self, *self._range(start, stop), FIRST_ROOM, FIRST_ROOM, False)

    def retain(
        self, keep: Keep[K, V], start: Optional[K] = None, stop: Optional[K] = None
    ) -> int:
        """Walks, and removes each key for which ``keep(key, value)`` is false. How many it removed.

        It never removes a value that ``keep`` did not see: a key that was given another one
        meanwhile keeps that, and is not asked about again. What ``keep`` raises ends it, with the
        keys removed that it came to before. :class:`Error` as for :meth:`remove`.

        >>> with Store() as store:
        ...     for key in range(500):
        ...         store[key] = key % 10
        ...     store.retain(lambda key, value: value == 7, 100), store.count()
        (360, 140)
        """
        removed = 0
        for key, value in self.walk(start, stop):
            if not keep(key, value):
                removed += self.replace(key, value, None)
        return removed

    # ---- Merging

    def sweep(self) -> None:
        """Merges all that was written so far, and gives up old versions.

        The store does so by itself, but not at once: call it before many reads, or once a snapshot
        is closed that kept many versions. It waits for a merge that is running, and for writes; at
        worst it copies all that is in the store. :class:`VersionsFull` if not all could be merged,
        as snapshots keep too many versions; writes go on while the epoch has room.

        >>> with Store() as store:
        ...     store[7] = 70
        ...     store.sweep()
        ...     store.stats().epoch_writes
        0
        """
        self._sweep()

    # ---- Closing

    def close(self) -> None:
        """Closes the store, its snapshots and its scans, after the calls that are running on them.

        Closes a closed store, too. All that it held is gone.

        >>> store = Store()
        >>> snapshot = store.snapshot()
        >>> store.close()
        >>> snapshot.count()
        Traceback (most recent call last):
        cupolanettle.Closed: closed
        """
        super().close()
