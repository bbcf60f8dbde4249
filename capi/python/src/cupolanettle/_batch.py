"""Batches."""

from __future__ import annotations

import threading
from types import TracebackType
from typing import (
    TYPE_CHECKING,
    Any,
    Generic,
    Iterable,
    Mapping,
    NoReturn,
    Optional,
    Tuple,
    Type,
    overload,
)

from . import _core as core
from ._errors import Code, Error
from ._values import NONE, K, V, rows_of

if TYPE_CHECKING:
    from ._store import Store

_ROW_SIZE = len(core.pack(0, None))


class Batch(Generic[K, V]):
    """Writes that are made at one moment, in their order: each read has all of them or none.

    With ``with``, they are made at its end, and none of them if an error leaves it; without, by
    :meth:`write`. Of several writes of one key the last one wins. Threads may share one: what is
    added while it is written stays in it, for the next :meth:`write`.

    >>> with Store() as store:
    ...     store[1] = 100
    ...     with store.batch() as batch:
    ...         batch.remove(1)
    ...         batch[2] = 60
    ...         batch[3] = 40, 7
    ...     list(store.scan())
    [(2, 60), (3, (40, 7))]
    """

    def __init__(self, store: Store[K, V]) -> None:
        self._store = store
        self._rows = bytearray()  # always the same one: whoever adds need not look
        self._lock = threading.RLock()

    def __setitem__(self, key: K, value: V) -> None:
        """Adds a write of the value at the key; ``ValueError`` as for ``store[key] = value``.

        >>> with Store() as store, store.batch() as batch:
        ...     batch[7] = 70
        ...     batch[7] = 70, 71
        ...     len(batch)
        2
        """
        if value is None:
            raise TypeError(NONE)
        self._rows.extend(self._store._pack(key, value))

    @overload
    def update(self, rows: Mapping[K, V]) -> None: ...

    @overload
    def update(self, rows: Iterable[Tuple[K, V]]) -> None: ...

    def update(self, rows: Any) -> None:
        """Adds a write of each row of a mapping, or of an iterable of pairs, in its order.

        What one of them raises ends it, with those before it added.

        >>> with Store() as store:
        ...     with store.batch() as batch:
        ...         batch.update({7: 70, 8: (80, 81)})
        ...     list(store.scan())
        [(7, 70), (8, (80, 81))]
        """
        for key, value in rows_of(rows):
            self[key] = value

    def remove(self, key: K) -> None:
        """Adds a removal of the key, whether or not that has a value.

        >>> with Store() as store, store.batch() as batch:
        ...     batch.remove(7)
        ...     len(batch)
        1
        """
        self._rows.extend(self._store._pack(key, None))

    def __len__(self) -> int:
        """How many writes it has.

        >>> with Store() as store:
        ...     len(store.batch())
        0
        """
        return len(self._rows) // _ROW_SIZE

    def clear(self) -> None:
        """Takes all writes out, but not while another thread makes them.

        >>> with Store() as store, store.batch() as batch:
        ...     batch[7] = 70
        ...     batch.clear()
        ...     len(batch)
        0
        """
        with self._lock:
            self._rows.clear()

    def write(self) -> None:
        """Makes the writes, if there are any, and takes them out of the batch.

        It waits as a write does. ``ValueError`` if there are more writes than an epoch of the store
        has; :class:`RunFull`, :class:`VersionsFull`, or :class:`Error` if memory ran out. Nothing
        was written then, and the batch still has its writes.

        >>> with Store() as store:
        ...     batch = store.batch()
        ...     batch[7] = 70
        ...     batch.write()
        ...     store[7], len(batch)
        (70, 0)
        """
        with self._lock:
            if not self._rows:
                return
            try:
                self._store._write_rows(self._rows)
            except Error as error:
                if error.code != Code.BAD_BATCH:
                    raise
                raise ValueError("a batch has at most as many writes as an epoch") from None

    def __enter__(self) -> Batch[K, V]:
        return self

    def __exit__(
        self,
        kind: Optional[Type[BaseException]],
        error: Optional[BaseException],
        trace: Optional[TracebackType],
    ) -> None:
        if kind is None:
            self.write()
        else:
            self.clear()

    def __repr__(self) -> str:
        return f"<Batch of {len(self)} writes>"

    def __reduce__(self) -> NoReturn:
        raise TypeError("a Batch cannot be copied or pickled")
