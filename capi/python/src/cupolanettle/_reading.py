"""What is read of a store and of a snapshot in the same way."""

from __future__ import annotations

from typing import (
    TYPE_CHECKING,
    Any,
    Generic,
    Iterable,
    List,
    NoReturn,
    Optional,
    Tuple,
    TypeVar,
    Union,
    overload,
)

from . import _core as core
from ._buffers import items_of, marks_in, room_in, words_in
from ._values import K, V, key_of, range_of, word_of

Default = TypeVar("Default")
Itself = TypeVar("Itself", bound="Rows[Any, Any]")

_GREATEST_KEY = 2**64 - 1


class Rows(core.Rows, Generic[K, V]):
    """An iterator over rows by rising or falling key: of one moment, or of each page's own.

    :meth:`Store.scan` and :meth:`Snapshot.scan` make those of one moment, and :meth:`Store.walk`
    makes the others. Threads may share one: each row comes to one of them.

    >>> with Store() as store:
    ...     store[7] = 70
    ...     rows = store.scan()
    ...     next(rows), next(rows, None)
    ((7, 70), None)
    """

    if TYPE_CHECKING:

        def __next__(self) -> Tuple[K, V]: ...

    def __enter__(self: Itself) -> Itself:
        return self

    def __exit__(self, *_: object) -> None:
        self.close()

    def close(self) -> None:
        """Ends it, wherever it is; a scan of a store also closes its snapshot.

        So does the end of its ``with``.

        >>> with Store() as store:
        ...     store.update({3: 30, 7: 70})
        ...     with store.scan() as rows:
        ...         next(rows)
        ...     list(rows)
        (3, 30)
        []
        """
        super().close()

    def __reduce__(self) -> NoReturn:
        raise TypeError(f"a {type(self).__name__} cannot be copied or pickled")


class Reader(Generic[K, V]):
    """Reads by key and by range."""

    # What users do not call has keys and values as codecs leave them: of any type.

    def _get(self, key: Any, default: object) -> Any:
        raise NotImplementedError

    def _has(self, key: Any) -> bool:
        raise NotImplementedError

    def _get_many(self, keys: List[Any]) -> List[Any]:
        raise NotImplementedError

    def _get_into(
        self, keys: memoryview, values: memoryview, default: int, found: memoryview
    ) -> int:
        raise NotImplementedError

    def _end(self, first: int, last: int, falls: bool) -> Optional[Tuple[Any, Any]]:
        raise NotImplementedError

    def _count(self, first: int, last: int) -> int:
        raise NotImplementedError

    def _number(self, key: Any) -> int:
        """The key as the library has it."""
        return key_of(key)

    def _key_of(self, number: int) -> Any:
        """The key that the library has so."""
        return number

    def _encoded(self, value: Any) -> Any:
        """The words of the value; ``None`` stands for no value."""
        return value

    def _decoded(self, words: Any) -> Any:
        """The value of these words."""
        return words

    def _range(self, start: Any, stop: Any) -> Tuple[int, int]:
        """The first and the last key of the range; the first is greater if it is empty."""
        return range_of(0 if start is None else start, stop)

    def _rows(self, *how: Any) -> Rows[K, V]:
        return Rows(*how)

    def __getitem__(self, key: K) -> V:
        """The value of the key; ``KeyError`` if it has none.

        >>> with Store() as store:
        ...     store[7] = 70
        ...     store[7]
        70
        """
        value: Optional[V] = self._get(key, None)
        if value is None:
            raise KeyError(key)
        return value

    @overload
    def get(self, key: K) -> Optional[V]: ...

    @overload
    def get(self, key: K, default: Default) -> Union[V, Default]: ...

    def get(self, key: K, default: object = None) -> object:
        """The value of the key, or the default if it has none.

        >>> with Store() as store:
        ...     store[7] = 70, 71
        ...     store.get(7), store.get(8), store.get(8, 0)
        ((70, 71), None, 0)
        """
        return self._get(key, default)

    def get_many(self, keys: Iterable[K]) -> List[Optional[V]]:
        """The values of the keys at one moment, each at the place of its key; ``None`` for none.

        >>> with Store() as store:
        ...     store.update({7: 70, 8: (80, 81)})
        ...     store.get_many([8, 9, 7])
        [(80, 81), None, 70]
        """
        return self._get_many(list(keys))

    def get_into(self, keys: Any, values: Any, default: int = 0, found: Any = None) -> int:
        """Reads the keys in a buffer at one moment, into another buffer. How many have a value.

        The word of each key goes into ``values``, at the place of the key, or ``default`` if the
        key has no value; ``found``, if it is given, gets a byte of 1 or 0 there. Both may be
        written over the keys. It is for many keys: no object is made for any of them, and it takes
        80 bytes of memory for each. For more than 256 it lets the interpreter's other threads run.

        Keys and values are buffers of 64-bit unsigned items, as ``array("Q")``, a ``memoryview`` or
        an array of NumPy, found is one of bytes; all have as many items. ``TypeError`` if they have
        other items, or the store has codecs; ``ValueError`` if their lengths differ, if the default
        is out of range, or if a value is a tuple; ``BufferError`` if items do not lie side by side,
        or what is to be written is read-only. The buffers are as before then.

        >>> from array import array
        >>> with Store() as store:
        ...     store.update({7: 70, 8: 80})
        ...     keys, values = array("Q", [8, 9, 7]), array("Q", [0] * 3)
        ...     found = bytearray(3)
        ...     store.get_into(keys, values, found=found), list(values), list(found)
        (2, [80, 0, 70], [1, 0, 1])
        """
        word = word_of(default)
        with words_in("keys", keys) as numbers, room_in("values", values) as words:
            with marks_in("found", found) as marks:
                wanted = items_of(numbers)
                marked = wanted if found is None else items_of(marks)
                if not items_of(words) == marked == wanted:
                    raise ValueError("the buffers have not the same number of items")
                return self._get_into(numbers, words, word, marks)

    def first(
        self, start: Optional[K] = None, stop: Optional[K] = None
    ) -> Optional[Tuple[K, V]]:
        """The row of the least key from ``start`` on and below ``stop`` with a value, if any.

        >>> with Store() as store:
        ...     store.update({7: 70, 3: 30})
        ...     store.first(), store.first(4), store.first(4, 7)
        ((3, 30), (7, 70), None)
        """
        return self._end(*self._range(start, stop), False)

    def last(
        self, start: Optional[K] = None, stop: Optional[K] = None
    ) -> Optional[Tuple[K, V]]:
        """The row of the greatest key from ``start`` on and below ``stop`` with a value, if any.

        >>> with Store() as store:
        ...     store.update({7: 70, 3: 30})
        ...     store.last(), store.last(0, 7), store.last(8)
        ((7, 70), (3, 30), None)
        """
        return self._end(*self._range(start, stop), True)

    def floor(self, key: K) -> Optional[Tuple[K, V]]:
        """The row of the greatest key that has a value and is not above this one, if any.

        >>> with Store() as store:
        ...     store.update({7: 70, 3: 30})
        ...     store.floor(6), store.floor(7), store.floor(2)
        ((3, 30), (7, 70), None)
        """
        return self._end(0, self._number(key), True)

    def ceiling(self, key: K) -> Optional[Tuple[K, V]]:
        """The row of the least key that has a value and is not below this one, if any.

        >>> with Store() as store:
        ...     store.update({7: 70, 3: 30})
        ...     store.ceiling(4), store.ceiling(7), store.ceiling(8)
        ((7, 70), (7, 70), None)
        """
        return self._end(self._number(key), _GREATEST_KEY, False)

    def __contains__(self, key: object) -> bool:
        """Whether the key has a value.

        >>> with Store() as store:
        ...     store[7] = 70
        ...     7 in store, 8 in store
        (True, False)
        """
        return self._has(key)

    def count(self, start: Optional[K] = None, stop: Optional[K] = None) -> int:
        """How many keys from ``start`` on and below ``stop`` have a value; visits all of them.

        Without ``start`` it begins at the least key; without ``stop`` there is no upper end. The
        greatest key is 2**64 - 1, so 2**64 is the greatest bound.

        >>> with Store() as store:
        ...     for key in 3, 7, 20:
        ...         store[key] = 0
        ...     store.count(), store.count(4), store.count(3, 20)
        (3, 2, 2)
        """
        return self._count(*self._range(start, stop))

    def __reduce__(self) -> NoReturn:
        raise TypeError(f"a {type(self).__name__} cannot be copied or pickled")
