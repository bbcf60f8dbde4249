"""Stores whose keys and values are written by codecs, and what is read of them."""

from __future__ import annotations

from functools import partial
from typing import Any, Dict, List, Optional, Tuple

from . import _core as core
from ._codecs import AnyKeyCodec, AnyValueCodec, checked_key_codec, checked_value_codec
from ._reading import Reader, Rows
from ._snapshot import Snapshot
from ._store import Store
from ._values import K, V, range_of


class CodedRows(Rows[K, V]):
    """Rows of a coded store."""

    _keys: AnyKeyCodec
    _values: AnyValueCodec

    def __next__(self) -> Tuple[K, V]:
        row: Tuple[Any, Any] = super().__next__()
        number, words = row
        return self._keys.of_key(number), self._values.of_value(words)


class Coded(Reader[K, V]):
    """Reads by key and by range, of a reader of numbers and words."""

    _keys: AnyKeyCodec
    _values: AnyValueCodec

    def _decoded(self, words: Any) -> Any:
        """The value; ``None`` stands for no value."""
        return None if words is None else self._values.of_value(words)

    def _encoded(self, value: Any) -> Any:
        """The words; ``None`` stands for no value."""
        return None if value is None else self._values.value_of(value)

    def _get(self, key: Any, default: object) -> Any:
        words = super()._get(self._keys.key_of(key), None)
        return default if words is None else self._values.of_value(words)

    def _get_many(self, keys: List[Any]) -> List[Any]:
        found = super()._get_many([self._keys.key_of(key) for key in keys])
        return [self._decoded(words) for words in found]

    def _get_into(self, *_: Any, **__: Any) -> int:
        raise TypeError("a store with codecs takes no buffers")

    def _end(self, first: int, last: int, falls: bool) -> Any:
        row = super()._end(first, last, falls)
        return None if row is None else (self._keys.of_key(row[0]), self._values.of_value(row[1]))

    def _number(self, key: Any) -> int:
        return self._keys.key_of(key)

    def _key_of(self, number: int) -> Any:
        return self._keys.of_key(number)

    def _has(self, key: Any) -> bool:
        return super()._has(self._keys.key_of(key))

    def _range(self, start: Any, stop: Any) -> Tuple[int, int]:
        first = 0 if start is None else self._keys.key_of(start)
        return range_of(first, None if stop is None else self._keys.key_of(stop))

    def _rows(self, *how: Any) -> Rows[K, V]:
        rows: CodedRows[K, V] = CodedRows(*how)
        rows._keys, rows._values = self._keys, self._values
        return rows


class CodedSnapshot(Coded[K, V], Snapshot[K, V]):
    """A snapshot of a coded store."""


class CodedStore(Coded[K, V], Store[K, V]):
    """A store with codecs of keys and values."""

    def __init__(
        self,
        *,
        key: Optional[AnyKeyCodec] = None,
        value: Optional[AnyValueCodec] = None,
        **options: Any,
    ) -> None:
        self._keys = checked_key_codec(key)
        self._values = checked_value_codec(value)
        super().__init__(**options)

    def _put(self, key: Any, value: Any) -> None:
        super()._put(self._keys.key_of(key), self._values.value_of(value))

    def _put_words(self, *_: Any, **__: Any) -> None:
        raise TypeError("a store with codecs takes no buffers")

    def _remove(self, key: Any) -> None:
        super()._remove(self._keys.key_of(key))

    def _add(self, key: Any, by: Any) -> Any:
        return self.alter(key, partial(self._sum, by=by))

    def _sum(self, old: Any, by: Any) -> Any:
        return by if old is None else old + by

    def _codecs(self) -> Dict[str, Any]:
        return {"key": self._keys, "value": self._values}

    def _put_if_absent(self, key: Any, value: Any) -> Any:
        held = super()._put_if_absent(self._keys.key_of(key), self._values.value_of(value))
        return self._decoded(held)

    def _replace(
        self, key: Any, expected: Any, desired: Any
    ) -> Tuple[bool, Optional[Any], Optional[Any]]:
        words = self._encoded(expected), self._encoded(desired)
        is_written, before, after = super()._replace(self._keys.key_of(key), *words)
        return is_written, self._decoded(before), self._decoded(after)

    def _pack(self, key: Any, value: Any) -> bytes:
        return core.pack(self._keys.key_of(key), self._encoded(value))

    def snapshot(self) -> Snapshot[K, V]:
        snapshot: CodedSnapshot[K, V] = CodedSnapshot(self)
        snapshot._keys, snapshot._values = self._keys, self._values
        return snapshot


Store._coded = CodedStore
