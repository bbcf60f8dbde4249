"""Rows and values as ``ctypes`` gives them to the library, and as it answers them."""

from __future__ import annotations

import ctypes
import struct
from typing import Any, List, Optional, Tuple

from . import _library as library
from ._values import Row, Value, key_of, words_of

Page = Tuple[List[Row], Optional[int]]

_ARRAYS = [ctypes.c_uint64 * count for count in range(9)]
_NO_WORDS = (0,) * 8

# A row of the library: the key, the length of the value, and its eight words.
ROW = struct.Struct("=10Q")


def pack(key: int, value: Optional[Value]) -> bytes:
    """A row as the library has it; ``None`` stands for no value."""
    number = key_of(key)
    words = () if value is None else words_of(value)
    return ROW.pack(number, len(words), *words, *_NO_WORDS[len(words) :])


def array_of(value: Value) -> Any:
    words = words_of(value)
    return _ARRAYS[len(words)](*words)


def packed(value: Value) -> library.Value:
    words = words_of(value)
    return library.Value(len(words), tuple(words))


def packed_or_none(value: Optional[Value]) -> Optional[library.Value]:
    """The value as the library has it; ``None``, a null pointer, stands for no value."""
    return None if value is None else packed(value)


def value_of(found: library.Value) -> Optional[Value]:
    """The value that the library found, if it found one."""
    if not found.length:
        return None
    words: List[int] = found.words[: found.length]
    return words[0] if len(words) == 1 else tuple(words)


def many_of(keys: List[int]) -> Tuple[Any, Any]:
    """The keys as the library has them, and room for their values."""
    if not isinstance(keys, list):
        raise TypeError("keys are a list")
    numbers = [key_of(key) for key in keys]
    return (ctypes.c_uint64 * len(numbers))(*numbers), (library.Value * len(numbers))()


def row_of(found: library.Row) -> Optional[Row]:
    """The row that the library found, if it found one."""
    value = value_of(found.value)
    return None if value is None else (found.key, value)


def page_of(rows: Any, end: library.PageEnd) -> Page:
    read = ctypes.string_at(rows, end.rows * ROW.size)
    page = [
        (row[0], row[2] if row[1] == 1 else row[2 : 2 + row[1]]) for row in ROW.iter_unpack(read)
    ]
    return page, end.next if end.more else None
