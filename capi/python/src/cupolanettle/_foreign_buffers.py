"""Many keys over buffers, as ``ctypes`` gives them to the library.

What is read of a buffer is copied, as other threads may write it meanwhile.
"""

from __future__ import annotations

import ctypes
from typing import Any, Iterator, Tuple

from . import _library as library

_VALUE_WORDS = ctypes.sizeof(library.Value) // 8
_ROW_WORDS = ctypes.sizeof(library.Row) // 8


def _words_of(buffer: memoryview) -> memoryview:
    """A copy of a buffer of 64-bit items."""
    return memoryview(buffer.tobytes()).cast("Q")


def _fill(buffer: memoryview, content: bytes) -> None:
    """Sets all bytes of a buffer, of whatever items."""
    ctypes.memmove((ctypes.c_char * len(content)).from_buffer(buffer), content, len(content))


class Into:
    """Keys, and room for a value of each: what a call that reads them takes."""

    def __init__(self, keys: memoryview, values: memoryview, found: memoryview) -> None:
        self.count = keys.nbytes // 8
        if values.nbytes != keys.nbytes or found.nbytes not in (0, self.count):
            raise ValueError("the buffers have not the same number of items")
        self._values, self._found = values, found
        self._room = bytearray(self.count * ctypes.sizeof(library.Value))
        self._numbers = (ctypes.c_uint64 * self.count).from_buffer_copy(keys)
        self._places = (library.Value * self.count).from_buffer(self._room)

    def arguments(self) -> Tuple[Any, int, Any]:
        return self._numbers, self.count, self._places

    def leave_words(self, default: int) -> int:
        """Leaves the words that were read in the buffers: how many keys have one."""
        cells = memoryview(self._room).cast("Q")
        lengths = cells[::_VALUE_WORDS].tolist()
        if max(lengths, default=0) > 1:
            raise ValueError("a value has several words")
        words = memoryview(bytearray(8 * self.count)).cast("Q")
        words[:] = cells[1::_VALUE_WORDS]
        for place, length in enumerate(lengths):
            if not length:
                words[place] = default
        _fill(self._values, words.tobytes())
        if self._found.nbytes:
            _fill(self._found, bytes(lengths))
        return sum(lengths)


def batches_of(keys: memoryview, words: memoryview, room: int) -> Iterator[Tuple[Any, int]]:
    """Rows of the library, so many at most, of keys and their words."""
    if words.nbytes != keys.nbytes:
        raise ValueError("the buffers have not the same number of items")
    numbers, values = _words_of(keys), _words_of(words)
    for start in range(0, len(numbers), room):
        part = numbers[start : start + room]
        rows = bytearray(len(part) * ctypes.sizeof(library.Row))
        cells = memoryview(rows).cast("Q")
        cells[0::_ROW_WORDS] = part
        cells[1::_ROW_WORDS] = memoryview((1).to_bytes(8, "little") * len(part)).cast("Q")
        cells[2::_ROW_WORDS] = values[start : start + room]
        yield (library.Row * len(part)).from_buffer(rows), len(part)
