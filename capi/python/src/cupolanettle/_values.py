"""Keys, ranges and values as Python has them, and as the library has them."""

from __future__ import annotations

import operator
from typing import Any, Iterable, Mapping, Optional, Sequence, Tuple, TypeVar, Union

Value = Union[int, Tuple[int, ...]]
"""A value of a store: an int is one word, a tuple of 2 to 8 ints several."""

Row = Tuple[int, Value]
"""A key and its value."""

K = TypeVar("K")
V = TypeVar("V")
"""Of the keys and the values of a store; without codecs they are ``int`` and :data:`Value`."""

_LIMIT = 2**64
_EMPTY_RANGE = (1, 0)
_BOUND = "a bound of a range"
_PAIR = "a row is a pair of a key and a value"

NONE = "None is no value; remove removes a key"


def _int_of(what: str, number: int) -> int:
    """The int that it is, or stands for."""
    try:
        return operator.index(number)
    except TypeError:
        if hasattr(type(number), "__index__"):
            raise
        raise TypeError(f"{what} is an int, not {type(number)}") from None


def key_of(key: int) -> int:
    """The key, if it is one."""
    number = _int_of("a key", key)
    if not 0 <= number < _LIMIT:
        raise ValueError("a key is from 0 to 2**64 - 1")
    return number


def word_of(word: int) -> int:
    """The word, if it is one."""
    number = _int_of("a word", word)
    if not 0 <= number < _LIMIT:
        raise ValueError("a word is from 0 to 2**64 - 1")
    return number


def words_of(value: Value) -> Sequence[int]:
    """The words of a value."""
    if not isinstance(value, tuple):
        if value is None:
            raise TypeError(NONE)
        if not hasattr(type(value), "__index__"):
            raise TypeError(f"a value is an int or a tuple of 2 to 8 ints, not {type(value)}")
        return (word_of(value),)
    if not 2 <= len(value) <= 8:
        raise ValueError("a tuple has 2 to 8 words; for one word pass an int")
    return tuple(map(word_of, value))


def range_of(start: int, stop: Optional[int]) -> Tuple[int, int]:
    """The first and the last key of a half-open range; the first is greater if it is empty."""
    begin = _int_of(_BOUND, start)
    end = _LIMIT if stop is None else _int_of(_BOUND, stop)
    if not (0 <= begin <= _LIMIT and 0 <= end <= _LIMIT):
        raise ValueError("a range is within 0 and 2**64")
    return (begin, end - 1) if begin < end else _EMPTY_RANGE


def _row_of(row: Any) -> Any:
    """The row, if it is a pair."""
    try:
        key, value = row
    except TypeError:
        raise TypeError(_PAIR) from None
    except ValueError:
        raise ValueError(_PAIR) from None
    return key, value


def rows_of(rows: Any) -> Iterable[Any]:
    """The rows of a mapping, or of pairs."""
    return rows.items() if isinstance(rows, Mapping) else map(_row_of, rows)
