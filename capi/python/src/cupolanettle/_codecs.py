"""Keys and values that are no unsigned numbers of 64 bits: codecs, as C's and Rust's.

Keys are encoded in order: the greater one of two keys has the greater number. So ranges and scans
are of the keys that they name.
"""

from __future__ import annotations

import math
import operator
import struct
from typing import Any, Generic, Iterable, Optional, Tuple, TypeVar

from ._values import Value

T = TypeVar("T")

KEY_BYTES = 8
"""Of octets or a text in a key, at most."""

VALUE_BYTES = 63
"""Of octets or a text in a value, at most."""

_WORD_BYTES = 8
_SIGN = 1 << 63
_MASK = 2**64 - 1
_HALF_BITS = 32
_HALF_LIMIT = 1 << _HALF_BITS
_DOUBLE = struct.Struct("<d")
_WORD = struct.Struct("<Q")


class KeyCodec(Generic[T]):
    """How keys of a type are numbers from 0 to 2**64 - 1, in their order.

    A codec of your own has both methods, each the other's inverse:

    >>> class Falling(KeyCodec[int]):
    ...     def key_of(self, key):
    ...         return 2**64 - 1 - key
    ...     def of_key(self, number):
    ...         return 2**64 - 1 - number
    >>> with Store(key=Falling()) as store:
    ...     store.update({3: 30, 7: 70})
    ...     list(store.scan())
    [(7, 70), (3, 30)]
    """

    def key_of(self, key: T) -> int:
        """The number of the key; ``ValueError`` or ``TypeError`` if it has none.

        >>> hex(text.key_of("fig")), signed.key_of(-1) < signed.key_of(0)
        ('0x6669670000000000', True)
        """
        raise NotImplementedError

    def of_key(self, number: int) -> T:
        """The key of the number; ``ValueError`` if it has none.

        >>> pairs.of_key(pairs.key_of((7, 9)))
        (7, 9)
        """
        raise NotImplementedError


class ValueCodec(Generic[T]):
    """How values of a type are one to eight words.

    >>> with Store(value=octets) as store:
    ...     store[7] = b"seven"
    ...     store[7]
    b'seven'
    """

    def value_of(self, value: T) -> Value:
        """The words of the value; ``ValueError`` or ``TypeError`` if it has none.

        >>> signed.value_of(-1) == 2**64 - 1, len(text.value_of("eight bytes"))
        (True, 2)
        """
        raise NotImplementedError

    def of_value(self, words: Value) -> T:
        """The value of the words; ``ValueError`` if they have none.

        >>> floating.of_value(floating.value_of(0.1))
        0.1
        """
        raise NotImplementedError


class _Named:
    """A codec of the package: it is shown by its name there, and a copy is the same object."""

    def __repr__(self) -> str:
        return f"{__package__}.{self.__reduce__()}"

    def __reduce__(self) -> str:
        return type(self).__name__.lower()


def checked_key_codec(codec: Optional[AnyKeyCodec]) -> AnyKeyCodec:
    """The codec, if it is one."""
    checked: AnyKeyCodec = _checked("key", codec, "key_of", "of_key")
    return checked


def checked_value_codec(codec: Optional[AnyValueCodec]) -> AnyValueCodec:
    """The codec, if it is one."""
    checked: AnyValueCodec = _checked("value", codec, "value_of", "of_value")
    return checked


def _checked(name: str, codec: Any, *methods: str) -> Any:
    if codec is None:
        return plain
    has_all = all(callable(getattr(codec, method, None)) for method in methods)
    if isinstance(codec, type) or not has_all:
        raise TypeError(f"{name} is no codec of {name}s: {codec!r}")
    return codec


def _word_of(words: Value) -> int:
    if isinstance(words, tuple):
        raise ValueError("the value has several words")
    return words


# ---- Numbers


class Signed(_Named, KeyCodec[int], ValueCodec[int]):
    """Ints from -2**63 to 2**63 - 1."""

    def _checked(self, number: int) -> int:
        checked = operator.index(number)
        if not -_SIGN <= checked < _SIGN:
            raise ValueError("a signed number is from -2**63 to 2**63 - 1")
        return checked

    def key_of(self, key: int) -> int:
        return self._checked(key) + _SIGN

    def of_key(self, number: int) -> int:
        return number - _SIGN

    def value_of(self, value: int) -> Value:
        return self._checked(value) & _MASK

    def of_value(self, words: Value) -> int:
        word = _word_of(words)
        return word - (word >> 63 << 64)


class Floating(_Named, KeyCodec[float], ValueCodec[float]):
    """Floats by their bits, in IEEE 754's total order as keys: -0.0 is below 0.0."""

    def _bits(self, number: float) -> int:
        bits: int = _WORD.unpack(_DOUBLE.pack(math.copysign(number, number)))[0]
        return bits

    def _of_bits(self, bits: int) -> float:
        number: float = _DOUBLE.unpack(_WORD.pack(bits))[0]
        return number

    def key_of(self, key: float) -> int:
        bits = self._bits(key)
        return bits ^ (_MASK if bits & _SIGN else _SIGN)

    def of_key(self, number: int) -> float:
        return self._of_bits(number ^ (_SIGN if number & _SIGN else _MASK))

    def value_of(self, value: float) -> Value:
        return self._bits(value)

    def of_value(self, words: Value) -> float:
        return self._of_bits(_word_of(words))


class Pairs(_Named, KeyCodec[Tuple[int, int]]):
    """Pairs of ints from 0 to 2**32 - 1, by the first one, then by the second."""

    def key_of(self, key: Tuple[int, int]) -> int:
        if not isinstance(key, Iterable):
            raise TypeError(f"a pair is two ints, not {type(key)}")
        numbers = tuple(map(operator.index, key))
        if len(numbers) != 2 or not all(0 <= number < _HALF_LIMIT for number in numbers):
            raise ValueError("a pair has two numbers from 0 to 2**32 - 1")
        return numbers[0] << _HALF_BITS | numbers[1]

    def of_key(self, number: int) -> Tuple[int, int]:
        return divmod(number, _HALF_LIMIT)


# ---- Bytes and texts


class Octets(_Named, KeyCodec[bytes], ValueCodec[bytes]):
    """Bytes: up to 8 in a key, the last of which is not 0, and up to 63 in a value."""

    def key_of(self, key: bytes) -> int:
        octets = memoryview(key).tobytes()
        if len(octets) > KEY_BYTES or octets.endswith(b"\0"):
            raise ValueError("a key has up to 8 bytes, the last of which is not 0")
        return int.from_bytes(octets.ljust(KEY_BYTES, b"\0"), "big")

    def of_key(self, number: int) -> bytes:
        return number.to_bytes(KEY_BYTES, "big").rstrip(b"\0")

    def value_of(self, value: bytes) -> Value:
        octets = memoryview(value).tobytes()
        if len(octets) > VALUE_BYTES:
            raise ValueError("a value has up to 63 bytes")
        counted = bytes((len(octets),)) + octets
        count = -(-len(counted) // _WORD_BYTES)
        words = struct.unpack(f"<{count}Q", counted.ljust(count * _WORD_BYTES, b"\0"))
        return words if count > 1 else words[0]

    def of_value(self, words: Value) -> bytes:
        several = words if isinstance(words, tuple) else (words,)
        counted = struct.pack(f"<{len(several)}Q", *several)
        end = 1 + counted[0]
        is_short = end <= len(counted) - _WORD_BYTES
        if end > len(counted) or is_short or counted[end:].strip(b"\0"):
            raise ValueError("the words are those of no bytes")
        return counted[1:end]


def _utf_8(text: str) -> bytes:
    if not isinstance(text, str):
        raise TypeError(f"a text is a str, not {type(text)}")
    return text.encode()


class Text(_Named, KeyCodec[str], ValueCodec[str]):
    """Texts as UTF-8: up to 8 bytes in a key, not ending in a zero, up to 63 in a value."""

    def key_of(self, key: str) -> int:
        return octets.key_of(_utf_8(key))

    def of_key(self, number: int) -> str:
        return octets.of_key(number).decode()

    def value_of(self, value: str) -> Value:
        return octets.value_of(_utf_8(value))

    def of_value(self, words: Value) -> str:
        return octets.of_value(words).decode()


class Plain(KeyCodec[int], ValueCodec[Value]):
    """Numbers and words as they are."""

    def key_of(self, key: int) -> int:
        return key

    def of_key(self, number: int) -> int:
        return number

    def value_of(self, value: Value) -> Value:
        return value

    def of_value(self, words: Value) -> Value:
        return words


signed = Signed()
floating = Floating()
pairs = Pairs()
octets = Octets()
text = Text()
plain = Plain()

AnyKeyCodec = KeyCodec[Any]
AnyValueCodec = ValueCodec[Any]
