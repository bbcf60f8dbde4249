"""A store of texts: keys and values of any bytes, up to 4 MiB, over the map of numbers.

    python3 texts.py

Texts whose keys have one hash are a chain: they stand one behind another, cut into rows of 64
bytes, at the numbers that begin with the hash. Whoever sets a text reads its chain and writes
those rows of it that change, in one transaction.

    number of a row   hash of the key, 48 bits | place of the row, 16 bits
    chain, in bytes   its size, 8 | sizes of key and value, 16 | key | value | next text | ..
"""

import hashlib
import struct
from concurrent.futures import ThreadPoolExecutor
from typing import Any, Dict, Iterable, List, Optional

import cupolanettle

ROW = 64
PLACE_BITS = 16
SIZE = struct.Struct("<Q")
SIZES = struct.Struct("<QQ")


def bytes_of(value: cupolanettle.Value) -> bytes:
    words = value if isinstance(value, tuple) else (value,)
    return struct.pack(f"<{len(words)}Q", *words)


def value_of(row: bytes) -> cupolanettle.Value:
    count = -(-len(row) // 8)
    words = struct.unpack(f"<{count}Q", row.ljust(8 * count, b"\0"))
    return words if count > 1 else words[0]


def texts_of(chain: bytes) -> Dict[bytes, bytes]:
    texts, at = {}, SIZE.size
    while at < len(chain):
        key_size, text_size = SIZES.unpack_from(chain, at)
        begin = at + SIZES.size
        middle = begin + key_size
        at = middle + text_size
        texts[chain[begin:middle]] = chain[middle:at]
    return texts


def chain_of(texts: Dict[bytes, bytes]) -> bytes:
    parts = (SIZES.pack(len(key), len(text)) + key + text for key, text in texts.items())
    body = b"".join(parts)
    size = SIZE.size + len(body)
    if size > ROW << PLACE_BITS:
        raise ValueError("the text is too long")
    return SIZE.pack(size) + body if body else b""


class Texts:
    """The texts of a transaction; those of a snapshot can be read."""

    hash_bits = 48

    def __init__(self, rows: Any) -> None:
        self.rows = rows

    def get_many(self, keys: Iterable[bytes]) -> List[Optional[bytes]]:
        keys = list(keys)
        places = [self.place_of(key) for key in keys]
        found = zip(keys, places, self.rows.get_many(places))
        return [texts_of(self.chain(place, first)).get(key) for key, place, first in found]

    def get(self, key: bytes) -> Optional[bytes]:
        return self.get_many([key])[0]

    def set(self, key: bytes, text: Optional[bytes]) -> bool:
        """Sets the text; None removes it. Whether there was one."""
        place = self.place_of(key)
        old = self.chain(place, self.rows.get(place))
        texts = texts_of(old)
        before = texts.pop(key, None)
        if text is not None:
            texts[key] = text
        self.write(place, old, chain_of(texts))
        return before is not None

    def place_of(self, key: bytes) -> int:
        """The number of the first row of its chain."""
        number = int.from_bytes(hashlib.blake2b(key, digest_size=8).digest(), "little")
        return number % (1 << self.hash_bits) << PLACE_BITS

    def chain(self, place: int, first: Optional[cupolanettle.Value]) -> bytes:
        """The chain whose first row this is."""
        if first is None:
            return b""
        chain = bytes_of(first)
        (size,) = SIZE.unpack_from(chain)
        if size > ROW:
            more = range(place + 1, place + -(-size // ROW))
            chain += b"".join(map(bytes_of, self.rows.get_many(more)))
        return chain[:size]

    def write(self, place: int, old: bytes, new: bytes) -> None:
        """Writes the rows of the new chain that are not those of the old one."""
        for at in range(0, max(len(old), len(new)), ROW):
            row = new[at : at + ROW]
            if not row:
                self.rows.remove(place + at // ROW)
            elif row != old[at : at + ROW]:
                self.rows[place + at // ROW] = value_of(row)


THREADS = 4
NUMBERS = range(100)


def name_of(number: int) -> bytes:
    return b"text %d" % number


def add(texts: Texts, number: int) -> None:
    """Sets a text and counts it."""
    texts.set(name_of(number), b" ".join([b"%d" % number] * number))
    texts.set(b"texts", b"%d" % (int(texts.get(b"texts") or 0) + 1))


def fill(store: cupolanettle.Store[int, Any], own: int) -> None:
    for number in NUMBERS[own::THREADS]:
        store.transact(lambda rows: add(Texts(rows), number))


def look(store: cupolanettle.Store[int, Any]) -> str:
    """The count, and how many texts there are: at one moment, so they are the same."""
    with store.snapshot() as rows:
        count, *found = Texts(rows).get_many([b"texts", *map(name_of, NUMBERS)])
    there = [text for text in found if text is not None]
    assert int(count or 0) == len(there)
    return f"{len(there)} texts of {sum(map(len, there))} bytes"


def clear(rows: cupolanettle.Transaction) -> int:
    """Removes all texts at one moment, and one that is not there. How many there were."""
    names = *map(name_of, NUMBERS), b"texts", b"another"
    return sum(Texts(rows).set(name, None) for name in names)


def main() -> None:
    Texts.hash_bits = 4  # so few that chains are long
    with cupolanettle.Store() as store:
        with ThreadPoolExecutor(THREADS) as pool:
            ending = [pool.submit(fill, store, own) for own in range(THREADS)]
            while not all(thread.done() for thread in ending):
                look(store)
            for thread in ending:
                thread.result()
        print(look(store))
        with store.snapshot() as rows:
            print((Texts(rows).get(name_of(7)) or b"").decode())
        removed = store.transact(clear)
        print(removed, "removed,", store.count(), "rows left")


if __name__ == "__main__":
    main()
