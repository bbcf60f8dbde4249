"""Many keys over buffers."""

from __future__ import annotations

import ctypes
import os
import unittest
from array import array
from functools import partial
from typing import Any, Callable, List

from cupolanettle import Closed, OwnSnapshot, RunFull, Store, Value, signed

from .support import in_child, in_process, in_threads

GREATEST = 2**64 - 1
MANY = 1_000  # which let other threads of the interpreter run


def words(*numbers: int) -> Any:
    return array("Q", numbers)


class Case(unittest.TestCase):
    def setUp(self) -> None:
        self.store = Store(keys=10_000, epoch=64)
        self.addCleanup(self.store.close)


class Getting(Case):
    def test_words_stand_at_the_places_of_their_keys(self) -> None:
        self.store.update({1: 10, 2: 20, GREATEST: GREATEST})
        keys, values, found = words(3, 1, GREATEST, 1), words(*[7] * 4), bytearray(4)
        with self.store.snapshot() as snapshot:
            self.store.remove(1)
            self.assertEqual(snapshot.get_into(keys, values), 3)
            self.assertEqual(values, words(0, 10, GREATEST, 10))
        self.assertEqual(self.store.get_into(keys, values, GREATEST - 1, found), 1)
        self.assertEqual(values, words(GREATEST - 1, GREATEST - 1, GREATEST, GREATEST - 1))
        self.assertEqual(found, bytearray([0, 0, 1, 0]))
        self.assertEqual(self.store.get_into(words(), words(), 0, bytearray()), 0)

    def test_many(self) -> None:
        keys = words(*(key * 7 % MANY for key in range(MANY)))
        self.store.update((key, key + 1) for key in range(MANY) if key % 3)
        wanted = words(*(key + 1 if key % 3 else 5 for key in keys))
        with self.store.snapshot() as snapshot:
            readers: List[Any] = [self.store, snapshot]
            for reader in readers:
                values, found = words(*[0] * MANY), bytearray(MANY)
                count = reader.get_into(keys, values, 5, found)
                self.assertEqual((count, values), (sum(found), wanted))
                self.assertEqual(found, bytearray(key % 3 > 0 for key in keys))
        self.assertEqual(self.store.get_into(keys, keys, 5), sum(found))
        self.assertEqual(keys, wanted)

    def test_kinds_of_buffers(self) -> None:
        self.store.put_many(words(1, 2), words(10, 20))
        octets = b"x" + bytes(words(1, 2))
        room = bytearray(17)
        outs: List[Any] = [words(0, 0), array("L", [0, 0]), (ctypes.c_uint64 * 2)()]
        outs.append(memoryview(room)[1:].cast("Q"))
        for keys in words(1, 2), memoryview(octets)[1:].cast("Q"), (ctypes.c_uint64 * 2)(1, 2):
            for values in outs:
                self.assertEqual(self.store.get_into(keys, values), 2)
                self.assertEqual(bytes(values), bytes(words(10, 20)))
        self.assertEqual(room, b"\0" + bytes(words(10, 20)))

    def test_refusals(self) -> None:
        self.store.update({1: 10, 2: (20, 21)})
        keys, values = words(1, 2), words(7, 7)
        with self.store.snapshot() as snapshot:
            readers: List[Any] = [self.store, snapshot]
            for reader in readers:
                with self.assertRaisesRegex(ValueError, "several words"):
                    reader.get_into(keys, values)
                for other in array("q", [1, 2]), array("I", [1, 2]), b"12", [1, 2], array("d"):
                    self.assertRaises(TypeError, reader.get_into, other, values)
                    self.assertRaises(TypeError, reader.get_into, keys, other)
                for other in words(), words(1), words(1, 1, 1):
                    self.assertRaises(ValueError, reader.get_into, other, values)
                    self.assertRaises(ValueError, reader.get_into, keys, other)
                for size in 0, 1, 3:
                    self.assertRaises(
                        ValueError, reader.get_into, keys, values, 0, bytearray(size)
                    )
                self.assertRaises(TypeError, reader.get_into, keys, values, 0, words(0, 0))
                self.assertRaises(BufferError, reader.get_into, keys, values, 0, b"12")
                constant = memoryview(bytes(values)).cast("Q")
                self.assertRaises(BufferError, reader.get_into, keys, constant)
                apart = memoryview(words(1, 2, 3, 4))[::2]
                self.assertRaises(BufferError, reader.get_into, apart, values)
                for default in -1, 2**64:
                    self.assertRaises(ValueError, reader.get_into, keys, values, default)
                self.assertRaises(TypeError, reader.get_into, keys, values, None)
        self.assertEqual((keys, values), (words(1, 2), words(7, 7)))

    def test_buffers_are_given_back(self) -> None:
        keys, values, found = words(1, 2), words(0, 0), bytearray(2)
        self.store.put_many(keys, values)
        self.store.get_into(keys, values, 0, found)
        with self.assertRaises(ValueError) as caught:
            self.store.get_into(keys, values, 0, bytearray(1))
        for buffer in keys, values, found:
            buffer.append(0)  # BufferError if a view of it were left
        del caught

    def test_codecs(self) -> None:
        with Store(key=signed) as store:
            self.assertRaises(TypeError, store.get_into, words(1), words(1))
            self.assertRaises(TypeError, store.put_many, words(1), words(1))
            store.put_many({-1: 10, 1: 20})
            self.assertEqual(list(store.scan()), [(-1, 10), (1, 20)])


class Putting(Case):
    def test_both_kinds(self) -> None:
        numbers = range(MANY)
        self.store.put_many(words(*numbers), words(*(key + 1 for key in numbers)))
        self.assertEqual(list(self.store.scan()), [(key, key + 1) for key in numbers])
        self.store.put_many((key, (key, 7)) for key in numbers)
        self.assertEqual(list(self.store.scan()), [(key, (key, 7)) for key in numbers])
        self.store.put_many({GREATEST: 1})
        self.store.put_many(words(GREATEST, GREATEST), words(2, 3))
        self.assertEqual(self.store[GREATEST], 3)
        for nothing in {}, [], iter(()):
            self.store.put_many(nothing)
        self.store.put_many(words(), words())

    def test_refusals(self) -> None:
        put: Any = self.store.put_many
        for other in array("q", [1]), b"12345678", [1], 7:
            self.assertRaises(TypeError, put, other, words(1))
            self.assertRaises(TypeError, put, words(1), other)
        self.assertRaises(ValueError, put, words(1), words(1, 2))
        self.assertRaises(ValueError, put, words(1), words())
        self.assertRaises(BufferError, put, memoryview(words(1, 2, 3, 4))[::2], words(1, 2))
        self.assertRaises(TypeError, put, 7)
        self.assertRaises(TypeError, put, {1: None})
        self.assertRaises(ValueError, put, {1: 1, 2: (1,)})
        self.assertEqual(self.store.count(), 0)

    def test_what_was_written_is_told(self) -> None:
        numbers = range(MANY)
        pairs = {key: key for key in numbers}
        for given in (pairs,), (words(*numbers), words(*numbers)):
            for epoch in 4, 64:
                with Store(keys=100, epoch=epoch) as store:
                    with self.assertRaises(RunFull) as caught:
                        store.put_many(*given)
                    written = caught.exception.written
                    self.assertEqual(list(store.scan()), [(key, key) for key in range(written)])
                    self.assertLess(100 - epoch, written)
                    with self.assertRaises(OwnSnapshot) as refused, store.snapshot():
                        while True:
                            store.put_many(words(1, 2), words(3, 4))
                    self.assertLessEqual(refused.exception.written, 2)

    def test_closed(self) -> None:
        keys, values = words(*range(MANY)), words(*range(MANY))
        snapshot = self.store.snapshot()
        snapshot.close()
        self.store.close()
        readers: List[Any] = [self.store, snapshot]
        for reader in readers:
            for part in keys, words(1):
                self.assertRaises(Closed, reader.get_into, part, part)
        put = self.store.put_many
        for call in partial(put, keys, values), partial(put, {1: 1}):
            with self.assertRaises(Closed) as caught:
                call()
            self.assertEqual(caught.exception.written, 0)

    def test_closed_by_a_fork(self) -> None:
        keys = words(*range(MANY))

        def is_closed() -> bool:
            calls: List[Callable[[Any, Any], object]] = [self.store.get_into, self.store.put_many]
            for call in calls:
                for part in keys, words(1):
                    try:
                        call(part, part)
                    except Closed:
                        continue
                    return False
            return True

        self.assertTrue(in_child(is_closed))


class Threads(unittest.TestCase):
    def test_batches_are_seen_whole(self) -> None:
        keys = words(*range(MANY))

        def write(store: Store[int, Value], seed: int) -> None:
            for number in range(40):
                store.put_many(keys, words(*[100 * number + seed] * MANY))

        def read(store: Store[int, Value]) -> None:
            values = words(*[0] * MANY)
            for _ in range(40):
                store.get_into(keys, values)
                for start in range(0, MANY, 256):
                    self.assertEqual(len(set(values[start : start + 256])), 1)

        with Store(keys=MANY) as store:
            writers = [partial(write, store, seed) for seed in (1, 2)]
            in_threads([*writers, partial(read, store), partial(read, store)])
            self.assertEqual(store.count(), MANY)


LITTLE_SPACE = """
import resource
from array import array
from cupolanettle import Store
with Store() as store:
    store[7] = 70
    keys, values = array("Q", [7]) * 4_000_000, array("Q", [0]) * 4_000_000
    with open("/proc/self/statm") as used:
        pages = int(used.read().split()[0])
    space = pages * resource.getpagesize() + 2**27
    resource.setrlimit(resource.RLIMIT_AS, (space, resource.RLIM_INFINITY))
    try:
        store.get_into(keys, values)
    except MemoryError:
        print(sum(values), store[7], store.get_into(keys[:9], values[:9]))
"""


@unittest.skipUnless(os.path.exists("/proc/self/statm"), "needs Linux")
class Memory(unittest.TestCase):
    def test_no_memory(self) -> None:
        ended = in_process(LITTLE_SPACE)
        self.assertEqual((ended.stdout, ended.stderr), ("0 70 9\n", ""))
