"""Batches: what they leave, what refuses them, and that each read has all of their writes or none."""

from __future__ import annotations

import threading
import time
import unittest
from functools import partial
from typing import Any, List, Tuple

from cupolanettle import Closed, OwnSnapshot, Store, Value

from .support import in_child, in_threads

EPOCH = 64
KEYS = range(8)


class Writing(unittest.TestCase):
    def setUp(self) -> None:
        self.store = Store(keys=1_000, epoch=EPOCH)
        self.addCleanup(self.store.close)

    def rows(self) -> List[Tuple[int, Value]]:
        return list(self.store.scan())

    def test_in_their_order(self) -> None:
        self.store[1] = 10
        with self.store.batch() as batch:
            batch.remove(1)
            batch[2] = 20, 21
            batch[3] = 30
            batch.remove(3)
            batch[4] = 40
            batch[4] = 41
            batch[2**64 - 1] = (2**64 - 1,) * 8
            self.assertEqual(len(batch), 7)
            self.assertEqual(self.rows(), [(1, 10)])
        wanted: List[Any] = [(2, (20, 21)), (4, 41), (2**64 - 1, (2**64 - 1,) * 8)]
        self.assertEqual(self.rows(), wanted)

    def test_an_empty_one_writes_nothing(self) -> None:
        with self.store.batch() as batch:
            self.assertEqual(len(batch), 0)
        self.store.batch().write()
        self.assertEqual(self.store.stats().clock, 0)

    def test_an_error_leaves_nothing(self) -> None:
        with self.assertRaises(ZeroDivisionError):
            with self.store.batch() as batch:
                batch[1] = 10
                batch[2] = 1 // 0
        self.assertEqual((self.rows(), len(batch)), ([], 0))

    def test_one_is_used_again(self) -> None:
        batch = self.store.batch()
        for key in 1, 2:
            batch[key] = key
            batch.write()
            batch.write()
        with batch:
            batch.remove(1)
        self.assertEqual(self.rows(), [(2, 2)])

    def test_wrong_writes_are_not_added(self) -> None:
        with self.store.batch() as batch:
            batch[1] = 10
            wrong: List[Any] = [-1, 2**64, (1,), (1,) * 9, (2**64, 1)]
            for value in wrong:
                self.assertRaises(ValueError, batch.__setitem__, 2, value)
            for key in -1, 2**64:
                self.assertRaises(ValueError, batch.__setitem__, key, 0)
                self.assertRaises(ValueError, batch.remove, key)
            others: List[Any] = [None, "1", 1.0]
            for other in others:
                self.assertRaises(TypeError, batch.__setitem__, 2, other)
                self.assertRaises(TypeError, batch.remove, other)
        self.assertEqual(self.rows(), [(1, 10)])

    def test_of_each_length(self) -> None:
        for merge_in_calls in False, True:
            with Store(keys=1_000, epoch=EPOCH, merge_in_calls=merge_in_calls) as store:
                for length in range(1, EPOCH + 1):
                    with store.batch() as batch:
                        for key in range(length):
                            batch[key] = length
                    store[1_000 + length] = length
                    self.assertTrue(all(store[key] == length for key in range(length)))
                self.assertEqual(store.count(), 2 * EPOCH)

    def test_too_many_writes(self) -> None:
        batch = self.store.batch()
        for key in range(EPOCH + 1):
            batch[key] = key
        self.assertRaises(ValueError, batch.write)
        self.assertEqual((self.rows(), len(batch)), ([], EPOCH + 1))

    def test_no_room(self) -> None:
        with Store(keys=2, epoch=4) as store:
            with self.assertRaises(OwnSnapshot), store.snapshot():
                for word in range(1_000):
                    with store.batch() as batch:
                        batch[1] = batch[2] = word
            self.assertEqual(store[1], store[2])
            with store.batch() as batch:
                batch[1] = batch[2] = 1_000
            self.assertEqual(store[2], 1_000)

    def test_threads_share_one(self) -> None:
        count = 5_000

        def add(own: int) -> None:
            try:
                for key in range(own, count, 2):
                    while len(batch) > 30:
                        batch.write()
                    batch[key] = key
            finally:
                is_over.append(True)

        def write() -> None:
            while len(is_over) < 2:
                batch.write()

        is_over: List[bool] = []
        with Store(keys=count, epoch=1_000) as store:
            batch = store.batch()
            in_threads([partial(add, 0), partial(add, 1), write, write])
            batch.write()
            self.assertEqual(list(store.scan()), [(key, key) for key in range(count)])

    def test_one_is_added_to_while_it_waits(self) -> None:
        """For a snapshot, which keeps its write from finding room."""
        with Store(keys=8, epoch=4, wait=None, merge_in_calls=True) as store:
            batch = store.batch()

            def fill() -> int:
                try:
                    with self.assertRaises(OwnSnapshot):
                        while True:
                            store[1] = 10
                    return store.stats().waits
                finally:
                    is_full.set()

            def fill_and_add() -> None:
                with store.snapshot():
                    waits = fill()
                    while store.stats().waits == waits:
                        time.sleep(0)
                    for key in 3, 4:
                        batch[key] = key

            def write() -> None:
                is_full.wait()
                batch[2] = 20
                batch.write()

            is_full = threading.Event()
            in_threads([fill_and_add, write])
            self.assertEqual((list(store.scan()), len(batch)), ([(1, 10), (2, 20)], 2))
            batch.write()
            self.assertEqual([key for key, _ in store.scan()], [1, 2, 3, 4])

    def test_a_closed_store(self) -> None:
        batch = self.store.batch()
        batch[1] = 10
        self.store.close()
        self.assertRaises(Closed, batch.write)

    def test_after_a_fork(self) -> None:
        batch = self.store.batch()
        batch[1] = 10

        def is_closed() -> bool:
            try:
                batch.write()
            except Closed:
                return True
            return False

        self.assertTrue(in_child(is_closed))
        batch.write()
        self.assertEqual(self.store[1], 10)


class BesideReaders(unittest.TestCase):
    def check(self, store: Store[int, Value]) -> None:
        is_over: List[bool] = []

        def write(own: int) -> None:
            for word in range(own, 600, 2):
                with store.batch() as batch:
                    for key in KEYS:
                        if word % 7:
                            batch[key] = word
                        else:
                            batch.remove(key)
                store.add(len(KEYS))

        def read() -> None:
            while len(is_over) < 2:
                values = [value for _, value in store.scan(0, len(KEYS))]
                self.assertIn(len(values), (0, len(KEYS)))
                self.assertLessEqual(len(set(values)), 1)
                with store.snapshot() as snapshot:
                    self.assertEqual(len({snapshot.get(key) for key in reversed(KEYS)}), 1)

        def write_all(own: int) -> None:
            try:
                write(own)
            finally:
                is_over.append(True)

        in_threads([partial(write_all, 0), partial(write_all, 1), read, read])
        self.assertEqual(store[len(KEYS)], 600)

    def test_with_a_merger(self) -> None:
        with Store(keys=10_000, epoch=EPOCH) as store:
            self.check(store)

    def test_merging_in_calls(self) -> None:
        with Store(keys=10_000, epoch=EPOCH, merge_in_calls=True) as store:
            self.check(store)
