"""Walks, what is retained by them, and what a store tells of itself."""

from __future__ import annotations

import unittest
from functools import partial
from typing import Any, List

from cupolanettle import Closed, NoSeat, OwnSnapshot, Rows, RunFull, Statistics, Store, Value

from .support import in_threads

KEYS = 1_000


class Walks(unittest.TestCase):
    def setUp(self) -> None:
        self.store = Store(keys=KEYS, epoch=16, wait=0)
        self.addCleanup(self.store.close)
        for key in range(KEYS):
            self.store[key] = key

    def test_ranges(self) -> None:
        for start, stop in (0, None), (5, 6), (5, 5), (6, 5), (63, 129), (990, 2**64), (2**64, None):
            wanted = [(key, key) for key in range(KEYS)][start:stop]
            rows = self.store.walk(start, stop)
            self.assertIsInstance(rows, Rows)
            self.assertEqual(list(rows), wanted)
            self.assertEqual(list(rows), [])
        for start in -1, 2**64 + 1:
            self.assertRaises(ValueError, self.store.walk, start)

    def test_it_writes_what_it_reads(self) -> None:
        for _ in range(3):
            for key, value in self.store.walk():
                assert isinstance(value, int)
                self.store[key] = value + 1
        self.assertEqual(list(self.store.scan()), [(key, key + 3) for key in range(KEYS)])

    def test_it_keeps_no_seat(self) -> None:
        walks = [self.store.walk() for _ in range(100)]
        self.assertEqual([next(rows) for rows in walks], [(0, 0)] * 100)
        self.assertEqual(self.store.stats().snapshots, 0)

    def test_it_is_weakly_consistent(self) -> None:
        rows = self.store.walk()
        next(rows)
        self.store[1] = 0  # was read ahead
        self.store[500] = 0  # was not
        self.store.remove(501)
        found = dict(rows)
        self.assertEqual((found[1], found[500], 501 in found), (1, 0, False))

    def test_threads_share_one(self) -> None:
        for rows in self.store.walk(), self.store.scan(), self.store.snapshot().scan():
            found: List[int] = []
            in_threads([lambda: found.extend(key for key, _ in rows)] * 4)
            self.assertEqual(sorted(found), list(range(KEYS)))

    def test_a_closed_store(self) -> None:
        rows = self.store.walk()
        next(rows)
        self.store.close()
        with self.assertRaises(Closed):
            list(rows)

    def test_retain(self) -> None:
        asked: List[int] = []

        def keep(key: int, value: Value) -> bool:
            self.assertEqual(value, key)
            asked.append(key)
            return key % 3 == 0

        self.assertEqual(self.store.retain(keep, 100, 200), 67)
        self.assertEqual(asked, list(range(100, 200)))
        left = [key for key in range(KEYS) if not 100 <= key < 200 or key % 3 == 0]
        self.assertEqual([key for key, _ in self.store.scan()], left)

    def test_retain_removes_what_it_saw_alone(self) -> None:
        def keep(key: int, _: Value) -> bool:
            in_threads([partial(self.store.add, key)] if key == 7 else [])
            return False

        self.assertEqual(self.store.retain(keep, 5, 10), 4)
        self.assertEqual(list(self.store.scan(5, 11)), [(7, 8), (10, 10)])

    def test_an_error_ends_it(self) -> None:
        def keep(key: int, _: Value) -> bool:
            return 1 // (key - 7) > 0

        self.assertRaises(ZeroDivisionError, self.store.retain, keep)
        self.assertEqual([key for key, _ in self.store.scan(0, 9)], [7, 8])


class Told(unittest.TestCase):
    def test_what_is_open_and_written(self) -> None:
        with Store(keys=1_000, epoch=64) as store:
            at_first = store.stats()
            self.assertIsInstance(at_first, Statistics)
            self.assertEqual((at_first.clock, at_first.oldest_age, at_first.snapshots), (0, 0, 0))
            store[1] = 10
            snapshot, rows = store.snapshot(), store.scan()
            for number in range(200):
                store[1] = number
            now = store.stats()
            self.assertGreaterEqual(now.clock, 201)
            self.assertEqual(now.snapshots, 2)
            self.assertEqual((now.oldest_time, now.oldest_age > 0), (snapshot.time, True))
            self.assertEqual(now.bytes, at_first.bytes)
            self.assertGreaterEqual(now.merges, 1)
            self.assertGreaterEqual(now.longest_merge, now.last_merge)
            rows.close()
            snapshot.close()
            self.assertEqual((store.stats().snapshots, store.stats().oldest_age), (0, 0))

    def test_what_is_refused(self) -> None:
        with Store(keys=1, epoch=4, wait=0, merge_in_calls=True) as store:
            with store.snapshot(), self.assertRaises(OwnSnapshot):
                while True:
                    store[7] = 70
            with self.assertRaises(RunFull):
                for key in range(200):
                    store[key] = 70
            opened: List[object] = []
            with self.assertRaises(NoSeat):
                while True:
                    opened.append(store.snapshot())
            now = store.stats()
            self.assertEqual((now.versions_full, now.run_full, now.no_seat), (1, 1, 1))

    def test_it_is_shown(self) -> None:
        store = Store(keys=1_000)
        with store, store.snapshot():
            store[1] = 10
            shown = repr(store)
            for words in "Store of ", " 1 writes", " 1 snapshots", "1,000 keys":
                self.assertIn(words, shown)
        self.assertEqual(repr(store), "<Store, closed>")

    def test_it_cannot_be_changed(self) -> None:
        with Store() as store:
            now: Any = store.stats()
            with self.assertRaises(AttributeError):
                now.bytes = 0
