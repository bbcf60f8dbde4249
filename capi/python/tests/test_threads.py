"""Calls of several threads."""

from __future__ import annotations

import threading
import time
import unittest
from functools import partial
from typing import Any, Callable, Iterable, List, Tuple

from cupolanettle import Snapshot, Store, Value, VersionsFull

from .support import SNAPSHOTS, in_threads


class Threads(unittest.TestCase):
    def test_each_has_a_caller_of_its_own(self) -> None:
        def write(number: int) -> None:
            for i in range(1_000):
                store[4 * i + number] = (i, number)

        with Store(keys=10_000, epoch=64) as store:
            in_threads([partial(write, number) for number in range(4)])
            expected = [(key, (key // 4, key % 4)) for key in range(4_000)]
            self.assertEqual(list(store.scan()), expected)

    def test_a_hundred_short_ones_in_turn(self) -> None:
        def write(number: int) -> None:
            store[number] = number
            self.assertEqual(store[number], number)

        with Store() as store:
            for number in range(100):
                in_threads([partial(write, number)])
            self.assertEqual(list(store.scan()), [(number, number) for number in range(100)])

    def test_a_hundred_short_ones_beside_each_other(self) -> None:
        def write(number: int) -> None:
            for i in range(10):
                store[10 * number + i] = number
            self.assertEqual(store.count(10 * number, 10 * number + 10), 10)

        with Store(epoch=16) as store:
            for first in 0, 50:
                numbers = range(first, first + 50)
                in_threads([partial(write, number) for number in numbers])
            self.assertEqual(store.count(), 1_000)

    def test_more_than_there_are_seats(self) -> None:
        count = 200
        barrier = threading.Barrier(count)

        def write(number: int) -> None:
            barrier.wait()
            store[number] = number
            self.assertEqual(store.add(number), number + 1)
            self.assertGreaterEqual(store.count(), 1)
            with store.batch() as batch:
                batch[number] = number
            barrier.wait()
            self.assertEqual([store[other] for other in range(count)], list(range(count)))
            with self.a_few, store.snapshot() as snapshot:
                self.assertEqual(snapshot.count(), count)

        with Store(keys=1_000, epoch=16) as store:
            in_threads([partial(write, number) for number in range(count)])
            self.assertLessEqual(store.stats().callers, 17)
            snapshots = [store.snapshot() for _ in range(SNAPSHOTS)]
            self.assertEqual({snapshot[7] for snapshot in snapshots}, {7})

    def setUp(self) -> None:
        self.a_few = threading.Semaphore(40)  # at once

    def test_what_a_thread_saw_never_runs_back(self) -> None:
        """Each of many threads sees the numbers of others rise, by whichever caller it reads."""
        rounds = 100

        def work(number: int) -> None:
            seen: List[Any] = [0] * 4
            for i in range(rounds):
                store.add(number % 4)
                with self.a_few, store.snapshot() as snapshot:
                    found: List[Any] = [snapshot.get(key, 0) for key in range(4)]
                self.assertTrue(all(old <= new for old, new in zip(seen, found)))
                seen = [store.get(key, 0) for key in range(4)]
                self.assertTrue(all(old <= new for old, new in zip(found, seen)))
                self.assertEqual(store.count(number, number + 1), int(number < 4))
                store.alter(number % 4, lambda old: old)

        with Store(keys=1_000, epoch=64) as store:
            in_threads([partial(work, number) for number in range(20)])
            self.assertEqual([store[key] for key in range(4)], [5 * rounds] * 4)

    def test_all_write_one_key(self) -> None:
        def write(number: int) -> None:
            for i in range(500):
                store[7] = (number, i)

        with Store(keys=1, epoch=4) as store:
            in_threads([partial(write, number) for number in range(4)])
            self.assertIn(store[7], [(number, 499) for number in range(4)])
            self.assertEqual(store.count(), 1)

    def test_merging_in_calls(self) -> None:
        def write(number: int) -> None:
            for i in range(500):
                store[4 * i + number] = i
                store.remove(4 * i + number)
                store[4 * (i % 10) + number] = i

        with Store(keys=10_000, epoch=4, merge_in_calls=True) as store:
            in_threads([partial(write, number) for number in range(4)])
            expected = [(4 * i + number, 490 + i) for i in range(10) for number in range(4)]
            self.assertEqual(list(store.scan()), expected)


class BesideSnapshots(unittest.TestCase):
    """A writer counts upwards in eight keys, in turn, as long as readers read."""

    KEYS = range(8)

    def setUp(self) -> None:
        self.store = Store(keys=10_000, epoch=32)
        self.addCleanup(self.store.close)
        self.is_read = threading.Event()
        for key in self.KEYS:
            self.store[key] = 0

    def write(self) -> None:
        count = 0
        while not self.is_read.is_set():
            count += 1
            for key in self.KEYS:
                self.put(key, count)

    def put(self, key: int, count: int) -> None:
        while True:
            try:
                self.store[key] = count
                return
            except VersionsFull:  # as long as a slow reader's snapshot is open
                time.sleep(0)

    def read_beside_writer(self, reads: List[Callable[[], None]]) -> None:
        def read() -> None:
            try:
                in_threads(reads)
            finally:
                self.is_read.set()

        in_threads([self.write, read])

    def read_snapshots(self) -> None:
        last = (0,) * len(self.KEYS)
        for _ in range(50):
            with self.store.snapshot() as snapshot:
                seen = self.values(snapshot.scan())
                self.assertEqual(seen, self.values(snapshot.scan()))
                self.assertEqual(seen, tuple(snapshot[key] for key in self.KEYS))
            self.assertEqual(list(seen), sorted(seen, reverse=True))
            self.assertLessEqual(seen[0] - seen[-1], 1)
            self.assertTrue(all(old <= new for old, new in zip(last, seen)))
            last = seen

    @staticmethod
    def values(rows: Iterable[Tuple[int, Value]]) -> Tuple[int, ...]:
        words: List[int] = []
        for _, value in rows:
            assert isinstance(value, int)
            words.append(value)
        return tuple(words)

    def test_each_is_of_one_moment(self) -> None:
        self.read_beside_writer([self.read_snapshots] * 3)

    def test_scans_are_of_one_moment(self) -> None:
        def read() -> None:
            for _ in range(100):
                values = self.values(self.store.scan())
                self.assertEqual(list(values), sorted(values, reverse=True))

        self.read_beside_writer([read])

    def test_one_is_read_by_many_threads(self) -> None:
        with self.store.snapshot() as snapshot:

            def read() -> None:
                for _ in range(100):
                    self.assertEqual(self.values(snapshot.scan()), (0,) * len(self.KEYS))
                    self.assertEqual(snapshot[3], 0)
                    self.assertEqual(snapshot.count(2, 5), 3)

            for key in self.KEYS:
                self.store[key] = 1
            in_threads([read] * 4)

    def test_one_outlives_its_thread(self) -> None:
        snapshots: List[Snapshot[int, Value]] = []
        in_threads([lambda: snapshots.append(self.store.snapshot())])
        self.store[0] = 1
        self.assertEqual(snapshots[0][0], 0)
        self.assertEqual(list(snapshots[0].scan()), [(key, 0) for key in self.KEYS])
