"""Many rows at once: ranges that are removed, and stores that are copied."""

from __future__ import annotations

import threading
import unittest
from functools import partial
from typing import Any, Callable, Dict, List, Optional, Tuple

import cupolanettle
from cupolanettle import Closed, NoSeat, OwnSnapshot, RunFull, Store, Value, VersionsFull

from .support import SNAPSHOTS, await_mergers, in_child, in_process, in_threads

KEYS = 300
PAGE = 64

# Refuses memory for the pages of a library over whose calls this stands.
NO_MEMORY = """
import resource, sys
from cupolanettle import Error, Store
with Store(keys=1_000) as store:
    store.update((key, 0) for key in range(1_000))
    resource.setrlimit(resource.RLIMIT_AS, (400 << 20, 400 << 20))
    try:
        store.copy(keys=4_000_000)
    except Error as error:
        print(error, store.count(), store.stats().snapshots)
    with store.copy() as copy:
        print(copy.count())
"""


def filled(rows: int = KEYS, **options: Any) -> Store[int, Value]:
    chosen: Dict[str, Any] = {"keys": 1_000, "epoch": 64, **options}
    store: Store[int, Value] = Store(**chosen)
    store.put_many({key: (key, 1) for key in range(rows)})
    return store


class Removals(unittest.TestCase):
    def test_ranges(self) -> None:
        ranges: List[Tuple[Optional[int], Optional[int]]] = [
            *[(None, None), (0, 1), (299, None), (300, None), (10, 11), (10, 10), (11, 10)],
            *[(100, 100 + length) for length in (PAGE - 1, PAGE, PAGE + 1, 2 * PAGE)],
        ]
        for epoch in 4, 64, 4_096:
            for start, stop in ranges:
                with self.subTest(epoch=epoch, start=start, stop=stop):
                    with filled(epoch=epoch) as store:
                        store[2**64 - 1] = 5
                        rows = dict(store.scan())
                        inside = dict(store.scan(start, stop))
                        self.assertEqual(store.remove_range(start, stop), len(inside))
                        left = {key: rows[key] for key in rows if key not in inside}
                        self.assertEqual(dict(store.scan()), left)
                        self.assertEqual(store.remove_range(start, stop), 0)

    def test_clear(self) -> None:
        for in_calls in False, True:
            with filled(merge_in_calls=in_calls) as store:
                self.assertEqual((store.clear(), store.clear(), store.count()), (KEYS, 0, 0))
                store[7] = 70
                self.assertEqual(list(store.scan()), [(7, 70)])

    def test_a_full_store(self) -> None:
        with Store(keys=100, epoch=4) as store:
            key = 0
            with self.assertRaises(RunFull):
                for key in range(1_000):
                    store[key] = 0
            self.assertEqual(store.clear(), key)
            store[key] = 0

    def test_codecs(self) -> None:
        with Store(key=cupolanettle.text, value=cupolanettle.floating) as store:
            store.update({"fig": 0.5, "lime": 1.5, "pear": 2.5})
            self.assertEqual(store.remove_range("g", "m"), 1)
            self.assertEqual(list(store.scan()), [("fig", 0.5), ("pear", 2.5)])
            self.assertEqual(store.clear(), 2)
            self.assertRaises(TypeError, store.remove_range, 5)

    def test_wrong_ranges(self) -> None:
        with filled() as store:
            self.assertRaises(ValueError, store.remove_range, -1)
            self.assertRaises(ValueError, store.remove_range, 0, 2**64 + 1)
            self.assertRaises(TypeError, store.remove_range, "a")
            self.assertEqual(store.count(), KEYS)

    def test_a_refusal_in_the_middle(self) -> None:
        rows = 4_000
        for is_own in False, True:
            with filled(rows, keys=rows, versions=2_000, wait=0) as store:
                store.sweep()
                snapshots: List[cupolanettle.Snapshot[int, cupolanettle.Value]] = []
                take: Callable[[], object] = lambda: snapshots.append(store.snapshot())
                take() if is_own else in_threads([take])
                with self.subTest(is_own=is_own):
                    with self.assertRaises(OwnSnapshot if is_own else VersionsFull) as refused:
                        store.clear()
                    written = refused.exception.written
                    self.assertEqual((store.count(), store.count(0, written)), (rows - written, 0))
                    self.assertGreater(written, 1_000)
                    self.assertEqual(snapshots[0].count(), rows)
                snapshots[0].close()
                self.assertEqual(store.clear(), rows - written)

    def test_it_waits_for_a_snapshot(self) -> None:
        with filled(500, keys=500, epoch=4, versions=88, wait=None) as store:
            snapshot: List[cupolanettle.Snapshot[int, cupolanettle.Value]] = []
            in_threads([lambda: snapshot.append(store.snapshot())])
            removed: List[int] = []
            thread = threading.Thread(target=lambda: removed.append(store.clear()))
            thread.start()
            self.assertEqual(snapshot[0].count(), 500)
            snapshot[0].close()
            thread.join()
            self.assertEqual((removed, store.count()), ([500], 0))

    def test_beside_other_threads(self) -> None:
        with Store(keys=10_000, epoch=64) as store:

            def work(own: int) -> None:
                first, stop = 1_000 * own, 1_000 * (own + 1)
                for _ in range(5):
                    store.put_many({key: own for key in range(first, stop)})
                    self.assertEqual(store.remove_range(first, stop), 1_000)
                    self.assertEqual(store.count(first, stop), 0)
                store[first] = own

            in_threads([partial(work, own) for own in range(6)])
            self.assertEqual(list(store.scan()), [(1_000 * own, own) for own in range(6)])


class Copies(unittest.TestCase):
    def test_rows(self) -> None:
        for keys in 0, 1, PAGE - 1, PAGE, PAGE + 1, KEYS:
            with self.subTest(keys=keys), filled(keys) as store, store.copy(keys=2_000) as copy:
                self.assertEqual(list(copy.scan()), list(store.scan()))
                store[5] = 6
                copy[2**64 - 1] = 1
                self.assertEqual(2**64 - 1 in store, False)
                self.assertEqual(copy.get(5), (5, 1) if keys > 5 else None)
                self.assertEqual((store.stats().snapshots, copy.stats().snapshots), (0, 0))

    def test_options(self) -> None:
        with filled(keys=5_000, epoch=4) as store:
            with store.copy() as copy:
                self.assertEqual(copy.stats().bytes, store.stats().bytes)
            with store.copy(keys=9_000, merge_in_calls=True) as copy:
                self.assertGreaterEqual(copy.stats().room_for_keys, 8_000)
                with copy.copy(keys=8_000) as again:
                    self.assertEqual(list(again.scan()), list(store.scan()))
        wrong: Dict[str, Any] = {"keys": 0, "epoch": 3, "versions": 1, "patience": 65, "wait": -1}
        with filled() as store:
            for name, value in wrong.items():
                with self.assertRaisesRegex(ValueError, name):
                    store.copy(**{name: value})
            for name in "key", "value", "_source", "size":
                self.assertRaises(TypeError, lambda: store.copy(**{name: 1}))

    def test_codecs(self) -> None:
        with Store(key=cupolanettle.text, value=cupolanettle.floating) as store:
            store["pear"] = 2.5
            with store.copy(keys=10) as copy:
                copy["fig"] = 0.5
                self.assertEqual(list(copy.scan()), [("fig", 0.5), ("pear", 2.5)])
                self.assertEqual(copy.add("pear", 0.25), 2.75)
                with copy.copy() as again:
                    self.assertEqual(list(again.scan()), [("fig", 0.5), ("pear", 2.75)])
        with Store(value=cupolanettle.signed) as store:
            store[3] = -5
            with store.copy() as copy:
                self.assertEqual(list(copy.scan()), [(3, -5)])

    def test_too_many_keys(self) -> None:
        with filled() as store:
            for keys in 1, PAGE, KEYS - 1:
                self.assertRaises(RunFull, store.copy, keys=keys)
            await_mergers(1)
            with store.copy(keys=KEYS) as copy:
                self.assertEqual(copy.count(), KEYS)

    def test_seats(self) -> None:
        with filled() as store:
            in_threads([store.count] * 20)  # callers of the pool are given up
            snapshots = [store.snapshot() for _ in range(SNAPSHOTS)]
            self.assertRaises(NoSeat, store.copy)
            snapshots.pop().close()
            with store.copy() as copy:
                self.assertEqual(copy.count(), KEYS)
            in_threads([store.count] * 20)
            self.assertLessEqual(store.stats().no_seat, 2)

    def test_closed_stores(self) -> None:
        store = filled()
        store.close()
        calls: List[Callable[[], object]] = [store.copy, store.clear, store.remove_range]
        for call in calls:
            self.assertRaises(Closed, call)
        await_mergers(0)

    def test_it_is_closed_beside_a_copy(self) -> None:
        for _ in range(10):
            store = filled()
            started = threading.Event()

            def copy() -> None:
                started.set()
                try:
                    while True:
                        with store.copy() as copied:
                            self.assertEqual(copied.count(), KEYS)
                except Closed:
                    pass

            thread = threading.Thread(target=copy)
            thread.start()
            started.wait()
            store.close()
            thread.join()
        await_mergers(0)

    def test_a_child_copies_stores_of_its_own(self) -> None:
        with filled() as store:

            def child() -> bool:
                with filled(7) as own, own.copy() as copy:
                    return copy.count() == 7 and raises_closed(store.copy) and raises_closed(store.clear)

            self.assertTrue(in_child(child))
            with store.copy() as copy:
                self.assertEqual(copy.count(), KEYS)

    def test_one_moment(self) -> None:
        with Store(keys=1_000, versions=100_000) as store:
            rows = {key: 0 for key in range(KEYS)}
            store.put_many(rows)
            is_over = threading.Event()

            def write() -> None:
                number = 0
                while not is_over.is_set():
                    number += 1
                    with store.batch() as batch:
                        for key in rows:
                            batch[key] = number

            thread = threading.Thread(target=write)
            thread.start()
            try:
                for _ in range(5):
                    with store.copy() as copy:
                        values = [value for _, value in copy.scan()]
                        self.assertEqual((len(values), len(set(values))), (KEYS, 1))
            finally:
                is_over.set()
                thread.join()

    def test_no_memory(self) -> None:
        ended = in_process(NO_MEMORY)
        self.assertEqual((ended.stderr, ended.stdout), ("", "no memory 1000 0\n1000\n"))


def raises_closed(call: Callable[[], object]) -> bool:
    try:
        call()
    except Closed:
        return True
    return False


class AddingInTransactions(unittest.TestCase):
    def test_sums(self) -> None:
        with Store() as store:
            store[1] = 10
            with store.transaction() as t:
                self.assertEqual((t.add(1), t.add(1, 5), t.add(2), t.add(3, 0)), (11, 16, 1, 0))
                self.assertEqual((t[1], t[2], store[1], 2 in store), (16, 1, 10, False))
            self.assertEqual(store.get_many([1, 2, 3]), [16, 1, 0])

    def test_what_is_refused_notes_nothing(self) -> None:
        with Store() as store:
            store.update({1: (1, 2), 2: 2**64 - 1})
            with store.transaction() as t:
                self.assertRaises(ValueError, t.add, 1)
                self.assertRaises(OverflowError, t.add, 2)
                self.assertRaises(ValueError, t.add, 3, -1)
                self.assertRaises(ValueError, t.add, 3, 2**64)
                self.assertRaises(TypeError, t.add, 3, "1")
                self.assertRaises(TypeError, t.add, "3")
                self.assertEqual(t.add(2, 0), 2**64 - 1)
            self.assertEqual(list(store.scan()), [(1, (1, 2)), (2, 2**64 - 1)])

    def test_conflicts(self) -> None:
        with Store() as store:
            t = store.transaction()
            t.add(1)
            store.add(1)
            self.assertRaises(cupolanettle.Conflict, t.commit)

            def count(t: cupolanettle.Transaction[int, Value]) -> object:
                return t.add(1)

            in_threads([lambda: [store.transact(count, 10_000) for _ in range(100)]] * 4)
            self.assertEqual(store[1], 401)

    def test_codecs(self) -> None:
        with Store(key=cupolanettle.text, value=cupolanettle.signed) as store:
            with store.transaction() as t:
                self.assertEqual((t.add("pear", -3), t.add("pear", 1)), (-3, -2))
            self.assertEqual(store["pear"], -2)
        with Store(value=cupolanettle.octets) as store:
            with store.transaction() as t:
                self.assertEqual((t.add(1, b"ab"), t.add(1, b"c")), (b"ab", b"abc"))
                self.assertRaises(ValueError, t.add, 1, b"x" * 61)
            self.assertEqual(store[1], b"abc")


if __name__ == "__main__":
    unittest.main()
