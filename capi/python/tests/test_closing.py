"""How stores, snapshots and scans are closed, and what calls of closed ones do."""

from __future__ import annotations

import contextlib
import gc
import threading
import unittest
import warnings
import weakref
from functools import partial
from typing import Any, Callable, List

from cupolanettle import Closed, NoSeat, Snapshot, Store, Value

from .support import SNAPSHOTS, await_mergers, in_child, in_process, in_threads


def calls_of(store: Store[int, Value]) -> List[Callable[[], object]]:
    """A call of each kind."""
    return [
        lambda: store[7],
        lambda: store.get(7),
        lambda: 7 in store,
        lambda: store.__setitem__(7, 1),
        lambda: store.remove(7),
        lambda: store.__delitem__(7),
        lambda: store.pop(7),
        lambda: store.pop(7, None),
        lambda: store.setdefault(7, 1),
        lambda: store.add(7),
        lambda: store.replace(7, 7, 1),
        lambda: store.replace(7, None, None),
        lambda: store.alter(7, lambda old: old),
        lambda: store.count(),
        lambda: store.count(5, 5),
        lambda: store.scan(),
        lambda: store.snapshot(),
        lambda: store.stats(),
        lambda: list(store.walk()),
        lambda: store.retain(lambda key, value: False),
        lambda: store.remove_range(5, 5),
        lambda: store.clear(),
        lambda: store.copy(),
    ]


def calls_of_snapshot(snapshot: Snapshot[int, Value]) -> List[Callable[[], object]]:
    return [
        lambda: snapshot[7],
        lambda: snapshot.get(7),
        lambda: 7 in snapshot,
        lambda: snapshot.count(),
        lambda: snapshot.count(5, 5),
        lambda: list(snapshot.scan()),
        lambda: list(snapshot.scan(5, 5)),
    ]


def filled() -> Store[int, Value]:
    store = Store(keys=1_000)
    for key in range(500):
        store[key] = key
    return store


class Closing(unittest.TestCase):
    def assert_closed(self, calls: List[Callable[[], object]]) -> None:
        for call in calls:
            self.assertRaises(Closed, call)

    def test_a_closed_store_raises(self) -> None:
        with filled() as store:
            pass
        self.assert_closed(calls_of(store))
        in_threads([lambda: self.assert_closed(calls_of(store))])
        store.close()
        self.assert_closed(calls_of(store))

    def test_a_closed_snapshot_raises(self) -> None:
        with filled() as store:
            with store.snapshot() as snapshot:
                rows = snapshot.scan()
                self.assertEqual(next(rows), (0, 0))
            self.assert_closed(calls_of_snapshot(snapshot))
            self.assertEqual(len(list(self.rest_of_page(rows))), 63)
            snapshot.close()
            self.assertEqual(store[7], 7)

    def rest_of_page(self, rows: Any) -> Any:
        with self.assertRaises(Closed):
            yield from rows

    def test_a_store_closes_its_snapshots_and_scans(self) -> None:
        store = filled()
        snapshots = [store.snapshot() for _ in range(20)]
        scans = [store.scan() for _ in range(20)]
        for rows in scans:
            self.assertEqual(next(rows), (0, 0))
        unread = store.scan()
        store.close()
        for snapshot in snapshots:
            self.assert_closed(calls_of_snapshot(snapshot))
            snapshot.close()
        for rows in scans:
            self.assertEqual(len(list(self.rest_of_page(rows))), 63)
        for _ in range(2):
            self.assertRaises(Closed, next, unread)
        unread.close()
        self.assertEqual(list(unread), [])

    def test_errors_close_it_too(self) -> None:
        with self.assertRaises(ZeroDivisionError), filled() as store:
            with store.snapshot() as snapshot:
                raise ZeroDivisionError
        self.assert_closed(calls_of(store) + calls_of_snapshot(snapshot))

    def test_many_threads_close_it(self) -> None:
        for _ in range(20):
            store = filled()
            snapshots = [store.snapshot() for _ in range(4)]
            jobs: List[Callable[[], object]] = [store.close] * 4
            jobs += [snapshot.close for snapshot in snapshots]
            in_threads(jobs)
            self.assert_closed(calls_of(store))

    def test_it_is_closed_beside_calls(self) -> None:
        def call(store: Store[int, Value], began: threading.Event) -> None:
            key = 0
            try:
                with self.assertRaises(Closed):
                    while True:
                        store[key % 500] = key
                        store.add(key % 500)
                        store.alter(key % 500, lambda old: old)
                        with store.snapshot() as snapshot:
                            next(store.scan())
                            snapshot.count()
                        key += 1
                        if key == 3:
                            began.set()
            finally:
                began.set()

        def close(store: Store[int, Value], events: List[threading.Event]) -> None:
            for event in events:
                event.wait()
            store.close()

        for _ in range(20):
            store = filled()
            events = [threading.Event() for _ in range(4)]
            jobs = [partial(call, store, event) for event in events]
            in_threads([*jobs, partial(close, store, events)])


class Waiting(unittest.TestCase):
    """A write waits for a snapshot, for as long as that is open."""

    def setUp(self) -> None:
        self.store = Store(keys=1, epoch=4, wait=None)
        self.addCleanup(self.store.close)
        self.snapshot = self.store.snapshot()
        self.began = threading.Event()

    def write(self) -> None:
        with self.assertRaises(Closed):
            while True:
                self.store[7] = 70
                self.began.set()

    def close(self) -> None:
        self.began.wait()
        self.store.close()

    def test_the_store_is_closed(self) -> None:
        in_threads([self.write] * 20 + [self.close] * 2)
        self.assertRaises(Closed, self.snapshot.get, 7)

    def test_others_read_meanwhile(self) -> None:
        def read() -> None:
            self.began.wait()
            for _ in range(100):
                self.assertEqual(self.store[7], 70)
                self.assertEqual(self.store.count(), 1)
                self.assertEqual(list(self.store.scan()), [(7, 70)])
            self.store.close()

        in_threads([self.write] * 20 + [read])


class Unreferenced(unittest.TestCase):
    """What nothing refers to any more is closed."""

    def test_scans_left_half_way(self) -> None:
        with filled() as store:
            for _ in range(200):
                rows = store.scan()
                self.assertEqual([next(rows) for _ in range(100)][-1], (99, 99))
            for _ in range(200):
                store.scan()
            for _ in range(200):
                for key, _ in store.scan():
                    if key == 70:
                        break

    def test_scans_that_are_closed(self) -> None:
        with filled() as store:
            scans = [store.scan() for _ in range(SNAPSHOTS)]
            self.assertRaises(NoSeat, store.scan)
            for rows in scans:
                next(rows)
                rows.close()
                self.assertEqual(list(rows), [])
            with contextlib.closing(store.scan()) as rows:
                self.assertEqual(next(rows), (0, 0))
            scans = [store.scan() for _ in range(SNAPSHOTS)]
            for rows in scans:
                self.assertEqual(len(list(rows)), 500)
            scans = [store.scan() for _ in range(SNAPSHOTS)]

    def test_snapshots(self) -> None:
        with filled() as store:
            for _ in range(200):
                self.assertEqual(store.snapshot()[7], 7)
            self.assertEqual(store.stats().snapshots, 0)

    def test_a_scan_keeps_its_snapshot(self) -> None:
        with filled() as store:
            self.assertEqual(len(list(store.snapshot().scan())), 500)
            rows = store.snapshot().scan(5)
            store[6] = 7
            self.assertEqual((next(rows), next(rows)), ((5, 5), (6, 6)))
            self.assertEqual(sum(key for key, _ in store.snapshot().scan(0, 4)), 6)
            self.assertEqual(store.stats().snapshots, 1)
            del rows
            self.assertEqual(store.stats().snapshots, 0)

    def test_in_a_cycle(self) -> None:
        with filled() as store:
            cycle: List[Any] = [store.snapshot(), store.scan()]
            cycle.append(cycle)
            del cycle
            gc.collect()
            self.assertEqual(store.stats().snapshots, 0)

    def test_a_snapshot_keeps_its_store(self) -> None:
        with warnings.catch_warnings():
            warnings.simplefilter("ignore", ResourceWarning)
            snapshot = filled().snapshot()
            rows = filled().scan()
            gc.collect()
            self.assertEqual(snapshot.count(), 500)
            self.assertEqual(len(list(rows)), 500)
            del snapshot

    def test_a_store_is_closed_with_a_warning(self) -> None:
        await_mergers(0)
        store = filled()
        in_threads([lambda: store.get(7)])
        gc.disable()
        try:
            with self.assertWarns(ResourceWarning):
                del store
            await_mergers(0)
        finally:
            gc.enable()

    def test_a_closed_store_leaves_nothing(self) -> None:
        gc.disable()
        try:
            with warnings.catch_warnings(record=True) as caught, filled() as store:
                next(store.scan())
                snapshot = store.snapshot()
                gone = weakref.ref(store)
            del store, snapshot
            self.assertIsNone(gone())
            self.assertEqual(caught, [])
        finally:
            gc.enable()


class Ends(unittest.TestCase):
    """How a process ends in which a store is open."""

    def assert_ends(self, program: str) -> None:
        ended = in_process(program, PYTHONWARNINGS="default")
        self.assertEqual((ended.returncode, ended.stdout, ended.stderr), (0, "", ""))

    def test_with_all_open(self) -> None:
        self.assert_ends(
            "from cupolanettle import Store\n"
            "store = Store()\n"
            "for key in range(100): store[key] = key\n"
            "snapshot = store.snapshot()\n"
            "rows = store.scan()\n"
            "next(rows)\n"
        )

    def test_beside_a_thread(self) -> None:
        self.assert_ends(
            "import threading\n"
            "from cupolanettle import Store\n"
            "store = Store(keys=10, epoch=4)\n"
            "began = threading.Event()\n"
            "def write():\n"
            "    while True:\n"
            "        store[7] = 70\n"
            "        began.set()\n"
            "threading.Thread(target=write, daemon=True).start()\n"
            "began.wait()\n"
        )


class Forks(unittest.TestCase):
    def test_each_call_of_the_child_raises(self) -> None:
        with filled() as store, store.snapshot() as snapshot:
            rows = store.scan()
            next(rows)

            def child() -> bool:
                for call in calls_of(store) + calls_of_snapshot(snapshot):
                    self.assertRaisesRegex(Closed, "before a fork", call)
                with self.assertRaises(Closed):
                    while True:
                        next(rows)
                in_threads([lambda: self.assertRaises(Closed, store.get, 7)])
                snapshot.close()
                store.close()
                return True

            self.assertTrue(in_child(child))
            self.assertEqual((store[7], snapshot[8], next(rows)), (7, 8, (1, 1)))
            store[7] = 8
            self.assertEqual(store[7], 8)

    def test_beside_calls_of_other_threads(self) -> None:
        is_over = threading.Event()

        def call() -> None:
            while not is_over.is_set():
                store[7] = 7
                with store.snapshot() as snapshot:
                    snapshot.count()

        def child() -> bool:
            self.assertRaises(Closed, store.get, 7)
            store.close()
            gc.collect()
            return True

        def fork() -> None:
            try:
                for _ in range(10):
                    self.assertTrue(in_child(child))
            finally:
                is_over.set()

        with filled() as store:
            in_threads([call, call, fork])
            self.assertEqual(store[7], 7)

    def test_a_child_opens_stores_of_its_own(self) -> None:
        def child() -> bool:
            self.assertRaises(Closed, store.get, 7)
            with filled() as own, own.snapshot() as snapshot:
                in_threads([lambda: own.add(7), lambda: own.add(7)])
                return own[7] == 9 and snapshot[7] == 7 and in_child(lambda: grandchild(own))

        def grandchild(parents: Store[int, Value]) -> bool:
            self.assertRaises(Closed, parents.get, 7)
            with filled() as own:
                return own[7] == 7

        with filled() as store:
            self.assertTrue(in_child(child))
            self.assertEqual(store[7], 7)
        self.assertTrue(in_child(lambda: grandchild(store)))

    def test_a_child_that_ends_leaves_the_store(self) -> None:
        with filled() as store:

            def child() -> bool:
                store.close()
                return True

            self.assertTrue(in_child(child))
            self.assertEqual(store.count(), 500)
