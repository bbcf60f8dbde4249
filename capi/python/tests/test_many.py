"""Many keys at one time: reads of several keys, batches with conditions, rows by falling key."""

from __future__ import annotations

import sys
import unittest
from functools import partial
from random import Random
from typing import Any, Callable, List, Tuple

from cupolanettle import Closed, OwnSnapshot, RunFull, Snapshot, Store, Value, text
from cupolanettle import _core as core

from .support import IS_BY_CTYPES, in_child, in_threads

GREATEST = 2**64 - 1
EPOCH = 64
ACCOUNTS = list(range(8))
EACH = 100


class Case(unittest.TestCase):
    def setUp(self) -> None:
        self.store = Store(keys=10_000, epoch=EPOCH)
        self.addCleanup(self.store.close)

    def rows(self) -> List[Tuple[int, Value]]:
        return list(self.store.scan())


class Getting(Case):
    def test_values_stand_at_the_places_of_their_keys(self) -> None:
        self.store.update({1: 10, 2: (20, 21), GREATEST: GREATEST})
        wanted: List[Any] = [None, 10, (20, 21), 10, GREATEST]
        keys = [3, 1, 2, 1, GREATEST]
        with self.store.snapshot() as snapshot:
            self.store.remove(1)
            self.assertEqual(snapshot.get_many(keys), wanted)
            self.assertEqual(snapshot.get_many(iter(keys)), wanted)
        self.assertEqual(self.store.get_many(keys), [None, None, (20, 21), None, GREATEST])
        self.assertEqual(self.store.get_many([]), [])

    def test_many_are_read_in_parts(self) -> None:
        count = 1_000
        self.store.update((key, key) for key in range(count) if key % 3)
        keys = [key * 7 % count for key in range(count)]
        with self.store.snapshot() as snapshot:
            self.store.retain(lambda key, _: key % 2)
            for reader, is_there in (snapshot, [1, 1]), (self.store, [0, 1]):
                wanted = [key if key % 3 and is_there[key % 2] else None for key in keys]
                self.assertEqual(reader.get_many(keys), wanted)

    def test_wrong_keys(self) -> None:
        with self.store.snapshot() as snapshot:
            readers: List[Any] = [self.store, snapshot]
            for reader in readers:
                for key in -1, 2**64:
                    self.assertRaises(ValueError, reader.get_many, [1, key])
                    self.assertRaises(ValueError, reader.floor, key)
                    self.assertRaises(ValueError, reader.ceiling, key)
                for wrong in "1", 1.0, None:
                    self.assertRaises(TypeError, reader.get_many, [1, wrong])
                    self.assertRaises(TypeError, reader.floor, wrong)
                self.assertRaises(TypeError, reader.get_many, 7)
                self.assertRaises(TypeError, reader._get_many, (7,))
                self.assertRaises(TypeError, reader._end, "0", 1, False)

    def test_closed(self) -> None:
        snapshot = self.store.snapshot()
        snapshot.close()
        with self.store.snapshot() as other:
            self.store.close()
            readers: List[Any] = [self.store, snapshot, other]
            for reader in readers:
                for keys in [7], [7] * 300:
                    self.assertRaises(Closed, reader.get_many, keys)
                self.assertRaises(Closed, reader.first)
                self.assertRaises(Closed, reader.floor, 7)
        self.assertRaises(Closed, self.store.batch_if, {1: 10}, {})

    def test_closed_by_a_fork(self) -> None:
        def is_closed() -> bool:
            reads: List[Callable[[], object]] = [self.store.first]
            reads.append(partial(self.store.get_many, [1]))
            for call in reads:
                try:
                    call()
                except Closed:
                    continue
                return False
            return True

        self.assertTrue(in_child(is_closed))

    @unittest.skipIf(IS_BY_CTYPES, "ctypes has references of its own")
    def test_no_references_are_kept(self) -> None:
        key, value = 2**40, (2**41, 2**42)
        self.store[key] = value
        before = [sys.getrefcount(found) for found in (key, value)]
        for _ in range(100):
            self.store.get_many([key, 2])
            self.store.batch_if({key: value}, {key: value})
            self.store.floor(key)
            list(self.store.scan(reverse=True))
            self.assertRaises(ValueError, self.store.get_many, [key, -1])
        self.assertEqual([sys.getrefcount(found) for found in (key, value)], before)


class Conditions(Case):
    def test_all_hold(self) -> None:
        self.store.update({1: 10, 2: (20, 21)})
        expected: Any = {1: 10, 2: (20, 21), 3: None}
        self.assertTrue(self.store.batch_if(expected, {}, {(0, 3): 2, (3, None): 0}))
        self.assertTrue(self.store.batch_if(expected, [(3, 30), (1, None)], [((None, 100), 2)]))
        self.assertEqual(self.rows(), [(2, (20, 21)), (3, 30)])
        self.assertTrue(self.store.batch_if({}, {4: 40}))
        self.assertTrue(self.store.batch_if((), ()))
        self.assertEqual(self.store[4], 40)

    def test_one_does_not(self) -> None:
        self.store.update({1: 10, 2: (20, 21)})
        before = self.rows()
        wrong: List[Any] = [{1: 11}, {1: None}, {3: 0}, {2: 20}, {2: (20, 21, 0)}, {1: 10, 3: 30}]
        for expected in wrong:
            self.assertFalse(self.store.batch_if(expected, {4: 40}))
            self.assertFalse(self.store.batch_if(list(expected.items()), {}))
        for count in 1, 3, GREATEST:
            self.assertFalse(self.store.batch_if({1: 10}, {4: 40}, {(0, 2**64): count}))
        twice: Any = [(1, 10), (1, 11)]
        self.assertFalse(self.store.batch_if(twice, {4: 40}))
        self.assertEqual(self.rows(), before)

    def test_the_place_of_the_first_is_told(self) -> None:
        packed = core.pack(1, 10) + core.pack(2, None)
        self.assertEqual(self.store._write_if(packed, b"", b""), 0)
        self.store[1] = 10
        counts = (0).to_bytes(8, sys.byteorder) * 2 + (1).to_bytes(8, sys.byteorder)
        self.assertEqual(self.store._write_if(packed, counts, b""), 2)
        self.store[2] = 20
        self.assertEqual(self.store._write_if(packed, counts, b""), 1)
        self.assertIsNone(self.store._write_if(b"", b"", packed))
        self.assertEqual(self.rows(), [(1, 10)])

    def test_refusals(self) -> None:
        too_many = {key: 0 for key in range(EPOCH + 1)}
        self.assertRaises(ValueError, self.store.batch_if, {}, too_many)
        wrong: List[Any] = [{-1: 0}, {1: -1}, {1: (1,)}, {2**64: None}]
        for rows in wrong:
            self.assertRaises(ValueError, self.store.batch_if, rows, {})
            self.assertRaises(ValueError, self.store.batch_if, {}, rows)
        self.assertRaises(ValueError, self.store.batch_if, {}, {}, {(0, 2**64 + 1): 0})
        self.assertRaises(ValueError, self.store.batch_if, {}, {}, {(0, 1): -1})
        others: List[Any] = [{1: "1"}, {"1": 1}, {1: 1.0}]
        for rows in others:
            self.assertRaises(TypeError, self.store.batch_if, rows, {})
            self.assertRaises(TypeError, self.store.batch_if, {}, rows)
        native: Any = self.store
        self.assertRaises(TypeError, native._write_if, bytearray(80), b"", 7)
        self.assertEqual(self.rows(), [])

    def test_no_room(self) -> None:
        with Store(keys=2, epoch=4) as store:
            with self.assertRaises(RunFull):
                for key in range(1_000):
                    store.batch_if({key: None}, {key: 0})
            self.assertTrue(store.batch_if({0: 0}, {0: 1}))
            with self.assertRaises(OwnSnapshot), store.snapshot():
                while store.batch_if({0: 1}, {0: 1}):
                    pass
            self.assertTrue(store.batch_if({0: 1}, {0: 2}))

    def test_codecs(self) -> None:
        with Store(key=text) as store:
            named: Any = store
            self.assertTrue(named.batch_if({"pear": None}, {"pear": 1, "fig": (2, 3)}))
            self.assertEqual(named.get_many(["fig", "kiwi", "pear"]), [(2, 3), None, 1])
            self.assertFalse(named.batch_if({"fig": 2}, {"kiwi": 4}))
            self.assertTrue(named.batch_if({"fig": (2, 3)}, {"kiwi": 4}, {("f", "g"): 1}))
            self.assertEqual([named.first(), named.last()], [("fig", (2, 3)), ("pear", 1)])
            self.assertEqual([named.floor("l"), named.ceiling("l")], [("kiwi", 4), ("pear", 1)])
            self.assertEqual(named.last("a", "g"), ("fig", (2, 3)))
            self.assertIsNone(named.floor("a"))
            names = [key for key, _ in named.scan(reverse=True)]
            self.assertEqual(names, ["pear", "kiwi", "fig"])


class Downwards(Case):
    def setUp(self) -> None:
        super().setUp()
        self.store.update((3 * key, key) for key in range(1_500))
        self.store.retain(lambda key, _: key % 7)

    def check(self, reader: Any, rows: List[Tuple[int, Value]]) -> None:
        self.assertEqual(list(reader.scan(reverse=True)), rows[::-1])
        self.assertEqual((reader.first(), reader.last()), (rows[0], rows[-1]))
        random = Random(7)
        for _ in range(100):
            start, stop = random.randrange(5_000), random.randrange(5_000)
            part = [row for row in rows if start <= row[0] < stop]
            self.assertEqual(list(reader.scan(start, stop, reverse=True)), part[::-1])
            first = part[0] if part else None
            self.assertEqual(reader.first(start, stop), first)
            self.assertEqual(reader.last(start, stop), part[-1] if part else None)
            below = [row for row in rows if row[0] <= start]
            above = [row for row in rows if row[0] >= start]
            self.assertEqual(reader.floor(start), below[-1] if below else None)
            self.assertEqual(reader.ceiling(start), above[0] if above else None)

    def test_rows_are_those_upwards_turned(self) -> None:
        rows = self.rows()
        self.check(self.store, rows)
        with self.store.snapshot() as snapshot:
            self.store.retain(lambda key, _: key % 2)
            self.check(snapshot, rows)
            self.assertEqual(list(reversed(snapshot)), [key for key, _ in rows[::-1]])
            items: Any = snapshot.items()
            values: Any = snapshot.values()
            self.assertEqual(list(reversed(items)), rows[::-1])
            self.assertEqual(list(reversed(values)), [value for _, value in rows[::-1]])
        self.check(self.store, self.rows())

    def test_ends(self) -> None:
        self.store[0] = self.store[GREATEST] = 7
        self.assertEqual(self.store.floor(GREATEST), (GREATEST, 7))
        self.assertEqual(self.store.ceiling(GREATEST), (GREATEST, 7))
        self.assertEqual(self.store.ceiling(0), (0, 7))
        self.assertEqual(self.store.last(GREATEST), (GREATEST, 7))
        self.assertIsNone(self.store.first(5, 5))
        with Store() as empty:
            self.assertEqual((empty.first(), empty.last(), empty.floor(7)), (None, None, None))
            self.assertEqual(list(empty.scan(reverse=True)), [])

    def test_one_that_is_left_is_closed(self) -> None:
        rows = self.store.scan(reverse=True)
        self.assertEqual(next(rows), (3 * 1_499, 1_499))
        self.assertEqual(self.store.stats().snapshots, 1)
        rows.close()
        self.assertEqual((list(rows), self.store.stats().snapshots), ([], 0))

    def test_the_store_itself(self) -> None:
        rows: Any = core.Rows(self.store, 0, 30, 2, 2, False, True)
        keys = []
        for key, _ in rows:
            keys.append(key)
            self.store.remove(key)
        self.assertEqual(keys, [30, 27, 24, 18, 15, 12, 9, 6, 3])


class Threads(unittest.TestCase):
    def transfer(self, store: Store[int, Value], random: Random) -> None:
        source, target = random.sample(ACCOUNTS, 2)
        amount = random.randrange(EACH)
        old: List[Any] = store.get_many([source, target])
        if old[0] < amount:
            return
        read = {source: old[0], target: old[1]}
        store.batch_if(read, {source: old[0] - amount, target: old[1] + amount})

    def take_seat(self, store: Store[int, Value], random: Random) -> None:
        """Of a range that never has more than five keys: a thread counts, and then writes one."""
        key = random.randrange(2_000, 3_000)
        count = store.count(2_000, 3_000)
        self.assertLessEqual(count, 5)
        if count < 5:
            store.batch_if({key: None}, {key: 1}, {(2_000, 3_000): count})
            return
        last = store.last(2_000, 3_000)
        if last is not None:
            store.remove(last[0])

    def total(self, reader: Any) -> int:
        found: List[Any] = reader.get_many(ACCOUNTS)
        return sum(found)

    def work(self, store: Store[int, Value], seed: int) -> None:
        random = Random(seed)
        for number in range(300):
            self.transfer(store, random)
            self.take_seat(store, random)
            self.assertEqual(self.total(store), EACH * len(ACCOUNTS))
            if number % 20 == 0:
                with store.snapshot() as snapshot:
                    self.assertEqual(self.total(snapshot), EACH * len(ACCOUNTS))

    def test_what_is_read_still_stands(self) -> None:
        for merge_in_calls in False, True:
            options: Any = {"keys": 10_000, "epoch": EPOCH, "merge_in_calls": merge_in_calls}
            with Store(**options) as store:
                store.batch_if({}, dict.fromkeys(ACCOUNTS, EACH))
                in_threads([partial(self.work, store, seed) for seed in range(4)])
                self.assertEqual(self.total(store), EACH * len(ACCOUNTS))


class Types(unittest.TestCase):
    def test_snapshots_are_mappings_that_turn(self) -> None:
        with Store() as store, store.snapshot() as snapshot:
            self.assertIsInstance(snapshot, Snapshot)
            self.assertEqual(list(reversed(snapshot)), [])
