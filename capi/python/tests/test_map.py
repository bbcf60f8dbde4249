"""One thread's calls: what they answer, and which arguments they refuse."""

from __future__ import annotations

import collections.abc
import copy
import pickle
import unittest
from functools import partial
from random import Random
from typing import Any, Callable, Dict, List, Optional, Tuple

from cupolanettle import Closed, Snapshot, Store, Value

from .support import in_threads

GREATEST = 2**64 - 1
Row = Tuple[int, Value]
Map = Dict[int, Value]


def rows_between(model: Map, start: int, stop: Optional[int]) -> List[Row]:
    keys = sorted(model)
    return [(key, model[key]) for key in keys if start <= key and (stop is None or key < stop)]


class RandomCalls:
    """Random calls of a store, each made of a dict as well."""

    def __init__(self, test: unittest.TestCase, store: Store[int, Value], seed: int) -> None:
        self.test = test
        self.store = store
        self.random = Random(seed)
        self.model: Map = {}
        self.snapshot = store.snapshot()
        self.frozen: Map = {}
        self.calls: List[Callable[[], None]] = [
            *([self.set_item] * 8),
            *([self.remove] * 3),
            self.write_batch,
            *([self.add] * 4),
            *([self.set_default] * 2),
            *([self.replace] * 3),
            *([self.update] * 3),
            *([self.pop] * 2),
            *([self.delete] * 2),
            *([self.read_store] * 5),
            *([self.read_snapshot] * 3),
            self.scan_store,
            self.scan_snapshot,
        ]

    def run(self, count: int) -> None:
        for number in range(count):
            if number % 500 == 0:
                self.take_snapshot()
            self.random.choice(self.calls)()
        self.test.assertEqual(list(self.store.scan()), rows_between(self.model, 0, None))
        self.snapshot.close()

    def key(self) -> int:
        if self.random.random() < 0.02:
            return self.random.choice([0, 1, 2**63 - 1, 2**63, GREATEST - 1, GREATEST])
        return self.random.randrange(300)

    def value(self) -> Value:
        if self.random.random() < 0.5:
            return self.random.randrange(3)
        words = [self.random.getrandbits(64) for _ in range(self.random.randint(1, 8))]
        return words[0] if len(words) == 1 else tuple(words)

    def value_or_none(self) -> Optional[Value]:
        return None if self.random.random() < 0.3 else self.value()

    def range(self) -> Tuple[int, Optional[int]]:
        stop = None if self.random.random() < 0.2 else self.key() + self.random.randrange(2)
        return self.key(), stop

    def take_snapshot(self) -> None:
        self.snapshot.close()
        self.snapshot = self.store.snapshot()
        self.frozen = dict(self.model)

    def set_item(self) -> None:
        key, value = self.key(), self.value()
        self.store[key] = value
        self.model[key] = value

    def remove(self) -> None:
        key = self.key()
        self.store.remove(key)
        self.model.pop(key, None)

    def write_batch(self) -> None:
        with self.store.batch() as batch:
            for _ in range(self.random.randrange(20)):
                key, value = self.key(), self.value_or_none()
                self.put(key, value)
                if value is None:
                    batch.remove(key)
                else:
                    batch[key] = value

    def add(self) -> None:
        key, by = self.key(), self.random.getrandbits(self.random.choice([2, 64]))
        old = self.model.get(key, 0)
        if isinstance(old, tuple):
            self.test.assertRaises(ValueError, self.store.add, key, by)
        elif old + by > GREATEST:
            self.test.assertRaises(OverflowError, self.store.add, key, by)
        else:
            self.model[key] = old + by
            self.test.assertEqual(self.store.add(key, by), old + by)

    def set_default(self) -> None:
        key, value = self.key(), self.value()
        expected = self.model.setdefault(key, value)
        self.test.assertEqual(self.store.setdefault(key, value), expected)

    def replace(self) -> None:
        key, desired = self.key(), self.value_or_none()
        old = self.model.get(key)
        expected = old if self.random.random() < 0.5 else self.value_or_none()
        self.test.assertEqual(self.store.replace(key, expected, desired), old == expected)
        if old == expected:
            self.put(key, desired)

    def update(self) -> None:
        key, desired = self.key(), self.value_or_none()
        asked: List[Optional[Value]] = []

        def function(old: Optional[Value]) -> Optional[Value]:
            asked.append(old)
            return desired

        self.test.assertEqual(self.store.alter(key, function), desired)
        self.test.assertEqual(asked, [self.model.get(key)])
        self.put(key, desired)

    def put(self, key: int, value: Optional[Value]) -> None:
        if value is None:
            self.model.pop(key, None)
        else:
            self.model[key] = value

    def pop(self) -> None:
        key, default = self.key(), self.value_or_none()
        if key not in self.model:
            self.test.assertRaises(KeyError, self.store.pop, key)
        if key not in self.model or self.random.random() < 0.5:
            self.test.assertEqual(self.store.pop(key, default), self.model.pop(key, default))
        else:
            self.test.assertEqual(self.store.pop(key), self.model.pop(key))

    def delete(self) -> None:
        key = self.key()
        if key in self.model:
            del self.store[key], self.model[key]
        else:
            self.test.assertRaises(KeyError, self.store.__delitem__, key)

    def read_store(self) -> None:
        self.read(self.store, self.model)

    def read_snapshot(self) -> None:
        self.read(self.snapshot, self.frozen)

    def read(self, map_read: Any, model: Map) -> None:
        key = self.key()
        self.test.assertEqual(map_read.get(key), model.get(key))
        self.test.assertEqual(key in map_read, key in model)
        if key in model:
            self.test.assertEqual(map_read[key], model[key])
        else:
            self.test.assertRaises(KeyError, map_read.__getitem__, key)

    def scan_store(self) -> None:
        self.scan(self.store, self.model)

    def scan_snapshot(self) -> None:
        self.scan(self.snapshot, self.frozen)

    def scan(self, map_read: Any, model: Map) -> None:
        start, stop = self.range()
        expected = rows_between(model, start, stop)
        self.test.assertEqual(map_read.count(start, stop), len(expected))
        taken = self.random.randrange(len(expected) + 1)
        rows = map_read.scan(start, stop)
        self.test.assertEqual([next(rows) for _ in range(taken)], expected[:taken])
        if self.random.random() < 0.5:
            self.test.assertEqual(list(rows), expected[taken:])
            self.test.assertEqual(list(rows), [])


class AgainstADict(unittest.TestCase):
    def test_beside_a_merger(self) -> None:
        with Store(keys=1_000, epoch=64) as store:
            RandomCalls(self, store, seed=1).run(100_000)

    def test_merging_in_calls(self) -> None:
        with Store(keys=1_000, epoch=64, merge_in_calls=True) as store:
            RandomCalls(self, store, seed=2).run(20_000)


class Values(unittest.TestCase):
    def setUp(self) -> None:
        self.store = Store(keys=10_000)
        self.addCleanup(self.store.close)

    def calls_of_a_value(self) -> List[Callable[[Value], object]]:
        return [
            lambda value: self.store.__setitem__(5, value),
            lambda value: self.store.setdefault(5, value),
            lambda value: self.store.setdefault(6, value),
            lambda value: self.store.replace(5, value, 51),
            lambda value: self.store.replace(5, 50, value),
            lambda value: self.store.alter(5, lambda old: value),
        ]

    def test_they_come_back(self) -> None:
        values: List[Value] = [0, 1, GREATEST]
        values += [tuple(range(count)) for count in range(2, 9)]
        values += [(GREATEST,) * 8, (0, 0)]
        for value in values:
            with self.subTest(value=value):
                self.store[5] = value
                self.assertEqual(self.store[5], value)
                self.assertEqual(list(self.store.scan()), [(5, value)])
                self.assertIs(type(self.store[5]), type(value))

    def test_out_of_range(self) -> None:
        self.store[5] = 50
        refused: List[Any] = [-1, 2**64, 10**30, (), (1,), (0,) * 9, (1, -1), (1, 2**64)]
        for value in refused:
            for call in self.calls_of_a_value():
                with self.subTest(call=call, value=value), self.assertRaises(ValueError):
                    call(value)
        self.assertEqual(list(self.store.scan()), [(5, 50)])

    def test_of_other_types(self) -> None:
        self.store[5] = 50
        refused: List[Any] = [1.0, "1", b"1", [1, 2], (1, 2.0), (1, None), {1, 2}, 1j]
        for value in refused:
            for call in self.calls_of_a_value():
                with self.subTest(call=call, value=value), self.assertRaises(TypeError):
                    call(value)
        self.assertEqual(list(self.store.scan()), [(5, 50)])

    def test_none_is_no_value(self) -> None:
        none: Any = None
        self.assertRaises(TypeError, self.store.__setitem__, 5, none)
        self.assertRaises(TypeError, self.store.setdefault, 5, none)
        self.assertRaises(TypeError, self.store.add, 5, none)
        self.assertEqual(self.store.count(), 0)

    def test_of_types_like_int(self) -> None:
        class Seven:
            def __index__(self) -> int:
                return 7

        anything: Any = Seven()
        seven: int = anything
        self.store[seven] = seven
        self.store[True] = seven, False
        self.assertEqual(list(self.store.scan(False, seven)), [(1, (7, 0))])
        self.assertEqual(self.store[seven], 7)
        answers = [
            self.store.add(seven, seven),
            self.store.setdefault(8, True),
            self.store.alter(9, lambda old: seven),
            self.store.pop(seven),
        ]
        self.assertEqual(answers, [14, 1, 7, 14])
        self.assertEqual({type(answer) for answer in answers}, {int})


class Keys(unittest.TestCase):
    def setUp(self) -> None:
        self.store = Store(keys=10_000)
        self.addCleanup(self.store.close)
        self.snapshot = self.store.snapshot()

    def calls_of_a_key(self) -> List[Callable[[Any], object]]:
        return [
            lambda key: self.store.__setitem__(key, 1),
            self.store.remove,
            self.store.__delitem__,
            self.store.pop,
            self.store.add,
            lambda key: self.store.setdefault(key, 1),
            lambda key: self.store.replace(key, None, 1),
            lambda key: self.store.alter(key, lambda old: 1),
            *self.reads_of_a_key(self.store),
            *self.reads_of_a_key(self.snapshot),
        ]

    @staticmethod
    def reads_of_a_key(reader: Any) -> List[Callable[[Any], object]]:
        return [reader.__getitem__, reader.get, reader.__contains__]

    def calls_of_a_range(self) -> List[Callable[..., object]]:
        return [self.store.scan, self.store.count, self.snapshot.scan, self.snapshot.count]

    def test_out_of_range(self) -> None:
        for call in self.calls_of_a_key():
            for key in -1, 2**64, -(2**64), 10**30:
                with self.subTest(call=call, key=key), self.assertRaises(ValueError):
                    call(key)
        self.assertEqual(self.store.count(), 0)

    def test_of_other_types(self) -> None:
        for call in self.calls_of_a_key():
            for key in None, 1.0, "1", b"1", (1, 2), slice(1, 2):
                with self.subTest(call=call, key=key), self.assertRaises(TypeError):
                    call(key)
        self.assertEqual(self.store.count(), 0)

    def test_ranges_out_of_range(self) -> None:
        for call in self.calls_of_a_range():
            for start, stop in (-1, 5), (0, -1), (2**64 + 1, None), (0, 2**64 + 1):
                with self.subTest(call=call, range=(start, stop)):
                    self.assertRaises(ValueError, call, start, stop)

    def test_ranges_of_other_types(self) -> None:
        for call in self.calls_of_a_range():
            for start, stop in (1.0, 5), (0, "5"), (0, 5.0):
                with self.subTest(call=call, range=(start, stop)):
                    self.assertRaises(TypeError, call, start, stop)

    def test_ends_of_ranges(self) -> None:
        for key in 0, 7, GREATEST:
            self.store[key] = 1
        ranges: List[Tuple[int, Optional[int], List[int]]] = [
            (0, None, [0, 7, GREATEST]),
            (0, 2**64, [0, 7, GREATEST]),
            (0, GREATEST, [0, 7]),
            (1, 7, []),
            (7, 8, [7]),
            (8, 7, []),
            (0, 0, []),
            (GREATEST, None, [GREATEST]),
            (2**64, None, []),
            (2**64, 0, []),
        ]
        with self.store.snapshot() as snapshot:
            readers: List[Any] = [self.store, snapshot]
            for reader in readers:
                for start, stop, keys in ranges:
                    with self.subTest(reader=reader, range=(start, stop)):
                        self.assertEqual([key for key, _ in reader.scan(start, stop)], keys)
                        self.assertEqual(reader.count(start, stop), len(keys))

    def test_the_missing_key_is_named(self) -> None:
        readers: List[Any] = [self.store, self.snapshot]
        for reader in readers:
            with self.assertRaises(KeyError) as caught:
                reader[77]
            self.assertEqual(caught.exception.args, (77,))


class Scans(unittest.TestCase):
    def test_long_ones_have_many_pages(self) -> None:
        with Store(keys=10_000) as store:
            for key in range(5_000):
                store[3 * key] = key
            expected = [(3 * key, key) for key in range(5_000)]
            self.assertEqual(list(store.scan()), expected)
            self.assertEqual(list(store.scan(1, 14_998)), expected[1:])
            for count in 63, 64, 65, 191, 192, 193:
                self.assertEqual(list(store.scan(0, 3 * count)), expected[:count])

    def test_one_sees_what_was_there(self) -> None:
        with Store() as store:
            for key in range(1_000):
                store[key] = 0
            rows = store.scan()
            self.assertEqual(next(rows), (0, 0))
            for key in range(2_000):
                store[key] = 1
            self.assertEqual(list(rows), [(key, 0) for key in range(1, 1_000)])
            self.assertEqual(store.count(), 2_000)


class Objects(unittest.TestCase):
    def test_they_are_not_copied_or_pickled(self) -> None:
        with Store() as store, store.snapshot() as snapshot:
            readers: List[Any] = [store, snapshot]
            for reader in readers:
                with self.subTest(reader=reader):
                    self.assertRaises(TypeError, copy.copy, reader)
                    self.assertRaises(TypeError, pickle.dumps, reader)

    def test_a_store_is_no_collection(self) -> None:
        with Store() as store:
            anything: Any = store
            self.assertRaises(TypeError, iter, anything)
            self.assertRaises(TypeError, len, anything)
            self.assertTrue(store)

    def test_a_snapshot_is_a_mapping(self) -> None:
        with Store(keys=1_000, epoch=4) as store:
            with store.snapshot() as empty:
                self.assertFalse(empty)
                self.assertEqual((len(empty), list(empty), dict(empty)), (0, [], {}))
                self.assertEqual(empty, {})
            wanted: Dict[int, Value] = {key: (key, 1) if key % 3 else key for key in range(200)}
            store.update(wanted)
            snapshot = store.snapshot()
            store.update({key: 0 for key in range(300)})
            self.assertIsInstance(snapshot, collections.abc.Mapping)
            self.assertTrue(snapshot)
            self.assertEqual(len(snapshot), 200)
            self.assertEqual(list(snapshot), list(range(200)))
            self.assertEqual(list(snapshot.keys()), list(range(200)))
            self.assertEqual(dict(snapshot), wanted)
            self.assertEqual(list(snapshot.items()), list(wanted.items()))
            self.assertEqual(list(snapshot.values()), list(wanted.values()))
            self.assertEqual(snapshot, wanted)
            self.assertNotEqual(snapshot, {**wanted, 7: 0})
            self.assertEqual(snapshot.keys() & {7, 999}, {7})
            self.assertIn((3, 3), snapshot.items())
            self.assertNotIn((3, 4), snapshot.items())
            items = snapshot.items()
            self.assertEqual(len(items), 200)
            self.assertEqual(list(items), list(items))
            with store.snapshot() as other:
                self.assertNotEqual(snapshot, other)
                self.assertEqual(other, other)
                self.assertEqual(len({snapshot, other}), 2)
            snapshot.close()
            self.assertRaises(Closed, len, snapshot)
            self.assertRaises(Closed, list, snapshot)
            self.assertRaises(Closed, bool, snapshot)

    def test_updates(self) -> None:
        with Store(keys=1_000, epoch=4) as store:
            store.update({7: 70, 8: (80, 81)})
            store.update((key, key) for key in range(5))
            store.update([(7, 71), (7, 72)])
            rows = [(0, 0), (1, 1), (2, 2), (3, 3), (4, 4), (7, 72), (8, (80, 81))]
            self.assertEqual(list(store.scan()), rows)
            with store.snapshot() as snapshot:
                store.update(snapshot)
            self.assertEqual(list(store.scan()), rows)
            bad: Any = {1: 10, 2: "two", 3: 30}
            self.assertRaises(TypeError, store.update, bad)
            self.assertEqual((store[1], store[2], store[3]), (10, 2, 3))

    def test_sweeps(self) -> None:
        with Store(keys=1_000, epoch=4) as store:
            store.sweep()
            store.update((key, key) for key in range(500))
            store.sweep()
            now = store.stats()
            self.assertEqual(now.epoch_writes, 0)
            self.assertGreaterEqual(now.merges, 500 // 4)
            jobs: List[Callable[[], object]] = [store.sweep] * 4
            in_threads(jobs + [partial(store.update, {1: 1, 2: 2})] * 4)
            self.assertEqual(store.count(), 500)
        self.assertRaises(Closed, store.sweep)

    def test_snapshots_have_times_and_stay_as_they_are(self) -> None:
        with Store(keys=1_000, epoch=4) as store:
            snapshots: List[Snapshot[int, Value]] = []
            for number in range(30):
                snapshots.append(store.snapshot())
                store[number % 3] = number
            times = [snapshot.time for snapshot in snapshots]
            self.assertEqual(times, sorted(set(times)))
            for number, snapshot in enumerate(snapshots):
                self.assertEqual(snapshot.get((number + 2) % 3), number - 1 if number else None)
                self.assertEqual(snapshot.count(), min(number, 3))
                snapshot.close()
                self.assertEqual(snapshot.time, times[number])

    def test_options_are_keywords(self) -> None:
        opened: Any = Store
        self.assertRaises(TypeError, opened, 1_000)
