"""A program as users type it: ``mypy`` in the folder above accepts it, and refuses what is marked.

A type that is written here has to be the one that mypy finds: stores and lists are invariant.
"""

from __future__ import annotations

import unittest
from array import array
from itertools import islice
from typing import Any, Dict, Iterator, List, Mapping, Optional, Tuple

import cupolanettle
from cupolanettle import (
    Batch,
    KeyCodec,
    Rows,
    Snapshot,
    Store,
    Transaction,
    Value,
    ValueCodec,
    floating,
    octets,
    pairs,
    signed,
    text,
)

PAGE = 2


class Falling(KeyCodec[int]):
    """Keys by falling number."""

    def key_of(self, key: int) -> int:
        return 2**64 - 1 - key

    def of_key(self, number: int) -> int:
        return 2**64 - 1 - number


class Flags(ValueCodec[bool]):
    """Values that are true or false."""

    def value_of(self, value: bool) -> Value:
        return int(value)

    def of_value(self, words: Value) -> bool:
        return words != 0


def pages(store: Store[str, int]) -> Iterator[List[Tuple[str, int]]]:
    """The rows of one moment, by pages."""
    with store.snapshot() as snapshot:
        rows: Rows[str, int] = snapshot.scan()
        while True:
            page = list(islice(rows, PAGE))
            if not page:
                return
            yield page


def total(counts: Mapping[str, int]) -> int:
    return sum(counts.values())


def transfer(t: Transaction[int, Value], amount: int) -> bool:
    held = t[1]
    if not isinstance(held, int) or held < amount:
        return False
    t[1] = held - amount
    t.add(2, amount)
    return True


class Plain(unittest.TestCase):
    """Ints, and tuples of ints: a value is a ``Value``."""

    def setUp(self) -> None:
        self.store: Store[int, Value] = Store(keys=1_000, epoch=64, wait=None)
        self.addCleanup(self.store.close)

    def test_single_keys(self) -> None:
        store = self.store
        store[7] = 70
        store[8] = 80, 81
        value: Value = store[7]
        found: Optional[Value] = store.get(8)
        other: Value = store.get(9, 0)
        self.assertEqual((value, found, other), (70, (80, 81), 0))
        total: int = store.add(7) + store.add(7, 5)
        held: Value = store.setdefault(7, 0)
        is_written: bool = store.replace(7, 76, (7, 6))
        altered: Optional[Value] = store.alter(7, lambda old: None)
        popped: Optional[Value] = store.pop(7, None)
        self.assertEqual((total, held, is_written, altered, popped), (147, 76, True, None, None))
        self.assertTrue(8 in store and 7 not in store)
        row: Optional[Tuple[int, Value]] = store.ceiling(0)
        self.assertEqual((row, store.floor(7)), ((8, (80, 81)), None))

    def test_many_keys(self) -> None:
        store = self.store
        store.update({7: 70, 8: (80, 81)})
        store.update((key, 0) for key in range(3))
        store.put_many({4: 40, 5: (50, 51)})
        store.put_many([(4, 41)])
        store.put_many(array("Q", [9]), array("Q", [90]))
        values: List[Optional[Value]] = store.get_many([4, 6])
        self.assertEqual(values, [41, None])
        words, found = array("Q", [0, 0]), bytearray(2)
        count: int = store.get_into(array("Q", [9, 3]), words, found=found)
        self.assertEqual((count, list(words), list(found)), (1, [90, 0], [1, 0]))
        self.assertTrue(store.batch_if({7: 70, 8: (80, 81), 6: None}, {7: None, 8: 1}, {(0, 3): 3}))
        self.assertTrue(store.batch_if([(8, 1)], {6: 60}, [((None, 3), 3), ((10, None), 0)]))
        self.assertFalse(store.batch_if({8: 2}, {}))
        rows: List[Tuple[int, Value]] = list(store.walk(8))
        self.assertEqual(rows, [(8, 1), (9, 90)])
        self.assertEqual(store.retain(lambda key, value: value != key, 8), 0)
        self.assertEqual((store.remove_range(5, 9), store.pop_first(9), store.clear()), (3, (9, 90), 4))

    def test_one_moment(self) -> None:
        with self.store.batch() as batch:
            batch[1] = 100
            batch.update({2: 0, 3: (1, 2)})
            batch.remove(3)
        is_done: bool = self.store.transact(lambda t: transfer(t, 70))
        self.assertTrue(is_done)
        with self.store.transaction() as t:
            self.assertFalse(transfer(t, 70))
        with self.store.snapshot() as snapshot:
            rows: Dict[int, Value] = dict(snapshot)
            mapping: Mapping[int, Value] = snapshot
            keys: List[int] = list(reversed(snapshot.keys()))
            self.assertEqual((rows, keys), ({1: 30, 2: 70}, [2, 1]))
            self.assertEqual((len(mapping), mapping.get(3), 3 in mapping), (2, None, False))
            self.assertEqual(list(reversed(snapshot.items())), [(2, 70), (1, 30)])
            self.assertEqual(list(snapshot.scan(reverse=True)), [(2, 70), (1, 30)])

    def test_calculating(self) -> None:
        """Who knows that all values are ints need not look at each."""
        store: Store[int, Any] = self.store
        store[7] = 1
        store[7] += store[7] + 1
        self.assertEqual(sum(store.get_many([7])), 3)

    def test_what_is_refused(self) -> None:
        store = self.store
        with self.assertRaises(TypeError):
            store["pear"] = 7  # type: ignore[index]
        with self.assertRaises(TypeError):
            store[7] = "pear"  # type: ignore[assignment]
        with self.assertRaises(TypeError):
            store.get("pear")  # type: ignore[call-overload]
        with self.assertRaises(TypeError):
            store.put_many({"pear": 7})  # type: ignore[dict-item]
        with self.assertRaises(TypeError):
            store.scan("pear")  # type: ignore[arg-type]
        with self.assertRaises(TypeError):
            Store(key=7)  # type: ignore[call-overload]
        with self.assertRaises(TypeError):
            Store(keys="16")  # type: ignore[call-overload]


class Coded(unittest.TestCase):
    """A store has the types of its codecs."""

    def test_types_of_codecs(self) -> None:
        texts: Store[str, Value] = Store(key=text)
        floats: Store[int, float] = Store(value=floating)
        points: Store[Tuple[int, int], bytes] = Store(key=pairs, value=octets, keys=1_000)
        own: Store[int, bool] = Store(key=Falling(), value=Flags())
        with texts, floats, points, own:
            texts["pear"] = 7, 8
            floats[7] = 0.5
            points[1, 2] = b"ab"
            own.update({3: False, 7: True})
            sum_of_texts: int = texts.add("fig")
            sum_of_floats: float = floats.add(7, 0.25)
            sum_of_points: bytes = points.add((1, 2), b"c")
            self.assertEqual((sum_of_texts, sum_of_floats, sum_of_points), (1, 0.75, b"abc"))
            self.assertEqual(list(own.scan()), [(7, True), (3, False)])

    def test_pages_of_texts(self) -> None:
        with Store(key=text, value=signed) as store:
            store.update({"fig": -2, "lime": 5, "pear": 3})
            batch: Batch[str, int] = store.batch()
            batch["plum"] = 0
            batch.write()
            found: List[List[Tuple[str, int]]] = list(pages(store))
            self.assertEqual([len(page) for page in found], [PAGE, PAGE])
            snapshot: Snapshot[str, int] = store.snapshot()
            self.assertEqual((total(snapshot), store.add("fig", 1)), (6, -1))
            with store.copy(keys=10) as copy:
                row: Optional[Tuple[str, int]] = copy.pop_last("g", "p")
            self.assertEqual(row, ("lime", 5))
            with store.transaction() as t:
                moved: Transaction[str, int] = t
                moved["fig"] -= 2
                sum_of_two: int = moved.add("lime", moved["fig"])
            self.assertEqual(sum_of_two, 2)

    def test_what_is_refused(self) -> None:
        with Store(key=text, value=signed) as store:
            with self.assertRaises(TypeError):
                store[7] = 7  # type: ignore[index]
            with self.assertRaises(TypeError):
                store["pear"] = "seven"  # type: ignore[assignment]
            with self.assertRaises(TypeError):
                store.add("pear", "seven")  # type: ignore[call-overload]
            with self.assertRaises(TypeError):
                store.batch().remove(7)  # type: ignore[arg-type]
            with self.assertRaises(TypeError):
                Store(value=pairs)  # type: ignore[call-overload]


class AtRunTime(unittest.TestCase):
    def test_types_are_written_as_those_of_a_dict(self) -> None:
        kinds: List[Any] = [Store, Snapshot, Rows, Batch, Transaction]
        for kind in kinds:
            self.assertIs(kind[str, int].__origin__, kind)

        class Ages(Store[str, int]):
            """A store of a user's own."""

        self.assertTrue(issubclass(Ages, cupolanettle.Store))


if __name__ == "__main__":
    unittest.main()
