"""Transactions: what one reads, what ends it, and that many are as one after another."""

from __future__ import annotations

import copy
import pickle
import unittest
from functools import partial
from random import Random
from typing import Any, Callable, Dict, List, Optional, Tuple
from unittest import mock

from cupolanettle import (
    Closed,
    Conflict,
    NoSeat,
    OwnSnapshot,
    Store,
    Transaction,
    Value,
    floating,
    text,
)

from .support import SNAPSHOTS, in_threads

EPOCH = 64
KEYS = 12
ROUNDS = 150
OLD = range(2002, 2020, 4)  # keys that have a value

Read = Callable[[Transaction], Any]


class Case(unittest.TestCase):
    def setUp(self) -> None:
        self.store: Store[int, Any] = Store(keys=10_000, epoch=EPOCH)
        self.addCleanup(self.store.close)

    def rows(self) -> List[Tuple[int, Value]]:
        return list(self.store.scan())


class Alone(Case):
    def test_it_reads_what_it_wrote(self) -> None:
        self.store.update({1: 10, 2: 20, 9: 90})
        before = self.rows()
        with self.store.transaction() as t:
            self.assertEqual((t[1], t.get(3), t.get(3, 7)), (10, None, 7))
            self.assertEqual((2 in t, 3 in t), (True, False))
            t[1] -= 3
            t[3] = 30, 31
            t.remove(2)
            self.assertEqual((t[1], t.get_many([3, 2, 1, 9])), (7, [(30, 31), None, 7, 90]))
            self.assertEqual(list(t.scan()), [(1, 7), (3, (30, 31)), (9, 90)])
            self.assertEqual(list(t.scan(2, 9)), [(3, (30, 31))])
            self.assertEqual(list(t.scan(5, 5)), [])
            del t[9]
            for key in 2, 9:
                self.assertRaises(KeyError, t.__getitem__, key)
                self.assertRaises(KeyError, t.__delitem__, key)
            self.assertEqual(self.rows(), before)
        self.assertEqual(self.rows(), [(1, 7), (3, (30, 31))])

    def test_it_reads_one_moment(self) -> None:
        self.store.update({1: 10, 2: 20})
        t = self.store.transaction()
        self.assertEqual(t[1], 10)
        self.store.update({1: 11, 2: 21, 3: 31})
        self.assertEqual((t[1], t[2], list(t.scan())), (10, 20, [(1, 10), (2, 20)]))
        t.commit()  # it has written nothing
        self.assertEqual(t[1], 11)
        t[4] = t[2]
        self.store[1] = 12
        self.assertRaises(Conflict, t.commit)
        t[4] = t[1] + t[2]
        t.commit()
        self.assertEqual(self.store[4], 33)
        self.assertEqual(self.store.stats().snapshots, 0)

    def test_what_it_only_writes_is_no_conflict(self) -> None:
        with self.store.transaction() as t:
            t[1] = 10
            t[1] += 1
            self.store[1] = 70
        self.assertEqual(self.store[1], 11)
        t = self.store.transaction()
        self.assertEqual(t[1], 11)
        self.store[1] = 0
        self.store[1] = 11  # is the same again
        t[2] = 20
        t.commit()

    def test_an_error_writes_nothing(self) -> None:
        with self.assertRaises(ZeroDivisionError):
            with self.store.transaction() as t:
                t[1] = 10
                t[2] = t.get(3, 1) // 0
        self.assertEqual((self.rows(), self.store.stats().snapshots), ([], 0))

        def fail(t: Transaction[int, Any]) -> None:
            t[1] = t.get(1, 0) // 0

        self.assertRaises(ZeroDivisionError, self.store.transact, fail)
        self.assertEqual((self.rows(), self.store.stats().snapshots), ([], 0))

    def test_wrong_writes(self) -> None:
        with self.store.transaction() as t:
            wrong: List[Any] = [-1, 2**64, (1,), (1,) * 9]
            for value in wrong:
                self.assertRaises(ValueError, t.__setitem__, 1, value)
            for key in -1, 2**64:
                self.assertRaises(ValueError, t.__setitem__, key, 1)
                self.assertRaises(ValueError, t.get, key)
                self.assertRaises(ValueError, t.remove, key)
            others: List[Any] = [None, "1", 1.0]
            for other in others:
                self.assertRaises(TypeError, t.__setitem__, 1, other)
                self.assertRaises(TypeError, t.get_many, [other])
            self.assertRaises(TypeError, copy.copy, t)
            self.assertRaises(TypeError, pickle.dumps, t)
        self.assertEqual(self.rows(), [])

    def test_refusals(self) -> None:
        def write(t: Transaction[int, Any]) -> None:
            for key in range(EPOCH + 1):
                t[key] = 0

        self.assertRaises(ValueError, self.store.transact, write)
        self.assertEqual(self.rows(), [])
        snapshots = [self.store.snapshot() for _ in range(SNAPSHOTS)]
        with self.assertRaises(NoSeat):
            while True:
                snapshots.append(self.store.snapshot())
        with self.assertRaises(NoSeat), self.store.transaction() as t:
            t.get(1)
        for call in "count", "first", "last":
            with self.assertRaises(NoSeat), self.store.transaction() as t:
                getattr(t, call)()
        with self.store.transaction() as t:
            t[1] = 10
        for snapshot in snapshots:
            snapshot.close()
        self.store.close()
        with self.assertRaises(Closed), self.store.transaction() as t:
            t[1] = 11

    def test_it_does_not_wait_for_its_own_snapshot(self) -> None:
        with Store(keys=2, epoch=4, wait=0) as store:
            with store.transaction() as t:
                self.assertNotIn(1, t)
                with self.assertRaises(OwnSnapshot):
                    while True:
                        store[2] = 20
                t[1] = 10
            self.assertEqual(store[1], 10)

    def test_values_are_read_as_the_store_gives_them(self) -> None:
        class Number:
            def __index__(self) -> int:
                return 7

        number: Any = Number()
        with self.store.transaction() as t:
            for value, wanted in (True, 1), (number, 7), ((number, False), (7, 0)):
                t[number] = value
                found = t[7]
                self.assertEqual((found, type(found)), (wanted, type(wanted)))
                self.assertEqual(list(t.scan()), [(7, wanted)])
        self.assertEqual(self.store[7], (7, 0))

    def test_it_has_no_iterator(self) -> None:
        self.store.update({0: 10, 1: 20})
        with self.store.transaction() as t:
            itself: Any = t
            self.assertRaises(TypeError, iter, itself)

    def test_codecs(self) -> None:
        with Store(key=text, value=floating) as store:
            named: Any = store
            named["pear"] = 2.5
            with named.transaction() as t:
                t["fig"] = t["pear"] / 2
                t.remove("pear")
                self.assertEqual(t.get_many(["fig", "pear"]), [1.25, None])
                self.assertEqual(list(t.scan("a", "z")), [("fig", 1.25)])
                self.assertEqual(list(t.scan(reverse=True)), [("fig", 1.25)])
                self.assertEqual((t.first(), t.last("a", "f")), (("fig", 1.25), None))
                self.assertEqual((t.floor("pear"), t.ceiling("a")), (("fig", 1.25),) * 2)
                self.assertEqual((t.count(), t.count("g")), (1, 0))
            self.assertEqual(list(named.scan()), [("fig", 1.25)])
            with self.assertRaises(Conflict), named.transaction() as t:
                t["fig"] += 1
                named["fig"] = 0.5


class Ranges(Case):
    def test_conflicts(self) -> None:
        """A scan has read what it gave, and up to its end if it came there."""
        changes: List[Tuple[int, Optional[int], bool]] = [
            *[(2002, 5, True), (2002, None, True), (2003, 1, True), (2006, None, True)],
            *[(2001, 1, True), (2007, 1, False), (2010, None, False), (1999, 1, False)],
        ]
        for key, value, is_conflict in changes:
            for is_whole in False, True:
                self.store.retain(lambda *_: False)
                self.store.update((key, 1) for key in range(2002, 2020, 4))
                t = self.store.transaction()
                rows = t.scan(2000, 2015)
                self.assertEqual([next(rows), next(rows)], [(2002, 1), (2006, 1)])
                if is_whole:
                    self.assertEqual(list(rows), [(2010, 1), (2014, 1)])
                t[1] = 10
                self.store.batch_if({}, {key: value})
                with self.subTest(key=key, value=value, is_whole=is_whole):
                    if is_conflict or (is_whole and key >= 2000):
                        self.assertRaises(Conflict, t.commit)
                    else:
                        t.commit()

    def test_a_scan_has_what_was_written_before_its_first_row(self) -> None:
        self.store.update({3: 30, 5: 50, 7: 70})
        with self.store.transaction() as t:
            t[6] = 60
            rows = t.scan()
            self.assertEqual(next(rows), (3, 30))
            t.remove(5)
            t.remove(6)
            t[7] = 71
            t[8] = 80
            self.assertEqual(list(rows), [(5, 50), (6, 60), (7, 70)])
            self.assertEqual(list(t.scan()), [(3, 30), (7, 71), (8, 80)])

    def test_a_scan_ends_with_its_transaction(self) -> None:
        """What it read is not of the moment of what follows."""
        self.store.update({1: 10, 2: 20})
        t = self.store.transaction()
        for end in t.commit, t.cancel:
            rows = t.scan()
            self.assertEqual(next(rows), (1, self.store[1]))
            t[9] = 90
            end()
            self.store[2] = t[2] = 21
            self.assertRaises(RuntimeError, next, rows)
            self.assertRaises(StopIteration, next, rows)
            self.assertEqual((t[1], t[2]), (10, 21))
            t.commit()
        self.assertEqual(self.store.stats().snapshots, 0)

    def look(self, read: Read, own: Dict[int, Any], key: int, value: Optional[int]) -> Any:
        """What a transaction reads behind its own writes, and whether a write of the key is a
        conflict then."""
        self.store.clear()
        self.store.update((each, 1) for each in OLD)
        t = self.store.transaction()
        for each, mine in own.items():
            if mine is None:
                t.remove(each)
            else:
                t[each] = mine
        found = read(t)
        t[1] = 10
        self.store.batch_if({}, {key: value})
        try:
            t.commit()
        except Conflict:
            return found, True
        return found, False

    def test_conflicts_of_each_way_to_read(self) -> None:
        """Changes from one key to another one are; of a count only those of its number."""
        looks: List[Tuple[Read, Dict[int, Any], int, int, Any]] = [
            (lambda t: next(t.scan(2000, 2016, reverse=True)), {}, 2014, 2015, (2014, 1)),
            (lambda t: len(list(t.scan(2000, 2016, True))), {}, 2000, 2015, 4),
            (lambda t: t.first(2000, 2016), {}, 2000, 2002, (2002, 1)),
            (lambda t: t.last(2000, 2016), {}, 2014, 2015, (2014, 1)),
            (lambda t: t.first(2003, 2006), {}, 2003, 2005, None),
            (lambda t: t.last(2003, 2006), {}, 2003, 2005, None),
            (lambda t: t.floor(2005), {}, 2002, 2005, (2002, 1)),
            (lambda t: t.ceiling(2003), {}, 2003, 2006, (2006, 1)),
            (lambda t: t.first(2000, 2016), {2002: None, 2006: None}, 2000, 2010, (2010, 1)),
            (lambda t: t.last(2000, 2016), {2014: None, 2012: 3}, 2012, 2015, (2012, 3)),
        ]
        for read, own, first, last, wanted in looks:
            for key in range(1999, 2019):
                for value in None, 2:
                    is_conflict = first <= key <= last and (key in OLD or value is not None)
                    with self.subTest(wanted=wanted, key=key, value=value):
                        found = self.look(read, own, key, value)
                        self.assertEqual(found, (wanted, is_conflict))

    def test_conflicts_of_counts(self) -> None:
        """What comes, what goes, and what the keys have that it wrote itself."""
        owns: List[Dict[int, Any]] = [{}, {2002: None, 2006: 3, 2012: 3}, {1999: 3, 2018: None}]
        for own in owns:
            for key in range(1999, 2019):
                for value in None, 2:
                    is_same = key in OLD and value is not None and key not in own
                    is_conflict = 2000 <= key < 2016 and not is_same
                    is_conflict = is_conflict and (key in OLD or value is not None)
                    with self.subTest(own=own, key=key, value=value):
                        found = self.look(lambda t: t.count(2000, 2016), own, key, value)
                        self.assertEqual(found, (4, is_conflict))

    def test_a_count_of_as_many_other_keys(self) -> None:
        """It is the same, unless one of them is its own."""
        for own, is_conflict in (2003, True), (2002, True), (2007, False):
            self.store.clear()
            self.store.update((each, 1) for each in OLD)
            t = self.store.transaction()
            t[own] = 3
            self.assertEqual(t.count(2000, 2016), 4 if own == 2002 else 5)
            self.store.batch_if({}, {2002: None, 2003: 1})
            with self.subTest(own=own):
                if is_conflict:
                    self.assertRaises(Conflict, t.commit)
                else:
                    t.commit()

    def test_they_begin_a_transaction(self) -> None:
        """Each may be the first read, whose moment is that of the others."""
        reads: List[Read] = [
            lambda t: t.count(),
            lambda t: t.first(),
            lambda t: t.last(),
            lambda t: t.floor(9),
            lambda t: t.ceiling(1),
            lambda t: list(t.scan(reverse=True)),
        ]
        for read in reads:
            self.store.clear()
            self.store.update({3: 30, 7: 70})
            t = self.store.transaction()
            read(t)
            self.store.update({1: 10, 3: 31, 9: 90})
            self.assertEqual((t.count(), t.first(), t.last()), (2, (3, 30), (7, 70)))
            self.assertEqual((t.floor(9), t.ceiling(1)), ((7, 70), (3, 30)))
            self.assertEqual(list(t.scan(reverse=True)), [(7, 70), (3, 30)])
            t.cancel()
        self.assertEqual(self.store.stats().snapshots, 0)

    def test_the_ends_of_all_keys(self) -> None:
        greatest = 2**64 - 1
        self.store.update({0: 1, greatest: 2})
        with self.store.transaction() as t:
            self.assertEqual((t.first(), t.last()), ((0, 1), (greatest, 2)))
            self.assertEqual((t.floor(0), t.ceiling(greatest)), ((0, 1), (greatest, 2)))
            self.assertEqual((t.count(), t.count(1), t.count(0, greatest)), (2, 1, 1))
            self.assertEqual((t.first(5, 5), t.last(5, 4), t.count(5, 4)), (None, None, 0))
            self.assertEqual(list(t.scan(5, 4, reverse=True)), [])
            t.remove(0)
            t.remove(greatest)
            self.assertEqual((t.first(), t.last(), t.count()), (None, None, 0))
            self.assertEqual((t.floor(greatest), t.ceiling(0)), (None, None))
            calls: List[Callable[[int], object]] = [t.floor, t.ceiling, t.first, t.last, t.count]
            for call in calls:
                self.assertRaises(ValueError, call, -1)
            for call in calls[:2]:
                self.assertRaises(ValueError, call, 2**64)
        self.assertEqual(self.rows(), [])

    def test_own_writes_are_among_the_rows(self) -> None:
        random = Random(7)
        model: Dict[int, Value] = {key: key for key in range(0, 400, 2)}
        self.store.update(model)
        t = self.store.transaction()
        for number in range(100):
            key = random.randrange(400)
            if number % 3:
                t[key] = model[key] = number
            else:
                t.remove(key)
                model.pop(key, None)
            start, stop = sorted(random.sample(range(401), 2))
            wanted = [(key, model[key]) for key in sorted(model) if start <= key < stop]
            self.assertEqual(list(t.scan(start, stop)), wanted)
            self.assertEqual(list(t.scan(start, stop, reverse=True)), wanted[::-1])
            self.assertEqual(t.count(start, stop), len(wanted))
            self.assertEqual(t.first(start, stop), wanted[0] if wanted else None)
            self.assertEqual(t.last(start, stop), wanted[-1] if wanted else None)
        t.cancel()
        self.assertEqual(self.store.count(), 200)


class Running(Case):
    def test_again_after_a_conflict(self) -> None:
        runs = []

        def run(t: Transaction[int, Any]) -> int:
            old: int = t.get(1, 0)
            t[2] = old
            runs.append(old)
            if len(runs) < 4:
                self.store.add(1, 10)
            return old + 1

        self.assertEqual((self.store.transact(run), self.store[2]), (31, 30))
        self.assertEqual(runs, [0, 10, 20, 30])

        def lose(t: Transaction[int, Any]) -> None:
            t[2] = t[1]
            runs.append(self.store.add(1))

        self.assertRaises(Conflict, self.store.transact, lose, tries=3)
        self.assertEqual((len(runs), self.store[2], self.store.stats().snapshots), (7, 30, 0))

    def test_many_conflicts_in_a_row(self) -> None:
        """The pause between two runs grows up to a millisecond, and not further."""

        def lose(t: Transaction[int, Any]) -> None:
            t[2] = t.get(1, 0)
            self.store.add(1)

        with mock.patch("time.sleep") as sleep:
            self.assertRaises(Conflict, self.store.transact, lose, tries=2_000)
        pauses = [call[0][0] for call in sleep.call_args_list]
        self.assertEqual((len(pauses), pauses), (1_999, sorted(pauses)))
        self.assertTrue(0 < pauses[0] < pauses[-1] == 1e-3)


class Threads(unittest.TestCase):
    def work(self, store: Store[int, Any], made: List[Any], seed: int) -> None:
        """Random transactions, each with its time, what it read, and what it wrote."""
        random = Random(seed)
        for number in range(ROUNDS):
            words = 1 + seed * ROUNDS + number
            steps: List[Any] = []

            def run(t: Transaction[int, Any]) -> None:
                steps.clear()
                for _ in range(random.randrange(1, 5)):
                    key, kind = random.randrange(KEYS), random.randrange(4)
                    if kind == 0:
                        steps.append(("get", key, t.get(key)))
                    elif kind == 1:
                        steps.append(("scan", key, list(t.scan(key, key + 5))))
                    elif kind == 2:
                        ends = t.first(key, key + 5), t.last(key, key + 5)
                        steps.append(("ends", key, (t.count(key, key + 5), *ends)))
                    else:
                        value = words if random.randrange(3) else None
                        t.remove(key) if value is None else t.__setitem__(key, value)
                        steps.append(("set", key, value))
                count: Any = t.get(100, 0)  # orders them
                t[100] = count + 1
                steps.append(count)

            store.transact(run, tries=100_000)
            made.append((steps[-1], steps[:-1]))

    def replay(self, made: List[Any]) -> Dict[int, Value]:
        model: Dict[int, Value] = {}
        for number, (place, steps) in enumerate(sorted(made, key=lambda one: int(one[0]))):
            self.assertEqual(place, number)
            for kind, key, found in steps:
                if kind == "get":
                    self.assertEqual(model.get(key), found)
                elif kind == "scan":
                    wanted = [(k, model[k]) for k in sorted(model) if key <= k < key + 5]
                    self.assertEqual(found, wanted)
                elif kind == "ends":
                    wanted = [(k, model[k]) for k in sorted(model) if key <= k < key + 5]
                    ends = (wanted[0], wanted[-1]) if wanted else (None, None)
                    self.assertEqual(found, (len(wanted), *ends))
                elif found is None:
                    model.pop(key, None)
                else:
                    model[key] = found
        return model

    def test_they_are_as_one_after_another(self) -> None:
        for merge_in_calls in False, True:
            options: Any = {"keys": 10_000, "epoch": EPOCH, "merge_in_calls": merge_in_calls}
            made: List[Any] = []
            with Store(**options) as store:
                in_threads([partial(self.work, store, made, seed) for seed in range(4)])
                model = self.replay(made)
                self.assertEqual(dict(store.scan(0, KEYS)), model)
                self.assertEqual(store[100], 4 * ROUNDS)

    def test_one_of_two_stays(self) -> None:
        """Each thread looks at both keys, and takes one: not both."""

        def take(t: Transaction[int, Any], own: int) -> None:
            one, other = t.get(10), t.get(11)
            self.assertTrue(one or other)
            if one and other:
                t.remove(10 + own % 2)
            else:
                t[10] = t[11] = 1

        def work(own: int) -> None:
            for number in range(ROUNDS):
                store.transact(partial(take, own=own + number), tries=100_000)

        with Store(epoch=EPOCH) as store:
            store.update({10: 1, 11: 1})
            in_threads([partial(work, own) for own in range(4)])
            self.assertTrue(10 in store or 11 in store)
