"""Changes: what they find and leave, and that none is lost between threads."""

from __future__ import annotations

import unittest
from functools import partial
from typing import Any, Callable, List, Optional

from cupolanettle import Closed, Store, Value

from .support import in_child, in_threads

GREATEST = 2**64 - 1
THREADS = range(4)
KEYS = range(8)


def one_more(old: Optional[Value]) -> Value:
    assert not isinstance(old, tuple)
    return 1 if old is None else old + 1


class Adding(unittest.TestCase):
    def setUp(self) -> None:
        self.store = Store(keys=1_000)
        self.addCleanup(self.store.close)

    def test_no_value_counts_as_0(self) -> None:
        self.assertEqual(self.store.add(7), 1)
        self.assertEqual(self.store.add(8, 0), 0)
        self.assertEqual(self.store.add(9, GREATEST), GREATEST)
        self.store.remove(7)
        self.assertEqual(self.store.add(7, by=5), 5)
        self.assertEqual(list(self.store.scan()), [(7, 5), (8, 0), (9, GREATEST)])

    def test_up_to_the_greatest_word(self) -> None:
        self.store[7] = GREATEST - 1
        self.assertRaises(OverflowError, self.store.add, 7, 2)
        self.assertRaises(OverflowError, self.store.add, 7, GREATEST)
        self.assertEqual(self.store.add(7), GREATEST)
        self.assertRaises(OverflowError, self.store.add, 7)
        self.assertEqual(self.store.add(7, 0), GREATEST)

    def test_not_to_tuples(self) -> None:
        for count in range(2, 9):
            value = (1,) * count
            self.store[7] = value
            for by in 0, 1, GREATEST:
                self.assertRaises(ValueError, self.store.add, 7, by)
            self.assertEqual(self.store[7], value)

    def test_only_words(self) -> None:
        self.store[7] = 70
        for by in -1, 2**64, 10**30:
            self.assertRaises(ValueError, self.store.add, 7, by)
        others: List[Any] = [1.0, "1", (1, 2), 1j]
        for other in others:
            self.assertRaises(TypeError, self.store.add, 7, other)
        self.assertEqual(self.store[7], 70)


class Comparing(unittest.TestCase):
    """What is the expected value, and what is not."""

    def setUp(self) -> None:
        self.store = Store(keys=1_000)
        self.addCleanup(self.store.close)

    def test_all_words_count(self) -> None:
        values: List[Value] = [0, 1, GREATEST, (0, 0), (0, 1), (1, 0), (0, 0, 0)]
        values += [(0,) * 8, (*(0,) * 7, 1)]
        for value in values:
            self.store[7] = value
            for other in [*values, None]:
                if other != value:
                    self.assertFalse(self.store.replace(7, other, 5), (value, other))
            self.assertEqual(self.store[7], value)
            self.assertTrue(self.store.replace(7, value, 5))
            self.assertEqual(self.store[7], 5)

    def test_none_is_no_value(self) -> None:
        self.assertFalse(self.store.replace(7, 0, 1))
        self.assertTrue(self.store.replace(7, None, None))
        self.assertNotIn(7, self.store)
        self.assertTrue(self.store.replace(7, None, 0))
        self.assertFalse(self.store.replace(7, None, None))
        self.assertFalse(self.store.replace(7, None, 1))
        self.assertEqual(self.store[7], 0)
        self.assertTrue(self.store.replace(7, 0, None))
        self.assertNotIn(7, self.store)

    def test_a_snapshot_stays_as_it_is(self) -> None:
        self.store[7] = 70
        with self.store.snapshot() as snapshot:
            self.store.add(7)
            self.store.alter(7, lambda old: (1, 2))
            self.assertEqual(self.store.pop(7), (1, 2))
            self.store.setdefault(8, 80)
            self.assertEqual(list(snapshot.scan()), [(7, 70)])


class Missing(unittest.TestCase):
    def test_the_missing_key_is_named(self) -> None:
        with Store() as store:
            removals: List[Callable[[int], object]] = [store.pop, store.__delitem__]
            for call in removals:
                with self.assertRaises(KeyError) as caught:
                    call(77)
                self.assertEqual(caught.exception.args, (77,))

    def test_the_default_is_what_was_given(self) -> None:
        default = object()
        with Store() as store:
            self.assertIs(store.pop(7, default), default)
            self.assertIs(store.pop(7, default=default), default)
            self.assertIsNone(store.pop(7, None))
            store[7] = 70
            self.assertEqual(store.pop(7, default), 70)


class Interrupted(Store[int, Value]):
    """A store that lets another thread do a job behind a look at a key."""

    job: Optional[Callable[[], object]] = None

    def _get(self, key: int, default: object) -> Any:
        found = super()._get(key, default)
        job, self.job = self.job, None
        if job is not None:
            in_threads([job])
        return found


class Between(unittest.TestCase):
    """Another write comes between a change's look at the key and its own write."""

    def setUp(self) -> None:
        self.store = Interrupted(keys=1_000)
        self.addCleanup(self.store.close)
        self.store[7] = 70

    def interrupt(self, job: Callable[[], object]) -> None:
        """Runs the job behind the next look at a key."""
        self.store.job = job

    def test_a_removal_removes_what_was_written(self) -> None:
        self.interrupt(lambda: self.store.add(7))
        self.assertEqual(self.store.pop(7), 71)
        self.store[7] = 70
        self.interrupt(lambda: self.store.add(7))
        del self.store[7]
        self.assertNotIn(7, self.store)

    def test_one_of_two_removals_finds_the_value(self) -> None:
        removals: List[Callable[[int], object]] = [self.store.pop, self.store.__delitem__]
        for call in removals:
            self.store[7] = 70
            self.interrupt(lambda: self.store.remove(7))
            self.assertRaises(KeyError, call, 7)
        self.store[7] = 70
        self.interrupt(lambda: self.store.pop(7))
        self.assertEqual(self.store.pop(7, 0), 0)

    def test_a_function_is_asked_again(self) -> None:
        asked: List[Optional[Value]] = []
        others: List[Optional[Value]] = [71, None, (1, 2)]

        def function(old: Optional[Value]) -> Value:
            asked.append(old)
            if others:
                other = others.pop(0)
                in_threads([lambda: self.store.alter(7, lambda _: other)])
            return len(asked)

        self.assertEqual(self.store.alter(7, function), 4)
        self.assertEqual(asked, [70, 71, None, (1, 2)])
        self.assertEqual(self.store[7], 4)

    def test_a_function_gives_up(self) -> None:
        def function(old: Optional[Value]) -> Optional[Value]:
            if old is not None:
                self.store.remove(7)
            return None

        self.assertIsNone(self.store.alter(7, function))
        self.assertNotIn(7, self.store)


class Functions(unittest.TestCase):
    """What else a function of an update does."""

    def setUp(self) -> None:
        self.store = Store(keys=1_000)
        self.addCleanup(self.store.close)
        self.store[7] = 70

    def test_it_raises(self) -> None:
        def function(_: Optional[Value]) -> Value:
            raise ZeroDivisionError

        self.assertRaises(ZeroDivisionError, self.store.alter, 7, function)
        self.assertRaises(ZeroDivisionError, self.store.alter, 8, function)
        self.assertEqual(list(self.store.scan()), [(7, 70)])

    def test_it_is_no_function(self) -> None:
        alter: Any = self.store.alter
        self.assertRaises(TypeError, alter, 7, 71)
        self.assertEqual(list(self.store.scan()), [(7, 70)])

    def test_it_calls_the_store(self) -> None:
        def function(old: Optional[Value]) -> Value:
            with self.store.snapshot() as snapshot:
                self.assertEqual(snapshot[7], old)
            self.store.alter(8, one_more)
            return self.store.add(9, 5)

        self.assertEqual(self.store.alter(7, function), 5)
        self.assertEqual(list(self.store.scan()), [(7, 5), (8, 1), (9, 5)])

    def test_nobody_waits_for_it(self) -> None:
        def function(_: Optional[Value]) -> Value:
            in_threads([self.store.close])
            return 71

        self.assertRaises(Closed, self.store.alter, 7, function)
        self.assertRaises(Closed, self.store.get, 7)

    def test_it_forks(self) -> None:
        def child() -> bool:
            self.assertRaises(Closed, self.store.replace, 7, 70, 71)
            self.assertRaises(Closed, self.store.add, 7)
            return True

        def function(_: Optional[Value]) -> Value:
            self.assertTrue(in_child(child))
            return 71

        self.assertEqual(self.store.alter(7, function), 71)
        self.assertEqual(self.store[7], 71)


class Threads(unittest.TestCase):
    """Four threads change the same keys, beside a merger that has much to do."""

    ROUNDS = 1_000

    def setUp(self) -> None:
        self.store = Store(keys=1_000, epoch=64)
        self.addCleanup(self.store.close)

    def check_sums(self, store: Store[int, Value], add: Callable[[int], Any]) -> None:
        """Each sum is answered to one thread, and each thread's sums rise."""
        sums: List[List[Any]] = [[] for _ in THREADS]

        def count(number: int) -> None:
            for i in range(self.ROUNDS):
                key = i % len(KEYS)
                sums[number].append((key, add(key)))

        in_threads([partial(count, number) for number in THREADS])
        greatest = len(THREADS) * self.ROUNDS // len(KEYS)
        expected = [(key, number) for key in KEYS for number in range(1, greatest + 1)]
        self.assertEqual(sorted(sum(sums, [])), expected)
        for key in KEYS:
            for answers in sums:
                own = [answer for at, answer in answers if at == key]
                self.assertEqual(own, sorted(own))
        self.assertEqual(list(store.scan()), [(key, greatest) for key in KEYS])

    def test_adding(self) -> None:
        self.check_sums(self.store, self.store.add)

    def test_updating(self) -> None:
        self.check_sums(self.store, lambda key: self.store.alter(key, one_more))

    def test_replacing(self) -> None:
        def add(key: int) -> Value:
            while True:
                old = self.store.get(key)
                if self.store.replace(key, old, one_more(old)):
                    return one_more(old)

        self.check_sums(self.store, add)

    def test_merging_in_calls(self) -> None:
        with Store(keys=1_000, epoch=16, merge_in_calls=True) as store:
            self.check_sums(store, store.add)
        with Store(keys=1_000, epoch=16, merge_in_calls=True) as store:
            self.check_sums(store, lambda key: store.alter(key, one_more))

    def answers(self, call: Callable[[int, int], Any]) -> List[List[Any]]:
        """What each thread's calls answer, key by key."""
        found: List[List[Any]] = [[] for _ in THREADS]

        def work(number: int) -> None:
            for key in range(self.ROUNDS):
                found[number].append(call(key, number))

        in_threads([partial(work, number) for number in THREADS])
        return found

    def test_one_sets_the_default(self) -> None:
        found = self.answers(self.store.setdefault)
        for answers in found:
            self.assertEqual(list(enumerate(answers)), list(self.store.scan()))

    def test_one_replaces(self) -> None:
        found = self.answers(lambda key, number: self.store.replace(key, None, number))
        for key, answers in enumerate(zip(*found)):
            self.assertEqual(answers.count(True), 1)
            self.assertEqual(self.store[key], answers.index(True))

    def test_one_pops(self) -> None:
        for key in range(self.ROUNDS):
            self.store[key] = key, 0
        found = self.answers(lambda key, _: self.store.pop(key, None))
        for key, answers in enumerate(zip(*found)):
            self.assertEqual(sorted(answers, key=bool), [None] * 3 + [(key, 0)])
        self.assertEqual(self.store.count(), 0)

    def test_one_deletes(self) -> None:
        def delete(key: int, _: int) -> bool:
            try:
                del self.store[key]
                return True
            except KeyError:
                return False

        for key in range(self.ROUNDS):
            self.store[key] = key
        for answers in zip(*self.answers(delete)):
            self.assertEqual(answers.count(True), 1)
        self.assertEqual(self.store.count(), 0)
