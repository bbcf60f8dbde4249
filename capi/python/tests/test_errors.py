"""What calls are refused with."""

from __future__ import annotations

import math
import os
import pickle
import platform
import resource
import threading
import unittest
from functools import partial
from typing import Any, Callable, Dict, List

from cupolanettle import (
    Closed,
    Code,
    Error,
    NoSeat,
    OwnSnapshot,
    RunFull,
    Store,
    Value,
    VersionsFull,
)

from .support import SNAPSHOTS, in_process, in_threads

LEAST_VERSIONS = 6 * 4 + 64  # of an epoch of 4
STACK_LIMIT = resource.getrlimit(resource.RLIMIT_STACK)[1]


class Errors(unittest.TestCase):
    def test_each_has_its_code(self) -> None:
        for code in Code:
            with self.subTest(code=code):
                self.assertEqual(Error(code).code, code)
                self.assertNotIn(str(Error(code)), ("", "unknown code"))
        self.assertEqual(str(Error(1_000)), "unknown code")

    def test_they_are_pickled(self) -> None:
        errors = [Error(Code.MEMORY), RunFull(Code.RUN_FULL), NoSeat(Code.NO_SEAT), Closed()]
        errors += [VersionsFull(Code.VERSIONS_FULL), OwnSnapshot(Code.OWN_SNAPSHOT)]
        for error in errors:
            copied = pickle.loads(pickle.dumps(error))
            self.assertIs(type(copied), type(error))
            self.assertEqual((copied.code, str(copied)), (error.code, str(error)))


class Options(unittest.TestCase):
    def test_out_of_range(self) -> None:
        refused: Dict[str, List[float]] = {
            "keys": [-1, 0, 4_194_304 - 6 * 4 - 64 + 1, 2**31, 2**32 + 1, 2**64, 2**64 + 1],
            "epoch": [-1, 0, 1, 3, 65_537, 2**31, 2**32 + 4, 2**64 + 4],
            "patience": [-2, -1, 65, 2**31, 2**32 + 1, 2**64 + 1],
            "versions": [-1, 0, 1, 4_194_304, 2**31, 2**64 + 10_000],
            "wait": [-1, -0.001, math.inf, -math.inf, math.nan],
        }
        for name, values in refused.items():
            for value in values:
                options: Any = {name: value}
                with self.subTest(options=options):
                    self.assertRaisesRegex(ValueError, f"^{name} is out", Store, **options)
        self.assertRaises(ValueError, Store, keys=4_194_304 - LEAST_VERSIONS + 1, epoch=4)
        self.assertRaises(ValueError, Store, keys=1, epoch=4, versions=LEAST_VERSIONS - 1)

    def test_of_other_types(self) -> None:
        wrong: List[Any] = [(name, 16.0) for name in ("keys", "epoch", "versions", "patience")]
        wrong += [(name, "16") for name in ("keys", "epoch", "versions", "wait", "patience")]
        wrong += [("keys", None), ("patience", None)]
        for name, value in wrong:
            options: Any = {name: value}
            with self.subTest(options=options), self.assertRaises(TypeError):
                Store(**options)

    def test_in_range(self) -> None:
        options: List[Any] = [
            {},
            {"keys": 1, "epoch": 4, "patience": 0},
            {"keys": 1, "epoch": 65_536, "patience": 64},
            {"keys": 100, "epoch": 5, "patience": 1, "merge_in_calls": True},
            {"epoch": None, "versions": None, "wait": None},
            {"keys": 1, "epoch": 4, "versions": LEAST_VERSIONS, "wait": 0},
            {"versions": 200_000, "wait": 1e300},
        ]
        for chosen in options:
            with self.subTest(options=chosen), Store(**chosen) as store:
                store[7] = 70
                self.assertEqual(store[7], 70)

    def test_the_greatest(self) -> None:
        with Store(keys=4_194_304 - LEAST_VERSIONS, epoch=4) as store:
            store[7] = 70
            self.assertEqual(store[7], 70)


def changes_of(store: Store[int, Value], value: int) -> List[Callable[[], object]]:
    """Calls that write, if the key 7 has the value and the key 8 has none."""
    return [
        partial(store.remove, 7),
        partial(store.__delitem__, 7),
        partial(store.pop, 7),
        partial(store.setdefault, 8, 1),
        partial(store.add, 7),
        partial(store.replace, 7, value, 1),
        partial(store.alter, 7, lambda old: old),
    ]


class Room(unittest.TestCase):
    def fill(self, store: Store[int, Value]) -> None:
        """Overwrites one key under a snapshot, until the store is full of versions."""
        written = 0
        with store.snapshot() as snapshot:
            with self.assertRaises(OwnSnapshot) as caught:
                while written < 1_000:
                    store[7] = written
                    written += 1
            self.assertEqual(caught.exception.code, Code.OWN_SNAPSHOT)
            for change in changes_of(store, written - 1):
                self.assertRaises(OwnSnapshot, change)
            in_threads([lambda: self.overwrite(store)])
            self.assertEqual(store.setdefault(7, 1), written - 1)
            self.assertFalse(store.replace(7, written, 1))
            self.assertRaises(OverflowError, store.add, 7, 2**64 - 1)
            self.assertRaises(KeyError, store.pop, 8)
            self.assertEqual(store[7], written - 1)
            self.assertNotIn(7, snapshot)
        for number in range(100):
            store[7] = number
        self.assertEqual(store[7], 99)

    def overwrite(self, store: Store[int, Value]) -> None:
        """In a thread that has no snapshot itself."""
        with self.assertRaises(VersionsFull) as caught:
            store[7] = 1
        self.assertIs(type(caught.exception), VersionsFull)
        self.assertEqual(caught.exception.code, Code.VERSIONS_FULL)

    def test_beside_a_merger(self) -> None:
        with Store(keys=1, epoch=4, wait=0) as store:
            self.fill(store)
            self.fill_again(store)

    def fill_again(self, store: Store[int, Value]) -> None:
        store.remove(7)
        self.fill(store)

    def test_merging_in_calls(self) -> None:
        with Store(keys=1, epoch=4, wait=0.001, merge_in_calls=True) as store:
            self.fill(store)
            self.fill_again(store)

    def test_a_write_waits_for_a_snapshot(self) -> None:
        with Store(keys=1, epoch=4, wait=None) as store:
            snapshot = store.snapshot()

            def write() -> None:
                for number in range(1_000):
                    store[7] = number
                    if number == 3:
                        began.set()

            def close() -> None:
                began.wait()
                snapshot.close()

            began = threading.Event()
            in_threads([write, close])
            self.assertEqual(store[7], 999)

    def test_more_keys_than_it_was_opened_for(self) -> None:
        for merge_in_calls in False, True:
            with Store(keys=8, epoch=4, merge_in_calls=merge_in_calls) as store:
                keys = self.fill_with_keys(store)
                self.assertGreaterEqual(keys, 8)
                self.assertEqual(list(store.scan()), [(key, key) for key in range(keys)])
                for key in range(keys):
                    store[key] = key + 1
                    store.remove(key)
                self.assertEqual(store.count(), 0)
                self.assertGreaterEqual(self.fill_with_keys(store), 8)

    def fill_with_keys(self, store: Store[int, Value]) -> int:
        """How many keys it takes."""
        keys = 0
        with self.assertRaises(RunFull) as caught:
            while keys < 1_000:
                store[keys] = keys
                keys += 1
        self.assertEqual(caught.exception.code, Code.RUN_FULL)
        return keys


class Seats(unittest.TestCase):
    def test_all_are_taken(self) -> None:
        with Store() as store:
            store[7] = 70
            opened: List[Any] = []
            for number in range(SNAPSHOTS):
                opened.append(store.scan() if number % 2 else store.snapshot())
            opens: List[Callable[[], object]] = [store.scan, store.snapshot]
            for call in opens:
                with self.assertRaisesRegex(NoSeat, "each snapshot and scan keeps one") as caught:
                    call()
                self.assertEqual(caught.exception.code, Code.NO_SEAT)
            in_threads([lambda: self.assertEqual(store.add(8), 1)])
            self.assertEqual((store[7], store.count()), (70, 2))
            self.assertEqual((store.stats().snapshots, store.stats().no_seat > 0), (SNAPSHOTS, True))
            opened.pop().close()
            with store.snapshot() as snapshot:
                self.assertEqual(snapshot[7], 70)
            self.assertEqual(list(store.scan()), [(7, 70), (8, 1)])


LITTLE_SPACE = """
import resource
from cupolanettle import Error, Store
with Store() as store:
    with open("/proc/self/statm") as used:
        pages = int(used.read().split()[0])
    space = pages * resource.getpagesize() + 2**27
    resource.setrlimit(resource.RLIMIT_AS, (space, resource.RLIM_INFINITY))
    try:
        Store({options})
    except Error as error:
        print(type(error).__name__, error.code)
    store[7] = 70
    print(store[7])
"""

GREAT_STACKS = """
import os, resource, sys
hard = resource.getrlimit(resource.RLIMIT_STACK)[1]
resource.setrlimit(resource.RLIMIT_STACK, (2**32, hard))
os.execv(sys.executable, [sys.executable, "-c", {program!r}])
"""


@unittest.skipUnless(os.path.exists("/proc/self/statm"), "needs Linux")
class FromTheSystem(unittest.TestCase):
    """In a process of its own, which leaves less than a store takes."""

    def assert_refused(self, program: str, code: Code) -> None:
        ended = in_process(program)
        expected = (f"Error {code:d}\n70\n", "")
        self.assertEqual((ended.stdout, ended.stderr), expected)

    def test_no_memory(self) -> None:
        self.assert_refused(LITTLE_SPACE.format(options="keys=4_000_000"), Code.MEMORY)

    @unittest.skipUnless(platform.libc_ver()[0] == "glibc", "needs stacks as great as allowed")
    @unittest.skipUnless(STACK_LIMIT in (-1, 2**32), "needs to allow greater stacks")
    def test_no_thread(self) -> None:
        program = LITTLE_SPACE.format(options="keys=1_000")
        self.assert_refused(GREAT_STACKS.format(program=program), Code.NO_THREAD)
