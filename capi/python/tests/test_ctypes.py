"""What the package makes of the library's answers, where it calls it by ctypes."""

from __future__ import annotations

import ctypes
import unittest
from functools import partial
from typing import Any, Callable, Dict, List
from unittest import mock

from cupolanettle import Closed, Code, Error, NoSeat, OwnSnapshot, RunFull, Store, VersionsFull
from cupolanettle import _library as library

from .support import IS_BY_CTYPES, in_threads
from .test_errors import changes_of

by_ctypes = unittest.skipUnless(IS_BY_CTYPES, "the extension calls the library")


def answer_code(code: Code, *_: object) -> int:
    return int(code)


@by_ctypes
class Options(unittest.TestCase):
    def test_what_the_library_is_told(self) -> None:
        told: List[Any] = []

        def refuse(options: Any, store: Any) -> int:
            told.append(options._obj)
            return int(Code.MEMORY)

        with mock.patch.object(library, "store_open", refuse):
            self.assertRaises(Error, Store)
            self.assertRaises(Error, Store, keys=7, epoch=5, patience=0, merge_in_calls=True)
            self.assertRaises(Error, Store, versions=1_000, wait=0)
            self.assertRaises(Error, Store, patience=16, wait=0.0301)
            self.assertRaises(Error, Store, wait=None)
            self.assertRaises(Error, Store, wait=1e300)
        found = [[value.keys, value.epoch, value.patience, value.merge] for value in told]
        default = [100_000, 0, 64, 0]
        given = [default, [7, 5, -1, 1], default, [100_000, 0, 16, 0], default, default]
        self.assertEqual(found, given)
        self.assertEqual([value.versions for value in told], [0, 0, 1_000, 0, 0, 0])
        waits = [100, 100, -1, 31, 100, 100]
        self.assertEqual([value.wait for value in told], waits)
        self.assertEqual([list(value.zero) for value in told], [[0] * 2] * 6)


@by_ctypes
class AsIfRefused(unittest.TestCase):
    """Each call, as if the library had answered a code."""

    def setUp(self) -> None:
        self.store = Store(wait=0)
        self.addCleanup(self.store.close)
        self.store[7] = 70
        self.snapshot = self.store.snapshot()

    def assert_refused(self, call: Callable[[], object], code: Code) -> None:
        kinds = {
            Code.RUN_FULL: RunFull,
            Code.VERSIONS_FULL: VersionsFull,
            Code.OWN_SNAPSHOT: OwnSnapshot,
            Code.NO_SEAT: NoSeat,
            Code.BAD_POINTER: Closed,
        }
        with self.subTest(code=code), self.assertRaises(Error) as caught:
            call()
        self.assertIs(type(caught.exception), kinds.get(code, Error))
        self.assertEqual(caught.exception.code, code)

    def codes(self) -> List[Code]:
        return [code for code in Code if code >= Code.MEMORY]

    def test_reads(self) -> None:
        readers: List[Any] = [self.store, self.snapshot]
        names = ["get", "count", "snapshot_get", "snapshot_count"]
        for code in self.codes():
            answers: Dict[str, Any] = dict.fromkeys(names, partial(answer_code, code))
            with mock.patch.multiple(library, **answers):
                for reader in readers:
                    self.assert_refused(partial(reader.get, 7), code)
                    self.assert_refused(partial(reader.__getitem__, 7), code)
                    self.assert_refused(partial(reader.__contains__, 7), code)
                    self.assert_refused(reader.count, code)
        self.assertEqual((self.store[7], self.snapshot[7]), (70, 70))

    def test_writes(self) -> None:
        writes = [partial(self.store.__setitem__, 7, 71), partial(self.store.remove, 7)]
        for first in Code.OK, Code.FULL, Code.BUSY, Code.RACED, Code.OVERTAKEN, Code.RUN_FULL:
            for code in self.codes():
                calls = library.WriteCalls(partial(answer_code, first), partial(answer_code, code))
                with mock.patch.multiple(library, PUT=calls, REMOVE=calls):
                    for call in writes:
                        if first == Code.OK:
                            call()
                        else:
                            self.assert_refused(call, code)
        self.assertEqual(self.store[7], 70)

    def test_changes(self) -> None:
        for code in self.codes():
            answer = partial(answer_code, code)
            with mock.patch.multiple(library, add=answer, put_if_absent=answer, replace=answer):
                for call in changes_of(self.store, 70)[1:]:
                    self.assert_refused(call, code)
        self.assertEqual(list(self.store.scan()), [(7, 70)])

    def test_snapshots_scans_and_walks(self) -> None:
        for code in self.codes():
            answer = partial(answer_code, code)
            with mock.patch.object(library, "snapshot_open", answer):
                self.assert_refused(self.store.snapshot, code)
                self.assert_refused(self.store.scan, code)
            with mock.patch.multiple(library, snapshot_page=answer, page=answer):
                self.assert_refused(partial(next, self.store.scan()), code)
                self.assert_refused(partial(next, self.snapshot.scan()), code)
                self.assert_refused(partial(next, self.store.walk()), code)
        self.assertEqual(list(self.snapshot.scan()), [(7, 70)])
        self.assertEqual(self.store.stats().snapshots, 1)

    def test_what_is_added_while_a_batch_is_written(self) -> None:
        writes = library.batch

        def add_and_write(*arguments: Any) -> int:
            in_threads([lambda: batch.__setitem__(2, 20)])
            batch.remove(7)
            return writes(*arguments)

        batch = self.store.batch()
        batch[1] = 10
        with mock.patch.object(library, "batch", add_and_write):
            batch.write()
        self.assertEqual((list(self.store.scan()), len(batch)), ([(1, 10), (7, 70)], 2))
        batch.write()
        self.assertEqual((list(self.store.scan()), len(batch)), ([(1, 10), (2, 20)], 0))

    def test_batches(self) -> None:
        for code in self.codes():
            batch = self.store.batch()
            batch[1] = 10
            with mock.patch.object(library, "batch", partial(answer_code, code)):
                if code == Code.BAD_BATCH:
                    self.assertRaises(ValueError, batch.write)
                else:
                    self.assert_refused(batch.write, code)
            self.assertEqual(len(batch), 1)
            batch.write()
        self.assertEqual(list(self.store.scan()), [(1, 10), (7, 70)])

    def test_opening(self) -> None:
        options = {Code.BAD_KEYS, Code.BAD_EPOCH, Code.BAD_PATIENCE}
        options |= {Code.BAD_VERSIONS, Code.BAD_WAIT}
        for code in self.codes():
            with mock.patch.object(library, "store_open", partial(answer_code, code)):
                if code in options:
                    self.assertRaises(ValueError, Store)
                else:
                    self.assert_refused(Store, code)

    def test_closing(self) -> None:
        closes = library.store_close_at
        handle: Any = getattr(self.store, "_handle")
        handle._closes = partial(answer_code, Code.IN_USE)
        self.assert_refused(self.store.close, Code.IN_USE)
        self.assertRaises(Closed, self.store.get, 7)
        handle._closes = closed = mock.Mock(wraps=closes)
        self.store.close()
        self.store.close()
        closed.assert_called_once()


@by_ctypes
class Changes(unittest.TestCase):
    def test_what_is_expected_lies_apart_from_what_is_answered(self) -> None:
        apart: List[bool] = []
        replaces = library.replace

        def replace(*arguments: Any) -> int:
            _, _, expected, _, changed = arguments
            distance = abs(ctypes.addressof(expected) - ctypes.addressof(changed))
            apart.append(distance >= ctypes.sizeof(library.Changed))
            if len(apart) < 4:
                in_threads([lambda: store.__setitem__(7, len(apart))])
            return replaces(*arguments)

        with Store(keys=1_000) as store:
            store[7] = 70
            with mock.patch.object(library, "replace", replace):
                self.assertEqual(store.alter(7, lambda _: 80), 80)
        self.assertEqual(apart, [True] * 4)
