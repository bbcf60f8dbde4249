"""What calls the library, used otherwise than the package does."""

from __future__ import annotations

import sys
import unittest
from typing import Any

from cupolanettle import Closed, Store, Value
from cupolanettle import _core as core

from .support import IS_BY_CTYPES, in_process

OPTIONS = (100, 4, 64, 1, 0, 0)


@unittest.skipIf(IS_BY_CTYPES, "ctypes calls the library")
class Extension(unittest.TestCase):
    def setUp(self) -> None:
        self.store: Any = core.Store(*OPTIONS)
        self.addCleanup(self.store.close)

    def test_stores_that_were_never_opened(self) -> None:
        store: Any = core.Store.__new__(core.Store)
        self.assertRaises(Closed, store._get, 7, None)
        self.assertRaises(Closed, store._put, 7, 70)
        self.assertRaises(Closed, store._stats)
        self.assertRaises(Closed, core.Snapshot, store)
        self.assertRaises(Closed, next, core.Rows(store, 0, 9, 1, 1, False))
        self.assertFalse(store._is_open())
        store.close()

    def test_stores_that_are_opened_twice(self) -> None:
        self.store._put(7, 70)
        self.assertRaises(RuntimeError, self.store.__init__, *OPTIONS)
        self.assertEqual(self.store._get(7, None), 70)

    def test_wrong_arguments(self) -> None:
        called: Any = core
        calls: Any = [
            lambda: called.Store(),
            lambda: self.store._get(7),
            lambda: self.store._put(7, 70, 700),
            lambda: self.store._replace(7, 70),
            lambda: self.store._write_rows(b""),
            lambda: called.Store._get(7, 7, 7),
            lambda: called.Snapshot(7),
            lambda: called.Rows(7, 0, 9, 1, 1, False),
            lambda: called.pack(7),
            lambda: called.Store(*OPTIONS, wait=0),
        ]
        for number, call in enumerate(calls):
            with self.subTest(number=number):
                self.assertRaises(TypeError, call)
        self.assertRaises(ValueError, core.Rows, self.store, 0, 9, 0, 0, False)

    def test_it_keeps_no_references(self) -> None:
        key, value, default = 2**40, (2**41, 2**42), object()
        before = [sys.getrefcount(found) for found in (key, value, default)]
        for _ in range(100):
            self.store._put(key, value)
            self.store._get(7, default)
            self.store._replace(key, value, value)
            self.store._put_if_absent(key, value)
            list(core.Rows(self.store, 0, key, 64, 64, False))
            self.assertRaises(ValueError, self.store._put, -1, value)
        self.assertEqual([sys.getrefcount(found) for found in (key, value, default)], before)

    @unittest.skipIf(sys.version_info[:2] == (3, 12), "its ctypes serves one interpreter, too")
    def test_another_interpreter_takes_ctypes(self) -> None:
        program = (
            "import sys\n"
            "from cupolanettle import _core\n"
            "for name in '_xxsubinterpreters', '_interpreters':\n"
            "    try: made = __import__(name)\n"
            "    except ImportError: continue\n"
            "    other = made.create()\n"
            "    made.run_string(other, 'from cupolanettle import _core, Store\\n'\n"
            "        'with Store() as store: print(_core.BACKEND, store.add(7), flush=True)')\n"
            "    break\n"
            "else: print('ctypes 1')\n"
            "print(_core.BACKEND)\n"
        )
        ended = in_process(program, CLSM_BACKEND="")
        self.assertEqual((ended.stdout, ended.stderr), ("ctypes 1\nextension\n", ""))


class Subclasses(unittest.TestCase):
    def test_they_are_stores(self) -> None:
        class Counter(Store[int, Value]):
            def __init__(self, **options: Any) -> None:
                super().__init__(**options)
                self.hits = 0

            def get(self, key: int, default: Any = None) -> Any:
                self.hits += 1
                return super().get(key, default)

        with Counter(keys=1_000) as counter:
            counter[7] = 70
            self.assertEqual((counter.get(7), counter.get(8, 0), counter.hits), (70, 0, 2))
            counter.itself = counter  # type: ignore[attr-defined]
        del counter
