"""Interrupts: exceptions out of a signal's handler, and calls that it makes, at each step.

A trace function stands for the handler. It comes where an interpreter may run a handler in the
package's Python: at the beginning of a function, behind each call, and where a loop jumps back.
"""

from __future__ import annotations

import dis
import gc
import sys
import threading
import unittest
import warnings
from types import CodeType, FrameType
from typing import Any, Callable, Dict, List, Optional
from unittest import mock

from cupolanettle import Closed, Store, Transaction, Value

from .support import SNAPSHOTS, SOURCES, await_mergers, in_process, in_threads

PACKAGE = str(SOURCES / "cupolanettle")
JUMPS = ("JUMP_BACKWARD", "JUMP_ABSOLUTE")
Job = Callable[[], object]


class Interrupt(BaseException):
    """What a handler raises."""


class Handler:
    """Does a job at one step of the package's Python, counted from 0."""

    def __init__(self, step: int, job: Job) -> None:
        self.left = step
        self.job: Optional[Job] = job
        self.codes: Dict[CodeType, bytes] = {}
        self.is_step: Dict[int, bool] = {}  # by the number of a frame: whether its next one is

    def trace(self, frame: FrameType, event: str, _: object) -> Any:
        if not frame.f_code.co_filename.startswith(PACKAGE):
            return None
        frame.f_trace_opcodes = True
        frame.f_trace_lines = False
        if event == "call" or event == "opcode" and self.is_step.get(id(frame), False):
            self.take_step()
        if event == "opcode":
            code = self.codes.setdefault(frame.f_code, frame.f_code.co_code)
            name = dis.opname[code[frame.f_lasti]]
            self.is_step[id(frame)] = name.startswith("CALL") or name in JUMPS
        else:
            self.is_step[id(frame)] = False
        return self.trace

    def take_step(self) -> None:
        if self.left > 0:
            self.left -= 1
            return
        job, self.job = self.job, None
        if job is not None:
            sys.settrace(None)
            job()

    def run(self, calls: Job) -> None:
        sys.settrace(self.trace)
        try:
            calls()
        finally:
            sys.settrace(None)


def raise_interrupt() -> None:
    raise Interrupt


def take_snapshot(store: Store[int, Value]) -> None:
    with store.snapshot() as snapshot:
        snapshot.get(7)


def keep_snapshot(store: Store[int, Value]) -> None:
    snapshot = store.snapshot()
    snapshot.close()


def scan(store: Store[int, Value]) -> None:
    for _ in store.scan(0, 8):
        pass


def leave_scan(store: Store[int, Value]) -> None:
    next(store.scan())


def scan_snapshot(store: Store[int, Value]) -> None:
    next(store.snapshot().scan())


def put(store: Store[int, Value]) -> None:
    store[5] = 5


def put_often(store: Store[int, Value]) -> None:
    for number in range(5):
        store[5] = number


def add(store: Store[int, Value]) -> None:
    store.add(6)


def count(store: Store[int, Value]) -> None:
    store.count()


def change(store: Store[int, Value]) -> None:
    store.alter(4, lambda old: 4)


def walk(store: Store[int, Value]) -> None:
    for _ in store.walk(7, 8):
        pass


def write_batch(store: Store[int, Value]) -> None:
    with store.batch() as batch:
        batch[8] = 8


def write_if(store: Store[int, Value]) -> None:
    store.batch_if({7: 70}, {4: 4}, {(5, 6): 0})
    store.get_many([4, 7, 7])


def transact(store: Store[int, Value]) -> None:
    with store.transaction() as t:
        read: Any = t.get(7)
        t[4] = read, len(list(t.scan(0, 8)))
        t.remove(8)


def run_transaction(store: Store[int, Value]) -> None:
    store.transact(lambda t: t.get_many([4, 7]))


def conflict(store: Store[int, Value]) -> None:
    """The second run of a transaction, behind a conflict."""

    def run(t: Transaction[int, Value]) -> None:
        t[4] = t.get(8, 0)
        if 3 not in store:
            store[3] = store[8] = 3

    store.remove(3)
    store.transact(run)


def remove_range(store: Store[int, Value]) -> None:
    store.remove_range(4, 7)


def copy(store: Store[int, Value]) -> None:
    with store.copy() as copied:
        copied.get(7)


CALLS: List[Callable[[Store[int, Value]], None]] = [take_snapshot, keep_snapshot, scan, leave_scan]
CALLS += [scan_snapshot, put, put_often, add, count, change, walk, write_batch]
CALLS += [write_if, transact, run_transaction, conflict, remove_range, copy]


class AtEachStep(unittest.TestCase):
    def setUp(self) -> None:
        self.steps = 0
        self.swallowed: List[object] = []
        hook = mock.patch.object(sys, "unraisablehook", self.swallowed.append)
        hook.start()
        self.addCleanup(hook.stop)
        caught = warnings.catch_warnings()
        caught.__enter__()
        self.addCleanup(caught.__exit__, None, None, None)
        warnings.simplefilter("ignore", ResourceWarning)
        self.addCleanup(lambda: self.assertGreater(self.steps, 5))

    def small_store(self) -> Store[int, Value]:
        store = Store(keys=100, epoch=4, merge_in_calls=True)
        store[7] = 70
        return store

    def at_each_step(self, calls: Job, job: Job, check: Job) -> None:
        """Does the job at the first step of the calls, then at the second one, and so on."""
        step = 0
        while True:
            handler = Handler(step, job)
            self.run_calls(handler, calls)
            self.assertEqual(self.swallowed, [])
            check()
            if handler.job is not None:
                self.steps += step
                return
            step += 1

    def run_calls(self, handler: Handler, calls: Job) -> None:
        """Runs the calls, whose job raises an interrupt that comes out, if there is a step for it."""
        try:
            handler.run(calls)
        except Interrupt:
            return
        self.assertIsNotNone(handler.job, "the interrupt was swallowed")


class Interrupts(AtEachStep):
    def test_no_seat_is_lost(self) -> None:
        for call in CALLS:
            with self.subTest(call=call.__name__), self.small_store() as store:

                def check() -> None:
                    self.assertEqual(store.stats().snapshots, 0)
                    in_threads([store.count])

                self.at_each_step(lambda: call(store), raise_interrupt, check)
                snapshots = [store.snapshot() for _ in range(SNAPSHOTS)]
                self.assertEqual([snapshot[7] for snapshot in snapshots], [70] * SNAPSHOTS)
                in_threads([lambda: store.add(9)] * 20)
                self.assertEqual(store[9], 20)

    def test_a_store_is_opened(self) -> None:
        await_mergers(0)

        def check() -> None:
            gc.collect()
            await_mergers(0)

        self.at_each_step(self.open_and_close, raise_interrupt, check)

    def open_and_close(self) -> None:
        with Store(keys=1, epoch=4) as store:
            store[7] = 70

    def test_a_store_is_closed(self) -> None:
        await_mergers(0)
        stores: List[Store[int, Value]] = []

        def check() -> None:
            for store in stores:
                store.close()
                self.assertRaises(Closed, store.get, 7)
            stores.clear()
            await_mergers(0)

        self.at_each_step(lambda: self.close_with_all(stores), raise_interrupt, check)

    def close_with_all(self, stores: List[Store[int, Value]]) -> None:
        store = Store(keys=1, epoch=4)
        stores.append(store)
        store[7] = 70
        rows = store.snapshot().scan()
        next(rows)
        store.close()


class CallsOfHandlers(AtEachStep):
    """A handler that makes calls itself, as of a service that is told to end."""

    def run_calls(self, handler: Handler, calls: Job) -> None:
        try:
            handler.run(calls)
        except Closed:
            self.assertIsNone(handler.job)

    def test_they_answer(self) -> None:
        for call in CALLS:
            with self.subTest(call=call.__name__), self.small_store() as store:

                def job() -> None:
                    store[9] = store[7]
                    store.add(9)
                    with store.snapshot() as snapshot:
                        self.assertEqual(snapshot[9], 71)
                    self.assertEqual(next(store.scan(9)), (9, 71))
                    self.assertGreaterEqual(store.count(), 2)

                def check() -> None:
                    self.assertEqual((store[7], store.stats().snapshots), (70, 0))

                self.at_each_step(lambda: call(store), job, check)

    def test_one_closes_the_store(self) -> None:
        for call in CALLS:
            stores = [self.small_store()]

            def close() -> None:
                stores[0].close()

            def check() -> None:
                close()
                self.assertRaises(Closed, stores[0].get, 7)
                stores[0] = self.small_store()

            with self.subTest(call=call.__name__):
                self.at_each_step(lambda: call(stores[0]), close, check)
                close()

    def test_one_opens_another_store(self) -> None:
        def open_and_close() -> None:
            with Store(keys=1, epoch=4) as store:
                store[7] = 70

        await_mergers(0)
        check = lambda: await_mergers(0)  # noqa: E731
        self.at_each_step(open_and_close, open_and_close, check)

    def test_stores_are_closed_twice(self) -> None:
        """By the handler in the midst of a close, and by another thread meanwhile."""
        await_mergers(0)
        stores: List[Store[int, Value]] = []
        threads: List[threading.Thread] = []

        def calls() -> None:
            store = Store(keys=1, epoch=4)
            stores.append(store)
            rows = store.scan()
            store.close()
            rows.close()

        def close() -> None:
            for store in stores:
                threads.append(threading.Thread(target=store.close))
                threads[-1].start()
                store.close()

        def check() -> None:
            while threads:
                threads.pop().join()
            await_mergers(0)
            stores.clear()

        self.at_each_step(calls, close, check)


SIGNALS = """
import signal, sys
from cupolanettle import Store
swallowed = []
sys.unraisablehook = swallowed.append
signal.signal(signal.SIGUSR1, signal.default_int_handler)

def use(store):
    snapshot = store.snapshot()
    rows = snapshot.scan()
    signal.raise_signal(signal.SIGUSR1)

came_out = 0
with Store(keys=100, epoch=64, merge_in_calls=True) as store:
    for number in range(300):
        try:
            use(store)
        except KeyboardInterrupt:
            came_out += 1
print(came_out, len(swallowed))
"""


WAITING = """
import signal, threading, time
from cupolanettle import Closed, Store
signal.signal(signal.SIGUSR1, signal.default_int_handler)

def write():
    try:
        while True:
            store.add(7)
    except Closed:
        pass

others = [threading.Thread(target=write) for _ in range({others})]
with Store(keys=1, epoch=4, wait=None, merge_in_calls=True) as store:
    held = []
    thread = threading.Thread(target=lambda: held.append(store.snapshot()))
    thread.start()
    thread.join()

    writes = threading.Event()

    def interrupt():
        writes.wait()
        before = -1
        while store.stats().clock != before:  # until no write comes any more
            before = store.stats().clock
            time.sleep(0.01)
        signal.pthread_kill(threading.main_thread().ident, signal.SIGUSR1)

    for other in others:
        other.start()
    thread = threading.Thread(target=interrupt)
    thread.start()
    try:
        writes.set()
        while True:
            store.add(7)
    except KeyboardInterrupt:
        print("interrupted")
    thread.join()
"""


CLOSING = """
import signal, threading
from cupolanettle import Closed, Store
signal.signal(signal.SIGUSR1, lambda *_: store.close())
main = threading.main_thread().ident
for number in range(50):
    store = Store(keys=1_000, epoch=4)
    for key in range(500):
        store[key] = key
    snapshot = store.snapshot()
    jobs = [lambda: signal.pthread_kill(main, signal.SIGUSR1), store.close]
    threads = [threading.Thread(target=job) for job in jobs]
    for thread in threads[:: 1 if number % 2 else -1]:
        thread.start()
    calls = [store.count, snapshot.count, lambda: store.add(7), lambda: list(store.scan())]
    try:
        while True:
            calls[number % 4]()
    except Closed:
        pass
    for thread in threads:
        thread.join()
print("closed")
"""


class Signals(unittest.TestCase):
    def test_a_handler_and_a_thread_close_a_store_beside_calls(self) -> None:
        ended = in_process(CLOSING)
        self.assertEqual((ended.stdout, ended.stderr), ("closed\n", ""))

    def test_a_write_that_waits(self) -> None:
        """For a snapshot, and, beside more writers than there are callers, for one of these."""
        for others in 0, 30:
            ended = in_process(WAITING.replace("{others}", str(others)))
            self.assertEqual((ended.stdout, ended.stderr), ("interrupted\n", ""))

    def test_three_hundred(self) -> None:
        ended = in_process(SIGNALS)
        self.assertEqual((ended.stdout, ended.stderr), ("300 0\n", ""))
