"""Three loops as users write them, each without an error that it did not ask for."""

from __future__ import annotations

import threading
import unittest
from typing import Any, Dict, Iterable, Tuple

from cupolanettle import RunFull, Store, Value

PLAYERS = 10
POINTS = 3_000
THREADS = 4


def total(rows: Iterable[Tuple[int, Any]]) -> int:
    return sum(value for _, value in rows)


class Loops(unittest.TestCase):
    def play_beside_snapshots(self, store: Store[int, Value]) -> None:
        """Threads add points, which others overwrite, while snapshots of them are read."""

        def play() -> None:
            for i in range(POINTS):
                store.add(i % PLAYERS)

        threads = [threading.Thread(target=play) for _ in range(THREADS)]
        for thread in threads:
            thread.start()
        while any(thread.is_alive() for thread in threads):
            with store.snapshot() as snapshot:
                points = total(snapshot.scan())
                for _ in range(10):
                    self.assertEqual(total(snapshot.scan()), points)
        for thread in threads:
            thread.join()
        self.assertEqual(total(store.scan()), THREADS * POINTS)

    def test_a_leaderboard(self) -> None:
        for merge_in_calls in False, True:
            for epoch in None, 64:
                with self.subTest(merge_in_calls=merge_in_calls, epoch=epoch):
                    options: Dict[str, Any] = {"keys": 10, "epoch": epoch, "merge_in_calls": merge_in_calls}
                    with Store(wait=None, **options) as store:
                        self.play_beside_snapshots(store)

    def test_writing_a_range_while_reading_it(self) -> None:
        for keys, epoch in (5_000, None), (1_000, 16):
            with self.subTest(keys=keys), Store(keys=keys, epoch=epoch) as store:
                for key in range(keys):
                    store[key] = 0
                for _ in range(3):
                    for key, value in store.walk():
                        assert isinstance(value, int)
                        store[key] = value + 1
                self.assertEqual(list(store.scan()), [(key, 3) for key in range(keys)])

    def test_to_the_brim_and_again(self) -> None:
        for epoch in None, 64:
            with self.subTest(epoch=epoch), Store(keys=1_000, epoch=epoch) as store:
                for _ in range(2):
                    keys = 0
                    with self.assertRaises(RunFull):
                        while True:
                            store[keys] = keys
                            keys += 1
                    self.assertGreaterEqual(keys, 1_000)
                    for key in range(keys):
                        store.remove(key)
                    self.assertEqual(list(store.scan()), [])
