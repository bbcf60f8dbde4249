"""A cache that four threads fill while snapshots of it are read: each snapshot shows the cache as it
was at one moment, however often it is read.

    python3 cache.py
"""

import threading
from typing import Any, Tuple

import cupolanettle

NUMBERS = 1_000
THREADS = 4


def path_of(number: int) -> Tuple[int, int]:
    """What is costly to compute: in how many steps a number comes to 1, and how high it climbs."""
    steps, highest = 0, number
    while number > 1:
        number = 3 * number + 1 if number % 2 else number // 2
        steps += 1
        highest = max(highest, number)
    return steps, highest


def cached(store: cupolanettle.Store[int, Any], number: int) -> Any:
    """The path of a number: from the cache, or computed and kept, unless another thread was first."""
    path = store.get(number)
    if path is None:
        path = store.setdefault(number, path_of(number))
    return path


def fill(store: cupolanettle.Store[int, Any]) -> None:
    for number in range(1, NUMBERS + 1):
        cached(store, number)


def look(store: cupolanettle.Store[int, Any]) -> None:
    """Reads a snapshot row by row. It has as many rows as it says, and each of them is right."""
    with store.snapshot() as snapshot:
        rows = list(snapshot.scan())
        assert len(rows) == snapshot.count()
        assert all(path == path_of(number) for number, path in rows)


def main() -> None:
    with cupolanettle.Store(keys=10_000) as store:
        threads = [threading.Thread(target=fill, args=(store,)) for _ in range(THREADS)]
        for thread in threads:
            thread.start()
        while any(thread.is_alive() for thread in threads):
            look(store)
        for thread in threads:
            thread.join()
        look(store)
        steps, highest = path_of(27)
        assert cached(store, 27) == (steps, highest)
        print(store.count(), "numbers")
        print(f"27 takes {steps} steps and climbs to {highest}")


if __name__ == "__main__":
    main()
