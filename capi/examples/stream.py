"""A stream processor: counts events by window of time and by name, each event once.

    python3 stream.py

Events come in four logs, each written by a thread. Workers take the next events of a log, add
them to their windows, and write how far the log is counted: all of that in one transaction. If a
worker dies in between, nothing of its transaction is there, and another one goes on where it
began. If two count the same events, one comes to a conflict, and begins behind them.

    log        0, 8 bits | number of the log, 8 bits | place in it, 48 bits   -> time, name
    progress   1, 8 bits | number of the log, 56 bits   -> next place, latest time, late events
    windows    2, 8 bits | window, 40 bits | name, 16 bits   -> count
    totals     3, 8 bits | name, 56 bits   -> count
"""

import itertools
from concurrent.futures import ThreadPoolExecutor
from typing import Any, List

import cupolanettle

LOGS = 4
THREADS = 4
EVENTS = 400  # of each log
NAMES = 3
TOGETHER = 16  # events of a transaction, at most
WIDTH = 100  # of a window, in time
SLACK = 120  # so much an event may be late

LOG, PROGRESS, WINDOWS, TOTALS = (kind << 56 for kind in range(4))


class Dies(Exception):
    """A worker dies."""


def produce(store: cupolanettle.Store[int, Any], log: int) -> None:
    """Writes a log. Its times rise, but some events are late, and a few too late."""
    for place in range(EVENTS):
        late = 300 if place % 50 == 49 else 20 * (place % 3)
        store[LOG | log << 48 | place] = max(0, 10 * place - late), (place + log) % NAMES


def first_open(latest: int) -> int:
    """The first window that takes events of a log when it has come to this time."""
    return max(0, latest - SLACK) // WIDTH


def count(store: cupolanettle.Store[int, Any], rows: Any, log: int) -> None:
    """Counts the next events of a log, in a transaction. It reads them outside of that: a log's
    rows never change, so it comes to no conflict with the thread that writes them."""
    place, latest, late = rows.get(PROGRESS | log, (0, 0, 0))
    begin = LOG | log << 48 | place
    found = store.get_many(range(begin, begin + TOGETHER))
    for time, name in itertools.takewhile(lambda event: event is not None, found):
        if time // WIDTH < first_open(latest):
            late += 1
        else:
            for key in WINDOWS | time // WIDTH << 16 | name, TOTALS | name:
                rows[key] = rows.get(key, 0) + 1
        place, latest = place + 1, max(latest, time)
    rows[PROGRESS | log] = place, latest, late


def progress(store: cupolanettle.Store[int, Any]) -> List[Any]:
    rows = store.get_many([PROGRESS | log for log in range(LOGS)])
    return [(0, 0, 0) if row is None else row for row in rows]


def expire(store: cupolanettle.Store[int, Any]) -> None:
    """Removes the windows that are closed for all logs. No worker counts there any more: it would
    have read an older progress, and come to a conflict."""
    closed = min(first_open(latest) for _, latest, _ in progress(store))
    store.remove_range(WINDOWS, WINDOWS | closed << 16)


def work(store: cupolanettle.Store[int, Any], own: int) -> None:
    """Counts events of one log after another, and dies in the middle of a transaction."""
    for turn in range(own, 3 * own + 8):
        store.transact(lambda rows: count(store, rows, turn % LOGS))
        expire(store)
    try:
        with store.transaction() as rows:
            count(store, rows, own)
            raise Dies
    except Dies:
        pass


def main() -> None:
    with cupolanettle.Store() as store:
        with ThreadPoolExecutor(LOGS + THREADS) as pool:
            producing = [pool.submit(produce, store, log) for log in range(LOGS)]
            while any(place < EVENTS for place, _, _ in progress(store)):
                working = [pool.submit(work, store, own) for own in range(THREADS)]
                for thread in working:
                    thread.result()
            for thread in producing:
                thread.result()
        expire(store)
        for key, total in store.scan(TOTALS):
            print(f"name {key - TOTALS}: {total}")
        print(sum(late for _, _, late in progress(store)), "came too late")
        for key, counted in store.scan(WINDOWS, TOTALS):
            print(f"window {key - WINDOWS >> 16}, name {key & 0xFFFF}: {counted}")


if __name__ == "__main__":
    main()
