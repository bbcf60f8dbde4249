"""What a store tells of itself."""

from __future__ import annotations

from typing import NamedTuple, Sequence

_SECOND = 1e9  # in nanoseconds
_TIMES = ("oldest_age", "last_merge", "longest_merge", "longest_wait")


class Statistics(NamedTuple):
    """What a store tells of itself, by :meth:`Store.stats`. Times are in seconds.

    Other threads may have gone on between two of its numbers.

    - ``bytes``: of memory, all of which it has taken when it was opened.
    - ``callers``, ``snapshots``, ``scans``: that are open in the library, of 64 at most. Threads
      borrow callers; a scan is a snapshot, and the library's own scans are not used.
    - ``oldest_time``, ``oldest_age``: of the oldest snapshot or scan, the time at which it reads,
      and for how long it is open, or 0.
    - ``clock``: the time of the next write; while nothing more can be opened, as it was found last.
    - ``epoch_writes``: writes of the current epoch, by that clock.
    - ``level_zero``, ``level_one``: entries of the runs, keys and old versions, before the last
      merge.
    - ``room_for_keys``: how many more keys may have a value than level one has entries.
    - ``room_for_versions``: how many more entries fit into level one.
    - ``merges``, ``last_merge``, ``longest_merge``: how many were made, and how long they took.
    - ``waits``, ``longest_wait``: how often writes waited for room, and how long at most.
    - ``run_full``, ``versions_full``, ``no_seat``: how often writes and opens were refused so.

    >>> with Store(keys=1_000) as store:
    ...     store[7] = 70
    ...     with store.snapshot() as snapshot:
    ...         now = store.stats()
    ...     now.snapshots, now.oldest_time == snapshot.time, now.epoch_writes, now.room_for_keys
    (1, True, 1, 1000)
    """

    bytes: int
    callers: int
    snapshots: int
    scans: int
    oldest_time: int
    oldest_age: float
    clock: int
    epoch_writes: int
    level_zero: int
    level_one: int
    room_for_keys: int
    room_for_versions: int
    merges: int
    last_merge: float
    longest_merge: float
    waits: int
    longest_wait: float
    run_full: int
    versions_full: int
    no_seat: int


def statistics_of(numbers: Sequence[int]) -> Statistics:
    """What the library tells, with its nanoseconds as seconds."""
    told = Statistics(*numbers)
    return told._replace(**{name: getattr(told, name) / _SECOND for name in _TIMES})
