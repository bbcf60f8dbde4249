"""What the tests share."""

from __future__ import annotations

import os
import signal
import subprocess
import sys
import threading
import time
import warnings
from pathlib import Path
from typing import Callable, Dict, Iterable, List

from cupolanettle import _finding as finding
from cupolanettle._core import BACKEND

PROJECT = Path(__file__).resolve().parent.parent
SOURCES = PROJECT / "src"
IS_BY_CTYPES = BACKEND == "ctypes"
LIBRARY = finding.find_library()
MERGER = "clsm-merger"
_MOST_LOOKS = 10_000
_PAUSE = 0.001  # seconds
SNAPSHOTS = 60  # that can be open while one thread calls: the seats less four of callers


def in_threads(jobs: Iterable[Callable[[], object]]) -> None:
    """Runs each job in a thread of its own, and raises what one of them raised."""
    errors: List[BaseException] = []

    def run(job: Callable[[], object]) -> None:
        try:
            job()
        except BaseException as error:
            errors.append(error)

    threads = [threading.Thread(target=run, args=(job,)) for job in jobs]
    for thread in threads:
        thread.start()
    for thread in threads:
        thread.join()
    if errors:
        raise errors[0]


def in_process(program: str, **environment: str) -> subprocess.CompletedProcess[str]:
    """Runs a program in a Python of its own, which finds the package and the library."""
    variables: Dict[str, str] = {
        **os.environ,
        finding.LIBRARY_VARIABLE: os.path.abspath(LIBRARY) if os.path.isfile(LIBRARY) else LIBRARY,
        finding.BACKEND_VARIABLE: BACKEND,
        "PYTHONPATH": str(SOURCES),
        **environment,
    }
    return subprocess.run(
        [sys.executable, "-c", program],
        env=variables,
        stdout=subprocess.PIPE,
        stderr=subprocess.PIPE,
        universal_newlines=True,
        check=False,
    )


def in_child(job: Callable[[], bool]) -> bool:
    """Whether the job answers so in a forked child."""
    with warnings.catch_warnings():
        # Newer Pythons warn of a fork beside threads, of which a store has one.
        warnings.simplefilter("ignore", DeprecationWarning)
        child = os.fork()
    if child == 0:
        signal.alarm(600)  # ends it, should it not end
        status = 1
        try:
            status = 0 if job() else 1
        finally:
            os._exit(status)
    return os.waitpid(child, 0)[1] == 0


def await_mergers(count: int) -> None:
    """Waits until this process has so many threads of stores, as many as stores are open: one that
    has ended is listed a moment longer than until it was joined."""
    for _ in range(_MOST_LOOKS):
        if _mergers() == count:
            return
        time.sleep(_PAUSE)
    raise AssertionError(f"{_mergers()} threads of stores, not {count}")


def _mergers() -> int:
    names = []
    for task in Path("/proc/self/task").iterdir():
        try:
            names.append((task / "comm").read_text().strip())
        except OSError:  # it has just ended
            continue
    return names.count(MERGER)
