"""Rows of a range, page by page, where the C extension is not."""

from __future__ import annotations

import threading
from typing import Any, Iterator, Optional, Protocol, Tuple

from ._foreign_values import Page
from ._values import Row

# The rest of a page, the key behind it if there are more rows, and the room of the next page.
Place = Tuple[Iterator[Row], Optional[int], int]


class Reader(Protocol):
    """A store or a snapshot."""

    def _page(self, start: int, end_of_range: int, room: int, falls: bool) -> Page: ...

    def close(self) -> None: ...


class Rows:
    """The rows of a range, page by page."""

    def __init__(
        self,
        reader: Reader,
        first: int,
        last: int,
        room: int,
        greatest_room: int,
        is_own: bool,
        falls: bool = False,
    ) -> None:
        self._reader: Optional[Reader] = reader
        self._last = first if falls else last
        self._falls = falls
        self._greatest_room = greatest_room
        self._is_own = is_own
        self._lock = threading.RLock()
        self._place: Place = iter(()), last if falls else first, room

    def __iter__(self) -> Any:
        return self

    def __next__(self) -> Row:
        while True:
            place = self._place
            row = next(place[0], None)
            if row is not None:
                return row
            self._turn(place)

    def _turn(self, place: Place) -> None:
        """Reads the page behind this one, unless another thread has done so."""
        with self._lock:
            reader = self._reader
            _, at, room = place
            if self._place is not place:
                return
            if reader is None or at is None:
                self.close()
                raise StopIteration
            page, following = reader._page(at, self._last, room, self._falls)
            self._place = iter(page), following, min(2 * room, self._greatest_room)

    def close(self) -> None:
        reader = self._reader
        self._reader = None
        self._place = iter(()), None, 1
        if self._is_own and reader is not None:
            reader.close()
