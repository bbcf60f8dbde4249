"""Buffers of callers, with many keys or words."""

from __future__ import annotations

from typing import Any

_ORDERS = "@=<"  # of bytes, which are all one on x86-64
_WORD = 8  # bytes


def _view(name: str, buffer: Any) -> memoryview:
    """A view that nobody else has: to be left by the end of its ``with``."""
    view = memoryview(buffer)
    if not view.c_contiguous:
        raise BufferError(f"the items of {name} do not lie side by side")
    return view


def words_in(name: str, buffer: Any) -> memoryview:
    """The items of a buffer, if they are of 64 bits and have no sign."""
    view = _view(name, buffer)
    if view.itemsize != _WORD or view.format.lstrip(_ORDERS) not in ("Q", "L"):
        raise TypeError(f"{name} is no buffer of 64-bit unsigned items")
    return view


def _may_write(name: str, view: memoryview) -> memoryview:
    if view.readonly:
        raise BufferError(f"{name} may not be written")
    return view


def room_in(name: str, buffer: Any) -> memoryview:
    """The items of a buffer that are to be written, if they are of 64 bits and have no sign."""
    return _may_write(name, words_in(name, buffer))


def marks_in(name: str, buffer: Any) -> memoryview:
    """The bytes of a buffer that are to be written; ``None`` stands for one that has none."""
    view = _view(name, bytearray() if buffer is None else buffer)
    if view.itemsize != 1 or view.format.lstrip(_ORDERS) not in ("B", "b", "?", "c"):
        raise TypeError(f"{name} is no buffer of bytes")
    return _may_write(name, view)


def items_of(view: memoryview) -> int:
    """How many items it has, of whatever shape."""
    return view.nbytes // view.itemsize
