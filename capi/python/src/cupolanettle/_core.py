"""What calls the library: the C extension, or the same classes by ``ctypes``."""

from __future__ import annotations

from typing import TYPE_CHECKING

from ._errors import error_of
from ._finding import native

if TYPE_CHECKING:
    from ._native import Rows, Snapshot, Store, pack
elif native is None:
    from ._foreign import Snapshot, Store
    from ._foreign_rows import Rows
    from ._foreign_values import pack
else:
    native.refuse_by(error_of)
    Rows, Snapshot, Store, pack = native.Rows, native.Snapshot, native.Store, native.pack

BACKEND = "ctypes" if native is None else "extension"

__all__ = ["BACKEND", "Rows", "Snapshot", "Store", "pack"]
