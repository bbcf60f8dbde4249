"""Cupolanettle: an ordered map in memory for many threads.

Keys are ints from 0 to 2**64 - 1. Values are such ints too, or tuples of 2 to 8 of them. A read
waits for no write, and gives the map as it is at one moment; a snapshot keeps that moment.

>>> import threading
>>> with Store(keys=100_000) as store:
...     def work(n):
...         for i in range(1000):
...             store[4 * i + n] = (i, n)
...     threads = [threading.Thread(target=work, args=(n,)) for n in range(4)]
...     for thread in threads:
...         thread.start()
...     for thread in threads:
...         thread.join()
...     with store.snapshot() as snapshot:
...         snapshot[7], list(snapshot.scan(10, 12)), snapshot.count()
((1, 3), [(10, (2, 2)), (11, (2, 3))], 4000)

The package calls the library by a C extension that has the library in it, or, where that is not,
the C library ``libclsm.so`` by ``ctypes``: the one that the environment variable ``CLSM_LIBRARY``
names, or else the first one that lies beside the package, was built with its sources, or is
installed in the system. ``CLSM_BACKEND`` chooses: ``extension`` or ``ctypes``.
"""

from ._batch import Batch
from ._codecs import KeyCodec, ValueCodec, floating, octets, pairs, signed, text
from ._coded import CodedStore as _CodedStore
from ._errors import Closed, Code, Conflict, Error, NoSeat, OwnSnapshot, RunFull, VersionsFull
from ._finding import VERSION as __version__
from ._reading import Rows
from ._snapshot import Snapshot
from ._statistics import Statistics
from ._store import Store
from ._transaction import Transaction
from ._values import Value

__all__ = [
    "Batch",
    "Closed",
    "Code",
    "Conflict",
    "Error",
    "KeyCodec",
    "NoSeat",
    "OwnSnapshot",
    "Rows",
    "RunFull",
    "Snapshot",
    "Statistics",
    "Store",
    "Transaction",
    "Value",
    "ValueCodec",
    "VersionsFull",
    "__version__",
    "floating",
    "octets",
    "pairs",
    "signed",
    "text",
]

# Users see these names, and not the files that they are written in.
for _name in __all__:
    if isinstance(globals()[_name], type):
        globals()[_name].__module__ = __name__
del _name
