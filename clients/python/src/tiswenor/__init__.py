"""A database of sorted keys in LevelDB's files, kept by a server of its own process.

    import tiswenor

    with tiswenor.DB("/tmp/fruit", create_if_missing=True) as db:
        db.put(b"apple", b"red")
        print(db.get(b"apple"))

Keys and values are bytes. Every write is on the disk when its call returns. A database may be used
by any number of threads. A call that fails raises `Error`, which has a number and a name;
`IOError`, `CorruptionError` and `TooLarge` are some of them.
"""

from .database import DB, Iterator, Level, PrefixedDB, Snapshot, Statistics, WriteBatch
from .errors import Closed, CorruptionError, Ended, Error, IOError, Refused, TooLarge
from .folder import Folder

__all__ = [
    "DB",
    "Closed",
    "CorruptionError",
    "Ended",
    "Error",
    "Folder",
    "IOError",
    "Iterator",
    "Level",
    "PrefixedDB",
    "Refused",
    "Snapshot",
    "Statistics",
    "TooLarge",
    "WriteBatch",
]
__version__ = "1.1.0"
