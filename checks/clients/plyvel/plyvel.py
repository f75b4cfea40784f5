"""The names of plyvel, for its own tests: they are run against the package `tiswenor`."""

from tiswenor import DB, Error, Snapshot, WriteBatch

IOError = CorruptionError = Error

__all__ = ["DB", "CorruptionError", "Error", "IOError", "Snapshot", "WriteBatch"]
