"""The database as a caller sees it: reads, writes, iterators and snapshots."""

from __future__ import annotations

import os
import weakref
from collections import deque
from dataclasses import dataclass
from types import TracebackType
from typing import Any, Deque, Iterable, List, Optional, Tuple, Type, Union

from . import frames
from .backward import Backward, behind
from .errors import Closed
from .folder import Folder, Place
from .server import Server, find, not_open

PathLike = Union[str, bytes, "os.PathLike[str]", "os.PathLike[bytes]"]
Bytes = Union[bytes, bytearray, memoryview]

# How many pairs an iterator asks for first; after them it asks for whole pages.
_FIRST_PAGE = 16

_CREATE_IF_MISSING = 1
_ERROR_IF_EXISTS = 2


@dataclass(frozen=True)
class Level:
    """One of the levels 0 to 6: how many tables it has, and their bytes together."""

    files: int
    bytes: int


@dataclass(frozen=True)
class Statistics:
    """The last sequence (the number of the newest write), and the seven levels."""

    last_sequence: int
    levels: Tuple[Level, ...]

    @property
    def tables(self) -> int:
        """How many tables all levels have."""
        return sum(level.files for level in self.levels)

    @property
    def bytes(self) -> int:
        """The bytes of all tables together."""
        return sum(level.bytes for level in self.levels)

    @property
    def mean(self) -> int:
        """The mean bytes of a table, rounded down; 0 where there is none."""
        return self.bytes // max(self.tables, 1)


class _Reads:
    """What a database and a snapshot of it have in common, or the part of keys with a prefix."""

    _prefix = b""  # of the keys, which a caller does not see

    def _ask(self, request: bytes) -> bytes:
        raise NotImplementedError

    def _when(self) -> bytes:
        raise NotImplementedError

    def _iterated(self) -> Tuple[Snapshot, bool]:
        """The state that an iterator reads, and whether it closes it."""
        raise NotImplementedError

    def get(
        self,
        key: Bytes,
        default: Optional[bytes] = None,
        *,
        verify_checksums: Optional[bool] = True,
        fill_cache: bool = True,
    ) -> Optional[bytes]:
        """The value of a key, or `default` where it has none.

        `verify_checksums` and `fill_cache` are taken as plyvel takes them, and change nothing: the
        server verifies what it reads from the disk, and keeps it in its caches.
        """
        value = self.get_many((key,))[0]
        return default if value is None else value

    def get_many(
        self, keys: Iterable[Bytes], default: Optional[bytes] = None
    ) -> List[Optional[bytes]]:
        """The values of several keys, in their order, all of one state of the database; `default`
        for each key that has none.

        This is one request: the keys have at most 8 MiB together, the values 16 MiB.
        """
        asked = [self._prefix + _bytes(key) for key in keys]
        if not asked:
            return []
        found = frames.values(self._ask(frames.read(self._when(), asked)), len(asked))
        return [default if value is None else value for value in found]

    def iterator(
        self,
        reverse: bool = False,
        start: Optional[Bytes] = None,
        stop: Optional[Bytes] = None,
        include_start: bool = True,
        include_stop: bool = False,
        prefix: Optional[Bytes] = None,
        include_key: bool = True,
        include_value: bool = True,
        verify_checksums: Optional[bool] = True,
        fill_cache: bool = True,
    ) -> Iterator:
        """The pairs of a range, in ascending order of their keys, or with `reverse` in descending
        order, as they are now; of a snapshot, as they were then.

        The range is that from `start` to `stop`, or that of all keys with a prefix. Without values
        the iterator gives keys alone, without keys values alone. The last two change nothing, as
        those of `get`.

        Pairs come from the server in pages of some 64 KiB. It shows them in ascending order: to go
        backward costs some more requests, which look for a page that ends where it is to end.
        """
        bounds = _Range.of(self._prefix, start, stop, include_start, include_stop, prefix)
        return Iterator(*self._iterated(), bounds, reverse, include_key, include_value)

    def __iter__(self) -> Iterator:
        """An iterator over all pairs."""
        return self.iterator()


class _Database(_Reads):
    """What a database and a part of it have in common."""

    def _whole(self) -> DB:
        raise NotImplementedError

    def put(self, key: Bytes, value: Bytes, sync: bool = True) -> None:
        """Sets the value of a key. It is on the disk when the call returns, whatever `sync` says.

        A key has 1 to 4,096 bytes, a value at most 1 MiB. Each write makes a table: many of them
        belong into one `write_batch`.
        """
        self._ask(frames.WRITE + frames.put(self._prefix + _bytes(key), _bytes(value)))

    def delete(self, key: Bytes, sync: bool = True) -> None:
        """Removes a key, if it is there. That is on the disk when the call returns, whatever `sync`
        says."""
        self._ask(frames.WRITE + frames.delete(self._prefix + _bytes(key)))

    def write_batch(self, transaction: bool = False, sync: bool = True) -> WriteBatch:
        """A new batch. As a context manager it is written at the end of the block; with
        `transaction=True` it is dropped where the block raises an exception."""
        return WriteBatch(self._whole(), self._prefix, transaction)

    def snapshot(self) -> Snapshot:
        """The database as it is now. It keeps tables on the disk until it is closed."""
        number, sequence = frames.numbers(self._ask(frames.SNAPSHOT), 2)
        return Snapshot(self._whole(), self._prefix, number, sequence)

    def prefixed_db(self, prefix: Bytes) -> PrefixedDB:
        """The part of the keys that begin with a prefix, which its calls leave out of each key."""
        return PrefixedDB(self._whole(), self._prefix + _bytes(prefix))

    def _iterated(self) -> Tuple[Snapshot, bool]:
        return self.snapshot(), True

    def _when(self) -> bytes:
        return frames.NOW


class DB(_Database):
    """An open database. Any thread may call it; a call waits while all channels are taken.

    path               the folder, with LevelDB's files
    create_if_missing  make a database, and its folder, where there is none
    error_if_exists    refuse where there is one
    workers            how many threads of the server compact, 0 to 16
    channels           how many calls are served at the same time, 1 to 62; each has a cache of its
                       own in the server
    server             the path of `lsm_server`; else the environment variable TISWENOR_SERVER
                       names it, or it stands in this package's folder, or on PATH

    Close it by `close()` or a `with` block. What was answered is on the disk, whether the database
    is closed or the process is killed.
    """

    def __init__(
        self,
        path: PathLike,
        create_if_missing: bool = False,
        error_if_exists: bool = False,
        *,
        workers: int = 1,
        channels: int = 4,
        server: Union[str, "os.PathLike[str]", None] = None,
    ) -> None:
        program = find(server)
        flags = create_if_missing * _CREATE_IF_MISSING | error_if_exists * _ERROR_IF_EXISTS
        if create_if_missing:
            _make_folder(path)
        self._name = path
        self._place = Place(os.fsencode(path))
        # Numbers of snapshots that nobody refers to any more. They are released at the next call,
        # since a finalizer may run where this thread has a channel or a lock.
        self._abandoned: Deque[int] = deque()
        self._server = Server(program, os.fsencode(path), channels, workers, flags)
        self._end = weakref.finalize(self, self._server.close)

    @property
    def name(self) -> PathLike:
        """The path that the database was opened by."""
        return self._name

    @property
    def closed(self) -> bool:
        """Whether it was closed, or opened in the process that this one was forked from."""
        return self._server.is_closed

    def close(self) -> None:
        """Waits for the calls under way and for the server's end. A second call does nothing."""
        self._server.close()
        self._end.detach()

    def compact(self) -> None:
        """Compacts what is due: returns once the server finds nothing to compact.

        Reads and writes go on beside it.
        """
        self._ask(frames.COMPACT)

    def compact_range(self, start: Optional[Bytes] = None, stop: Optional[Bytes] = None) -> None:
        """Compacts the keys from `start` to `stop`, both included, due or not, from level 0 down to
        the deepest level that has some of them; None is no bound.

        So deletions with nothing below them go, but where a snapshot needs them; `collect` then
        removes the tables that were. Reads and writes go on beside it.
        """
        last = None if stop is None else _bytes(stop)
        self._ask(frames.compact(b"" if start is None else _bytes(start), last))

    def collect(self) -> int:
        """Removes the files of tables that are not needed any more, and gives their number."""
        return frames.numbers(self._ask(frames.COLLECT), 1)[0]

    def statistics(self) -> Statistics:
        """The last sequence, and how many tables and bytes each level has."""
        last, *sizes = frames.numbers(self._ask(frames.STATISTICS), 15)
        return Statistics(last, tuple(map(Level, sizes[0::2], sizes[1::2])))

    def folder(self) -> Folder:
        """How many files of each kind the folder has, and their bytes.

            folder = db.folder()
            print(folder.bytes, "bytes on the disk,", folder.least_table, "of the smallest table")

        They are counted by calls of the system; the server is asked nothing. What other calls make
        and remove meanwhile may be counted or not; a file that goes before its size is asked is
        left out.

        The folder is the one that was opened, at the path that it had then, wherever the process
        works now. An `IOError`, 9 `Device`, where it is not there any more, also where another one
        has its path, or where the system does not list it or tell a size.
        """
        if self.closed:
            raise not_open()
        return self._place.count()

    def get_property(self, name: Union[str, bytes]) -> Optional[bytes]:
        """`leveldb.num-files-at-levelN` or `leveldb.stats`; None for another name."""
        named = name.encode() if isinstance(name, str) else _bytes(name)
        levels = self.statistics().levels
        if named == b"leveldb.stats":
            rows = ("%5d %8d %12d\n" % (n, at.files, at.bytes) for n, at in enumerate(levels))
            return ("Level    Files        Bytes\n" + "".join(rows)).encode()
        for number, level in enumerate(levels):
            if named == b"leveldb.num-files-at-level%d" % number:
                return b"%d" % level.files
        return None

    def __enter__(self) -> DB:
        return self

    def __exit__(
        self,
        kind: Optional[Type[BaseException]],
        error: Optional[BaseException],
        trace: Optional[TracebackType],
    ) -> None:
        self.close()

    def __repr__(self) -> str:
        return f"<tiswenor.DB {self._name!r}{' closed' if self.closed else ''}>"

    def _whole(self) -> DB:
        return self

    def _ask(self, request: bytes) -> bytes:
        while self._abandoned:
            try:
                number = self._abandoned.popleft()
            except IndexError:
                break  # another thread took the last one
            self._server.ask(frames.release(number))
        return self._server.ask(request)


class PrefixedDB(_Database):
    """The part of a database whose keys begin with a prefix. It is open as long as the database."""

    def __init__(self, db: DB, prefix: bytes) -> None:
        self._db = db
        self._prefix = prefix

    @property
    def db(self) -> DB:
        """The database that it is a part of."""
        return self._db

    @property
    def prefix(self) -> bytes:
        """The bytes that stand before each key."""
        return self._prefix

    def __repr__(self) -> str:
        return f"<tiswenor.PrefixedDB {self._prefix!r} of {self._db!r}>"

    def _whole(self) -> DB:
        return self._db

    def _ask(self, request: bytes) -> bytes:
        return self._db._ask(request)


class Snapshot(_Reads):
    """A state of the database that does not change. Any thread may read it.

    It ends by `close()`, by a `with` block, or once nothing refers to it any more.
    """

    def __init__(self, db: DB, prefix: bytes, number: int, sequence: int) -> None:
        self._db = db
        self._prefix = prefix
        self._number = number
        self._sequence = sequence
        self._is_closed = False

    @property
    def sequence(self) -> int:
        """The number of the newest write that is seen."""
        return self._sequence

    def close(self) -> None:
        """Gives the state up: what only it needs may be collected. A second call does nothing."""
        if not self._is_closed:
            self._is_closed = True
            if not self._db.closed:
                self._db._ask(frames.release(self._number))

    release = close

    def __enter__(self) -> Snapshot:
        return self

    def __exit__(
        self,
        kind: Optional[Type[BaseException]],
        error: Optional[BaseException],
        trace: Optional[TracebackType],
    ) -> None:
        self.close()

    def __del__(self) -> None:
        if not getattr(self, "_is_closed", True):
            self._db._abandoned.append(self._number)

    def _iterated(self) -> Tuple[Snapshot, bool]:
        return self, False

    def _when(self) -> bytes:
        if self._is_closed:
            raise Closed("the snapshot is closed")
        return frames.at(self._number)

    def _ask(self, request: bytes) -> bytes:
        return self._db._ask(request)


class WriteBatch:
    """Writes that come in together or not at all. Of several of one key the last one counts.

    Keys may come in any order. The server takes at most 65,536 writes and 4 MiB in one batch.
    """

    def __init__(self, db: DB, prefix: bytes, transaction: bool) -> None:
        self._db = db
        self._prefix = prefix
        self._transaction = transaction
        self._writes: List[bytes] = []

    def put(self, key: Bytes, value: Bytes) -> None:
        """Adds that a key gets a value."""
        self._writes.append(frames.put(self._prefix + _bytes(key), _bytes(value)))

    def delete(self, key: Bytes) -> None:
        """Adds that a key is removed."""
        self._writes.append(frames.delete(self._prefix + _bytes(key)))

    def clear(self) -> None:
        """Drops what was added."""
        self._writes.clear()

    def append(self, source: WriteBatch) -> None:
        """Adds the writes of another batch behind those of this one."""
        if not isinstance(source, WriteBatch):
            raise TypeError("only a WriteBatch can be appended")
        self._writes.extend(source._writes)

    def approximate_size(self) -> int:
        """The bytes of the request so far."""
        return sum(map(len, self._writes))

    def write(self) -> None:
        """Writes what is in the batch, which stays as it is. An empty batch changes nothing."""
        if self._writes:
            self._db._ask(frames.WRITE + b"".join(self._writes))

    def __enter__(self) -> WriteBatch:
        return self

    def __exit__(
        self,
        kind: Optional[Type[BaseException]],
        error: Optional[BaseException],
        trace: Optional[TracebackType],
    ) -> None:
        if not (self._transaction and kind is not None):
            self.write()
        self.clear()


@dataclass(frozen=True)
class _Range:
    """The keys from `start` on that are below `stop`, if there is one. All begin with `front`,
    which is not shown."""

    start: bytes
    stop: Optional[bytes]
    front: bytes

    @staticmethod
    def of(
        front: bytes,
        start: Optional[Bytes],
        stop: Optional[Bytes],
        include_start: bool,
        include_stop: bool,
        prefix: Optional[Bytes],
    ) -> _Range:
        if prefix is not None:
            if start is not None or stop is not None:
                raise TypeError("prefix and start or stop can't be used together")
            begin = front + _bytes(prefix)
            return _Range(begin, behind(begin), front)
        begin = front if start is None else front + _bytes(start)
        if start is not None and not include_start:
            begin += b"\0"
        if stop is None:
            return _Range(begin, behind(front), front)
        end = front + _bytes(stop)
        return _Range(begin, end + b"\0" if include_stop else end, front)


class _Page:
    """What an iterator shows: all of the range from `low` on that is below `high`. It stands before
    the pair of the number `at`."""

    __slots__ = ("low", "high", "shown", "at")

    def __init__(
        self, low: Optional[bytes], high: Optional[bytes], shown: List[Any], at: int
    ) -> None:
        self.low = low
        self.high = high
        self.shown = shown
        self.at = at


class Iterator:
    """The pairs of a range, or their keys or values alone. It stands between two of them. One
    thread at a time may use it."""

    def __init__(
        self,
        snapshot: Snapshot,
        owns_snapshot: bool,
        bounds: _Range,
        reverse: bool,
        include_key: bool,
        include_value: bool,
    ) -> None:
        self._snapshot: Optional[Snapshot] = snapshot
        self._owns_snapshot = owns_snapshot
        self._bounds = bounds
        self._reverse = reverse
        self._include_key = include_key
        self._include_value = include_value
        if reverse:
            self.seek_to_stop()
        else:
            self.seek_to_start()

    def seek_to_start(self) -> None:
        """Goes before the first pair of the range."""
        self._stand(self._bounds.start)

    def seek_to_stop(self) -> None:
        """Goes behind the last pair of the range."""
        self._stand(self._bounds.stop)

    def seek(self, target: Bytes) -> None:
        """Goes before the first pair of the range whose key is `target` or greater."""
        key = max(self._bounds.front + _bytes(target), self._bounds.start)
        self._stand(key if self._bounds.stop is None else min(key, self._bounds.stop))

    def _stand(self, key: Optional[bytes]) -> None:
        """Goes before the first pair from a key on; behind all where there is no key."""
        self._limit = _FIRST_PAGE
        self._backward: Optional[Backward] = None
        self._page = _Page(key, key, [], 0)

    def __iter__(self) -> Iterator:
        return self

    def __next__(self) -> Any:
        if self._reverse:
            return self._step_back()
        page = self._page
        at = page.at
        if at == len(page.shown):
            page = self._turn()
            at = 0
        page.at = at + 1
        return page.shown[at]

    def prev(self) -> Any:
        """The pair on the other side: the one that `next` gave last, if it was the last call. Goes
        before it."""
        return self._step() if self._reverse else self._step_back()

    def _step(self) -> Any:
        """Goes behind the next pair."""
        page = self._page
        if page.at == len(page.shown):
            page = self._turn()
        page.at += 1
        return page.shown[page.at - 1]

    def _step_back(self) -> Any:
        """Goes before the pair before."""
        page = self._page
        if page.at == 0:
            page = self._turn_back()
        page.at -= 1
        return page.shown[page.at]

    def _ask(
        self, low: bytes, high: Optional[bytes], limit: int
    ) -> Tuple[bool, List[Tuple[bytes, bytes]]]:
        """The first pairs from a key on that are below another, and whether these are all."""
        snapshot = self._snapshot
        if snapshot is None:
            raise Closed("the iterator is closed")
        return frames.page(snapshot._ask(frames.scan(snapshot._when(), low, high, limit)))

    def _turn(self) -> _Page:
        """Reads the page behind. It has a pair, or none is left. A turn that is interrupted leaves
        the iterator where it is."""
        page, stop = self._page, self._bounds.stop
        low = page.high
        if self._snapshot is None:
            raise Closed("the iterator is closed")
        if low is None or (stop is not None and low >= stop):
            raise StopIteration
        is_last, pairs = self._ask(low, stop, self._limit)
        if not pairs:
            page.high = stop
            raise StopIteration
        self._limit = 0
        self._backward = None
        page = _Page(low, stop if is_last else pairs[-1][0] + b"\0", self._show(pairs), 0)
        self._page = page
        return page

    def _turn_back(self) -> _Page:
        """Reads a page before. It has a pair, or none is left. A turn that is interrupted leaves
        the iterator where it is, and what it had looked for is looked for again."""
        page, start = self._page, self._bounds.start
        high = page.low
        if self._snapshot is None:
            raise Closed("the iterator is closed")
        if high is not None and high <= start:
            raise StopIteration
        backward, self._backward = self._backward, None
        if backward is None:
            backward = Backward(self._ask, start, high, self._limit)
        before = backward.page()
        if before is None:
            page.low = start
            raise StopIteration
        self._limit = 0
        low, pairs = before
        page = _Page(low, high, self._show(pairs), len(pairs))
        self._page = page
        self._backward = backward
        return page

    def _show(self, pairs: List[Tuple[bytes, bytes]]) -> List[Any]:
        """What is given for these pairs."""
        if self._bounds.front:
            hidden = len(self._bounds.front)
            pairs = [(key[hidden:], value) for key, value in pairs]
        if self._include_key and self._include_value:
            return pairs
        if self._include_key:
            return [key for key, _ in pairs]
        return [value if self._include_value else None for _, value in pairs]

    def close(self) -> None:
        """Ends the iterator. A second call does nothing."""
        snapshot, self._snapshot = self._snapshot, None
        self._stand(self._bounds.start)
        if snapshot is not None and self._owns_snapshot:
            snapshot.close()

    def __enter__(self) -> Iterator:
        return self

    def __exit__(
        self,
        kind: Optional[Type[BaseException]],
        error: Optional[BaseException],
        trace: Optional[TracebackType],
    ) -> None:
        self.close()


def _bytes(content: Bytes) -> bytes:
    if isinstance(content, bytes):
        return content
    view = memoryview(content)
    frames.check(view.nbytes)
    return view.tobytes()


def _make_folder(path: PathLike) -> None:
    try:
        os.mkdir(path)
    except OSError:
        pass  # it is there, or else the server refuses
