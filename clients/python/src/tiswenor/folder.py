"""The files of a database's folder, counted by calls of the system."""

from __future__ import annotations

import errno
import os
import re
import stat
from dataclasses import dataclass
from typing import List, NoReturn, Tuple

from .errors import DEVICE, IOError

_TABLE = re.compile(rb"([0-9]+)\.(?:ldb|sst)")
_MANIFEST = re.compile(rb"MANIFEST-([0-9]+)")


@dataclass(frozen=True)
class Folder:
    """The regular files that are in a folder, by their names, as the line `folder` of `lsm levels`
    counts them. Bytes are sizes of files, as the system tells them.

    tables       N.ldb and N.sst; those that are not needed any more are among them, until `collect`
                 removes them
    manifests    MANIFEST-N
    others       files of all other names
    bytes        of all files together
    table_bytes  of the tables together
    least_table  bytes of the smallest table; 0 where there is none
    """

    tables: int
    manifests: int
    others: int
    bytes: int
    table_bytes: int
    least_table: int


class Place:
    """Where a folder is found now, and which one it is: a process may work elsewhere later."""

    def __init__(self, name: bytes) -> None:
        self._name = os.fsdecode(name)
        self._path = name
        self._which = (0, 0)
        self._error = 0  # the system's, where it is not found
        try:
            self._path = os.path.realpath(name)
            self._which = _which(self._path)
        except OSError as error:
            self._error = error.errno or errno.ENOENT
        except ValueError:  # a zero byte
            self._error = errno.EINVAL

    def count(self) -> Folder:
        """Its files. An IOError where it is not there any more, or is not listed."""
        try:
            return self._count()
        except OSError as error:
            detail = f"{self._name}: {error.strerror}"
            raise IOError(DEVICE, "Device", detail, self._name) from error

    def _count(self) -> Folder:
        if self._error:
            _fail(self._error)
        tables: List[int] = []
        manifests: List[int] = []
        others: List[int] = []
        with os.scandir(self._path) as files:
            for file in files:
                try:
                    its = file.stat()
                except FileNotFoundError:
                    continue  # it went meanwhile, or it is a link to nothing
                if not stat.S_ISREG(its.st_mode):
                    continue
                if _is_numbered(_TABLE, file.name):
                    tables.append(its.st_size)
                elif _is_numbered(_MANIFEST, file.name):
                    manifests.append(its.st_size)
                else:
                    others.append(its.st_size)
        if _which(self._path) != self._which:
            _fail(errno.ENOENT)  # another folder has its path
        return Folder(
            tables=len(tables),
            manifests=len(manifests),
            others=len(others),
            bytes=sum(tables) + sum(manifests) + sum(others),
            table_bytes=sum(tables),
            least_table=min(tables, default=0),
        )


def _which(path: bytes) -> Tuple[int, int]:
    """What no other folder has at the same time."""
    its = os.stat(path)
    return its.st_dev, its.st_ino


def _is_numbered(form: "re.Pattern[bytes]", name: bytes) -> bool:
    """Whether a name has this form, with a number that fits 64 bits."""
    found = form.fullmatch(name)
    return found is not None and int(found[1]) < 1 << 64


def _fail(number: int) -> NoReturn:
    raise OSError(number, os.strerror(number))
