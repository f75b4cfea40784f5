"""What a call raises where it is not done. Each error has a number and a name."""

from __future__ import annotations

import re
from typing import Optional, Tuple

# Numbers of this package. Those from 1 to 99 are the server's refusals, which docs/FORMATS.md
# lists; 200 to 204 are the protocol's.
MALFORMED = 200
UNANSWERED = 204
NO_SERVER = 250
CLOSED = 251
BAD_ANSWER = 254
ENDED = 255

DEVICE = 9
TOO_LARGE = 39

# After these answers the server reads no more from the channel.
LAST = (MALFORMED, UNANSWERED)

# Names of statuses that may come without one.
NAMES = {
    200: "Malformed",
    201: "BadOpening",
    202: "NoDatabase",
    203: "IsThere",
    204: "Unanswered",
}

# Refusals of a system's call, and of a folder that another program has.
FAULTS = frozenset((DEVICE, 35, 36, 42, 52))

# Refusals of bytes that are none of LevelDB's, and of files that do not go together.
DAMAGES = frozenset(
    (*range(2, 9), 10, *range(12, 16), *range(17, 29), *range(30, 34), *range(54, 60))
)

# What a refusal means, for people. The C library says the same.
REASONS = {
    1: "the server was refused memory",
    9: "a call of the system failed",
    11: "a file is there that was to be made",
    16: "a table has compressed blocks, which are not read",
    29: "its keys have an order of their own (a comparator)",
    35: "a compaction could not read a table",
    36: "a compaction could not write a table",
    40: "level 0 is full, and nobody compacts",
    41: "no sequence is left",
    42: "a write failed before: open the database again",
    43: "there is no such snapshot",
    46: "no file number is left",
    48: "no slot for a version is left",
    49: "no number for a version is left",
    50: "a version has no pin left",
    51: "LevelDB has writes there that are in its log alone",
    52: "another program has the database open",
    200: "the request has none of the protocol's forms",
    201: "an option is out of range",
    202: "there is no database, and create_if_missing is not set",
    203: "there is a database, and error_if_exists is set",
    204: "no memory for the request or its answer: whether it was done is not known",
}
DAMAGED = "files of the database are damaged"

# The system's calls that the server tells of, and the end of the system's reason.
CALLS = ("append", "list", "lock", "make", "open", "read", "remove", "rename", "sync", "write")
NUMBERED = re.compile(r" \(os error (\d+)\)$")

# A line that names a file whose bytes are refused.
IN_FILE = re.compile(r"^in (?:.*/)?(\d+\.(?:ldb|log)|MANIFEST-\d+)$", re.MULTILINE)


class Error(Exception):
    """A call was not done. `number` and `name` say why, `detail` says more for people."""

    def __init__(self, number: int, name: str, detail: str = "") -> None:
        Exception.__init__(self, number, name, detail)
        self.number = number
        self.name = name
        self.detail = detail

    def __str__(self) -> str:
        return f"{self.number} {self.name}" + (f": {self.detail}" if self.detail else "")


class Refused(Error):
    """The server refused the request. Nothing of it was done, and other requests go on.

    `path` is the folder of the database; None where no server was asked. `told` are the lines that
    the server told of it. Where these say which call of the system failed, `call` is its name, as
    "open", `file` the file's path, and `reason` what the system said; else they are None, but that
    `file` is the name of a file whose bytes are refused.
    """

    def __init__(
        self,
        number: int,
        name: str,
        detail: str = "",
        path: Optional[str] = None,
        told: str = "",
    ) -> None:
        Error.__init__(self, number, name, detail)
        self.args = (number, name, detail, path, told)
        self.path = path
        self.told = told
        self.call, self.file, self.reason = _cause(path, told)


class IOError(Refused, OSError):
    """A call of the system failed in the server, or another program has the database open.

    It is an OSError too, as plyvel's is: `filename` is the folder of the database. `errno` is the
    system's number, and None where the server does not tell it. Where `folder` raises it, its
    `__cause__` has the number.
    """

    def __init__(
        self,
        number: int,
        name: str,
        detail: str = "",
        path: Optional[str] = None,
        told: str = "",
    ) -> None:
        Refused.__init__(self, number, name, detail, path, told)
        self.filename = path
        numbered = NUMBERED.search(self.reason or "")
        if numbered:
            self.errno = int(numbered[1])


class CorruptionError(Refused):
    """Files of the database are damaged, missing, or none of LevelDB's."""


class TooLarge(Refused):
    """A limit was passed: `what` has `size` bytes (writes, for a batch of too many), or more than
    `limit` where its size is None. `limit` is the most that there may be."""

    def __init__(
        self, what: str, size: Optional[int], limit: int, path: Optional[str] = None
    ) -> None:
        much = f"more than {limit}" if size is None else f"{size} of at most {limit}"
        Refused.__init__(self, TOO_LARGE, "TooLarge", _at(path, f"{what}: {much}"), path)
        self.args = (what, size, limit, path)
        self.what = what
        self.size = size
        self.limit = limit


class Closed(Error, RuntimeError):
    """The database, the snapshot or the iterator was closed, or opened before a fork.

    It is a RuntimeError too, which is what plyvel raises.
    """

    def __init__(self, detail: str) -> None:
        Error.__init__(self, CLOSED, "Closed", detail)
        self.args = (detail,)


class Ended(Error):
    """The server ended before it answered: whether the request was done is not known.

    What was answered before is on the disk. Open the database again. `status` is the server's
    exit status, or the negative number of the signal that ended it, or None where it is not known.
    """

    def __init__(self, status: Optional[int] = None) -> None:
        Error.__init__(self, ENDED, "Ended", _told(status))
        self.args = (status,)
        self.status = status


def refused(number: int, name: str, path: Optional[str], told: str = "") -> Refused:
    """The refusal of a number, but for TooLarge, whose limit the number does not tell. What the
    server told of it stands in the place of what the number means."""
    kind = IOError if number in FAULTS else CorruptionError if number in DAMAGES else Refused
    reason = DAMAGED if number in DAMAGES else REASONS.get(number, "")
    return kind(number, name, _at(path, told.rstrip("\n").replace("\n", "; ") or reason), path, told)


def _cause(path: Optional[str], told: str) -> Tuple[Optional[str], Optional[str], Optional[str]]:
    """The call, its file and the system's reason, as the last of the lines tells them."""
    calls = "|".join(CALLS)
    place = re.escape(path or "")
    cause = re.search(rf"^({calls}) ({place}.*): (.*)\Z", told, re.MULTILINE | re.DOTALL)
    if cause:
        return cause[1], cause[2], cause[3]
    named = IN_FILE.search(told)
    return None, named[1] if named else None, None


def _at(path: Optional[str], reason: str) -> str:
    return ": ".join(filter(None, (path, reason)))


def _told(status: Optional[int]) -> str:
    if status is None:
        return "the server takes no more requests"
    if status < 0:
        return f"the server was ended by signal {-status}"
    return f"the server ended with status {status}"
