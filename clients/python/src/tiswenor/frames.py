"""The bytes of requests and of their answers, as docs/PROTOCOL.md describes them."""

from __future__ import annotations

import struct
from typing import List, NoReturn, Optional, Sequence, Tuple

from .errors import BAD_ANSWER, Error, TooLarge

WRITE, READ, SCAN, SNAPSHOT, RELEASE, COMPACT, COLLECT, STATISTICS = (
    bytes([kind]) for kind in range(1, 9)
)

LONGEST_REQUEST = 8_388_608
LONGEST_ANSWER = 16_777_216

# The limits of a batch, as docs/FORMATS.md has them.
LONGEST_KEY = 4_096
LONGEST_VALUE = 1_048_576
MOST_WRITES = 65_536
LONGEST_BATCH = 4_194_304

NOW = b"\0"

# What may be too large.
KEY_BYTES = "bytes of a key"
VALUE_BYTES = "bytes of a value"
BATCH_WRITES = "writes of a batch"
BATCH_BYTES = "bytes of a batch's keys and values"
REQUEST_BYTES = "bytes of a request"
ANSWER_BYTES = "bytes of an answer"

_LENGTH = struct.Struct("<I")
_NUMBER = struct.Struct("<Q")


def check(length: int) -> None:
    """Refuses what has more bytes than the server reads at once."""
    if length > LONGEST_REQUEST:
        raise TooLarge(REQUEST_BYTES, length, LONGEST_REQUEST)


def text(content: bytes) -> bytes:
    check(len(content))
    return _LENGTH.pack(len(content)) + content


def frame(request: bytes) -> bytes:
    """The request with its length before it; refused where it is longer than the server reads."""
    return text(request)


def opening(first: int, channels: int, workers: int, flags: int, path: bytes) -> bytes:
    return frame(struct.pack("<IIIB", first, channels, workers, flags) + text(path))


def at(snapshot: int) -> bytes:
    """The `when` of a snapshot's number."""
    return b"\1" + _NUMBER.pack(snapshot)


def put(key: bytes, value: bytes) -> bytes:
    check(len(key))
    check(len(value))
    return b"".join((b"\1", _LENGTH.pack(len(key)), key, _LENGTH.pack(len(value)), value))


def delete(key: bytes) -> bytes:
    return b"\0" + text(key)


def read(when: bytes, keys: Sequence[bytes]) -> bytes:
    return b"".join((READ, when, *map(text, keys)))


def scan(when: bytes, start: bytes, stop: Optional[bytes], limit: int) -> bytes:
    bound = b"\0" if stop is None else b"\1" + text(stop)
    return b"".join((SCAN, when, text(start), bound, _LENGTH.pack(limit)))


def compact(start: bytes, stop: Optional[bytes]) -> bytes:
    bound = b"\0" if stop is None else b"\1" + text(stop)
    return b"".join((COMPACT, text(start), bound))


def release(snapshot: int) -> bytes:
    return RELEASE + _NUMBER.pack(snapshot)


def length(head: bytes) -> int:
    """The length of the frame that begins with these four bytes."""
    return int(_LENGTH.unpack(head)[0])


def numbers(body: bytes, count: int) -> Tuple[int, ...]:
    if len(body) != 8 * count:
        bad_answer()
    return struct.unpack(f"<{count}Q", body)


def values(body: bytes, count: int) -> List[Optional[bytes]]:
    """The values of a read of `count` keys, None where a key is absent."""
    found: List[Optional[bytes]] = []
    at = 0
    for _ in range(count):
        kind = body[at : at + 1]
        at += 1
        if kind == b"\0":
            found.append(None)
        elif kind == b"\1":
            value, at = _text_at(body, at)
            found.append(value)
        else:
            bad_answer()
    if at != len(body):
        bad_answer()
    return found


def page(body: bytes) -> Tuple[bool, List[Tuple[bytes, bytes]]]:
    """Whether a scan is at its end, and the pairs of this answer."""
    if body[:1] not in (b"\0", b"\1"):
        bad_answer()
    pairs: List[Tuple[bytes, bytes]] = []
    add, length_at = pairs.append, _LENGTH.unpack_from
    at = 1
    end = len(body)
    try:
        while at < end:
            key_end = at + 4 + int(length_at(body, at)[0])
            pair_end = key_end + 4 + int(length_at(body, key_end)[0])
            add((body[at + 4 : key_end], body[key_end + 4 : pair_end]))
            at = pair_end
    except struct.error:  # a length is cut
        bad_answer()
    is_last = body[0] == 1
    if at != end or (not pairs and not is_last):
        bad_answer()
    return is_last, pairs


def excess(request: bytes) -> Tuple[str, Optional[int], int]:
    """What of a request that was refused as too large is so, how much it is, and its limit."""
    if request[:1] != WRITE:
        return ANSWER_BYTES, None, LONGEST_ANSWER
    writes = total = 0
    at = 1
    while at < len(request):
        is_put = request[at]
        key, at = _text_at(request, at + 1)
        value, at = _text_at(request, at) if is_put else (b"", at)
        if len(key) > LONGEST_KEY:
            return KEY_BYTES, len(key), LONGEST_KEY
        if len(value) > LONGEST_VALUE:
            return VALUE_BYTES, len(value), LONGEST_VALUE
        writes += 1
        total += len(key) + len(value)
    if writes > MOST_WRITES:
        return BATCH_WRITES, writes, MOST_WRITES
    return BATCH_BYTES, total if total > LONGEST_BATCH else None, LONGEST_BATCH


def bad_answer() -> NoReturn:
    raise Error(BAD_ANSWER, "BadAnswer", "the answer has none of the protocol's forms")


def _text_at(body: bytes, at: int) -> Tuple[bytes, int]:
    begin = at + 4
    if begin > len(body):
        bad_answer()
    end = begin + int(_LENGTH.unpack_from(body, at)[0])
    if end > len(body):
        bad_answer()
    return body[begin:end], end
