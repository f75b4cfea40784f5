"""A range from its end to its start, of a server that shows keys in ascending order alone.

The server shows the first pairs from a key on. So a page of last pairs is looked for: where the
pairs of a part of the range do not end with its first page, one from a key between is asked for.
What is read on the way is kept, and shown when its turn comes: each pair is read once.
"""

from __future__ import annotations

from typing import Callable, List, Optional, Tuple

from .frames import bad_answer

Pair = Tuple[bytes, bytes]

# Asks for pairs from a key on, below the other if there is one, so many at most (0: a whole page):
# whether these are all, and they.
Ask = Callable[[bytes, Optional[bytes], int], Tuple[bool, List[Pair]]]


class Backward:
    """The pairs from `low` on that are below `high`, from the last one to the first, in pages."""

    def __init__(self, ask: Ask, low: bytes, high: Optional[bytes], first_page: int) -> None:
        self._ask = ask
        self._limit = first_page
        self._tries = self._alike = 0
        # The parts of the range that are left, the last one at the end: unread, or with its pairs.
        self._parts: List[Tuple[bytes, Optional[bytes], Optional[List[Pair]]]] = [
            (low, high, None)
        ]

    def page(self) -> Optional[Tuple[bytes, List[Pair]]]:
        """The last pairs that are left, ascending, and a key such that they are all from there on;
        None where none is left."""
        while self._parts:
            low, high, pairs = self._parts.pop()
            if pairs is None:
                low, pairs = self._last_of(low, high)
            if pairs:
                self._limit = 0
                return low, pairs
        return None

    def _last_of(self, low: bytes, high: Optional[bytes]) -> Tuple[bytes, List[Pair]]:
        """The last pairs of a part of the range. What is before them is left."""
        is_last, pairs = self._ask(low, high, self._limit)
        self._tries = 0
        while not is_last:
            last = pairs[-1][0]
            self._parts.append((low, last + b"\0", pairs))
            low, high = self._between(last, high)
            is_last, pairs = self._ask(low, high, self._limit)
            while not pairs:  # there are pairs, so they are before `low`
                low, high = self._between(last, low)
                is_last, pairs = self._ask(low, high, self._limit)
            self._parts.append((last + b"\0", low, None))
        return low, pairs

    def _between(self, low: bytes, high: Optional[bytes]) -> Tuple[bytes, Optional[bytes]]:
        """A key between the two, and the second one."""
        alike, _ = _alike(low, high)
        if alike != self._alike:
            self._alike, self._tries = alike, 0
        self._tries += 1
        middle = between(low, high, self._tries)
        if high is not None and high <= middle:
            bad_answer()  # it showed no pair where it had said that there are some
        return middle, high


def between(low: bytes, high: Optional[bytes], tries: int) -> bytes:
    """A key above `low`, and, if any is between, below `high`.

    At first it is one behind all keys that begin with a part of `low`: half of what is not alike, a
    quarter, and so on. After so many tries it halves what the first other byte may be.
    """
    alike, end = _alike(low, high)
    if alike == len(low):
        return low + bytes([end >> 1])
    more = len(low) - alike - 1 >> tries
    middle = behind(low[: alike + 1 + more]) if more else None
    return low[:alike] + bytes([low[alike] + end >> 1]) if middle is None else middle


def _alike(low: bytes, high: Optional[bytes]) -> Tuple[int, int]:
    """How many bytes all keys between the two have of `low`, and a number that the next byte is
    below."""
    alike = 0
    end = 256
    if high is not None:
        while alike < len(low) and alike < len(high) and low[alike] == high[alike]:
            alike += 1
        end = high[alike] + (1 if len(high) > alike + 1 else 0)
    while alike < len(low) and low[alike] + 1 >= end:
        alike += 1
        end = 256
    return alike, end


def behind(prefix: bytes) -> Optional[bytes]:
    """The least key above all that begin with the prefix, if there is one."""
    front = prefix.rstrip(b"\xff")
    return front[:-1] + bytes([front[-1] + 1]) if front else None
