"""Calls that are drawn, beside a dict. TISWENOR_CALLS says how many; 3,000 if it is not set."""

import os
import random

import tiswenor

CALLS = int(os.environ.get("TISWENOR_CALLS", "3000"))
KEYS = 300


class Drawn:
    def __init__(self, folder, seed):
        self.draw = random.Random(seed)
        self.folder = folder
        self.db = tiswenor.DB(folder, create_if_missing=True)
        self.wanted = {}
        self.snapshots = []

    def key(self):
        return b"%03d" % self.draw.randrange(KEYS) * self.draw.choice((1, 1, 2))

    def value(self):
        return self.draw.randbytes(self.draw.choice((0, 1, 10, 100, 1000)))

    def put(self):
        key, value = self.key(), self.value()
        self.db.put(key, value)
        self.wanted = {**self.wanted, key: value}

    def delete(self):
        key = self.key()
        self.db.delete(key)
        self.wanted = {other: value for other, value in self.wanted.items() if other != key}

    def batch(self):
        after = dict(self.wanted)
        with self.db.write_batch() as batch:
            for _ in range(self.draw.randrange(60)):
                key = self.key()
                if self.draw.random() < 0.3:
                    batch.delete(key)
                    after.pop(key, None)
                else:
                    after[key] = self.value()
                    batch.put(key, after[key])
        self.wanted = after

    def one_of(self):
        """The database or a snapshot, with what it has."""
        return self.draw.choice([(self.db, self.wanted), *self.snapshots])

    def get(self):
        reads, wanted = self.one_of()
        key = self.key()
        assert reads.get(key, b"absent") == wanted.get(key, b"absent")

    def get_many(self):
        reads, wanted = self.one_of()
        keys = [self.key() for _ in range(self.draw.randrange(30))]
        assert reads.get_many(keys) == [wanted.get(key) for key in keys]

    def iterator(self):
        reads, wanted = self.one_of()
        start, stop = self.key(), self.key()
        with_start, with_stop = self.draw.random() < 0.5, self.draw.random() < 0.5
        reverse = self.draw.random() < 0.5
        found = reads.iterator(reverse, start, stop, with_start, with_stop)
        assert list(found) == [
            (key, value)
            for key, value in sorted(wanted.items(), reverse=reverse)
            if (start < key or with_start and start == key)
            and (key < stop or with_stop and key == stop)
        ]

    def wander(self):
        """Back and forth from a drawn key."""
        reads, wanted = self.one_of()
        pairs = sorted(wanted.items())
        iterator = reads.iterator()
        sought = self.key()
        iterator.seek(sought)
        at = sum(key < sought for key, _ in pairs)
        for _ in range(self.draw.randrange(60)):
            if self.draw.random() < 0.4:
                assert next(iterator, None) == (pairs[at] if at < len(pairs) else None)
                at = min(at + 1, len(pairs))
            elif at:
                at -= 1
                assert iterator.prev() == pairs[at]

    def prefix(self):
        reads, wanted = self.one_of()
        prefix = self.key()[: self.draw.randrange(4)]
        found = reads.iterator(prefix=prefix, include_value=False)
        assert list(found) == sorted(key for key in wanted if key.startswith(prefix))

    def part(self):
        """The first pairs of an iterator that is then forgotten."""
        reads, wanted = self.one_of()
        pairs = sorted(wanted.items())[:3]
        assert [pair for pair, _ in zip(reads.iterator(), pairs)] == pairs

    def whole(self):
        reads, wanted = self.one_of()
        assert list(reads) == sorted(wanted.items())

    def snapshot(self):
        if len(self.snapshots) < 5:
            self.snapshots.append((self.db.snapshot(), self.wanted))

    def release(self):
        if self.snapshots:
            snapshot, _ = self.snapshots.pop(self.draw.randrange(len(self.snapshots)))
            if self.draw.random() < 0.5:
                snapshot.close()

    def compact(self):
        start, stop = (self.draw.choice((None, self.key())) for _ in range(2))
        self.draw.choice((self.db.compact, lambda: self.db.compact_range(start, stop)))()
        self.db.collect()

    def again(self):
        self.snapshots.clear()
        self.db.close()
        self.db = tiswenor.DB(
            self.folder, channels=self.draw.randrange(1, 6), workers=self.draw.randrange(1, 3)
        )

    WEIGHTS = {
        "put": 10,
        "delete": 5,
        "batch": 10,
        "get": 30,
        "get_many": 15,
        "iterator": 12,
        "wander": 8,
        "prefix": 5,
        "part": 3,
        "whole": 2,
        "snapshot": 3,
        "release": 3,
        "compact": 0.5,
        "again": 0.2,
    }

    def run(self, count):
        names = self.draw.choices(list(self.WEIGHTS), list(self.WEIGHTS.values()), k=count)
        for name in names:
            getattr(self, name)()
        self.whole()
        self.again()
        self.whole()
        self.db.close()


def test_drawn_calls(folder):
    seed = int(os.environ.get("TISWENOR_SEED", "1"))
    Drawn(folder, seed).run(CALLS)
