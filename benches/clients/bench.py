"""Times calls of plyvel, or of the package tiswenor, which has its shape: bench.py MODULE FOLDER PAIRS.

As bench.c: keys have 16 bytes, values 100; plyvel's LevelDB syncs each write, does not compress, and
has a cache of 32 MiB. Prints a line for each figure. Best of three rounds, but for writes.
"""

import importlib
import sys
import time

BATCH, HOT, GETS, GROUP, PUTS = 1000, 1000, 50_000, 100, 100

module, folder, pairs = sys.argv[1], sys.argv[2], int(sys.argv[3])
library = importlib.import_module(module)
options = {"compression": None, "lru_cache_size": 32 << 20} if module == "plyvel" else {}


def tell(what, figure, unit):
    print(f"{module:<10} {what:<44} {figure:10.2f} {unit}", flush=True)


def mixed(number):
    return number * 7368787 % pairs


def key(number):
    return b"%016d" % number


def value(number):
    return (b"%d" % number).ljust(100, b"v")


def took(work):
    begin = time.perf_counter()
    work()
    return time.perf_counter() - begin


def best(work):
    return min(took(work) for _ in range(3))


def fill():
    for start in range(0, pairs, BATCH):
        with db.write_batch(sync=True) as batch:
            for number in range(start, start + BATCH):
                batch.put(key(mixed(number)), value(mixed(number)))


def put():
    for number in range(PUTS):
        db.put(key(mixed(number)), value(mixed(number)), sync=True)


def get(among):
    for number in range(GETS):
        at = mixed(number) % among
        if db.get(key(at)) != value(at):
            sys.exit("another value")


def get_groups():
    for start in range(0, GETS, GROUP):
        numbers = [mixed(number) % HOT for number in range(start, start + GROUP)]
        if db.get_many(map(key, numbers)) != list(map(value, numbers)):
            sys.exit("another value")


def iterate():
    if sum(1 for _ in db) != pairs:
        sys.exit("another number of pairs")


db = library.DB(folder, create_if_missing=True, **options)
tell("a batch of 1,000, synced", took(fill) / (pairs / BATCH) * 1e3, "ms")
db.compact_range()
tell("a put, synced", took(put) / PUTS * 1e3, "ms")
db.compact_range()
tell("a get of 1,000 keys", best(lambda: get(HOT)) / GETS * 1e6, "us")
if hasattr(db, "get_many"):
    tell("a get of 1,000 keys, 100 in a request", best(get_groups) / GETS * 1e6, "us")
tell("a get of all keys", best(lambda: get(pairs)) / GETS * 1e6, "us")
tell("all pairs by an iterator, a pair", best(iterate) / pairs * 1e6, "us")
db.close()
