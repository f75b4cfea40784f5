"""Folders by plyvel, which is LevelDB in Python, by its defaults: Snappy, and a log that is not
flushed; with PLAIN set not compressed.

  by_plyvel.py kinds | make DIR KIND
"""

import os
import random
import sys

import plyvel

KINDS = {  # options of plyvel.DB, and how many writes
    "plyvel_defaults": ({}, 60000),
    "plyvel_small": ({"write_buffer_size": 1 << 17, "block_size": 1024, "block_restart_interval": 5, "bloom_filter_bits": 10}, 40000),
    "plyvel_prefixes": ({"write_buffer_size": 1 << 17, "max_file_size": 1 << 20, "max_open_files": 64}, 30000),
}


def make(folder, kind):
    options, writes = KINDS[kind]
    if os.environ.get("PLAIN"):
        options = options | {"compression": None}
    drawn = random.Random(kind)
    database = plyvel.DB(folder, create_if_missing=True, **options)
    places = [database] if kind != "plyvel_prefixes" else [database.prefixed_db(it) for it in (b"", b"a-", b"b-", b"\xff\x00")]
    done = 0
    while done < writes:
        with drawn.choice(places).write_batch(transaction=drawn.random() < 0.5) as batch:
            for _ in range(drawn.choice((1, 1, 1, 50))):
                key = str(drawn.randrange(writes // 3)).encode()
                if drawn.random() < 0.15:
                    batch.delete(key)
                else:
                    batch.put(key, b"%d" % done + b"value" * drawn.randrange(30) + drawn.randbytes(drawn.randrange(20)))
                done += 1
    database.close()


if sys.argv[1:] == ["kinds"]:
    print("\n".join(KINDS))
elif sys.argv[1:2] == ["make"] and len(sys.argv) == 4:
    make(*sys.argv[2:])
else:
    sys.exit(__doc__)
