"""Lives of a folder that change hands: lives.py LSM LEVELDB WORK SEED LIVES.

Each turn of a life is LevelDB's, which leaves its last writes in a log, or one of `lsm put`,
`delete`, `ingest`, `load` and `shell` with --recover; `lsm compact`, `lsm clean` and a `put
--recover` that is killed come between. Where level 0 is full, nothing may be lost, and a
compaction makes room. What was answered is kept in memory beside it. After each turn LevelDB reads
a copy of the folder, and at the end `lsm check` and `lsm scan` read the folder itself."""

import os
import random
import shutil
import subprocess
import sys
import time
from pathlib import Path

LSM, LEVELDB = sys.argv[1:3]
WORK, SEED, LIVES = Path(sys.argv[3]), int(sys.argv[4]), int(sys.argv[5])
TURNS = 8
FULL = b"refused 40 LevelZeroFull\n"


def run(*words, given=b"", status=0, reuse=False):
    environment = os.environ | ({"REUSE_LOGS": "1"} if reuse else {})
    words = [str(word) for word in words]
    done = subprocess.run(words, input=given, capture_output=True, timeout=600, env=environment)
    if status is not None and done.returncode != status:
        sys.exit(f"{words}: status {done.returncode}: {done.stderr.decode()}")
    return done


def bring_in(folder, pairs, *words, given=b""):
    """A run of `lsm` on the folder with --recover; where level 0 is full it compacts, and runs it
    again."""
    words = [LSM, words[0], folder, *words[1:], "--recover"]
    done = run(*words, given=given, status=None)
    if done.returncode == 1 and FULL in done.stderr:
        if read_by_leveldb(folder) != text_of(pairs):
            sys.exit(f"{folder}: where level 0 is full LevelDB reads other pairs")
        run(LSM, "compact", folder)
        done = run(*words, given=given, status=None)
    if done.returncode != 0:
        sys.exit(f"{words}: status {done.returncode}: {done.stderr.decode()}")


def hexed(text):
    return text.hex() or "."


def line_of(write):
    key, value = write
    return f"{hexed(key)}!" if value is None else f"{hexed(key)}={hexed(value)}"


def draw_writes(drawn, most):
    writes = []
    for _ in range(drawn.randint(1, most)):
        key = b"%03d" % drawn.randrange(200)
        value = None if drawn.random() < 0.25 else drawn.randbytes(drawn.choice((0, 9, 100, 3000)))
        writes.append((key, value))
    return writes


def apply(pairs, writes):
    for key, value in writes:
        if value is None:
            pairs.pop(key, None)
        else:
            pairs[key] = value


def text_of(pairs):
    return "".join(f"{line_of((key, pairs[key]))}\n" for key in sorted(pairs)).encode()


def of_leveldb(drawn, folder, pairs):
    writes = draw_writes(drawn, 60)
    lines = "".join(f"{line_of(write)}\n" for write in writes).encode()
    run(LEVELDB, "write", folder, drawn.choice((1, 7)), given=lines, reuse=drawn.random() < 0.3)
    apply(pairs, writes)


def of_lsm(drawn, folder, pairs):
    command = drawn.choice(("put", "delete", "ingest", "load", "shell"))
    writes = draw_writes(drawn, 1 if command in ("put", "delete") else 40)
    if command == "put":
        writes = [(key, value or b"") for key, value in writes]
        bring_in(folder, pairs, "put", hexed(writes[0][0]), hexed(writes[0][1]))
    elif command == "delete":
        writes = [(writes[0][0], None)]
        bring_in(folder, pairs, "delete", hexed(writes[0][0]))
    elif command == "ingest":
        writes = sorted(dict(writes).items())
        lines = "".join(f"{line_of(write)}\n" for write in writes).encode()
        bring_in(folder, pairs, "ingest", "-", given=lines)
    elif command == "load":
        lines = "".join(f"{line_of(write)}\n" for write in writes).encode()
        bring_in(folder, pairs, "load", "-", given=lines)
    else:
        lines = "".join(
            f"delete {hexed(key)}\n" if value is None else f"put {hexed(key)} {hexed(value)}\n" for key, value in writes
        ).encode()
        bring_in(folder, pairs, "shell", "--workers", "1", given=lines)
    apply(pairs, writes)


def killed(drawn, folder, pairs):
    """A put that is killed came in or not; what was there before stands."""
    key, value = b"%03d" % drawn.randrange(200), b"by one that was killed"
    words = [LSM, "put", folder, hexed(key), hexed(value), "--recover"]
    process = subprocess.Popen(words, stdout=subprocess.PIPE, stderr=subprocess.DEVNULL)
    time.sleep(drawn.random() * 0.02)
    process.kill()
    said = process.communicate()[0]
    came_in = dict(pairs) | {key: value}
    read = read_by_leveldb(folder)
    if read == text_of(came_in):
        pairs[key] = value
    elif said or read != text_of(pairs):
        sys.exit(f"{folder}: behind a kill LevelDB reads other pairs")


def between(drawn, folder):
    if drawn.random() < 0.3:
        run(LSM, "compact", folder)
    if drawn.random() < 0.3:
        run(LSM, "clean", folder)


def read_by_leveldb(folder):
    copy = WORK / "copy"
    shutil.rmtree(copy, ignore_errors=True)
    shutil.copytree(folder, copy)
    return run(LEVELDB, "scan", copy).stdout


def live(life):
    drawn = random.Random(f"{SEED} {life}")
    folder, pairs = WORK / "life", {}
    shutil.rmtree(folder, ignore_errors=True)
    folder.mkdir()
    for turn in range(TURNS):
        does = drawn.choice((of_leveldb, of_leveldb, of_lsm, of_lsm, killed))
        if turn == 0:
            does = drawn.choice((of_leveldb, of_lsm))
        does(drawn, folder, pairs)
        if read_by_leveldb(folder) != text_of(pairs):
            sys.exit(f"life {life}, turn {turn}, {does.__name__} (seed {SEED}): LevelDB reads other pairs")
        between(drawn, folder)
    run(LSM, "recover", folder)
    if b"\nlog " in run(LSM, "check", folder).stdout:
        sys.exit(f"life {life} (seed {SEED}): a log is to be read")
    if run(LSM, "scan", folder).stdout != text_of(pairs):
        sys.exit(f"life {life} (seed {SEED}): lsm scan prints other pairs")


for life in range(LIVES):
    live(life)
print(f"{LIVES} lives of {TURNS} turns between LevelDB and lsm: the same pairs (seed {SEED})")
