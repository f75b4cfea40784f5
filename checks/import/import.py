"""Imports folders of LevelDB, whole and damaged ones: import.py LSM MAKERS WORK SEED FLIPS [KIND..]

MAKERS are programs, with a colon between two: each tells its `kinds`, and makes a folder of one;
the first is LevelDB, which reads the folders."""

import collections
import random
import re
import shutil
import subprocess
import sys
from pathlib import Path

import fronts
import places

LSM, MAKERS = sys.argv[1], sys.argv[2].split(":")
LEVELDB = MAKERS[0]
WORK = Path(sys.argv[3])
SEED, FLIPS = int(sys.argv[4]), int(sys.argv[5])
LINE = re.compile(rb"tables (\d+) logs (\d+) entries (\d+) rest (\d+)\n")


def run(*words, status=0):
    done = subprocess.run([str(word) for word in words], capture_output=True, timeout=600)
    if status is not None and done.returncode != status:
        sys.exit(f"{words}: status {done.returncode}: {done.stderr.decode()}")
    return done


def fresh(name):
    folder = WORK / name
    shutil.rmtree(folder, ignore_errors=True)
    return folder


def files_of(folder):
    return {path.name: path.read_bytes() for path in folder.iterdir()}


def pairs_by(maker, folder):
    """What a maker reads of a copy of the folder, or none where it refuses it."""
    shutil.copytree(folder, fresh("scanned"))
    done = run(maker, "scan", WORK / "scanned", status=None)
    return done.stdout if done.returncode == 0 else None


def pairs_by_leveldb(folder):
    return pairs_by(LEVELDB, folder)


def imported(source, *options):
    """How `lsm import` ended, and that the source is as it was."""
    before = files_of(source)
    target = fresh("copy")
    target.mkdir()
    done = run(LSM, "import", source, target, *options, status=None)
    if files_of(source) != before:
        sys.exit(f"{source}: its files are not as they were")
    return done, target


def pairs_of(target):
    """What both read of a copy that `lsm check` takes."""
    run(LSM, "check", target, "--strict")
    ours = run(LSM, "scan", target, "--strict").stdout
    theirs = pairs_by_leveldb(target)
    if ours != theirs:
        sys.exit(f"{target}: LevelDB reads other pairs there than lsm scan")
    return ours


def is_of_another(kind):
    """Whether a maker that is not of LevelDB's kin says what the folder has."""
    return kind.startswith(("rocksdb_", "goleveldb_"))


def counted(many, word):
    return f"{many} {word}" if many == 1 else f"{many} {word}s"


def whole(maker, kind):
    source = fresh(f"whole_{kind}")
    run(maker, "make", source, kind)
    wanted = pairs_by(maker if is_of_another(kind) else LEVELDB, source)
    done, target = imported(source)
    told = LINE.fullmatch(done.stdout)
    if done.returncode != 0 or not told or done.stderr.replace(b"lsm: unproved build\n", b""):
        sys.exit(f"{kind}: status {done.returncode}: {done.stdout.decode()}{done.stderr.decode()}")
    if pairs_of(target) != wanted:
        sys.exit(f"{kind}: the copy has other pairs")
    tables = sum(path.suffix == ".ldb" for path in target.iterdir())
    logs = sum(path.suffix == ".log" and path.stat().st_size > 0 for path in source.iterdir())
    if (int(told[1]), int(told[2]), int(told[4])) != (tables, logs, 0):
        sys.exit(f"{kind}: {done.stdout.decode()}, but {tables} tables and {logs} logs")
    front, target = imported(source, "--to-first-fault")
    if front.stdout != done.stdout or fronts.told_of(front, kind) or pairs_of(target) != wanted:
        sys.exit(f"{kind}: it is not the same up to the first fault")
    again = run(LSM, "import", source, target, status=1)
    if b"refused 53 IsThere" not in again.stderr:
        sys.exit(f"{kind}: a second import: {again.stderr.decode()}")
    print(f"{kind}: {done.stdout.decode().strip()}, {counted(wanted.count(10), 'pair')}, the same", flush=True)
    return source, wanted


def to_first_fault(source, folder, name, hurt, what):
    """A copy up to the first fault of a damaged log has a front of the writes, with each batch
    before the damage."""
    logless = fresh("logless")
    shutil.copytree(folder, logless)
    for path in logless.glob("*.log"):
        path.write_bytes(b"")
    tables = pairs_of(imported(logless)[1])
    done, target = imported(folder, "--to-first-fault")
    if done.returncode != 0 or not LINE.fullmatch(done.stdout) or fronts.told_of(done, name) is None:
        sys.exit(f"{name}: to the first fault: status {done.returncode}: {done.stderr.decode()}")
    if not fronts.is_front(source, tables, pairs_of(target), hurt, what):
        sys.exit(f"{name}: to the first fault: other pairs than a front of the writes has")


def damaged(sources):
    """By the place of the damage, how the imports ended."""
    drawn, ends = random.Random(SEED), {place: collections.Counter() for place in places.PLACES}
    sources = [source for source in sources if not source[0].name.startswith("whole_rocksdb")]
    for turn, place in enumerate(places.shared_out(FLIPS if sources else 0)):
        hurt = None
        while hurt is None:
            source, wanted = drawn.choice(sources)
            folder = fresh("damaged")
            shutil.copytree(source, folder)
            hurt = places.damage(drawn, folder, place, is_compressed=True)
        path, what = hurt
        name = f"{source.name.removeprefix('whole_')}, turn {turn}, {what} (seed {SEED})"
        done, target = imported(folder)
        if done.returncode == 1:
            if (target / "CURRENT").exists() or done.stdout:
                sys.exit(f"{name}: refused, and a database is there, or a line was printed")
            if b"refused " not in done.stderr:
                sys.exit(f"{name}: {done.stderr.decode()}")
            ends[place]["refused"] += 1
            if place == places.LOG and b".log\n" in done.stderr:
                to_first_fault(source, folder, name, path.name, what)
            continue
        told = LINE.fullmatch(done.stdout)
        if done.returncode != 0 or not told:
            sys.exit(f"{name}: status {done.returncode}: {done.stderr.decode()}")
        pairs = pairs_of(target)
        if pairs == wanted and place != places.BLOCK:
            ends[place]["same"] += 1
        elif path.suffix == ".log" and (int(told[4]) > 0 or " cut " in what) and pairs == pairs_by_leveldb(folder):
            ends[place]["rest"] += 1
        else:
            sys.exit(f"{name}: a damaged block came in, or other pairs than the whole folder has, and than LevelDB reads")
    return ends


def main():
    known = [(maker, kind) for maker in MAKERS for kind in run(maker, "kinds").stdout.decode().split()]
    kinds = [(maker, kind) for maker, kind in known if kind in (sys.argv[6:] or [kind])]
    sources = [whole(maker, kind) for maker, kind in kinds]
    ends = damaged(sources)
    logs, blocks, rest = (ends[place] for place in places.PLACES)
    print(f"{counted(len(kinds), 'kind')} of folders imported: the same pairs by their makers and by lsm; of"
          f" {logs.total()} damaged logs {logs['refused']} refused, {logs['same']} the same, {logs['rest']} as LevelDB"
          f" reads a cut log; of {blocks.total()} compressed blocks {blocks['refused']} refused; of {rest.total()} tables elsewhere"
          f" {rest['refused']}, the others the same (seed {SEED})")


main()
