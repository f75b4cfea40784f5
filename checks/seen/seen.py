"""Reads folders of LevelDB by --logs and --inflate, whole and damaged ones:
seen.py LSM MAKERS PLAIN WORK SEED FLIPS GETS [KIND..]

MAKERS as of checks/import/import.py; PLAIN is LevelDB without compression."""

import collections
import os
import random
import re
import shutil
import subprocess
import sys
from pathlib import Path

sys.path.insert(0, os.path.join(os.path.dirname(os.path.abspath(__file__)), "..", "import"))
import places  # noqa: E402

LSM, MAKERS, PLAIN = sys.argv[1], sys.argv[2].split(":"), sys.argv[3]
LEVELDB = MAKERS[0]
WORK = Path(sys.argv[4])
SEED, FLIPS, GETS = map(int, sys.argv[5:8])
DRAWN = random.Random(SEED)
BOTH = ["--logs", "--inflate"]
REFUSAL = re.compile(r"(refused \d+ \w+(?: \w+)*?)(?: in \d+\.ldb)?")


def run(*words, status=0, is_plain=False):
    environment = os.environ | ({"PLAIN": "1"} if is_plain else {})
    done = subprocess.run([str(word) for word in words], capture_output=True, timeout=600, env=environment)
    if status is not None and done.returncode != status:
        sys.exit(f"{words}: status {done.returncode}: {done.stderr.decode()}")
    return done


def fresh(name):
    folder = WORK / name
    shutil.rmtree(folder, ignore_errors=True)
    return folder


def copied(folder, name, but=()):
    shutil.copytree(folder, fresh(name), ignore=shutil.ignore_patterns(*but))
    return WORK / name


def files_of(folder):
    return {path.name: path.read_bytes() for path in folder.iterdir()}


def errors_of(done):
    """The lines of standard error, without that of a manifest that goleveldb may leave."""
    lines = done.stderr.replace(b"lsm: unproved build\n", b"").decode().splitlines()
    return [line for line in lines if not line.startswith("note: CURRENT names ")]


def pairs_by(maker, folder, but=()):
    """What a maker reads of a copy of the folder without such files, or none where it refuses it."""
    done = run(maker, "scan", copied(folder, "scanned", but), status=None)
    return done.stdout if done.returncode == 0 else None


def scanned(folder, *options, status=0):
    return run(LSM, "scan", folder, *options, status=status)


def imported(folder):
    """How `lsm import` ended, and the copy."""
    target = fresh("copy")
    target.mkdir()
    return run(LSM, "import", folder, target, status=None), target


def counted(many, word):
    return f"{many} {word}" if many == 1 else f"{many} {word}s"


def answers(folder, kind, pairs, options):
    """Asks for some keys that are there, and for some that are not."""
    lines = dict(line.split(b"=", 1) for line in pairs.splitlines())
    keys = DRAWN.sample(sorted(lines), min(GETS, len(lines)))
    keys += [b"%d" % DRAWN.randrange(1 << 20) for _ in range(GETS)]
    for key in keys:
        word = key.hex().encode() if key not in lines else key
        wanted = b"value " + lines[word] + b"\n" if word in lines else b"absent\n"
        done = run(LSM, "get", *options, "--", folder, word.decode())
        if done.stdout != wanted or errors_of(done):
            sys.exit(f"{kind}: get {word.decode()}: {done.stdout.decode()}{done.stderr.decode()}")
    return len(keys)


def told(command, text, sized):
    """What `check` or `list` says, of `list` without the numbers of tables; without their sizes too
    where these are another's than those of the copy, whose tables `import` writes anew."""
    if command == "list":
        rows = [line.split(b" ") for line in text.splitlines()]
        return sorted(row[:1] + row[2 if sized else 3 :] for row in rows)
    return text if sized else re.sub(rb" bytes \d+", b"", text)


def as_its_copy(folder, kind, options):
    """`check` and `list` say what they say of the copy; but the table of the logs has another number,
    and tables that are not made plain have other sizes."""
    sized = "--inflate" in options
    done, target = imported(folder)
    if done.returncode != 0:
        sys.exit(f"{kind}: import: {done.stderr.decode()}")
    for command in ("check", "list"):
        seen = run(LSM, command, folder, *options)
        wanted = run(LSM, command, target, "--strict").stdout
        same = told(command, seen.stdout, sized) == told(command, wanted, sized)
        if not same or errors_of(seen):
            sys.exit(f"{kind}: {command}: {seen.stdout.decode()}{seen.stderr.decode()}, of the copy {wanted.decode()}")


def tables_alone(maker, folder, kind):
    """With --inflate alone the logs are not read, and noted. Of a copy without them a maker may say
    nothing."""
    wanted = pairs_by(maker, folder, but=["*.log"])
    if wanted is None and maker == LEVELDB:
        sys.exit(f"{kind}: LevelDB does not read it without its logs")
    done = scanned(folder, "--inflate")
    logs = sum(path.stat().st_size > 0 for path in folder.glob("*.log"))
    notes = [line for line in errors_of(done) if line.endswith(" bytes are not read")]
    if len(notes) != logs or (wanted is not None and done.stdout != wanted):
        sys.exit(f"{kind}: with --inflate alone: {done.stderr.decode()}, or other pairs than without the logs")


def is_compressed(folder):
    return any(path.read_bytes() for path in folder.glob("*.ldb")) and any(
        table[at + size - 5] == 1
        for path in places.files(folder, places.BLOCK)
        for table in [path.read_bytes()]
        for at, size in places.ranges(path, places.BLOCK, is_compressed=False)
    )


def whole(maker, kind, is_plain=False):
    folder = fresh(f"{'plain' if is_plain else 'whole'}_{kind}")
    run(maker, "make", folder, kind, is_plain=is_plain)
    reader = maker if kind.startswith("goleveldb_") else LEVELDB
    wanted = pairs_by(reader, folder)
    before = files_of(folder)
    options = ["--logs"] if is_plain else BOTH
    done = scanned(folder, *options)
    if done.stdout != wanted or errors_of(done):
        sys.exit(f"{kind}: other pairs, or {done.stderr.decode()}")
    gets = answers(folder, kind, wanted, options)
    as_its_copy(folder, kind, options)
    if not is_plain:
        tables_alone(reader, folder, kind)
        if is_compressed(folder):
            refused = scanned(folder, "--logs", status=1)
            if refused.stdout or "refused 16 Compressed 1" not in errors_of(refused)[0]:
                sys.exit(f"{kind}: without --inflate: {refused.stderr.decode()}")
    if files_of(folder) != before:
        sys.exit(f"{folder}: its files are not as they were")
    print(f"{folder.name}: {counted(wanted.count(10), 'pair')}, {gets} gets, the same", flush=True)
    return folder, wanted


def refusal_of(done, name):
    """The refusal on the first line, without the file that it may name."""
    lines = [line for line in errors_of(done) if not line.startswith("note: ")]
    found = REFUSAL.fullmatch(lines[0]) if lines else None
    if not found:
        sys.exit(f"{name}: {done.stderr.decode()}")
    return found[1]


def damaged(sources):
    """By the place of the damage, how the scans ended."""
    ends = {place: collections.Counter() for place in places.PLACES}
    for turn, place in enumerate(places.shared_out(FLIPS if sources else 0)):
        hurt = None
        while hurt is None:
            source, wanted = DRAWN.choice(sources)
            folder = copied(source, "damaged")
            hurt = places.damage(DRAWN, folder, place, is_compressed=True)
        name = f"{source.name.removeprefix('whole_')}, turn {turn}, {hurt[1]} (seed {SEED})"
        before = files_of(folder)
        done = scanned(folder, *BOTH, status=None)
        if files_of(folder) != before:
            sys.exit(f"{name}: its files are not as they were")
        copy, target = imported(folder)
        if done.returncode != copy.returncode:
            sys.exit(f"{name}: scan has status {done.returncode}, import {copy.returncode}: {done.stderr.decode()}")
        if done.returncode == 1:
            # (of a table that was cut, the size is not the manifest's, at which import does not look)
            is_cut = hurt[0].suffix == ".ldb" and " cut " in hurt[1]
            wanted_refusal = f"refused 32 WrongRange {int(hurt[0].stem)}" if is_cut else refusal_of(copy, name)
            if done.stdout or refusal_of(done, name) != wanted_refusal:
                sys.exit(f"{name}: {done.stderr.decode()}, of import {copy.stderr.decode()}, or lines were printed")
            ends[place]["refused"] += 1
        elif done.stdout != scanned(target, "--strict").stdout:
            sys.exit(f"{name}: other pairs than the copy has")
        else:
            ends[place]["same" if done.stdout == wanted else "rest"] += 1
            rest = int(copy.stdout.split()[-1])
            if bool(rest) != any(line.startswith("note: ") for line in errors_of(done)):
                sys.exit(f"{name}: rest {rest}, and {done.stderr.decode()}")
    return ends


def main():
    asked = sys.argv[8:]
    known = [(maker, kind) for maker in MAKERS for kind in run(maker, "kinds").stdout.decode().split()]
    kinds = [(maker, kind) for maker, kind in known if kind in (asked or [kind])]
    sources = [whole(maker, kind) for maker, kind in kinds]
    plain = [(PLAIN if maker == LEVELDB else maker, kind) for maker, kind in kinds if not kind.startswith("goleveldb_")]
    for maker, kind in plain:
        whole(maker, kind, is_plain=True)
    ends = damaged(sources)
    logs, blocks, rest = (ends[place] for place in places.PLACES)
    print(f"{counted(len(kinds) + len(plain), 'kind')} of folders read where they lie: the same pairs by their makers and by lsm;"
          f" of {logs.total()} damaged logs {logs['refused']} refused, {logs['same']} the same, {logs['rest']} as import takes them;"
          f" of {blocks.total()} compressed blocks {blocks['refused']} refused; of {rest.total()} tables elsewhere"
          f" {rest['refused']}, the others the same (seed {SEED})")


main()
