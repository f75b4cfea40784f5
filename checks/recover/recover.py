"""Recovers folders of LevelDB, whole and damaged: recover.py LSM MAKERS WORK SEED FLIPS KILLS [KIND..]

MAKERS as of checks/import/import.py."""

import collections
import os
import random
import re
import shutil
import subprocess
import sys
import time
from pathlib import Path

sys.path.insert(0, os.path.join(os.path.dirname(os.path.abspath(__file__)), "..", "import"))
import fronts  # noqa: E402
import places  # noqa: E402

LSM, MAKERS = sys.argv[1], sys.argv[2].split(":")
LEVELDB = MAKERS[0]
WORK = Path(sys.argv[3])
SEED, FLIPS, KILLS = map(int, sys.argv[4:7])
LINE = re.compile(rb"logs (\d+) entries (\d+) rest (\d+)\n")
REUSED = ["one_in_a_log", "batches", "bloom", "reopened_often", "two_logs", "tables_and_two_logs"]


def run(*words, status=0, reuse=False):
    environment = os.environ | {"PLAIN": "1"} | ({"REUSE_LOGS": "1"} if reuse else {})
    done = subprocess.run([str(word) for word in words], capture_output=True, timeout=600, env=environment)
    if status is not None and done.returncode != status:
        sys.exit(f"{words}: status {done.returncode}: {done.stderr.decode()}")
    return done


def fresh(name):
    folder = WORK / name
    shutil.rmtree(folder, ignore_errors=True)
    return folder


def copied(folder, name):
    shutil.copytree(folder, fresh(name))
    return WORK / name


def files_of(folder):
    return {path.name: path.read_bytes() for path in folder.iterdir() if path.name not in ("LOCK", "LOG", "LOG.old")}


def pairs_by_leveldb(folder, reuse=False):
    """What LevelDB reads of a copy of the folder, or none where it refuses it."""
    done = run(LEVELDB, "scan", copied(folder, "scanned"), status=None, reuse=reuse)
    return done.stdout if done.returncode == 0 else None


def pairs_of(folder):
    """What both read of a folder that `lsm check` takes, and in which no log is to be read."""
    run(LSM, "check", folder, "--strict")
    ours = run(LSM, "scan", folder, "--strict").stdout
    for reuse in (False, True):
        if ours != pairs_by_leveldb(folder, reuse):
            sys.exit(f"{folder}: LevelDB reads other pairs there than lsm scan")
        for number in re.findall(r"Recovering log #(\d+)", (WORK / "scanned" / "LOG").read_text()):
            if (folder / f"{int(number):06}.log").stat().st_size > 0:
                sys.exit(f"{folder}: LevelDB recovers log {number} there")
    return ours


def counted(many, word):
    return f"{many} {word}" if many == 1 else f"{many} {word}s"


def told_by(done, name):
    told = LINE.fullmatch(done.stdout)
    if done.returncode != 0 or not told or re.sub(rb"(note: .*|lsm: unproved build)\n", b"", done.stderr):
        sys.exit(f"{name}: status {done.returncode}: {done.stdout.decode()}{done.stderr.decode()}")
    return [int(word) for word in told.groups()]


def again(folder, kind):
    """A second recovery writes nothing, and a key comes in and is read by both."""
    before = files_of(folder)
    if told_by(run(LSM, "recover", folder, status=None), kind) != [0, 0, 0] or files_of(folder) != before:
        sys.exit(f"{kind}: the second recovery has logs, or writes")
    run(LSM, "put", folder, "7a7a7a", "31")
    if b"7a7a7a=31\n" not in pairs_of(folder):
        sys.exit(f"{kind}: a key that was put is not read")


def beside_orphans(source, wanted, kind):
    """Tables that no manifest names, as a kill leaves them, under the next numbers: none is written over."""
    folder = copied(source, "orphans")
    numbers = [int(number) for path in folder.iterdir() for number in re.findall(r"\d{6}", path.name)]
    for number in range(max(numbers) + 1, max(numbers) + 4):
        (folder / f"{number:06}.ldb").write_bytes(b"an orphan")
    told_by(run(LSM, "recover", folder, status=None), kind)
    if pairs_of(folder) != wanted or len([p for p in folder.glob("*.ldb") if p.read_bytes() == b"an orphan"]) != 3:
        sys.exit(f"{kind}: beside orphans it has other pairs, or they are gone")


def cleaned(source, wanted, kind):
    """`clean` leaves the logs that are not flushed, and removes those that were brought in."""
    folder = copied(source, "cleaned")
    run(LSM, "clean", folder)
    if pairs_by_leveldb(folder) != wanted:
        sys.exit(f"{kind}: cleaned before it is recovered it has other pairs")
    folder = copied(source, "cleaned")
    brought = told_by(run(LSM, "recover", folder, status=None), kind)[0]
    run(LSM, "clean", folder)
    if brought and list(folder.glob("*.log")):
        sys.exit(f"{kind}: a log that was brought in is not removed")
    if pairs_of(folder) != wanted or pairs_by_leveldb(folder) != wanted:
        sys.exit(f"{kind}: cleaned behind its recovery it has other pairs")


def by_goleveldb(maker, source, wanted, kind):
    """goleveldb reads in a recovered folder what it read before."""
    for name in ("scanned", "recovered"):
        copied(source, name)
    run(LSM, "recover", WORK / "recovered")
    for name in ("scanned", "recovered"):
        if run(maker, "scan", WORK / name).stdout != wanted:
            sys.exit(f"{kind}: goleveldb reads other pairs of the folder {name}")


def to_first_fault(source, folder, name, hurt=None, what=""):
    """A recovery up to the first fault. Of a folder that is whole it does what one without does;
    of a damaged log a front of the writes comes in, with each batch before the damage."""
    tables = run(LSM, "scan", folder).stdout
    other = copied(folder, "fronted")
    done = run(LSM, "recover", other, "--to-first-fault", status=None)
    if done.returncode != 0 or not LINE.fullmatch(done.stdout):
        sys.exit(f"{name}: to the first fault: status {done.returncode}: {done.stderr.decode()}")
    told = fronts.told_of(done, name)
    if hurt is None:
        return told, done.stdout, pairs_of(other)
    if told is None or told[2] > (folder / f"{told[0]:06}.log").stat().st_size:
        sys.exit(f"{name}: to the first fault: what is left out is not told: {done.stderr.decode()}")
    if told[3] != sum(path.stem > f"{told[0]:06}" for path in fronts.logs_of(folder)):
        sys.exit(f"{name}: to the first fault: {done.stderr.decode()}")
    if not fronts.is_front(source, tables, pairs_of(other), hurt, what):
        sys.exit(f"{name}: to the first fault: other pairs than a front of the writes has")
    return told


def whole(maker, kind, reuse):
    source = fresh(f"whole_{kind}{'_reused' if reuse else ''}")
    run(maker, "make", source, kind, reuse=reuse)
    kind += " by reuse_logs" if reuse else ""
    wanted = pairs_by_leveldb(source)
    folder = copied(source, "recovered")
    before = files_of(folder)
    done = run(LSM, "recover", folder, status=None)
    logs, entries, rest = told_by(done, kind)
    there = sum(name.endswith(".log") and len(text) > 0 for name, text in before.items())
    if (logs, rest) != (there, 0) or (entries == 0 and logs > 0 and wanted != pairs_of(folder)):
        sys.exit(f"{kind}: {done.stdout.decode()}, but {there} logs")
    after = files_of(folder)
    if any(after.get(name) != text for name, text in before.items() if name.endswith((".ldb", ".log"))):
        sys.exit(f"{kind}: a table or a log that was there is not as it was")
    if pairs_of(folder) != wanted:
        sys.exit(f"{kind}: it has other pairs")
    if to_first_fault(source, source, kind) != (None, done.stdout, wanted):
        sys.exit(f"{kind}: it is not the same up to the first fault")
    again(folder, kind)
    beside_orphans(source, wanted, kind)
    cleaned(source, wanted, kind)
    if kind.startswith("goleveldb_"):
        by_goleveldb(maker, source, wanted, kind)
    print(f"{kind}: {done.stdout.decode().strip()}, {counted(wanted.count(10), 'pair')}, the same", flush=True)
    return source, wanted


def damaged(sources):
    """By the place of the damage, how the recoveries ended."""
    drawn, ends = random.Random(SEED), {place: collections.Counter() for place in places.PLACES}
    for turn, place in enumerate(places.shared_out(FLIPS if sources else 0)):
        hurt = None
        while hurt is None:
            source, wanted = drawn.choice(sources)
            folder = copied(source, "damaged")
            hurt = places.damage(drawn, folder, place)
        path, what = hurt
        name = f"{source.name.removeprefix('whole_')}, turn {turn}, {what} (seed {SEED})"
        before = files_of(folder)
        theirs = pairs_by_leveldb(folder)
        done = run(LSM, "recover", folder, status=None)
        if done.returncode == 1:
            after = files_of(folder)
            if done.stdout or any(after.get(kept) != text for kept, text in before.items()):
                sys.exit(f"{name}: refused, and a line was printed, or a file is not as it was")
            if b"refused " not in done.stderr:
                sys.exit(f"{name}: {done.stderr.decode()}")
            ends[place]["refused"] += 1
            if place == places.LOG and b".log\n" in done.stderr:
                to_first_fault(source, folder, name, path.name, what)
                ends[place]["front"] += 1
            continue
        told = told_by(done, name)
        if told == [0, 0, 0] and path.stat().st_size == 0:
            ends[place]["rest"] += 1
            continue
        pairs = pairs_of(folder)
        if pairs == wanted and place != places.BLOCK:
            ends[place]["same"] += 1
        elif path.suffix == ".log" and (told[2] > 0 or " cut " in what) and pairs == theirs:
            ends[place]["rest"] += 1
        else:
            sys.exit(f"{name}: a damaged block came in, or other pairs than the whole folder has, and than LevelDB reads")
    return ends


def killed(sources):
    drawn = random.Random(SEED)
    stopped = 0
    for turn in range(KILLS if sources else 0):
        source, wanted = drawn.choice(sources)
        name = f"{source.name.removeprefix('whole_')}, kill {turn} (seed {SEED})"
        began = time.monotonic()
        run(LSM, "recover", copied(source, "timed"))
        lasts = time.monotonic() - began
        folder = copied(source, "killed")
        process = subprocess.Popen([LSM, "recover", folder], stdout=subprocess.PIPE, stderr=subprocess.DEVNULL)
        time.sleep(lasts * drawn.random())
        process.kill()
        said = process.communicate()[0]
        stopped += not said
        if pairs_by_leveldb(folder) != wanted:
            sys.exit(f"{name}: LevelDB reads other pairs behind it")
        run(LSM, "recover", folder)
        if pairs_of(folder) != wanted:
            sys.exit(f"{name}: the next recovery has other pairs")
    return stopped


def main():
    known = [(maker, kind) for maker in MAKERS for kind in run(maker, "kinds").stdout.decode().split()]
    kinds = [(maker, kind) for maker, kind in known if kind in (sys.argv[7:] or [kind])]
    sources = [whole(maker, kind, reuse) for maker, kind in kinds for reuse in (False, True) if not reuse or kind in REUSED]
    sources = [source for source in sources if any(path.stat().st_size > 0 for path in source[0].glob("*.log"))]
    ends = damaged(sources)
    stopped = killed(sources)
    logs, blocks, rest = (ends[place] for place in places.PLACES)
    print(f"{counted(len(kinds), 'kind')} of folders recovered: the same pairs by LevelDB and by lsm; of {logs.total()}"
          f" damaged logs {logs['refused']} refused, of {logs['front']} of them a front by --to-first-fault, {logs['same']} the same, {logs['rest']} as LevelDB reads a cut log; of"
          f" {blocks.total()} data blocks {blocks['refused']} refused; of {rest.total()} tables elsewhere {rest['refused']}, the others"
          f" the same; of {KILLS} that were killed {stopped} in time, nothing was lost"
          f" (seed {SEED})")


main()
