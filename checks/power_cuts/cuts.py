#!/usr/bin/env python3
"""Power cuts in `lsm ingest` and `lsm compact`, without a device: the calls of each run are taken from `strace`, and what a disk may have
after a power cut in any of them (disk.py) is drawn, put into a folder, and opened.

  cuts.py LSM LEVELDB FOLDER CRASHES SEED FORGET [garbage]

LSM is the program, LEVELDB the program that checks/leveldb_directories/directory.cc makes, FOLDER an empty folder, FORGET which syncs the
disk leaves out (none). After each power cut: `lsm check` is done; `lsm scan` gives all that was answered, and of a batch that was not yet
answered all or nothing; `scan`, `list` and `get` print the same with --quick; LevelDB opens the folder and gives the same, forwards,
backwards and by key. A database goes on from what one of its power cuts left. With garbage there may be other bytes behind the durable
ones of a file; then a manifest that no answer stands on may also be refused for its damage, at a place where such bytes stand.

Ends with status 1 at the first difference, and names the folder. Where a sync is forgotten, the first difference after a power cut is the
loss that has to be found: status 3. Status 1 too where no power cut was within an install by 1 worker, one by 4, or a roll-over.
"""
import collections
import os
import random
import re
import shutil
import subprocess
import sys
import time

sys.path.insert(0, os.path.join(os.path.dirname(os.path.realpath(__file__)), "..", "leveldb_directories"))
sys.dont_write_bytecode = True
import disk
import plain

CUTS = {"ingest": 6, "compact": 40}  # power cuts of one run
WITHIN = 0.25  # so many of these are drawn within installs and roll-overs
NEEDED = ["install of compact by 1", "install of compact by 4", "roll-over"]  # each has to be cut
LOSS = 3  # the status where a loss was found that had to be
RUNS = 30  # runs of one database
GROUPS = 5  # of keys that lie apart, so that workers have jobs at a time
DAMAGE = re.compile(r"refused (?:19 LogChecksum|20 LogOrder|21 LogType) (\d+)\n")  # of a manifest, at this fragment
DAMAGED = object()
KINDS = ["", "small", "", "reopened_often"]  # "": begun by lsm, else made by LevelDB


class Difference(Exception):
    """What is found differs from what has to be there."""


class Cutter:
    def __init__(self, lsm, leveldb, folder, crashes, seed, forget, garbage):
        self.lsm, self.leveldb, self.folder = lsm, leveldb, folder
        self.crashes, self.rng, self.seed, self.forget = crashes, random.Random(seed), seed, forget
        self.garbage = garbage
        self.db, self.left = f"{folder}/db", f"{folder}/left"
        self.count, self.counts, self.what = 0, collections.Counter(), "no run"
        self.workers = self.rng.choice([1, 4])  # of the last compaction

    # ---- one run

    def run(self, *words, traced=False):
        tracer = ["strace", "-f", "-qq", "-xx", "-s", "16777216", "-o", f"{self.folder}/trace", "-e", f"trace={disk.TRACED}"] if traced else []
        ran = subprocess.run([*tracer, self.lsm, *words], capture_output=True, text=True, timeout=600)
        if ran.returncode not in (0, 1):
            self.stop(f"lsm {words[0]} ends with status {ran.returncode}, says: {ran.stderr[:300]}", words[1])
        return ran.returncode, ran.stdout, ran.stderr

    def stop(self, why, place):
        place = f"\nthe folder is {place}" if self.forget == "none" else ""
        sys.exit(f"seed {self.seed}, power cut {self.count}, {self.what}: {why}{place}\n{dict(self.counts)}")

    def lose(self, why):
        """Ends at a difference behind a power cut."""
        if self.forget == "none":
            self.stop(why, self.left)
        print(f"seed {self.seed}, power cut {self.count}, {self.what}: a loss, as it must be where the disk forgets {self.forget}: {why}")
        sys.exit(LOSS)

    # ---- what stands there

    def put(self, found, place):
        shutil.rmtree(place, ignore_errors=True)
        os.mkdir(place)
        for name, data in found.items():
            with open(f"{place}/{name}", "wb") as file:
                file.write(data)

    def is_of_garbage(self, found, other, refusal):
        """Whether the fragment of the manifest that was refused has bytes that were never written."""
        name, at = disk.named(found), int(refusal[1])
        data = found.get(name, b"")
        return name in other and at + 7 + int.from_bytes(data[at + 4 : at + 6], "little") > other[name]

    def look(self, found, other, contents):
        """Which of these contents was found. None among them stands for no database."""
        self.put(found, self.left)
        if None in contents and "CURRENT" not in found:
            return None
        status, out, err = self.run("check", self.left)
        err = plain.besides_crash(err)
        refusal = DAMAGE.match(err)
        if status == 1 and refusal and len(contents) > 1 and self.is_of_garbage(found, other, refusal):
            self.counts["damaged"] += 1
            quick = self.run("scan", self.left, "--quick")
            if quick[:2] != (1, "") or not quick[2].startswith(refusal[0]):
                raise Difference(f"lsm scan --quick: status {quick[0]}, says: {quick[2][:300].strip()}")
            return DAMAGED
        if status or err:
            raise Difference(f"lsm check: status {status}, says: {err[:300].strip()}")
        rest = re.search(r"^rest (\d+)$", out, re.M)
        self.counts["torn"] += rest is not None and rest[1] != "0"
        status, out, err = self.run("scan", self.left)
        if status or plain.besides_crash(err):
            raise Difference(f"lsm scan: status {status}, says: {err[:300].strip()}")
        differs = plain.quick_differs(self.run, self.left, contents[-1] or {}, self.rng)
        if differs:
            raise Difference(differs)
        scanned = out.splitlines()
        for content in contents:
            if content is not None and scanned == plain.list_lines(content):
                self.look_by_leveldb(content)
                return content
        have, wanted = set(scanned), set(plain.list_lines(contents[-1]))
        raise Difference(f"lsm scan differs: {len(wanted - have)} lines lost, as {sorted(wanted - have)[:2]}; {len(have - wanted)} more")

    def look_by_leveldb(self, content):
        with open(f"{self.folder}/list", "w") as file:
            file.writelines(f"{line}\n" for line in plain.list_lines(content))
        words = [self.leveldb, "same", self.left, self.kind or "small", f"{self.folder}/list"]
        ran = subprocess.run(words, stdout=subprocess.PIPE, stderr=subprocess.STDOUT, text=True)
        if ran.returncode not in (0, 1):
            self.stop(f"LevelDB ends with status {ran.returncode}, says: {ran.stdout[:300]}", self.left)
        if ran.returncode:
            raise Difference(f"LevelDB says: {ran.stdout[:300].strip()}")

    def young(self):
        """How many tables stand at level 0."""
        return sum(line.startswith("0 ") for line in self.run("list", self.db)[1].splitlines())

    # ---- a run, cut

    def draw(self):
        """A batch: keys of one group, written over, deleted or new."""
        group = self.rng.randrange(GROUPS)
        batch = {}
        for _ in range(self.rng.randrange(1, 120)):
            key = b"%d-%04d" % (group, self.rng.randrange(300))
            value = plain.spell(self.rng.randbytes(self.rng.randrange(200)))
            batch[key] = None if self.rng.random() < 0.25 else value
        return batch

    def words(self):
        """The next command, and what the content is behind it."""
        if self.content is not None and self.young() >= self.rng.randrange(4, 10):
            self.workers = 5 - self.workers
            return ["compact", self.db, "--workers", str(self.workers), "--accept-rest"], self.content
        batch = self.draw()
        with open(f"{self.folder}/batch", "w") as file:
            file.writelines(f"{line}\n" for line in plain.batch_lines(batch))
        # a power cut in the first ingest may have left a manifest without CURRENT
        begin = ["--begin"] if self.content is None else []
        return ["ingest", self.db, f"{self.folder}/batch", *begin], plain.apply(self.content or {}, batch)

    def turn(self):
        """One command, cut at some of its steps; then it is as if one of the power cuts had been, or none."""
        words, after = self.words()
        named = words[0] if words[0] == "ingest" else f"compact by {words[3]}"
        self.what = f"database {self.counts['databases']}, lsm {named}"
        status, out, err = self.run(*words, traced=True)
        err = plain.besides_crash(err)
        if status or err:
            self.stop(f"status {status}, says: {err[:300].strip()}", self.db)
        self.counts[f"runs {named}"] += 1
        installed = re.fullmatch(r"installed (\d+)\n", out)
        self.counts[f"installed {named}"] += int(installed[1]) if installed else 0
        self.is_as_seen(after)
        run, left = disk.Run(f"{self.folder}/trace", self.db, self.found, self.forget), []
        for at in sorted(self.place(run.cuts) for _ in range(CUTS[words[0]])):
            if self.count == self.crashes:
                break
            run.go(at)
            self.count += 1
            found, other = run.cut(self.rng, self.garbage)
            # an ingest that begins a database begins an empty one first
            may_be = [after] if run.replied else [None, {}, after] if self.content is None else [self.content, after]
            try:
                content = self.look(found, other, may_be)
            except Difference as difference:
                self.lose(difference)
            self.counts[f"cuts {named}"] += 1
            if content is DAMAGED:
                continue
            self.counts["LevelDB"] += content is not None
            within = run.cuts[at]
            self.counts[f"install of {named}" if within == "install" else within or "elsewhere"] += 1
            if words[0] == "ingest":
                self.counts["new" if content == after else "old"] += 1
                self.counts["replied"] += run.replied
            left.append((found, content))
        self.found, self.content = self.rng.choice(left) if left and self.rng.random() < 0.2 else (self.whole(), after)
        self.put(self.found, self.db)

    def whole(self):
        return {name: open(f"{self.db}/{name}", "rb").read() for name in sorted(os.listdir(self.db))}

    def place(self, cuts):
        """How many steps of a run are made before power is cut: any number of them, or one within an install or a roll-over."""
        if self.rng.random() < WITHIN:
            within = self.rng.choice(["install", "roll-over"])
            places = [at for at, cut in enumerate(cuts) if cut == within]
            if places:
                return self.rng.choice(places)
        return self.rng.randrange(len(cuts))

    def is_as_seen(self, after):
        """The replay without a power cut makes the files that are there: no call was missed. And what the run answered is there."""
        run, whole = disk.Run(f"{self.folder}/trace", self.db, self.found, self.forget), self.whole()
        run.go(len(run.steps))
        if run.disk.shown() != whole:
            self.stop("the calls that strace saw do not make the files that are there", self.db)
        try:
            self.look(whole, {}, [after])
        except Difference as difference:
            self.stop(f"without a power cut: {difference}", self.left)

    def live(self):
        self.kind = KINDS[self.counts["databases"] % len(KINDS)]
        self.counts["databases"] += 1
        shutil.rmtree(self.db, ignore_errors=True)
        self.content = None
        if self.kind:
            subprocess.run([self.leveldb, "make", self.db, self.kind], check=True)
            shutil.rmtree(self.left, ignore_errors=True)
            shutil.copytree(self.db, self.left)
            with open(f"{self.folder}/list", "w") as file:
                subprocess.run([self.leveldb, "scan", self.left], check=True, stdout=file)
            self.content = plain.load(f"{self.folder}/list")
        else:
            os.mkdir(self.db)
        self.found = self.whole()
        for _ in range(RUNS):
            if self.count < self.crashes:
                self.turn()

    def all(self):
        begun = time.monotonic()
        while self.count < self.crashes:
            self.live()
            print(f"{self.counts['databases']} databases, {self.count} power cuts; {time.monotonic() - begun:.0f} s", flush=True)
        it = self.counts
        unseen = [name for name in NEEDED if not it[name]]
        if unseen:
            shutil.rmtree(self.folder)
            sys.exit(f"{self.count} power cuts, seed {self.seed}: none was within these, so the check says nothing: {', '.join(unseen)}")
        names = ["ingest", "compact by 1", "compact by 4"]
        cuts = ", ".join(f"{it[f'cuts {name}']} in {it[f'runs {name}']} runs of {name}" for name in names)
        cuts += f" ({it['installed compact by 1']} and {it['installed compact by 4']} results installed)"
        within = [f"{it[f'install of {name}']} of {name}" for name in names]
        print(
            f"{self.count} power cuts, seed {self.seed}: all that was answered was there. {cuts}. "
            f"{it['roll-over']} were within a roll-over, and within an install {', '.join(within)}. "
            f"Of the ingests {it['old']} left nothing, {it['new']} their batch, {it['replied']} of these once they had answered. "
            f"A manifest ended within a record {it['torn']} times, and was refused as damaged {it['damaged']} times. LevelDB gave the same {it['LevelDB']} times."
        )


if __name__ == "__main__":
    if len(sys.argv) not in (7, 8) or sys.argv[6] not in disk.FORGOTTEN or sys.argv[7:] not in ([], ["garbage"]):
        sys.exit(__doc__)
    Cutter(*sys.argv[1:4], int(sys.argv[4]), sys.argv[5], sys.argv[6], len(sys.argv) == 8).all()
