#!/usr/bin/env python3
"""Kills `lsm` (SIGKILL) at random moments while it ingests and compacts, and looks at the directory after each kill.

  killed.py LSM LEVELDB KILL FOLDER KILLS SEED

LSM is the program, LEVELDB the program that checks/leveldb_directories/directory.cc makes, KILL the library that kill.c makes, FOLDER an empty folder for the
directories. Half of the kills come after a random time, half at a random one of the calls that change files, or half-way in a write.
After each kill: `lsm check` is done; `lsm scan` gives all that was answered, and of the killed batch all or nothing (all, where its
reply was printed); `scan`, `list` and `get` print the same with --quick. After every 20th kill, after each that left a manifest which ends within a record, and at a directory's end, LevelDB
opens it and gives the same. Ends with status 1 at the first difference, and names the directory.
"""
import os
import random
import re
import shutil
import subprocess
import sys
import time

sys.path.insert(0, os.path.join(os.path.dirname(os.path.realpath(__file__)), "..", "leveldb_directories"))
sys.dont_write_bytecode = True
import plain

LIFE = 50  # kills of one directory
LOOK = 20  # LevelDB opens it after so many
KEYS = int(os.environ.get("KEYS", "20000"))  # about so many different keys
BATCH = int(os.environ.get("BATCH", "3000"))  # writes of a batch, at most
VALUE = int(os.environ.get("VALUE", "600"))  # bytes of a value, at most
KINDS = ["", "small", "bloom", "", "keys_span_files_deleted", "with_deletions", "span_with_bloom"]  # "": begun by lsm


class Known:
    """How long runs of a command take, and how many moments kill.c counts in one, so that kills fall anywhere within a run."""

    def __init__(self):
        self.seconds, self.moments = {}, {}

    def learn(self, command, seconds, moments):
        self.seconds[command] = (self.seconds.get(command, seconds) + seconds) / 2
        self.moments[command] = moments

    def time(self, rng, command):
        return rng.uniform(0, 1.1 * self.seconds.get(command, 0.2))

    def moment(self, rng, command):
        return rng.randrange(1, self.moments.get(command, 20) + 2)


class Killer:
    def __init__(self, lsm, leveldb, library, folder, kills, seed):
        self.lsm, self.leveldb, self.library, self.folder = lsm, leveldb, library, folder
        self.kills, self.rng, self.seed = kills, random.Random(seed), seed
        self.known, self.killed, self.life, self.last = Known(), 0, 0, "none"
        self.counts = dict.fromkeys(["ingests", "compactions", "there", "not there", "replied", "LevelDB", "torn", "by time", "by call"], 0)

    # ---- one run

    def run(self, words, kills=False):
        """Status, output, errors; the status is None where it was killed."""
        after, how = None, {**os.environ, "LD_PRELOAD": self.library, "MOMENTS": f"{self.folder}/moments"}
        if words[0] in ("ingest", "compact"):
            self.last = words[0]
        if kills and self.rng.random() < 0.5:
            after = self.known.time(self.rng, words[0])
            self.last += f" killed after {after:.4f} s"
        elif kills:
            how["KILL"] = str(self.known.moment(self.rng, words[0]))
            self.last += f" killed at moment {how['KILL']}"
        begun = time.monotonic()
        program = subprocess.Popen([self.lsm, *words], stdout=subprocess.PIPE, stderr=subprocess.PIPE, text=True, env=how)
        try:
            out, err = program.communicate(timeout=after)
        except subprocess.TimeoutExpired:
            program.kill()
            out, err = program.communicate()
        if words[0] in ("ingest", "compact"):
            err = plain.besides_crash(err)
        if program.returncode == -9 and kills:
            err = re.sub(r"note: [^\n]*\Z", "", err)  # a note that was cut
            self.killed += 1
            self.counts["by call" if after is None else "by time"] += 1
            return None, out, err
        if program.returncode < 0:
            self.stop(f"lsm {words[0]} was ended by the signal {-program.returncode}: {err[:500]}")
        with open(f"{self.folder}/moments", "rb") as file:
            self.known.learn(words[0], time.monotonic() - begun, int.from_bytes(file.read(), sys.byteorder))
        return program.returncode, out, err

    def stop(self, why):
        said = f"seed {self.seed}, kill {self.killed}, directory {self.life} ({self.path}), last lsm {self.last}: {why}"
        sys.exit(f"{said}\n{dict(self.counts)}")

    # ---- what stands there

    def scanned(self):
        status, out, err = self.run(["scan", self.path])
        if status != 0 or plain.besides_crash(err):
            self.stop(f"lsm scan: status {status}, says: {err[:300]}")
        differs = plain.quick_differs(lambda *words: self.run(list(words)), self.path, self.content, self.rng)
        if differs:
            self.stop(differs)
        return out.splitlines()

    def look(self, *contents):
        """Which of these contents the directory has."""
        status, out, err = self.run(["check", self.path])
        err = plain.besides_crash(err)
        if status == 1 and err.startswith("refused 10 Missing\n") and not self.is_begun:
            return 0
        if status != 0 or err:
            self.stop(f"lsm check: status {status}, says: {err[:300]}")
        self.is_begun = True
        rest = re.search(r"^rest (\d+)$", out, re.M)
        self.is_torn = rest is not None and rest[1] != "0"
        self.counts["torn"] += self.is_torn
        lines = self.scanned()
        for i, content in enumerate(contents):
            if lines == plain.list_lines(content):
                return i
        have, wanted = set(lines), set(plain.list_lines(contents[0]))
        self.stop(f"lsm scan differs: {len(wanted - have)} lines lost, as {sorted(wanted - have)[:3]}; {len(have - wanted)} more")

    def look_by_leveldb(self):
        """LevelDB opens a copy, or the directory itself, with which things go on then."""
        place = self.path if self.rng.random() < 0.5 else f"{self.folder}/copy"
        if place != self.path:
            shutil.copytree(self.path, place)
        with open(f"{self.folder}/list", "w") as file:
            file.writelines(f"{line}\n" for line in plain.list_lines(self.content))
        command = [self.leveldb, "same", place, self.kind or "small", f"{self.folder}/list"]
        ran = subprocess.run(command, stdout=subprocess.PIPE, stderr=subprocess.STDOUT, text=True)
        if ran.returncode:
            self.stop(f"LevelDB on {place}: {ran.stdout[:300]}")
        if place != self.path:
            shutil.rmtree(place)
        self.counts["LevelDB"] += 1

    # ---- turns

    def draw(self):
        """A batch: by half keys of a fixed set, so that the directory stays of a size."""
        batch = plain.draw(self.rng, self.content, self.rng.randrange(1, BATCH // 2), VALUE)
        total = sum(len(key) + len(value or "") // 2 for key, value in batch.items())
        for _ in range(self.rng.randrange(1, BATCH // 2)):
            key = b"%08d" % self.rng.randrange(KEYS)
            value = None if self.rng.random() < 0.3 else plain.spell(self.rng.randbytes(self.rng.randrange(VALUE)))
            total += len(key) + len(value or "") // 2
            if total > plain.BATCH_BYTES:
                break
            batch[key] = value
        return batch

    def ingest(self, kills):
        batch = self.draw()
        with open(f"{self.folder}/batch", "w") as file:
            file.writelines(f"{line}\n" for line in plain.batch_lines(batch))
        after = plain.apply(self.content, batch)
        # a first ingest that was killed may have left a manifest without CURRENT
        begin = [] if self.is_begun else ["--begin"]
        status, out, err = self.run(["ingest", self.path, f"{self.folder}/batch", *begin], kills)
        replied = re.fullmatch(r"file \d+ first \d+ last \d+\n", out)
        self.counts["ingests"] += 1
        if status == 1 and err.startswith("refused 40 LevelZeroFull\n") and not out:
            self.look(self.content)
            return self.compact(False)
        if status not in (0, None) or err or (status == 0 and not replied):
            self.stop(f"lsm ingest: status {status}, answers {out[:100]!r}, says: {err[:300]}")
        if replied:
            self.is_begun = True
            self.content = after
        if status is None:
            if replied:
                self.look(after)
                self.counts["replied"] += 1
            elif self.look(self.content, after):
                self.content = after
                self.counts["there"] += 1
            else:
                self.counts["not there"] += 1
        return status is None

    def compact(self, kills):
        words = ["compact", self.path, "--workers", str(self.rng.randrange(1, 9)), "--accept-rest"]
        status, out, err = self.run(words, kills)
        self.counts["compactions"] += 1
        # A kill may come within the line.
        is_missing = err.startswith("refused 10 Missing\n") or (status is None and "refused 10 Missing\n".startswith(err))
        if status in (1, None) and is_missing and not self.is_begun:
            return status is None  # killed behind its refusal, or not
        if status not in (0, None) or err or (status == 0 and not re.fullmatch(r"installed \d+\n", out)):
            self.stop(f"lsm compact {' '.join(words[2:])}: status {status}, answers {out[:100]!r}, says: {err[:300]}")
        if status is None:
            self.look(self.content)
        else:
            self.look_at_tables()
        return status is None

    def look_at_tables(self):
        """What lies there after a compaction that was not killed: the tables that are listed, no others."""
        status, out, err = self.run(["list", self.path])
        listed = sorted(int(line.split()[1]) for line in out.splitlines() if line != "end")
        there = sorted(int(name[:-4]) for name in os.listdir(self.path) if name.endswith(".ldb"))
        if status != 0 or listed != there:
            self.stop(f"lsm list: status {status}; tables {listed[:20]} listed, {there[:20]} lie there")

    # ---- lives

    def begin(self):
        self.kind = KINDS[self.life % len(KINDS)]
        self.life += 1
        self.path = f"{self.folder}/{self.life}"
        self.content, self.is_begun, self.is_torn = {}, bool(self.kind), False
        if not self.kind:
            os.mkdir(self.path)
            return
        subprocess.run([self.leveldb, "make", self.path, self.kind], check=True)
        shutil.copytree(self.path, f"{self.folder}/copy")
        subprocess.run([self.leveldb, "scan", f"{self.folder}/copy"], check=True, stdout=open(f"{self.folder}/list", "w"))
        shutil.rmtree(f"{self.folder}/copy")
        self.content = plain.load(f"{self.folder}/list")

    def live(self):
        self.begin()
        first, begun = self.killed, time.monotonic()
        while self.killed < self.kills and self.killed < first + LIFE:
            turn = self.ingest if self.rng.random() < 0.6 else self.compact
            if turn(self.rng.random() < 0.8) and self.is_begun and (self.is_torn or self.killed % LOOK == 0):
                self.look_by_leveldb()
                self.look(self.content)
        files = len(os.listdir(self.path))
        while self.compact(False) or not self.is_begun:
            self.ingest(False)
        self.look(self.content)
        self.look_by_leveldb()
        self.look(self.content)
        kind = f"of LevelDB ({self.kind})" if self.kind else "begun by lsm"
        said = f"directory {self.life}, {kind}: {self.killed - first} kills, {len(self.content)} live keys, {files} files,"
        print(f"{said} {len(os.listdir(self.path))} at its end; {time.monotonic() - begun:.0f} s", flush=True)
        shutil.rmtree(self.path)

    def all(self):
        while self.killed < self.kills:
            self.live()
        it = self.counts
        print(
            f"{self.killed} kills ({it['by time']} by time, {it['by call']} at a call) in {it['ingests']} ingests and {it['compactions']} compactions, seed {self.seed}: all that was answered stayed. "
            f"Of killed ingests {it['not there']} left nothing, {it['there']} their batch without a reply, {it['replied']} had replied. "
            f"A manifest ended within a record {it['torn']} times. LevelDB gave the same {it['LevelDB']} times."
        )


if __name__ == "__main__":
    if len(sys.argv) != 7:
        sys.exit(__doc__)
    Killer(*sys.argv[1:5], int(sys.argv[5]), sys.argv[6]).all()
