#!/usr/bin/env python3
"""Kills `lsm load` (SIGKILL) at random moments while it brings lines in and its workers compact, and looks at the directory after each kill.

  loads.py LSM LEVELDB KILL FOLDER KILLS SEED

LSM is the program, LEVELDB the program that checks/leveldb_directories/directory.cc makes, KILL the library that kill.c makes, FOLDER an
empty folder. Half of the kills come after a random time, half at a random one of the calls that change files, or half-way in a write.
A directory gets LINES drawn lines; each run goes on behind the last line that is in. After each kill `lsm check` is done, and `lsm scan`
gives what the first lines come to, up to some line M: all lines that the run said were in are among these; `scan`, `list` and `get` print
the same with --quick. LevelDB gives the same after
every tenth kill and at each directory's end. Ends with status 1 at the first difference, and names the directory.
"""
import os
import random
import re
import shutil
import subprocess
import sys
import time

sys.path.insert(0, os.path.join(os.path.dirname(os.path.realpath(__file__)), "..", "leveldb_directories"))
sys.dont_write_bytecode = True
import plain

LINES = int(os.environ.get("LINES", "120000"))  # of a directory
KEYS = int(os.environ.get("KEYS", "40000"))  # so many different keys
VALUE = int(os.environ.get("VALUE", "400"))  # bytes of a value behind its line's number, at most
LOOK = 10  # LevelDB opens it after so many kills


class Loads:
    def __init__(self, lsm, leveldb, library, folder, kills, seed):
        self.lsm, self.leveldb, self.library, self.folder = lsm, leveldb, library, folder
        self.kills, self.rng, self.seed = kills, random.Random(seed), seed
        self.killed, self.life, self.path = 0, 0, ""
        self.seconds, self.moments = 1.0, 200
        self.counts = dict.fromkeys(["loads", "by time", "by call", "told", "more than told", "LevelDB"], 0)

    def stop(self, why):
        sys.exit(f"seed {self.seed}, kill {self.killed}, directory {self.path}: {why}")

    def call(self, *words):
        ran = subprocess.run([self.lsm, *words], stdout=subprocess.PIPE, stderr=subprocess.PIPE, text=True)
        return ran.returncode, ran.stdout, ran.stderr

    # ---- the lines

    def draw(self):
        """Lines of drawn keys, one of eight a deletion; the value of a line begins with its number, eight digits in hex."""
        self.lines = []
        for number in range(1, LINES + 1):
            key = b"%08d" % self.rng.randrange(KEYS)
            value = None if self.rng.random() < 0.125 else b"%08d" % number + self.rng.randbytes(self.rng.randrange(VALUE))
            self.lines.append((key, value))
        with open(f"{self.folder}/lines", "w") as file:
            for key, value in self.lines:
                file.write(f"{key.hex()}!\n" if value is None else f"{key.hex()}={value.hex()}\n")

    def apply(self, content, first, last):
        """What the lines behind `first`, up to `last`, make of a content."""
        for key, value in self.lines[first:last]:
            if value is None:
                content.pop(key, None)
            else:
                content[key] = value.hex()

    # ---- what is there

    def look(self, told):
        """Finds up to which line all is in: at least `told`."""
        status, out, err = self.call("check", self.path)
        err = plain.besides_crash(err)
        if status == 1 and err.startswith("refused 10 Missing\n") and not self.at and not told:
            return
        if status or err:
            self.stop(f"lsm check: status {status}, says: {err[:300]}")
        self.is_begun = True
        status, out, err = self.call("scan", self.path)
        if status or plain.besides_crash(err):
            self.stop(f"lsm scan: status {status}, says: {err[:300]}")
        differs = plain.quick_differs(self.call, self.path, self.content, self.rng)
        if differs:
            self.stop(differs)
        there = dict((bytes.fromhex(key), value) for key, value in (line.split("=") for line in out.splitlines()))
        seen = max([int(bytes.fromhex(value[:16])) for value in there.values()], default=0)
        last = max(seen, told, self.at)
        self.apply(self.content, self.at, last)
        # deletions at the end of a batch show by what is absent alone
        while there != self.content and last < LINES and self.lines[last][1] is None:
            self.apply(self.content, last, last + 1)
            last += 1
        if there != self.content:
            self.stop(f"lsm scan is not what the first {last} lines come to ({told} were told, number {seen} is seen)")
        self.counts["more than told"] += last > max(told, self.at)
        self.at = last

    def look_by_leveldb(self):
        shutil.copytree(self.path, f"{self.folder}/copy")
        with open(f"{self.folder}/list", "w") as file:
            file.writelines(f"{line}\n" for line in plain.list_lines(self.content))
        command = [self.leveldb, "same", f"{self.folder}/copy", "small", f"{self.folder}/list"]
        ran = subprocess.run(command, stdout=subprocess.PIPE, stderr=subprocess.STDOUT, text=True)
        if ran.returncode:
            self.stop(f"LevelDB: {ran.stdout[:300]}")
        shutil.rmtree(f"{self.folder}/copy")
        self.counts["LevelDB"] += 1

    # ---- a run

    def load(self):
        """Whether the run came to its end."""
        after, how = None, {**os.environ, "LD_PRELOAD": self.library, "MOMENTS": f"{self.folder}/moments"}
        kills = self.killed < self.kills
        if kills and self.rng.random() < 0.5:
            after = self.rng.uniform(0, 0.5 * self.seconds)
        elif kills:
            how["KILL"] = str(self.rng.randrange(1, self.moments // 2 + 2))
        words = ["load", self.path, f"{self.folder}/lines", "--from-line", str(self.at + 1), "--progress"]
        words += ["--workers", str(self.rng.randrange(1, 9))] + ([] if self.is_begun else ["--begin"])
        begun = time.monotonic()
        program = subprocess.Popen([self.lsm, *words], stdout=subprocess.PIPE, stderr=subprocess.PIPE, text=True, env=how)
        try:
            out, err = program.communicate(timeout=after)
        except subprocess.TimeoutExpired:
            program.kill()
            out, err = program.communicate()
        self.counts["loads"] += 1
        told = max([int(it) for it in re.findall(r"^lines 1 to (\d+) are in$", err, re.M)], default=0)
        self.counts["told"] += told > self.at
        if program.returncode == -9 and kills:
            self.killed += 1
            self.counts["by call" if after is None else "by time"] += 1
            self.look(told)
            return False
        if program.returncode or not re.fullmatch(r"loaded \d+ lines in \d+ batches\n", out):
            self.stop(f"lsm {' '.join(words)}: status {program.returncode}, answers {out[:100]!r}, says: {err[-300:]}")
        if not self.at:
            self.seconds = time.monotonic() - begun
            with open(f"{self.folder}/moments", "rb") as file:
                self.moments = int.from_bytes(file.read(), sys.byteorder)
        self.look(LINES)
        return True

    def live(self):
        self.life += 1
        self.path = f"{self.folder}/{self.life}"
        os.mkdir(self.path)
        self.content, self.at, self.is_begun = {}, 0, False
        self.draw()
        first, begun = self.killed, time.monotonic()
        while not self.load():
            if self.is_begun and self.killed % LOOK == 0:
                self.look_by_leveldb()
        self.look_by_leveldb()
        print(f"directory {self.life}: {self.killed - first} kills, {len(self.content)} live keys; {time.monotonic() - begun:.0f} s", flush=True)
        shutil.rmtree(self.path)

    def all(self):
        kills, self.kills = self.kills, 0
        self.live()  # a first one that is not killed says how long a load takes
        self.kills = kills
        while self.killed < self.kills:
            self.live()
        it = self.counts
        print(
            f"{self.killed} kills ({it['by time']} by time, {it['by call']} at a call) in {it['loads']} loads, seed {self.seed}: all lines that were said to be in stayed. "
            f"{it['told']} loads had said so of some; {it['more than told']} times another batch was in. LevelDB gave the same {it['LevelDB']} times."
        )


if __name__ == "__main__":
    if len(sys.argv) != 7:
        sys.exit(__doc__)
    Loads(*sys.argv[1:5], int(sys.argv[5]), sys.argv[6]).all()
