#!/usr/bin/env python3
"""Refuses each of the calls by which `lsm` changes files in turn, and looks at the folder after each run.

  refused.py LSM LEVELDB REFUSE FOLDER [WORD..]

LSM is the program, LEVELDB the program that checks/leveldb_directories/directory.cc makes, REFUSE the library that refuse.c makes, FOLDER
an empty folder, WORD one of write, fsync, rename, openat, unlink, or ingest or compact (none of a kind: all of it). Ends with status 1 at
the first difference.
"""
import collections
import errno
import os
import re
import shutil
import subprocess
import sys
import time

sys.path.insert(0, os.path.join(os.path.dirname(os.path.realpath(__file__)), "..", "leveldb_directories"))
sys.dont_write_bytecode = True
import plain

CALLS = ["write", "fsync", "rename", "openat", "unlink"]
COMMANDS = ["ingest", "compact"]
ERRORS = [getattr(errno, name) for name in os.environ.get("ERRORS", "ENOMEM ENOSPC EIO EINTR").split()]
WORKERS = os.environ.get("WORKERS", "1 2").split()
TORN = 5  # bytes that a short write puts there (refuse.c)
GROUPS = 4  # of tables whose keys lie apart
# What may be answered where a call was refused: want of memory, the device, a table that can't be read or put, a store that was halted.
REFUSAL = re.compile(r"refused (1 OutOfMemory|9 Device|3[56] (Read|Put)Failed \d+ (1|9)|42 Halted)\n")


class Refuser:
    def __init__(self, lsm, leveldb, library, folder):
        self.lsm, self.leveldb, self.library, self.folder = lsm, leveldb, library, folder
        self.db, self.batch, self.begun = f"{folder}/db", f"{folder}/batch", {}
        self.what = "the first folder"

    # ---- one run

    def run(self, *words, how=None):
        ran = subprocess.run([self.lsm, *words], capture_output=True, text=True, timeout=60, env={**os.environ, **(how or {})})
        return ran.returncode, ran.stdout, ran.stderr

    def done(self, *words, noted=""):
        status, out, err = self.run(*words)
        if status or err != noted:
            self.stop(f"lsm {words[0]} without refusals: status {status}, says: {err[:300]}")
        return out

    def stop(self, why):
        sys.exit(f"{self.what}: {why} (the folder is {self.db})")

    # ---- the folder

    def make(self):
        """What each command begins with, a folder and its content, and what an ingest comes to."""
        os.mkdir(self.db)
        content = {}
        for turn in range(3):
            for group in range(GROUPS):
                batch = {b"%d-%03d" % (group, i): (b"%d" % turn).hex() for i in range(turn, 40, 2)}
                self.write_batch(batch)
                self.done("ingest", self.db, self.batch)
                content = plain.apply(content, batch)
            if turn == 1:
                self.keep("ingest", content)
        # twelve tables, in groups apart: three compactions are due
        self.keep("compact", content)
        content = self.begun["ingest"][1]
        batch = {key: None if i % 3 else "6e6577" for i, key in enumerate(sorted(content)[::5])} | {b"9-new": "31"}
        self.write_batch(batch)
        self.after = plain.apply(content, batch)

    def keep(self, command, content):
        shutil.copytree(self.db, f"{self.folder}/{command}")
        self.begun[command] = f"{self.folder}/{command}", content

    def write_batch(self, batch):
        with open(self.batch, "w") as file:
            file.writelines(f"{line}\n" for line in plain.batch_lines(batch))

    def noted(self):
        """What is noted of the folder: a torn end, and a manifest that was begun."""
        rest = self.look_at_manifest()
        noted = f"note: the last {rest} bytes of the manifest hold no whole record, and are not read\n" if rest else ""
        with open(f"{self.db}/CURRENT") as file:
            named = file.read().strip()
        highest = max((it for it in os.listdir(self.db) if it.startswith("MANIFEST-")), key=lambda it: int(it[9:]))
        if int(highest[9:]) > int(named[9:]):
            noted += f"note: CURRENT names {named}, and {highest} is there\n"
        return noted

    def look(self, *contents):
        """The content that the folder has, of these; LevelDB gives the same."""
        noted = self.noted()
        self.done("check", self.db, noted=noted)
        lines = self.done("scan", self.db, noted=noted).splitlines()
        found = next((it for it in contents if plain.list_lines(it) == lines), None)
        if found is None:
            wanted = set(plain.list_lines(contents[-1]))
            self.stop(f"other content: {len(wanted - set(lines))} lines lost, {len(set(lines) - wanted)} more")
        return found

    def look_by_leveldb(self, content):
        with open(f"{self.folder}/list", "w") as file:
            file.writelines(f"{line}\n" for line in plain.list_lines(content))
        words = [self.leveldb, "same", self.db, "small", f"{self.folder}/list"]
        ran = subprocess.run(words, stdout=subprocess.PIPE, stderr=subprocess.STDOUT, text=True)
        if ran.returncode:
            self.stop(f"LevelDB says: {ran.stdout[:300]}")

    def look_at_manifest(self):
        """How many bytes end it that are no whole record. Behind a record that was cut short there is no
        other one: a reader would not see it."""
        with open(f"{self.db}/CURRENT") as file:
            name = file.read().strip()
        with open(f"{self.db}/{name}") as file:
            ran = subprocess.run([self.lsm, "manifest"], stdin=file, capture_output=True, text=True)
        rest = int(re.search(r"^rest (\d+)$", ran.stdout, re.M)[1])
        if rest > TORN:
            self.stop(f"{rest} bytes of {name} hold no whole record: more was written behind a record that was cut short")
        return rest

    # ---- one refusal

    def refuse(self, words, call, at, error, more, short):
        """Whether the run met the call of this number; the folder is judged then."""
        shutil.rmtree(self.db, ignore_errors=True)
        shutil.copytree(self.begun[words[0]][0], self.db)
        mark = f"{self.folder}/mark"
        if os.path.exists(mark):
            os.remove(mark)
        how = {"LD_PRELOAD": self.library, "CALL": call, "WITHIN": self.db, "AT": str(at), "MORE": str(more)}
        how |= {"ERROR": str(error), "MARK": mark} | ({"SHORT": "1"} if short else {})
        name = errno.errorcode[error]
        self.what = f"{' '.join(words)}: {call} {at} {'is short, then ' if short else ''}answers {name}, and {more} more"
        status, out, err = self.run(*words, how=how)
        if not os.path.exists(mark):
            return False
        self.judge(words[0], status, out, err)
        return True

    def judge(self, command, status, out, err):
        if status not in (0, 1) or (status == 1 and (out or not REFUSAL.match(err))) or (status == 0 and err):
            self.stop(f"status {status}, answers {out[:100]!r}, says: {err[:300]}")
        self.counts["refused" if status else "done"] += 1
        before = self.begun[command][1]
        after = self.after if command == "ingest" else before
        found = self.look(after) if status == 0 else self.look(before, after)
        if command == "ingest" and status == 1:
            self.counts["whole batch in all the same"] += found is self.after
        # it goes on, and LevelDB too
        words = ["ingest", self.db, self.batch] if command == "ingest" else ["compact", self.db, "--accept-rest"]
        self.done(*words, noted=self.noted())
        self.look(after)
        self.look_by_leveldb(after)

    def each(self, words, call):
        begun, self.counts, last = time.monotonic(), collections.Counter(), 0
        for error in ERRORS:
            for short in [False, True] if call == "write" else [False]:
                # what was interrupted is asked for again: for ever, if it were refused for ever
                for more in [int(short), 2 if error == errno.EINTR else 1 << 30]:
                    at = 1
                    while self.refuse(words, call, at, error, more, short):
                        at += 1
                    last = max(last, at - 1)
        said = ", ".join(f"{count} {what}" for what, count in sorted(self.counts.items()))
        print(f"lsm {' '.join(['DIR' if it == self.db else os.path.basename(it) for it in words])}: {last} calls {call}; of the runs {said}; {time.monotonic() - begun:.0f} s", flush=True)

    def all(self, chosen):
        self.make()
        runs = {"ingest": [["ingest", self.db, self.batch]], "compact": [["compact", self.db, "--workers", it] for it in WORKERS]}
        for call in [it for it in CALLS if it in chosen] or CALLS:
            for command in [it for it in COMMANDS if it in chosen] or COMMANDS:
                for words in runs[command]:
                    self.each(words, call)


if __name__ == "__main__":
    if len(sys.argv) < 5 or not set(sys.argv[5:]) <= {*CALLS, *COMMANDS}:
        sys.exit(__doc__)
    Refuser(*sys.argv[1:5]).all(sys.argv[5:])
