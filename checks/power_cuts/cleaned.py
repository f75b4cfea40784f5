#!/usr/bin/env python3
"""Power cuts behind `lsm clean`, in a folder whose last program was killed: `lsm compact` is stopped right behind each append to the
manifest and behind each rename, before it synced them, while the system goes on; `lsm clean` runs; and then power is cut.

  cleaned.py LSM FOLDER CRASHES SEED

LSM is the program, FOLDER an empty folder, CRASHES how many power cuts are drawn behind each `clean`. After each, `lsm check` is done and
`lsm scan` gives what all batches come to. Ends with status 1 at the first loss, and where no kill was within an install or none within a
roll-over.
"""
import os
import random
import shutil
import subprocess
import sys

sys.dont_write_bytecode = True
import disk

BATCHES = 6  # enough that level 0 is compacted


class Cleaner:
    def __init__(self, lsm, folder, crashes, seed):
        self.lsm, self.folder, self.crashes, self.rng = lsm, folder, crashes, random.Random(seed)
        self.db, self.left = f"{folder}/db", f"{folder}/left"

    def run(self, *words, trace=None):
        tracer = ["strace", "-f", "-qq", "-xx", "-s", "16777216", "-o", trace, "-e", f"trace={disk.TRACED}"] if trace else []
        ran = subprocess.run([*tracer, self.lsm, *words], capture_output=True, text=True, timeout=600)
        return ran.returncode, ran.stdout, ran.stderr

    def done(self, *words, trace=None):
        status, out, error = self.run(*words, trace=trace)
        if status:
            sys.exit(f"lsm {' '.join(words)}: status {status}: {error}")
        return out

    def whole(self):
        files = {}
        for name in sorted(os.listdir(self.db)):
            with open(f"{self.db}/{name}", "rb") as file:
                files[name] = file.read()
        return files

    @staticmethod
    def put(found, place):
        shutil.rmtree(place, ignore_errors=True)
        os.mkdir(place)
        for name, data in found.items():
            with open(f"{place}/{name}", "wb") as file:
                file.write(data)

    def fill(self):
        os.mkdir(self.db)
        for batch in range(BATCHES):
            with open(f"{self.folder}/batch", "w", encoding="ascii") as file:
                for key in sorted({b"%04d" % self.rng.randrange(300) for _ in range(60)}):
                    file.write(f"{key.hex()}={self.rng.randbytes(20).hex()}\n")
            self.done("ingest", self.db, f"{self.folder}/batch", *(["--begin"] if batch == 0 else []))

    def kills(self, run):
        """Where the program is killed: behind an append to a manifest, or a rename, that is not durable yet."""
        for at, (kind, number) in enumerate(run.steps):
            call = run.calls[number]
            if kind == "end" and (call.kind == "rename" or (call.kind == "write" and call.words[0].startswith("MANIFEST"))):
                yield at + 1, f"{call.kind} {call.words[0]}", run.cuts[at + 1]

    def cleaned(self, killed):
        """The disk after `clean`, which goes on where a program was killed."""
        self.put(killed.shown(), self.db)
        self.done("clean", self.db, trace=f"{self.folder}/clean")
        left = killed.copy()
        clean = disk.Run(f"{self.folder}/clean", self.db, {}, "none")
        for kind, number in clean.steps:
            call = clean.calls[number]
            if kind == "end" and call.kind != "reply":
                left.acts(call, left.begins(call) if call.kind.startswith("sync") else None)
        if left.shown() != self.whole():
            sys.exit("the calls of clean do not make the files that are there")
        return left

    def go(self):
        self.fill()
        want, start = self.done("scan", self.db), self.whole()
        trace = f"{self.folder}/compact"
        self.done("compact", self.db, "--workers", "1", trace=trace)
        cuts, kills = 0, []
        for at, what, within in list(self.kills(disk.Run(trace, self.db, start, "none"))):
            run = disk.Run(trace, self.db, start, "none")
            run.go(at)
            left = self.cleaned(run.disk)
            kills.append(within)
            for _ in range(self.crashes):
                self.put(left.found(self.rng)[0], self.left)
                cuts += 1
                status, _, error = self.run("check", self.left)
                if status or self.done("scan", self.left) != want:
                    sys.exit(f"killed behind {what}, cleaned, power cut {cuts}: a loss: {error}the folder is {self.left}")
        if not cuts or not {"install", "roll-over"} <= set(kills):
            sys.exit(f"{cuts} power cuts of {len(kills)} kills: none within an install, or none within a roll-over, so the check says nothing")
        print(f"{cuts} power cuts behind clean, of {len(kills)} kills of a compaction: nothing was lost")


if __name__ == "__main__":
    Cleaner(sys.argv[1], sys.argv[2], int(sys.argv[3]), int(sys.argv[4])).go()
