"""How long a batch waits beside workers, and LevelDB's synced ones: waits.py LSM LEVELDB FOLDER BATCHES.

Batches of 1,000 pairs of 16 and 100 bytes, keys at random, each once the one before is answered: by
`lsm shell --workers 1` and `--workers 2`, and by LevelDB's library with `sync`. Each goes into a folder
of its own. A line for each has the middle one, one in ten, one in a hundred, and the longest, in
milliseconds; how often a batch was refused since level 0 was full; and the seconds that all took.
"""

import os
import subprocess
import sys
import time

MIX = (1 << 64) - 1
ROOM = 10**16
PAIRS = 1000

lsm, leveldb, folder, batches = sys.argv[1], sys.argv[2], sys.argv[3], int(sys.argv[4])


def mixed(x):
    x = (x + 0x9E3779B97F4A7C15) & MIX
    x = ((x ^ (x >> 30)) * 0xBF58476D1CE4E5B9) & MIX
    x = ((x ^ (x >> 27)) * 0x94D049BB133111EB) & MIX
    return x ^ (x >> 31)


def lines_of(batch):
    pairs = {}
    for i in range(batch * PAIRS, (batch + 1) * PAIRS):
        pairs[f"{mixed(i) % ROOM:016d}"] = (f"{mixed(~i & MIX):016x}" * 7)[:100]
    return "".join(f"put {key} {pairs[key]}\n" for key in sorted(pairs)).encode()


def tell(name, times, refused, seconds):
    times.sort()
    at = lambda share: times[min(len(times) - 1, int(len(times) * share))] * 1e3
    print(
        f"{name:<18} {at(0.5):8.1f} {at(0.9):8.1f} {at(0.99):8.1f} {times[-1] * 1e3:8.1f} {refused:8} {seconds:8.1f}",
        flush=True,
    )


def by_shell(workers):
    os.mkdir(f"{folder}/lsm{workers}")
    child = subprocess.Popen(
        [lsm, "shell", f"{folder}/lsm{workers}", "--text", "--begin", "--workers", str(workers)],
        stdin=subprocess.PIPE,
        stdout=subprocess.PIPE,
    )
    times, refused, began = [], 0, time.perf_counter()

    def ask(lines):
        child.stdin.write(lines)
        child.stdin.flush()
        for _ in range(lines.count(b"\n")):
            said = child.stdout.readline()
        return said

    for batch in range(batches):
        lines = b"begin\n" + lines_of(batch)
        ask(lines)
        start = time.perf_counter()
        said = ask(b"commit\n")
        while said.startswith(b"refused 40 "):
            refused += 1
            ask(lines)
            said = ask(b"commit\n")
        times.append(time.perf_counter() - start)
        if not said.startswith(b"file "):
            sys.exit(f"a batch was answered {said}")
    seconds = time.perf_counter() - began
    child.stdin.close()
    child.wait()
    tell(f"lsm, {workers} worker{'s' * (workers > 1)}", times, refused, seconds)


def by_leveldb():
    began = time.perf_counter()
    child = subprocess.run([leveldb, f"{folder}/leveldb", str(batches)], stdout=subprocess.PIPE, check=True)
    seconds = time.perf_counter() - began
    tell("LevelDB, synced", [float(line) for line in child.stdout.split()], 0, seconds)


os.makedirs(folder, exist_ok=True)
print(f"{batches} batches: ms   middle     0.9     0.99  longest  refused  seconds", flush=True)
by_leveldb()
by_shell(1)
by_shell(2)
