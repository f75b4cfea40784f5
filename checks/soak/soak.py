"""What a database costs that is written for long: soak.py LSM LEVELDB FOLDER SECONDS [PLOT].

Writers of each kind bring their keys in by `lsm shell --workers 1`, round after round, each kind into
a folder of its own, with single puts and with batches; and slow ones single puts over 25 MB that were
there before, each after the worker has come to rest: at random, at both ends of them, and behind them.
After each eighth of a round the folder is looked at, a value that came in is asked for, and a range of
keys; and once more after the round, when the worker has come to rest; the shell is asked how many
tables and bytes the levels have. From the second eighth on a snapshot is held to the end of the round,
at which a value is asked for that it has. LevelDB has the same writes, stays open too, holds a snapshot
as long, and its folder is looked at after the same ones. At the end each shell is killed in the midst
of some more writes, and its database opened: all that was answered is there; and closed and opened
twice.

In 600 seconds or more three writers come first that bring a million single puts in, ascending,
descending and at random. A line is printed for each round, at the first figure that is out of its
bounds the status is 1, and PLOT, where it is said, is a drawing (SVG) of what each round measured.
"""

import os
import random
import subprocess
import sys
import time

MIX = (1 << 64) - 1
ROOM = 10**16
TARGET = 2097152
SIZE = 100
KINDS = ("ascending", "descending", "random", "overwriting", "streams")
SLOW_KINDS = ("random", "ends", "behind")
BATCHES = (1, 10, 1000)
# How many puts a round has; a slow one's, how many puts it comes behind, and how long it pauses.
ROUND = {1: 2000, 10: 10000, 1000: 50000}
SLOW, LOADED, PAUSE = 500, 200000, 0.03
# How many puts a long writer has, of which kinds, in how many seconds at least, and how many times the
# bytes that LevelDB writes it may write.
LONG, LONG_KINDS, LONG_FROM, TIMES = 1000000, ("ascending", "descending", "random"), 600, 4
# In seconds, what one batch in a hundred may take at least. How many bytes of memory a shell may come
# to, and how many more for each batch, whose tables have records that are never given back.
SLOWEST, MEMORY, RECORDS = 1.0, 64 << 20, 512
# Bytes written for a byte that came in, at most. LevelDB itself, at a million puts, writes 2.2 (single
# ones), 2.0 and 2.0 where they are in order, 4.6 to 6.6, 4.3 and 3.5 at random. The aim is four times as
# many; single puts may cost more, since each is a table first, and is gathered at level 0. Behind loaded
# keys the first files that go down have one compaction.
MOST = {
    "ascending": {1: 10, 10: 8, 1000: 8},
    "descending": {1: 10, 10: 8, 1000: 8},
    "random": {1: 24, 10: 17, 1000: 14},
    "overwriting": {1: 24, 10: 17, 1000: 14},
    "streams": {1: 24, 10: 17, 1000: 14},
    "ends": {1: 24},
    "behind": {1: 48},
}

# Bytes on the disk for one of LevelDB's, while no program calls anything that removes: at rest behind
# the writes; once the database was opened twice more, for one of those that LevelDB has before or behind
# that, since it compacts as it opens, and of keys that are written again and again may have a third then;
# and in the midst of the writes, where 64 KiB more is let be, since little is there at first: so many
# bytes a manifest comes to before it is followed, and to twice what a whole one has, where that is more.
# The manifest that was followed is gone at once.
AT_REST, OPENED, IN_THE_MIDST, MORE = 1.3, 1.3, 2, 64 << 10

# How many tables there are at rest, and how many more for each target size of bytes; and how many more
# in the midst of the writes: level 0 may be full, and a run may wait for a worker.
TABLES, TABLES_EACH, TABLES_MORE = 64, 4, 24


def mixed(x):
    x = (x + 0x9E3779B97F4A7C15) & MIX
    x = ((x ^ (x >> 30)) * 0xBF58476D1CE4E5B9) & MIX
    x = ((x ^ (x >> 27)) * 0x94D049BB133111EB) & MIX
    return x ^ (x >> 31)


def key_at(kind, i):
    if kind == "ascending":
        return i
    if kind == "descending":
        return ROOM - 1 - i
    if kind == "random":
        return mixed(i) % ROOM
    if kind == "overwriting":
        return mixed(i) % 10000
    if kind in ("ends", "behind"):
        return key_around(kind, i)
    return i % 100 * 10**11 + i // 100


def key_around(kind, i):
    """The loaded keys lie at random in the middle half; the others at both its ends, one in 24 at the
    lower one, or at its upper end alone."""
    if i < LOADED:
        return ROOM // 4 + mixed(i) % (ROOM // 2)
    if kind == "ends" and i % 24 == 0:
        return ROOM // 4 - 1 - i
    return 3 * (ROOM // 4) + i


def pair_at(kind, i):
    value = f"{mixed(~i & MIX):016x}"
    return f"{key_at(kind, i):016d}", (value * (SIZE // 16 + 1))[:SIZE]


def used(folder):
    """How many bytes the files of a folder have."""
    total = 0
    for entry in os.scandir(folder):
        try:
            total += entry.stat().st_size
        except FileNotFoundError:
            pass
    return total


def at_rest(folder):
    """How many bytes its files have once that changes no more, for half a second."""
    last, since = used(folder), time.monotonic()
    while time.monotonic() < since + 0.5:
        time.sleep(0.05)
        now = used(folder)
        if now != last:
            last, since = now, time.monotonic()
    return last


def manifests(folder):
    return sum(name.startswith("MANIFEST-") for name in os.listdir(folder))


class Shell:
    """A database that is open in `lsm shell`."""

    def __init__(self, lsm, folder):
        os.makedirs(folder, exist_ok=True)
        self.folder = folder
        self.replied = 0
        self.was_refused = False
        self.lsm = lsm
        self.begin()

    def begin(self):
        self.child = subprocess.Popen(
            [self.lsm, "shell", self.folder, "--text", "--begin", "--workers", "1"],
            stdin=subprocess.PIPE,
            stdout=subprocess.PIPE,
        )

    def ask(self, line):
        self.child.stdin.write(line.encode() + b"\n")
        self.child.stdin.flush()
        return self.reply()

    def reply(self):
        line = self.child.stdout.readline()
        self.replied += len(line)
        if not line:
            sys.exit("the shell ended")
        return line.decode().rstrip("\n")

    def bring_in(self, pairs):
        """Brings pairs in as one batch, as soon as level 0 has room."""
        while True:
            if len(pairs) == 1:
                said = self.ask(f"put {pairs[0][0]} {pairs[0][1]}")
            else:
                lines = ["begin"] + [f"put {key} {value}" for key, value in pairs] + ["commit"]
                self.child.stdin.write("\n".join(lines).encode() + b"\n")
                self.child.stdin.flush()
                for _ in lines:
                    said = self.reply()
            if said.startswith("file "):
                return
            if not said.startswith("refused 40 "):
                sys.exit(f"a batch was answered {said}")
            self.was_refused = True
            time.sleep(0.001)

    def levels(self):
        """How many tables, and how many bytes, the levels have."""
        tables = total = 0
        said = self.ask("stats")
        while said != "end":
            words = said.split()
            if words[0] == "level":
                tables += int(words[3])
                total += int(words[5])
            said = self.reply()
        return tables, total

    def written(self):
        """How many bytes the shell wrote, without its replies."""
        with open(f"/proc/{self.child.pid}/io") as file:
            for line in file:
                if line.startswith("wchar:"):
                    return int(line.split()[1]) - self.replied
        sys.exit("no wchar")

    def memory(self):
        """How much memory the shell had at most."""
        with open(f"/proc/{self.child.pid}/status") as file:
            for line in file:
                if line.startswith("VmHWM:"):
                    return int(line.split()[1]) * 1024
        sys.exit("no VmHWM")

    def get(self, key, snapshot=""):
        return self.ask(f"get {key} {snapshot}".rstrip())

    def snapshot(self):
        return self.ask("snapshot").split()[1]

    def scan(self, key):
        """The first pairs from a key on."""
        pairs, said = [], self.ask(f"scan {key} limit 10")
        while said != "end":
            pairs.append(said)
            said = self.reply()
        return pairs

    def kill(self):
        """Kills the shell, and opens its database again."""
        self.child.kill()
        self.child.wait()
        self.replied = 0
        self.was_refused = False
        self.begin()

    def end(self):
        self.child.stdin.close()
        if self.child.wait() != self.was_refused:
            sys.exit(f"the shell of {self.folder} ended with status {self.child.returncode}")


class LevelDB:
    """A database that is open in LevelDB."""

    def __init__(self, leveldb, folder, kind, batch):
        self.folder = folder
        self.child = subprocess.Popen(
            [leveldb, folder, kind, str(batch), str(SIZE)],
            stdin=subprocess.PIPE,
            stdout=subprocess.PIPE,
        )

    def bring_in(self, first, count):
        """Brings so many pairs in: what the files had after each eighth, and all it wrote so far."""
        self.child.stdin.write(f"{first} {count}\n".encode())
        self.child.stdin.flush()
        *looks, wrote = [int(word) for word in self.child.stdout.readline().split()]
        return looks, wrote

    def end(self):
        self.child.stdin.close()
        if self.child.wait() != 0:
            sys.exit(f"LevelDB of {self.folder} ended with status {self.child.returncode}")


class Writer:
    """One kind of writer with batches of one size, into a database of its own and into LevelDB."""

    def __init__(self, lsm, leveldb, folder, kind, batch, more=""):
        self.name = f"{kind}-{batch}{more}"
        self.kind, self.batch = kind, batch
        self.lsm, self.leveldb = lsm, leveldb
        self.theirs = os.path.join(folder, self.name + "-leveldb")
        self.other = LevelDB(leveldb, self.theirs, kind, batch)
        self.count = self.they_wrote = 0
        # What was there before its first round: puts, and bytes that they and we wrote for them.
        self.loaded = self.they_had = self.we_had = 0
        self.all, self.pause = ROUND[batch], 0
        # The newest value of some keys, and of those that were answered last.
        self.newest, self.last = {}, {}
        self.bad, self.rounds = [], []
        self.shell = Shell(lsm, os.path.join(folder, self.name))

    def slow(self):
        """The same writer, slow, over a database that is loaded, and has nothing at level 0."""
        self.all, self.pause = SLOW, PAUSE
        self.count = self.loaded = LOADED
        for first in range(0, LOADED, 1000):
            self.shell.bring_in([pair_at(self.kind, i) for i in range(first, first + 1000)])
        _, self.they_had = self.other.bring_in(0, LOADED)
        self.shell.end()
        subprocess.run([self.lsm, "compact", self.shell.folder, "--all"], stdout=subprocess.DEVNULL, check=True)
        self.shell = Shell(self.lsm, self.shell.folder)
        self.shell.levels()
        self.we_had = self.shell.written()
        return self

    def write(self, first):
        """Brings the batch in that begins with this put. How long that took."""
        pairs = {}
        for i in range(first, first + self.batch):
            key, value = pair_at(self.kind, i)
            pairs[key] = value
            if len(self.newest) < 2000 or key in self.newest:
                self.newest[key] = value
        start = time.monotonic()
        self.shell.bring_in(list(pairs.items()))
        took = time.monotonic() - start
        for key in pairs:
            self.last.pop(key, None)
        self.last = dict([*self.last.items(), *pairs.items()][-20:])
        return took

    def read(self, held):
        """Asks for a value, also at the snapshot that is held, and for some pairs from it on."""
        key = random.choice(list(self.newest))
        pair = f"{key}={self.newest[key]}"
        self.expect(f"get {key}", self.shell.get(key), f"value {self.newest[key]}")
        self.expect(f"scan {key}", self.shell.scan(key)[:1], [pair])
        if held:
            snapshot, key, value = held
            self.expect(f"get {key} {snapshot}", self.shell.get(key, snapshot), f"value {value}")

    def expect(self, asked, said, wanted):
        if said != wanted:
            self.bad.append(f"{asked} was answered {said}, and not {wanted}")

    def hold(self):
        """Takes a snapshot: with a key, and its value."""
        key = random.choice(list(self.newest))
        return self.shell.snapshot(), key, self.newest[key]

    def long(self):
        """The same writer, whose round is a million puts."""
        self.all = LONG
        return self

    def round(self):
        all_ = self.all
        took = []
        ours = []
        tables = []
        held = None
        for first in range(self.count, self.count + all_, self.batch):
            took.append(self.write(first))
            time.sleep(self.pause)
            while (first - self.count + self.batch) * 8 >= all_ * (len(ours) + 1):
                ours.append(used(self.shell.folder))
                tables.append(self.shell.levels())
                self.read(held)
                if len(ours) == 2:
                    held = self.hold()
        self.expect("release", self.shell.ask(f"release {held[0]}"), "released")
        theirs, self.they_wrote = self.other.bring_in(self.count, all_)
        self.count += all_
        return sorted(took), list(zip(ours, theirs, strict=True)), tables

    def judge(self, took, looks, seen):
        disk, theirs = at_rest(self.shell.folder), used(self.theirs)
        tables, total = self.shell.levels()
        came = (self.count - self.loaded) * (16 + SIZE)
        wrote = self.shell.written() - self.we_had
        each, ratio = wrote / came, wrote / (self.they_wrote - self.they_had)
        midst, rest = max(our / (their + MORE / IN_THE_MIDST) for our, their in looks), disk / theirs
        most = TABLES + TABLES_EACH * total / TARGET
        parts = max(some / (TABLES + TABLES_MORE + TABLES_EACH * all_ / TARGET) for some, all_ in seen)
        slow, memory = took[len(took) * 99 // 100], self.shell.memory()
        print(
            f"{self.name}: {self.count} puts, {sum(took) / self.all * 1e6:.0f} us each, of 100 batches one"
            f" {slow * 1e3:.0f} ms, the worst {took[-1] * 1e3:.0f}; {tables} tables of {total} bytes, before at most"
            f" {parts:.2f} of their bound; disk {disk},"
            f" {rest:.2f} of LevelDB's, before at most {midst:.2f} of LevelDB's and 32 KiB;"
            f" {manifests(self.shell.folder)} manifests; {memory >> 10} KiB of memory; written {each:.1f} a byte,"
            f" {ratio:.2f} of LevelDB's",
            flush=True,
        )
        self.figures = (tables / most, each, ratio, midst, rest, slow, memory)
        self.rounds.append((disk, theirs, *self.figures))
        bad, self.bad = self.bad, []
        for our, their in looks:
            if our >= IN_THE_MIDST * their + MORE:
                bad.append(f"in the midst it had {our} bytes on the disk, LevelDB {their}")
        if disk >= AT_REST * theirs:
            bad.append(f"at rest it has {disk} bytes on the disk, LevelDB {theirs}")
        if manifests(self.shell.folder) != 1:
            bad.append("it has other manifests than its own")
        if tables >= most:
            bad.append(f"{tables} tables are not below {most:.0f}")
        if parts >= 1:
            bad.append(f"in the midst it had {parts:.2f} times as many tables as it may have")
        if each >= MOST[self.kind][self.batch]:
            bad.append(f"it wrote {each:.1f} bytes for a byte that came in")
        if self.all == LONG and ratio >= TIMES:
            bad.append(f"it wrote {ratio:.2f} times what LevelDB wrote")
        if slow >= SLOWEST:
            bad.append(f"one batch in a hundred took {slow:.2f} s")
        if memory >= MEMORY + RECORDS * ((self.count - self.loaded) // self.batch):
            bad.append(f"it had {memory} bytes of memory")
        for key in random.sample(sorted(self.newest), min(20, len(self.newest))):
            said = self.shell.get(key)
            if said != f"value {self.newest[key]}":
                bad.append(f"get {key} was answered {said}")
        return [f"{self.name}: {it}" for it in bad]

    def killed(self):
        """Kills the shell in the midst of as many writes as a quarter of a round has. All that was
        answered before is there."""
        count = self.count
        all_ = max(min(self.all, ROUND[self.batch]) // 4 // self.batch, 2) * self.batch
        for first in range(count, count + all_, self.batch):
            self.write(first)
            if first - count == all_ // self.batch // 2 * self.batch:
                self.shell.kill()
                for key in random.sample(sorted(self.newest), min(20, len(self.newest))):
                    self.expect(f"get {key}", self.shell.get(key), f"value {self.newest[key]}")
                for key, value in self.last.items():
                    self.expect(f"get {key}", self.shell.get(key), f"value {value}")
        self.other.bring_in(count, all_)
        self.count += all_
        return [f"{self.name}: behind a kill {it}" for it in self.bad]

    def open_again(self):
        """Closes the database, and opens it twice, as a program would that runs now and then."""
        before = used(self.theirs)
        for _ in range(2):
            self.shell.end()
            self.shell = Shell(self.lsm, self.shell.folder)
            self.shell.levels()
            self.other.end()
            self.other = LevelDB(self.leveldb, self.theirs, self.kind, self.batch)
            self.other.bring_in(self.count, 0)
        disk, theirs = at_rest(self.shell.folder), max(before, used(self.theirs))
        left = manifests(self.shell.folder)
        self.shell.end()
        self.other.end()
        print(f"{self.name}: opened twice: {left} manifests; disk {disk}, LevelDB {theirs}", flush=True)
        bad = []
        if left != 1:
            bad.append(f"{left} manifests are left by openings")
        if disk >= OPENED * theirs:
            bad.append(f"opened again it has {disk} bytes on the disk, LevelDB {theirs}")
        return [f"{self.name}: {it}" for it in bad]


PANELS = (
    ("bytes on the disk at rest for one of LevelDB's", lambda it: it[0] / it[1]),
    ("tables, of their bound", lambda it: it[2]),
    ("bytes written for one of LevelDB's", lambda it: it[4]),
    ("one batch in a hundred took longer, ms", lambda it: it[7] * 1e3),
    ("memory, MiB", lambda it: it[8] / (1 << 20)),
)
WIDE, HIGH, EDGE = 640, 150, 40


def drawn(writers):
    """A drawing with a panel for each kind of figure, a line for each writer, over their rounds."""
    parts = []
    for panel, (title, figure) in enumerate(PANELS):
        top = EDGE + panel * (HIGH + EDGE)
        lines = [(writer.name, [figure(it) for it in writer.rounds]) for writer in writers if writer.rounds]
        most = max(max(line) for _, line in lines) or 1
        longest = max(max(len(line) for _, line in lines) - 1, 1)
        parts.append(f'<text x="{EDGE}" y="{top - 6}">{title}: up to {most:.3g}</text>')
        parts.append(f'<rect x="{EDGE}" y="{top}" width="{WIDE}" height="{HIGH}" fill="none" stroke="#ccc"/>')
        for i, (name, line) in enumerate(lines):
            points = [
                f"{EDGE + at * WIDE / longest:.1f},{top + HIGH - value * HIGH / most:.1f}" for at, value in enumerate(line)
            ]
            points += points[-1:] if len(points) > 1 else [f"{EDGE + 6},{points[0].split(',')[1]}"]
            colour = f"hsl({i * 360 // len(lines)},70%,45%)"
            parts.append(f'<polyline points="{" ".join(points)}" fill="none" stroke="{colour}"><title>{name}</title></polyline>')
            if not panel:
                parts.append(f'<text x="{WIDE + EDGE + 10}" y="{EDGE + 12 + i * 14}" fill="{colour}">{name}</text>')
    wide, high = WIDE + EDGE + 180, len(PANELS) * (HIGH + EDGE) + EDGE
    head = f'<svg xmlns="http://www.w3.org/2000/svg" width="{wide}" height="{high}" font-family="sans-serif" font-size="12">'
    return "\n".join([head, *parts, "</svg>", ""])


def main():
    lsm, leveldb, folder, seconds, *plot = sys.argv[1:]
    end = time.monotonic() + float(seconds)
    bad = []
    worst_of = [0.0] * 7
    done = []
    if float(seconds) >= LONG_FROM:
        for kind in LONG_KINDS:
            writer = Writer(lsm, leveldb, folder, kind, 1, "-million").long()
            done.append(writer)
            bad += writer.judge(*writer.round()) + writer.killed() + writer.open_again()
            worst_of = [max(pair) for pair in zip(worst_of, writer.figures)]
    writers = [Writer(lsm, leveldb, folder, kind, batch) for kind in KINDS for batch in BATCHES]
    writers += [Writer(lsm, leveldb, folder, kind, 1, "-slow").slow() for kind in SLOW_KINDS]
    rounds = 0
    while (time.monotonic() < end or not rounds) and not bad:
        rounds += 1
        for writer in writers:
            bad += writer.judge(*writer.round())
            worst_of = [max(pair) for pair in zip(worst_of, writer.figures)]
    for writer in writers:
        bad += writer.killed() + writer.open_again()
    for it in bad:
        print(it)
    for file in plot:
        with open(file, "w") as out:
            out.write(drawn(done + writers))
    full, each, ratio, midst, rest, slow, memory = worst_of
    print(
        f"{rounds} rounds of {len(writers)} writers: tables at most {full:.2f} of their bound; written at most {each:.1f} a byte"
        f" and {ratio:.1f} times LevelDB's; disk at most {midst:.2f} times LevelDB's and 32 KiB in the midst, {rest:.2f} times"
        f" LevelDB's at rest; of 100 batches one at most {slow * 1e3:.0f} ms; {memory >> 20} MiB of memory"
    )
    return 1 if bad else 0


sys.exit(main())
