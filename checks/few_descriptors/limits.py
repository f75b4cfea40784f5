#!/usr/bin/env python3
"""How many tables `lsm` keeps open at a time: one reader of a folder a sixteenth of the process's descriptors at most, and 1,000 at most,
all workers together a quarter.

  limits.py LSM FOLDER

LSM is the program, FOLDER an empty folder. Folders of many small tables are made there, byte by byte. `lsm scan` and `lsm check` run on
those that have more than twice as many as may be open, `lsm compact` by 8 workers on one whose level 0 has 64 jobs. What they print goes
into a pipe that has room for little, so that they wait to be read; they are stopped while their descriptors are counted in /proc. Ends
with status 1 where there are more than the limit, or fewer than show that the limit was reached.
"""
import fcntl
import os
import resource
import select
import signal
import subprocess
import sys

GROUPS, BELOW = 64, 12  # tables of level 0 for the workers, and how many tables of level 1 each meets
WORKERS = 8


def stop(why):
    sys.exit(f"few_descriptors: {why}")


# ---- tables and a manifest, as docs/FORMATS.md has them


def crc_table():
    for byte in range(256):
        for _ in range(8):
            byte = byte >> 1 ^ (0x82F63B78 if byte & 1 else 0)
        yield byte


CRC = list(crc_table())


def masked_crc(data):
    crc = 0xFFFFFFFF
    for byte in data:
        crc = CRC[(crc ^ byte) & 0xFF] ^ crc >> 8
    crc ^= 0xFFFFFFFF
    return ((crc >> 15 | crc << 17) + 0xA282EAD8 & 0xFFFFFFFF).to_bytes(4, "little")


def varint(number):
    out = b""
    while number >= 128:
        out, number = out + bytes([number & 127 | 128]), number >> 7
    return out + bytes([number])


def slice_of(data):
    return varint(len(data)) + data


def internal(key, sequence):
    return key + (sequence << 8 | 1).to_bytes(8, "little")


def table(pairs, each=0):
    """A table of data blocks of so many entries each, or of one block. No entry shares its key's beginning with the one before."""
    file = b""

    def block(entries):
        nonlocal file
        data = b"".join(varint(0) + varint(len(key)) + varint(len(value)) + key + value for key, value in entries)
        data += (0).to_bytes(4, "little") + (1).to_bytes(4, "little")
        handle = varint(len(file)) + varint(len(data))
        file += data + b"\0" + masked_crc(data + b"\0")
        return handle

    each = each or len(pairs)
    parts = [pairs[at : at + each] for at in range(0, len(pairs), each)]
    named = [(part[-1][0], block(part)) for part in parts]
    meta, index = block([]), block(named)
    return file + (meta + index).ljust(40, b"\0") + bytes.fromhex("57fb808b247547db")


def log(record):
    """A log of one record."""
    out, first = b"", True
    while first or record:
        part, record = record[: 32768 - 7], record[32768 - 7 :]
        kind = bytes([(1 if first else 4) if not record else (2 if first else 3)])
        out += masked_crc(kind + part) + len(part).to_bytes(2, "little") + kind + part
        first = False
    return out


def make(folder, levels):
    """A database of these tables: (level, its pairs of user keys, sequences and values)."""
    os.makedirs(folder)
    adds = b""
    for number, (level, entries) in enumerate(levels, 2):
        pairs = [(internal(key, sequence), value) for key, sequence, value in entries]
        data = table(pairs)
        with open(f"{folder}/{number:06}.ldb", "wb") as file:
            file.write(data)
        adds += varint(7) + varint(level) + varint(number) + varint(len(data)) + slice_of(pairs[0][0]) + slice_of(pairs[-1][0])
    numbers = varint(2) + varint(0) + varint(3) + varint(len(levels) + 3) + varint(4) + varint(9)
    with open(f"{folder}/MANIFEST-000001", "wb") as file:
        file.write(log(varint(1) + slice_of(b"leveldb.BytewiseComparator") + numbers + adds))
    with open(f"{folder}/CURRENT", "w", encoding="ascii") as file:
        file.write("MANIFEST-000001\n")


# ---- what a process has open


class Watched:
    """A run of `lsm` with so many descriptors; the most tables of a folder that it had open at a time, of those that were there before."""

    def __init__(self, lsm, descriptors, *words):
        limit = (descriptors, resource.getrlimit(resource.RLIMIT_NOFILE)[1])
        self.tables = {name for name in os.listdir(words[1]) if name.endswith(".ldb")}
        self.most = self.longest = 0
        self.end, end = os.pipe()
        fcntl.fcntl(end, fcntl.F_SETPIPE_SZ, 4096)
        self.ran = subprocess.Popen([lsm, *words], stdout=end, stderr=end, preexec_fn=lambda: resource.setrlimit(resource.RLIMIT_NOFILE, limit))
        os.close(end)
        said = self.read()
        if self.ran.wait():
            stop(f"lsm {' '.join(words)} ends with {self.ran.returncode}: {said[-200:]}")

    def read(self):
        """Reads what is printed bit by bit, and counts in between."""
        said = b""
        while True:
            self.look()
            if select.select([self.end], [], [], 0.0005)[0]:
                more = os.read(self.end, 4096)
                said = said[-1000:] + more
                if not more:
                    os.close(self.end)
                    return said

    def look(self):
        place = f"/proc/{self.ran.pid}/fd"
        try:
            if len(os.listdir(place)) < self.longest or not self.stops():
                return
            numbers = os.listdir(place)
        except OSError:
            return  # it has ended
        self.longest = max(self.longest, len(numbers))
        self.most = max(self.most, sum(self.is_table(f"{place}/{number}") for number in numbers))
        self.ran.send_signal(signal.SIGCONT)

    def stops(self):
        """Stops it, so that nothing is opened or closed while that is counted. Whether it had not ended."""
        self.ran.send_signal(signal.SIGSTOP)
        state = os.waitid(os.P_PID, self.ran.pid, os.WSTOPPED | os.WEXITED | os.WNOWAIT)
        return state.si_code == os.CLD_STOPPED

    def is_table(self, place):
        try:
            return os.path.basename(os.readlink(place)) in self.tables
        except OSError:
            return False


def among(what, most, low, high):
    if not low <= most <= high:
        stop(f"{what}: {most} tables open at a time, not {low} to {high}")
    return f"{what} {most}"


def one_reader(lsm, folder, descriptors):
    """A scan of the tables of one level; and the second look of a check, of two levels whose ages neither ranges nor sequences settle."""
    most, value = min(descriptors // 16, 1000), b"v" * 1000
    count, key = 2 * most + 500, b"key%06d"
    make(f"{folder}/one", [(6, [(key % i, 1, value)]) for i in range(count)])
    pairs = [(level, [(key % (2 * i), newest, value), (key % (2 * i + 1), newest - 6, value)]) for level, newest in [(5, 9), (6, 8)] for i in range(count // 2)]
    make(f"{folder}/two", pairs)
    # one more may be read whole
    return [
        among(f"{words[0]} with {descriptors} descriptors", Watched(lsm, descriptors, *words).most, most, most + 1)
        for words in [["scan", f"{folder}/one"], ["check", f"{folder}/two", "--progress"]]
    ]


def all_workers(lsm, folder):
    value, below = b"v" * 2000, [b"%02d" % i for i in range(BELOW)]
    key = [b"key%04d" % group for group in range(GROUPS)]
    levels = [(1, [(key[group] + end + it, 1, value) for it in [b"a", b"b"]]) for group in range(GROUPS) for end in below]
    levels += [(0, [(key[group] + below[0], 2, value), (key[group] + below[-1] + b"z", 2, value)]) for group in range(GROUPS)]
    make(folder, levels)
    descriptors = 64
    run = Watched(lsm, descriptors, "compact", folder, "--workers", str(WORKERS), "--progress")
    # each worker may read one more, which it closes then
    most = descriptors // 4
    return [among(f"compact by {WORKERS} workers with {descriptors} descriptors", run.most, most - 2, most + WORKERS)]


def main(lsm, folder):
    hard, said = resource.getrlimit(resource.RLIMIT_NOFILE)[1], []
    for descriptors in [128, 512, 20000]:
        if descriptors <= hard or hard == resource.RLIM_INFINITY:
            said += one_reader(lsm, f"{folder}/{descriptors}", descriptors)
        else:
            said.append(f"{descriptors} descriptors are not to be had")
    said += all_workers(lsm, f"{folder}/jobs")
    print(f"few_descriptors: the most tables open: {'; '.join(said)}")


if __name__ == "__main__":
    if len(sys.argv) != 3:
        sys.exit(__doc__)
    main(*sys.argv[1:])
