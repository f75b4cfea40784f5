#!/usr/bin/env python3
"""A folder of many tables, of which all but one are damaged, opened with `--quick`.

  quick.py LSM FOLDER COUNT

The folder is made there: COUNT tables of 2 MiB with two keys each at level 6, sparse: a data block, an
index and a footer, the rest a hole. In each but one a byte of the data block and of the index block is
another one. `get --quick` of a key of the whole one has to answer, within 40 microseconds of processor
time a table and 30 ms, twice that for an unproved build, and of a key of another one to be refused; so
a table that the key is not in is not read. A table that is gone, or is a byte longer, is refused with
its number at once. Prints the processor time. Ends with status 1 where it is not so.
"""
import os
import resource
import subprocess
import sys

sys.path.insert(0, os.path.join(os.path.dirname(os.path.abspath(__file__)), "..", "refusals"))
import files  # noqa: E402

SIZE = 2 << 20
START, EACH = 0.03, 40e-6  # seconds of a proved build's processor time: 0.23 over 5,000 tables, where it took 0.09


def stop(why):
    sys.exit(f"quick: {why}")


def table(entries, is_whole):
    """The front of a table of these entries, and its footer."""
    made = b""

    def put(content):
        nonlocal made
        at = files.handle(len(made), len(content))
        sum_ = files.masked_crc(content + b"\0")
        if not is_whole:
            content = bytes([content[0] ^ 1]) + content[1:]
        made += content + b"\0" + sum_
        return at

    data = put(files.block(entries))
    meta = put(files.block([]))
    index = put(files.block([(entries[-1][0], data)]))
    return made, (meta + index).ljust(40, b"\0") + files.MAGIC.to_bytes(8, "little")


def make(folder, count, whole):
    os.makedirs(folder)
    edits = [["comparator=leveldb.BytewiseComparator", "log=0", f"next={count + 10}", f"last={2 * count + 10}"]]
    for i in range(count):
        keys = [f"k{2 * i:010}@{2 * i + 1}+", f"k{2 * i + 1:010}@{2 * i + 2}+"]
        entries = [(files.internal_key(it), f"v{i}".encode()) for it in keys]
        front, footer = table(entries, i == whole)
        with open(f"{folder}/{i + 5:06}.ldb", "wb") as file:
            file.write(front)
            file.truncate(SIZE - 48)
            file.seek(SIZE - 48)
            file.write(footer)
        if i % 500 == 0:
            edits.append([])
        edits[-1].append(f"add=6,{i + 5},{SIZE},{keys[0]},{keys[1]}")
    with open(f"{folder}/MANIFEST-000003", "wb") as file:
        log = b""
        for edit in edits:
            data = b"".join(files.field(it) for it in edit)
            first = True
            while True:
                room = 32768 - len(log) % 32768
                if room < 7:
                    log += bytes(room)
                    continue
                part, data = data[: room - 7], data[room - 7 :]
                log += files.record(part, {(1, 0): 1, (1, 1): 2, (0, 1): 3, (0, 0): 4}[first, bool(data)])
                first = False
                if not data:
                    break
        file.write(log)
    with open(f"{folder}/CURRENT", "w") as file:
        file.write("MANIFEST-000003\n")


def run(*words):
    """How a run ends, what it prints, and its processor time."""
    before = resource.getrusage(resource.RUSAGE_CHILDREN)
    ended = subprocess.run(words, capture_output=True, text=True, check=False)
    after = resource.getrusage(resource.RUSAGE_CHILDREN)
    return ended, after.ru_utime + after.ru_stime - before.ru_utime - before.ru_stime


def wants(ended, status, out, err):
    if (ended.returncode, ended.stdout) != (status, out) or not ended.stderr.startswith(err):
        stop(f"{' '.join(ended.args)} ends with {ended.returncode}: {ended.stdout[:200]}{ended.stderr[:200]}")


def main():
    lsm, folder, count = sys.argv[1], sys.argv[2], int(sys.argv[3])
    whole = count // 3
    make(folder, count, whole)
    key = f"k{2 * whole:010}"
    least = 1e9
    for _ in range(5):
        ended, took = run(lsm, "get", folder, key, "--text", "--quick")
        wants(ended, 0, f"value v{whole}\n", "")
        least = min(least, took)
    ended, _ = run(lsm, "scan", folder, "--text", "--quick", "--from", key, "--limit", "2")
    wants(ended, 0, f"{key}=v{whole}\nk{2 * whole + 1:010}=v{whole}\n", "")
    ended, _ = run(lsm, "list", folder, "--quick")
    if ended.returncode != 0 or ended.stdout.count("\n") != count + 1:
        stop(f"list --quick prints {ended.stdout.count(chr(10))} lines")
    wants(run(lsm, "get", folder, "k0000000000", "--text", "--quick")[0], 1, "", "refused 15 BadChecksum")
    wants(run(lsm, "get", folder, key, "--text")[0], 1, "", "refused 15 BadChecksum")
    with open(f"{folder}/000007.ldb", "ab") as file:
        file.write(b"\0")
    wants(run(lsm, "get", folder, key, "--text", "--quick")[0], 1, "", "refused 32 WrongRange 7")
    os.remove(f"{folder}/000007.ldb")
    wants(run(lsm, "get", folder, key, "--text", "--quick")[0], 1, "", "refused 10 Missing")
    most = (START + EACH * count) * (2 if "/unproved/" in lsm else 1)
    if least > most:
        stop(f"a get over {count} tables takes {least * 1e3:.0f} ms of processor time, more than {most * 1e3:.0f}")
    print(f"quick: a get over {count} tables, of which one is whole: {least * 1e3:.0f} ms of processor time")


if __name__ == "__main__":
    main()
