#!/usr/bin/env python3
"""How the processor time of `lsm` and of `lsm_server` grows with the tables of a folder, and the memory of `lsm` with files that are too
large.

  growth.py LSM SERVER FOLDER

LSM and SERVER are the programs, FOLDER an empty folder. Folders are made there, byte by byte. Ends with status 1 where one that has more
tables takes longer than its bound allows, or a file of four times as many bytes that is refused more memory.
"""
import os
import random
import resource
import socket
import subprocess
import sys

sys.path.insert(0, os.path.join(os.path.dirname(os.path.abspath(__file__)), "..", "few_descriptors"))
from limits import log, slice_of, table, varint  # noqa: E402

FEW, MANY = 2000, 8000  # tables below deletions
SLACK = 0.1  # seconds of the processor, which a machine may take more or less
DELETIONS = 10000  # of each of the four tables of level 0
READ_FEW, READ_MANY = 50, 250  # tables that are read
DESCRIPTORS = 16 * READ_MANY + 64  # so that each of these stays open
BLOCKS = 64  # of each of these, more than a channel's cache has room for
READS, AT_ONCE = 100000, 100  # reads, and how many a request has
SCAN_FEW, SCAN_MANY = 1000, 2000  # tables in which scans begin
SCANS = 20000
TURNS = 3  # of a server; the least time counts
SPARE = 8 << 20  # bytes of memory, which a run may take more or less


def stop(why):
    sys.exit(f"growth: {why}")


def value(key, sequence, text):
    return key + (sequence << 8 | 1).to_bytes(8, "little"), text


def deletion(key, sequence):
    return key + (sequence << 8).to_bytes(8, "little"), b""


def make(folder, tables, each=0):
    """A database of these tables: the level of each, and its internal keys and values, so many a block, or all in one."""
    os.makedirs(folder)
    adds = b""
    for number, (level, pairs) in enumerate(tables, 2):
        data = table(pairs, each)
        with open(f"{folder}/{number:06}.ldb", "wb") as file:
            file.write(data)
        adds += varint(7) + varint(level) + varint(number) + varint(len(data)) + slice_of(pairs[0][0]) + slice_of(pairs[-1][0])
    numbers = varint(2) + varint(0) + varint(3) + varint(len(tables) + 3) + varint(4) + varint(9)
    with open(f"{folder}/MANIFEST-000001", "wb") as file:
        file.write(log(varint(1) + slice_of(b"leveldb.BytewiseComparator") + numbers + adds))
    with open(f"{folder}/CURRENT", "w", encoding="ascii") as file:
        file.write("MANIFEST-000001\n")


def seconds(*words, lines=""):
    """Of the processor."""
    before = resource.getrusage(resource.RUSAGE_CHILDREN)
    ran = subprocess.run(words, input=lines.encode(), stdout=subprocess.PIPE, stderr=subprocess.STDOUT, check=False)
    after = resource.getrusage(resource.RUSAGE_CHILDREN)
    if ran.returncode:
        stop(f"{' '.join(words)} ends with {ran.returncode}: {ran.stdout[-200:]}")
    return after.ru_utime - before.ru_utime + after.ru_stime - before.ru_stime


def bounded(what, tables, times, most):
    few, many = times
    said = f"{what}: {few:.2f} s over {tables[0]} tables, {many:.2f} s over {tables[1]}"
    if many > most * few + SLACK:
        stop(f"{said}, which is more than {most} times as much")
    print(said)


def deletions(lsm, folder, deeper):
    """A compaction of deletions that no table two levels down covers, without the check that it begins with."""
    below = [(2, [value(b"a%07d" % i, 1, b"v")]) for i in range(deeper)]
    above = [(0, [deletion(b"b%07d" % i, 2 + turn) for i in range(DELETIONS)]) for turn in range(4)]
    make(folder, above + below)
    check = seconds(lsm, "check", folder)
    return seconds(lsm, "compact", folder, "--workers", "1") - check


# ---- a server, as docs/PROTOCOL.md has it


def four(number):
    return number.to_bytes(4, "little")


def text(data):
    return four(len(data)) + data


def answered(channel):
    size = int.from_bytes(channel.recv(4, socket.MSG_WAITALL), "little")
    answer = channel.recv(size, socket.MSG_WAITALL)
    if not answer or answer[0]:
        stop(f"the server answers {answer[:40]}")
    return answer[1:]


def served(server, folder, requests):
    """The processor time of a server that answers these requests on one channel, and the answers."""
    own, its = socket.socketpair()
    opening = four(its.fileno()) + four(1) + four(0) + b"\0" + text(os.fsencode(folder))
    ran = subprocess.Popen([server], stdin=subprocess.PIPE, pass_fds=[its.fileno()])
    its.close()
    ran.stdin.write(text(opening))
    ran.stdin.flush()
    answered(own)
    answers = []
    for request in requests:
        own.sendall(text(request))
        answers.append(answered(own))
    own.close()
    ran.stdin.close()
    _pid, status, used = os.wait4(ran.pid, 0)
    ran.returncode = os.waitstatus_to_exitcode(status)
    if ran.returncode:
        stop(f"{server} ends with {ran.returncode}")
    return used.ru_utime + used.ru_stime, answers


def least(server, folder, requests, answers):
    """The least time of several turns, without the opening."""
    times = []
    for _turn in range(TURNS):
        opening, _none = served(server, folder, [])
        whole, given = served(server, folder, requests)
        if given != answers:
            stop(f"{folder}: the server answers something else")
        times.append(whole - opening)
    return min(times)


def reads(server, folder, tables):
    """Drawn keys of tables that have more blocks than a cache has room for."""
    keys = [[b"k%05d%05d" % (number, at) for at in range(BLOCKS)] for number in range(tables)]
    make(folder, [(2, [value(key, 1, b"v" * 64) for key in own]) for own in keys], 1)
    drawn = random.Random(tables)
    asked = [[drawn.choice(drawn.choice(keys)) for _ in range(AT_ONCE)] for _ in range(READS // AT_ONCE)]
    requests = [b"\2\0" + b"".join(map(text, some)) for some in asked]
    return least(server, folder, requests, [(b"\1" + text(b"v" * 64)) * AT_ONCE] * len(requests))


def scans(server, folder, tables):
    """Scans of one pair each, from drawn keys on."""
    make(folder, [(2, [value(b"k%07d" % i, 1, b"v")]) for i in range(tables)])
    drawn = random.Random(tables)
    keys = [b"k%07d" % drawn.randrange(100) for _ in range(SCANS)]
    requests = [b"\3\0" + text(key) + b"\0" + four(1) for key in keys]
    return least(server, folder, requests, [b"\0" + text(key) + text(b"v") for key in keys])


# ---- memory


def peak(refusal, *words):
    """The most memory that a refused command had, in bytes."""
    ran = subprocess.Popen(words, stdout=subprocess.PIPE, stderr=subprocess.STDOUT)
    said = ran.stdout.read().decode()
    _pid, status, used = os.wait4(ran.pid, 0)
    ran.returncode = os.waitstatus_to_exitcode(status)
    if ran.returncode != 1 or not said.startswith(refusal):
        stop(f"{' '.join(words)} ends with {ran.returncode}, not {refusal}: {said[-200:]}")
    return used.ru_maxrss << 10


def refused_unread(lsm, folder, name, refusal, few):
    """A file that is too large is refused before it is read."""
    make(folder, [(2, [value(b"a", 1, b"v")])])
    most = []
    for size in (few, 4 * few):
        os.truncate(f"{folder}/{name}", size)
        most.append(peak(refusal, lsm, "check", folder))
    said = f"{name} of {few} bytes: {most[0] >> 20} MB, of {4 * few}: {most[1] >> 20} MB"
    if most[1] > most[0] + SPARE or most[0] > few // 2:
        stop(f"{said}, which is read before it is refused")
    print(said)


def raise_descriptors():
    _soft, hard = resource.getrlimit(resource.RLIMIT_NOFILE)
    if hard != resource.RLIM_INFINITY and hard < DESCRIPTORS:
        stop(f"needs {DESCRIPTORS} descriptors, of which a reader keeps a sixteenth open; the limit is {hard}")
    resource.setrlimit(resource.RLIMIT_NOFILE, (DESCRIPTORS, hard))


def main(lsm, server, folder):
    raise_descriptors()
    refused_unread(lsm, f"{folder}/manifest", "MANIFEST-000001", "refused 9 Device", (1 << 30) + 1)
    refused_unread(lsm, f"{folder}/current", "CURRENT", "refused 10 Missing", 64 << 20)
    tables = FEW, MANY
    bounded(f"a compaction of {4 * DELETIONS} deletions", tables, [deletions(lsm, f"{folder}/deletions{count}", count) for count in tables], 2)
    tables = READ_FEW, READ_MANY
    bounded(f"{READS} reads", tables, [reads(server, f"{folder}/reads{count}", count) for count in tables], 1.3)
    tables = SCAN_FEW, SCAN_MANY
    bounded(f"{SCANS} scans of a pair", tables, [scans(server, f"{folder}/scans{count}", count) for count in tables], 1.3)


if __name__ == "__main__":
    if len(sys.argv) != 4:
        sys.exit(__doc__)
    main(*sys.argv[1:])
