"""What `--to-first-fault` may bring in of damaged logs: a front of the writes in their order."""

import os
import re
import sys

sys.path.insert(0, os.path.join(os.path.dirname(os.path.abspath(__file__)), "..", "refusals"))
import reading  # noqa: E402

NOTE = re.compile(rb"note: (\d{6})\.log has (\d+) (\w+): its last (\d+) bytes and (\d+) later logs are left out\n")


def logs_of(folder):
    """The logs that are not empty, by their numbers."""
    return sorted(path for path in folder.glob("*.log") if path.stat().st_size > 0)


def batches(data):
    """The batches of a whole log: of each its writes, a key with its value or with none, and the
    place of the first byte behind it."""
    found, parts, at = [], b"", 0
    while at + 7 <= len(data):
        if 32768 - at % 32768 < 7:
            at += 32768 - at % 32768
            continue
        length, kind = int.from_bytes(data[at + 4 : at + 6], "little"), data[at + 6]
        if kind == 0 and length == 0:
            at += 32768 - at % 32768
            continue
        text = data[at + 7 : at + 7 + length]
        parts = text if kind in (1, 2) else parts + text
        at += 7 + length
        if kind in (1, 4):
            found.append((writes(parts), at))
    return found


def writes(batch):
    found, at = [], 12
    while at < len(batch):
        kind = batch[at]
        key, at = reading.prefixed(batch, at + 1)
        value = None
        if kind == 1:
            value, at = reading.prefixed(batch, at)
        found.append((key, value))
    return found


def pairs(text):
    """The pairs that `lsm scan` prints."""
    spelled = lambda word: b"" if word == b"." else bytes.fromhex(word.decode())  # noqa: E731
    return {spelled(key): spelled(value) for key, value in (line.split(b"=") for line in text.splitlines())}


def place_in(what):
    """The place of the damage that `places.damage` tells."""
    return int(re.search(r"byte (\d+)|cut at (\d+)", what).group(1) or re.search(r"cut at (\d+)", what)[1])


def is_front(source, tables, found, hurt, what):
    """Whether these pairs are those of the tables with a front of the batches of the source's logs,
    one that has each batch before the damage of the file of this name."""
    state, before = pairs(tables), True
    found = pairs(found)
    differ = {key for key in state.keys() | found.keys() if state.get(key) != found.get(key)}
    damage = place_in(what)
    for path in logs_of(source):
        for own, end in batches(path.read_bytes()):
            before = before and (path.name < hurt or (path.name == hurt and end <= damage))
            if not before and not differ:
                return True
            for key, value in own:
                if value is None:
                    state.pop(key, None)
                else:
                    state[key] = value
                (differ.discard if state.get(key) == found.get(key) else differ.add)(key)
    return not differ


def told_of(done, name):
    """What is told of what was left out: the log, its fault, the bytes and the later logs; none
    where nothing was."""
    said = done.stderr.replace(b"lsm: unproved build\n", b"")
    if not said:
        return None
    note = NOTE.fullmatch(said)
    if not note:
        sys.exit(f"{name}: to the first fault: {done.stderr.decode()}")
    return int(note[1]), int(note[2]), int(note[4]), int(note[5])
