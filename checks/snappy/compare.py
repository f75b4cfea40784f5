#!/usr/bin/env python3
"""compare.py WANTED FOUND N: whether both have the same frames; of the last N a refusal is right too."""

import sys


def frames(path):
    data = open(path, "rb").read()
    found, at = [], 0
    while at < len(data):
        if data[at] == 0:
            found.append(None)
            at += 1
        else:
            size = int.from_bytes(data[at + 1 : at + 9], "little")
            found.append(data[at + 9 : at + 9 + size])
            at += 9 + size
    return found


wanted, found = frames(sys.argv[1]), frames(sys.argv[2])
loose = int(sys.argv[3])
if len(wanted) != len(found):
    sys.exit(f"{len(found)} answers to {len(wanted)} questions")
refused = 0
for place, (want, got) in enumerate(zip(wanted, found)):
    if got is None and place >= len(wanted) - loose:
        refused += 1
    elif want != got:
        sys.exit(f"{place} differs: {want is not None and len(want)} wanted, {got is not None and len(got)} found")
print(f"{loose} with a bit flipped: {refused} refused, else the same")
