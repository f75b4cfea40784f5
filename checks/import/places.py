"""Damage to a folder of LevelDB's, by the place where it is: a log, a data block of a table, or
the rest of one."""

import os
import sys

sys.path.insert(0, os.path.join(os.path.dirname(os.path.abspath(__file__)), "..", "refusals"))
import reading  # noqa: E402

LOG, BLOCK, REST = PLACES = ("log", "block", "table elsewhere")
SHARES = (2, 2, 1)  # of so many damages so many fifths are in each place
CUT = 0.2  # the share of logs and tables that are cut instead


def shared_out(count):
    """The place of each of so many damages."""
    shares = [count * share // sum(SHARES) for share in SHARES]
    shares[0] += count - sum(shares)
    return [place for place, share in zip(PLACES, shares) for _ in range(share)]


def files(folder, place):
    """The logs of a folder that are not empty, or the tables that its manifest names."""
    if place == LOG:
        return sorted(path for path in folder.glob("*.log") if path.stat().st_size > 0)
    tables, _ = reading.version((folder / (folder / "CURRENT").read_text().strip()).read_bytes())
    return [folder / f"{number:06}.ldb" for number in sorted(tables)]


def ranges(path, place, is_compressed):
    """The parts of a file that are of this place, each by its first byte and how many it has."""
    if place == LOG:
        return [(0, path.stat().st_size)]
    table = path.read_bytes()
    try:
        blocks = [(at, size + 5) for _, at, size in reading.index(table, is_judged=False)]
    except reading.Damaged:
        return []
    if place == BLOCK:
        return [(at, size) for at, size in blocks if not is_compressed or table[at + size - 5] == 1]
    behind = sum(blocks[-1]) if blocks else 0
    return [(behind, len(table) - behind)]


def damage(drawn, folder, place, is_compressed=False):
    """Damages a file of the folder there: the file, and what was done to it; none where the folder
    has no such place. With `is_compressed` blocks are those that Snappy compressed."""
    for path in drawn.sample(found := files(folder, place), len(found)):
        parts = ranges(path, place, is_compressed)
        if not parts:
            continue
        at, size = drawn.choice(parts)
        data = bytearray(path.read_bytes())
        if place != BLOCK and drawn.random() < CUT:
            end = drawn.randrange(len(data))
            path.write_bytes(data[:end])
            return path, f"{path.name} cut at {end}"
        byte = at + drawn.randrange(size)
        data[byte] ^= 1 << drawn.randrange(8)
        path.write_bytes(data)
        return path, f"a bit of byte {byte} of {path.name} flipped"
    return None
