#!/usr/bin/env python3
"""The content of a directory as a plain sorted list, by nothing of this repository: lines KEY=VALUE in hex, `.` for no bytes,
ascending by the bytes of the key.

  plain.py batch LIST SEED COUNT VALUE  a batch for `lsm ingest`: keys of the list written over or deleted, and keys that are not in it;
                                   so many writes at most, with values of so many bytes at most
  plain.py apply LIST BATCH        the list with a batch applied
  plain.py keys LIST SEED COUNT    some keys, in the list and not, one a line
  plain.py answers LIST KEYS       what `lsm get` says of each of these keys
  plain.py files                   standard input: the edits of a manifest as LevelDB prints them; the files that they come to, as
                                   `lsm list` lists them (a level from its smallest key on)
"""
import random
import re
import sys

BATCH_BYTES = 4 << 20  # a batch's limits (crates/lsm_batch)
KEY_BYTES = 4096


def spell(data):
    return data.hex() or "."


def read(word):
    return b"" if word == "." else bytes.fromhex(word)


def load(name):
    pairs = {}
    with open(name) as lines:
        for line in lines:
            key, _, value = line.rstrip("\n").partition("=")
            pairs[read(key)] = value
    return pairs


def batch_lines(batch):
    """A batch, None for a deletion, as the file that `lsm ingest` reads."""
    return [f"{spell(key)}!" if batch[key] is None else f"{spell(key)}={batch[key]}" for key in sorted(batch)]


def list_lines(pairs):
    return [f"{spell(key)}={pairs[key]}" for key in sorted(pairs)]


def other_key(rng, keys):
    """A key that may or may not be there: beside one that is, before all, after all, or of any bytes."""
    near = rng.choice(keys) if keys else b"k"
    kind = rng.randrange(5)
    if kind == 0:
        return near + rng.randbytes(rng.randrange(1, 4))
    if kind == 1:
        return near[: rng.randrange(len(near) + 1)]
    if kind == 2:
        return b"\xff" * rng.randrange(1, 4) + near[:8]
    return rng.randbytes(rng.randrange(20))


def draw(rng, pairs, count, value_bytes):
    keys = sorted(pairs)
    batch, total = {}, 0
    for _ in range(count):
        key = rng.choice(keys) if keys and rng.random() < 0.7 else other_key(rng, keys)
        if len(key) > KEY_BYTES:
            continue
        value = None if rng.random() < 0.3 else rng.randbytes(rng.randrange(value_bytes + 1))
        total += len(key) + len(value or b"")
        if total > BATCH_BYTES:
            break
        batch[key] = None if value is None else spell(value)
    return batch or {b"a": "."}


def apply(pairs, batch):
    after = dict(pairs)
    for key, value in batch.items():
        if value is None:
            after.pop(key, None)
        else:
            after[key] = value
    return after


def load_batch(name):
    batch = {}
    with open(name) as lines:
        for line in lines:
            line = line.rstrip("\n")
            if line.endswith("!"):
                batch[read(line[:-1])] = None
            else:
                key, _, value = line.partition("=")
                batch[read(key)] = value
    return batch


def unescape(text):
    return re.sub(rb"\\x([0-9a-f]{2})", lambda it: bytes([int(it[1], 16)]), text.encode())


def file_lines(lines):
    files = {}
    end = r"'(.*)' @ (\d+) : ([01])"
    for line in lines:
        line = line.strip()
        parts = re.fullmatch(r"AddFile: (\d) (\d+) (\d+) " + end + r" \.\. " + end, line)
        gone = re.fullmatch(r"RemoveFile: (\d) (\d+)", line)
        if parts:
            level, number, size = (int(parts[i]) for i in (1, 2, 3))
            ends = [(unescape(parts[i]), int(parts[i + 1]), int(parts[i + 2])) for i in (4, 7)]
            files[level, number] = (ends[0][0], -ends[0][1], number), size, ends
        elif gone:
            del files[int(gone[1]), int(gone[2])]
        elif line.startswith(("AddFile", "RemoveFile", "DeleteFile")):
            sys.exit(f"an edit that this script does not know: {line}")
    for level, number in sorted(files, key=lambda it: (it[0], files[it][0])):
        _, size, ends = files[level, number]
        words = [f"{spell(key)}@{sequence}{'+' if kind else '-'}" for key, sequence, kind in ends]
        yield f"{level} {number} {size} {words[0]} {words[1]}"
    yield "end"


def main(words):
    if words[:1] == ["batch"]:
        lines = batch_lines(draw(random.Random(words[2]), load(words[1]), int(words[3]), int(words[4])))
    elif words[:1] == ["apply"]:
        lines = list_lines(apply(load(words[1]), load_batch(words[2])))
    elif words[:1] == ["keys"]:
        rng, keys = random.Random(words[2]), sorted(load(words[1]))
        some = [rng.choice(keys) if keys and i % 2 == 0 else other_key(rng, keys) for i in range(int(words[3]))]
        lines = [spell(key) for key in some]
    elif words[:1] == ["answers"]:
        pairs = load(words[1])
        with open(words[2]) as keys:
            some = [read(key.rstrip("\n")) for key in keys]
        lines = [f"value {pairs[key]}" if key in pairs else "absent" for key in some]
    elif words == ["files"]:
        lines = file_lines(sys.stdin)
    else:
        sys.exit(__doc__)
    sys.stdout.writelines(f"{line}\n" for line in lines)


def quick_differs(run, path, content, rng):
    """The first of `scan`, `list` and `get` that prints other things with --quick, or none; `run` takes the words."""
    key = rng.choice(sorted(content)) if content and rng.random() < 0.8 else b"no key"
    for words in (["scan", path], ["list", path], ["get", path, spell(key)]):
        whole, quick = run(*words), run(*words, "--quick")
        if whole != quick:
            return f"lsm {' '.join(words)} has status {whole[0]}, and with --quick {quick[0]}, says: {quick[2][:200]}"
    return None


def besides_crash(said):
    """What is said beside the notes of what a crash leaves: a manifest that ends within a record, and
    one that was begun, and that `CURRENT` does not name yet."""
    said = re.sub(r"note: the last [^\n]* of the manifest hold[^\n]* no whole record[^\n]*\n", "", said)
    return re.sub(r"note: CURRENT names MANIFEST-\d+, and MANIFEST-\d+ is there\n", "", said)


if __name__ == "__main__":
    main(sys.argv[1:])
