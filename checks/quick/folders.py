"""What `get`, `scan` and `list` answer with `--quick` of damaged and of crafted folders.

  folders.py LSM REFUSALS READER LEVELDB WORK SEED COUNT

REFUSALS is checks/refusals/refusals.txt, READER what reader.cc makes, LEVELDB what
checks/leveldb_directories/directory.cc makes, WORK an empty folder. Looked at are the folders that
the rows of REFUSALS make; those of CASES, whose answers are known; pipes in the place of tables;
LevelDB's, of each kind; COUNT copies of some of these, each with one damage; COUNT whose tables,
of right checksums, hold entries, index keys and bounds that were drawn; and tables that spell far
more bytes than they have.

Of each folder:

- a command ends within a minute, with status 0 or 1;
- where `lsm check` is done, `--quick` prints what is printed without it, to the byte;
- status 0 of `list` has the tables of the manifest, as reading.py reads it;
- where it is not, a value, and each line of a scan, also of one that is refused in the midst,
  stands in a whole block of a table of the version, as reading.py reads them;
- status 0 of `get` has what LevelDB's `Get`, or its scan, reads there, `absent` too; that of
  `scan` what its scan reads, which passed nothing over; lines of a scan that is refused are the
  first that it reads. But not where a table's entries are not in order, or beyond the keys of its
  index or of the manifest.

Prints, by the refusal of `lsm check`, how often the three were refused alike, otherwise (by what),
or answered. Ends with status 1 at the first that is otherwise, and leaves the folder.
"""

import collections
import os
import random
import re
import shutil
import subprocess
import sys
from pathlib import Path

HERE = Path(__file__).resolve().parent
sys.path[1:1] = [str(HERE.parent / "refusals"), str(HERE.parent / "import"), str(HERE.parent / "hostile_blocks")]
import files  # noqa: E402
import places  # noqa: E402
import reading  # noqa: E402
import refuse  # noqa: E402
import shared  # noqa: E402

LSM, REFUSALS, READER, LEVELDB, WORK = sys.argv[1], sys.argv[2], sys.argv[3], sys.argv[4], Path(sys.argv[5])
SEED, COUNT = int(sys.argv[6]), int(sys.argv[7])
KINDS = ["small_compacted", "written_over", "bloom", "reopened_often", "span_not_compacted", "small_blocks", "no_restarts"]
ASKED = 6  # keys of a folder that are asked for
DEAD = 60  # seconds in which a command has to end
drawn = random.Random(SEED)


def stop(folder, why):
    sys.exit(f"quick: {folder} (seed {SEED}): {why}")


def spell(data):
    return data.hex() or "."


def bytes_of(word):
    return b"" if word == "." else bytes.fromhex(word)


def run(folder, *words):
    """Status, standard output, and the lines of standard error."""
    try:
        done = subprocess.run([LSM, *words], capture_output=True, text=True, timeout=DEAD, check=False)
    except subprocess.TimeoutExpired:
        stop(folder, f"{words} does not end within {DEAD} s")
    if done.returncode not in (0, 1):
        stop(folder, f"{words} ends with status {done.returncode}: {done.stderr[:300]}")
    return done.returncode, done.stdout, done.stderr.replace("lsm: unproved build\n", "")


def refusal(err):
    """A refusal by its number and name."""
    found = re.search(r"^refused \d+ \w+", err, re.M)
    return found[0].removeprefix("refused ") if found else err.strip()[:60]


class Bytes:
    """What the bytes of a folder say by themselves."""

    def __init__(self, folder):
        self.folder, self.tables, self.held = folder, {}, None
        try:
            name = (folder / "CURRENT").read_text()
            self.tables, _ = reading.version((folder / name.removesuffix("\n")).read_bytes())
        except (OSError, UnicodeDecodeError, ValueError, reading.Damaged):
            pass

    def table(self, number):
        try:
            return reading.pairs((self.folder / f"{number:06}.ldb").read_bytes())
        except (OSError, reading.Damaged):
            return {}

    def holds(self, key, value):
        """Whether a whole block of a table of the version has this value of this key."""
        if self.held is None:
            entries = (entry for number in self.tables for entry in self.table(number).items())
            self.held = {(key[:-8], value) for key, value in entries if key[-8:-7] == b"\1"}
        return (key, value) in self.held

    def is_in_order(self):
        """Whether each table of the version has its entries in order, each block's between two
        keys of its index, and all within those of the manifest, as far as they can be read:
        LevelDB relies on it."""
        for number, (_, _, smallest, largest) in self.tables.items():
            try:
                table = (self.folder / f"{number:06}.ldb").read_bytes()
                index = reading.index(table)
            except (OSError, reading.Damaged):
                continue
            last = order(smallest)
            for bound, offset, size in index:
                try:
                    keys = [order(key) for key, _ in reading.entries(reading.block(table, offset, size))]
                except reading.Damaged:
                    keys = []
                keys = [last, *keys, order(bound)]
                if any(one > other for one, other in zip(keys, keys[1:])) or keys[-2] > order(largest):
                    return False
                last = order(bound)
        return True

    def some_keys(self):
        """User keys of the version, and beside it."""
        found = {end[:-8] for _, _, *ends in self.tables.values() for end in ends}
        if self.tables:
            found.update(key[:-8] for key in self.table(drawn.choice(list(self.tables))))
        found = drawn.sample(sorted(found), min(len(found), ASKED - 1))
        return [*found, drawn.choice([b"zz", b"", drawn.randbytes(3), b"k", b"61"])]

    def list(self):
        """The lines of `list`, but for their order."""
        by = {number: (level, size, ends) for number, (level, size, *ends) in self.tables.items()}
        return sorted(f"{level} {number} {size} {internal(ends[0])} {internal(ends[1])}" for number, (level, size, ends) in by.items())


def internal(key):
    mark = int.from_bytes(key[-8:], "little")
    return f"{spell(key[:-8])}@{mark >> 8}{'+' if mark & 255 else '-'}"


def by_leveldb(folder, keys):
    """What LevelDB answers of these keys, and of a scan the lines and whether it passed nothing
    over; none where it does not open the folder, or fails."""
    copy = WORK / "copy"
    shutil.rmtree(copy, ignore_errors=True)
    shutil.copytree(folder, copy, ignore=shutil.ignore_patterns("*.log", "LOCK"))
    given = "".join(f"{spell(key)}\n" for key in keys)
    try:
        done = subprocess.run([READER, str(copy)], input=given, capture_output=True, text=True, timeout=DEAD, check=False)
    except subprocess.TimeoutExpired:
        return None
    lines = done.stdout.splitlines()
    if done.returncode != 0 or lines == ["unopened"]:
        return None
    return lines[: len(keys)], lines[len(keys) : -1], lines[-1] == "end"


def scanned(theirs, key):
    """What LevelDB's scan says of a key, where it passed nothing over. Its `Get` looks in one
    block of a table, so of a table whose index leads to another one the two differ."""
    _, lines, is_whole = theirs
    found = [line for line in lines if line.startswith(f"{spell(key)}=")]
    return None if not is_whole else f"value {found[0].split('=')[1]}" if found else "absent"


class Looks:
    def __init__(self):
        self.count, self.answered, self.compared, self.others, self.rows = 0, 0, 0, 0, {}

    def look(self, folder):
        """Asks the three commands of a folder, and judges what they answer."""
        self.count += 1
        path, there = str(folder), Bytes(folder)
        keys = there.some_keys()
        checked, _, why = run(path, "check", path)
        theirs = by_leveldb(folder, keys) if there.tables else None
        gets = [run(path, "get", path, spell(key), "--quick") for key in keys]
        scan, listed = run(path, "scan", path, "--quick"), run(path, "list", path, "--quick")
        if checked == 0:
            plain = [run(path, "get", path, spell(key)) for key in keys]
            if [*gets, scan, listed] != [*plain, run(path, "scan", path), run(path, "list", path)]:
                stop(path, f"`check` is done, and --quick prints other things: {gets}, {scan[2]}, {listed[2]}")
        if listed[0] == 0 and sorted(listed[1].splitlines()[:-1]) != there.list():
            stop(path, f"list prints {listed[1]}, and the manifest has {there.list()}")
        self.look_at_count(path, scan)
        others = []
        for at, (key, (status, out, _)) in enumerate(zip(keys, gets)):
            if checked and status == 0 and out != "absent\n" and not there.holds(key, bytes_of(out.split()[1])):
                stop(path, f"the value of {spell(key)} stands in no table: {out}")
            if status == 0 and theirs and out.strip() not in (theirs[0][at], scanned(theirs, key)):
                others.append(f"of {spell(key)} get answers {out}, and LevelDB {theirs[0][at]}, by a scan {scanned(theirs, key)}")
        lines = scan[1].splitlines()
        for line in lines if checked else []:
            key, value = map(bytes_of, line.split("="))
            if not there.holds(key, value):
                stop(path, f"a line of the scan stands in no table: {line}")
        if theirs and (theirs[1][: len(lines)] != lines or (scan[0] == 0 and (len(theirs[1]), theirs[2]) != (len(lines), True))):
            others.append(f"LevelDB scans {len(theirs[1])} lines ({theirs[2]}), and lsm {len(lines)}: {scan[2]}")
        if others and there.is_in_order():
            stop(path, "; ".join(others))
        self.others += bool(others)
        self.compared += theirs is not None
        if checked:
            self.tell(refusal(why), gets, scan, listed)

    def look_at_count(self, path, scan):
        """A count ends as the scan does, and says nothing where that is refused."""
        status, out, err = run(path, "scan", path, "--count", "--quick")
        wanted = "" if scan[0] else f"{scan[1].count(chr(10))}\n"
        if (status, out, err) != (scan[0], wanted, scan[2]):
            stop(path, f"scan --count prints {out}{err}, and scan has {scan[1].count(chr(10))} lines: {scan[2]}")

    def tell(self, why, gets, scan, listed):
        row = self.rows.setdefault(why, {name: collections.Counter() for name in ("get", "scan", "list")})
        for name, ends in (("get", gets), ("scan", [scan]), ("list", [listed])):
            for status, out, err in ends:
                self.answered += status == 0
                how = "answered" if status == 0 else refusal(err)
                row[name]["alike" if how == why else f"{how} behind lines" if status and out else how] += 1

    def print_rows(self):
        for why in sorted(self.rows, key=lambda it: int(re.match(r"\d+|$", it)[0] or 99)):
            cells = [", ".join(f"{how} {many}" for how, many in ends.most_common()) for ends in self.rows[why].values()]
            print(f"{why} | {' | '.join(cells)}")


# ---- folders


def of_rows(looks):
    """The folders that the rows of REFUSALS make before their commands."""
    os.chdir(WORK)
    with open(REFUSALS) as rows:
        for text in rows:
            if text.startswith(("#", "never ")) or not text.strip():
                continue
            row, making = refuse.Row(text.strip()), refuse.Making()
            shutil.rmtree("db", ignore_errors=True)
            os.mkdir("db")
            for step in row.steps:
                making.do(*step)
            if (WORK / "db" / "CURRENT").is_fifo() or os.path.getsize("db") == 0:
                continue
            looks.look(WORK / "db")
            for file in making.held:
                file.close()


def put_manifest(folder, tables, last, more=b""):
    """A manifest of these tables, and the CURRENT that names it."""
    edit = b"\1" + files.with_length(b"leveldb.BytewiseComparator") + b"\2\0\3" + files.varint(max(tables, default=1) + 10)
    edit += b"" if last is None else b"\4" + files.varint(last)
    for number, (level, size, smallest, largest) in tables.items():
        edit += b"\7" + b"".join(map(files.varint, (level, number, size))) + files.with_length(smallest) + files.with_length(largest)
    parts = [edit[at : at + 32000] for at in range(0, len(edit), 32000)]
    kinds = [1] if len(parts) == 1 else [2, *[3] * (len(parts) - 2), 4]
    log = b""
    for kind, part in zip(kinds, parts):
        log += bytes(32768 - len(log) % 32768 if len(log) % 32768 else 0) if 32768 - len(log) % 32768 < len(part) + 7 else b""
        log += files.record(part, kind)
    (folder / "MANIFEST-000002").write_bytes(log + more)
    (folder / "CURRENT").write_text("MANIFEST-000002\n")


def hurt(folder):
    """One damage to a folder of LevelDB's."""
    tables, last = reading.version((folder / (folder / "CURRENT").read_text().strip()).read_bytes())
    paths = {number: folder / f"{number:06}.ldb" for number in tables}
    number, other = drawn.choice(list(tables)), drawn.choice(list(tables))
    level, size, smallest, largest = tables[number]
    how = drawn.randrange(12)
    if how < 4:
        places.damage(drawn, folder, places.BLOCK)
    elif how == 4:
        places.damage(drawn, folder, places.REST)
    elif how == 5:
        paths[number].unlink()
    elif how == 6:
        paths[number].write_bytes(paths[number].read_bytes() + b"\0" * drawn.randrange(1, 9))
    elif how == 7:  # another table under its name, of its size
        paths[number].write_bytes(paths[other].read_bytes())
        put_manifest(folder, tables | {number: (level, tables[other][1], smallest, largest)}, last)
    elif how == 8:  # another level
        put_manifest(folder, tables | {number: (drawn.randrange(7), size, smallest, largest)}, last)
    elif how == 9:  # other bounds
        ends = [tables[other][2], tables[other][3]]
        put_manifest(folder, tables | {number: (level, size, *drawn.choice([(smallest, ends[1]), (ends[0], largest), ends]))}, last)
    elif how == 10:  # some of its writes are not there yet
        put_manifest(folder, tables, drawn.randrange(last + 1))
    else:
        path = folder / (folder / "CURRENT").read_text().strip()
        data = bytearray(path.read_bytes())
        data[drawn.randrange(len(data))] ^= 1 << drawn.randrange(8)
        path.write_bytes(data)


def of_whole_kinds(looks):
    kinds = subprocess.run([LEVELDB, "kinds"], capture_output=True, text=True, check=True).stdout.split()
    for kind in kinds if COUNT >= len(kinds) else KINDS:
        subprocess.run([LEVELDB, "make", WORK / kind, kind], check=True)
        looks.look(WORK / kind)
        if kind not in KINDS:
            shutil.rmtree(WORK / kind)


def of_damaged_kinds(looks):
    for turn in range(COUNT):
        folder = WORK / "db"
        shutil.rmtree(folder, ignore_errors=True)
        shutil.copytree(WORK / drawn.choice(KINDS), folder)
        hurt(folder)
        looks.look(folder)


def draw_key():
    return b"%d" % drawn.randrange(12) + (drawn.randrange(1, 30) << 8 | drawn.choice((0, 1, 1, 1))).to_bytes(8, "little")


def order(key):
    return key[:-8], -int.from_bytes(key[-8:], "little")


def drawn_table():
    """A table of some blocks, of which parts are not as they should be: its text and its bounds."""
    keys = [draw_key() for _ in range(drawn.randrange(1, 13))]
    if drawn.random() < 0.8:
        keys = sorted(dict.fromkeys(keys), key=order)
    made, index, at = b"", [], 0
    while at < len(keys):
        part = keys[at : at + drawn.randrange(1, 5)]
        at += len(part)
        text = files.block([(key, b"v%d" % drawn.randrange(1000)) for key in part])
        typed = text + b"\0"
        index.append((part[-1] if drawn.random() < 0.9 else draw_key(), files.handle(len(made), len(text))))
        made += typed + files.masked_crc(typed)
    if drawn.random() < 0.1:
        drawn.shuffle(index)
    ends = []
    for text in (files.block([]), files.block(index)):
        ends.append(files.handle(len(made), len(text)))
        made += text + b"\0" + files.masked_crc(text + b"\0")
    made += b"".join(ends).ljust(40, b"\0") + files.MAGIC.to_bytes(8, "little")
    bounds = [min(keys, key=order), max(keys, key=order)]
    if drawn.random() < 0.15:
        bounds = sorted((draw_key(), draw_key()), key=order)
    return made, bounds


def of_drawn_tables(looks):
    for _ in range(COUNT):
        folder, tables = WORK / "db", {}
        shutil.rmtree(folder, ignore_errors=True)
        folder.mkdir()
        for number in range(5, 5 + drawn.randrange(1, 6)):
            text, bounds = drawn_table()
            (folder / f"{number:06}.ldb").write_bytes(text)
            tables[number] = drawn.choice((0, 0, 1, 1, 2, 6)), len(text), *bounds
        put_manifest(folder, tables, drawn.choice((30, 30, 30, 15)))
        looks.look(folder)


A_TO_E = [[("a@1+", b"A"), ("b@1+", b"B")], [("c@1+", b"C"), ("d@1+", b"D")], [("e@1+", b"E")]]
CASES = (  # tables by number: level, blocks, bounds; which byte of table 4 is damaged; what check, get, scan and list answer
    ({4: (1, A_TO_E, "a@1+", "e@1+")}, 60, "15", "A B 15 15 E", "aA bB 15", "all"),
    ({4: (1, A_TO_E, "a@1+", "e@1+")}, -60, "15", "15 15 15 15 15", "15", "all"),
    ({4: (1, A_TO_E, "a@1+", "e@1+")}, -1, "13", "13 13 13 13 13", "13", "all"),
    ({4: (1, [[("b@1+", b"B"), ("a@1+", b"A")]], "a@1+", "b@1+")}, None, "8", "8 - - - -", "8", "all"),
    ({4: (1, [[("a@9+", b"X"), ("a@1+", b"A")]], "a@9+", "a@1+")}, None, "32", "A - - - -", "aA", "all"),
    ({4: (1, A_TO_E, "b@1+", "d@1+")}, None, "32", "- B C D -", "aA bB cC dD eE", "all"),
    ({4: (1, A_TO_E, "a@1+", "f@1+")}, None, "32", "A B C D E", "aA bB cC dD eE", "all"),
    ({4: (0, [[("a@1+", b"A")]], "a@1+", "a@1+"), 5: (1, [[("a@2+", b"N")]], "a@2+", "a@2+")}, None, "33", "A - - - -", "aN", "all"),
    ({4: (0, [[("a@2+", b"N")]], "a@2+", "a@2+"), 5: (0, [[("a@1+", b"A")]], "a@1+", "a@1+")}, None, "33", "A - - - -", "aN", "all"),
    ({4: (1, A_TO_E, "a@1+", "e@1+"), 5: (1, A_TO_E, "a@1+", "e@1+")}, None, "31", "31 31 31 31 31", "31", "31"),
    ({4: (1, A_TO_E, "e@1+", "a@1+")}, None, "32", "32 32 32 32 32", "32", "32"),
)


def table_of(blocks):
    """A table of these blocks, each as its last key has it in the index."""
    made, index, ends = b"", [], []
    for block in blocks:
        text = files.block([(files.internal_key(key), value) for key, value in block])
        index.append((files.internal_key(block[-1][0]), files.handle(len(made), len(text))))
        made += text + b"\0" + files.masked_crc(text + b"\0")
    for text in (files.block([]), files.block(index)):
        ends.append(files.handle(len(made), len(text)))
        made += text + b"\0" + files.masked_crc(text + b"\0")
    return made + b"".join(ends).ljust(40, b"\0") + files.MAGIC.to_bytes(8, "little")


def short(status, out, err):
    """An answer, as CASES write it."""
    said = [line.replace("=", "") for line in out.replace("value ", "").replace("absent", "-").splitlines()]
    return " ".join(said + ([err.split()[1]] if status else []))


def of_named_cases(looks):
    folder = WORK / "db"
    for tables, damaged, *wanted in CASES:
        shutil.rmtree(folder, ignore_errors=True)
        folder.mkdir()
        made = {number: table_of(blocks) for number, (_, blocks, *_) in tables.items()}
        put_manifest(folder, {it: (tables[it][0], len(made[it]), *map(files.internal_key, tables[it][2:])) for it in tables}, 5)
        for number, text in made.items():
            text = bytearray(text)
            if damaged is not None:
                text[damaged] ^= 1
            (folder / f"{number:06}.ldb").write_bytes(text)
        path = str(folder)
        gets = [short(*run(path, "get", path, key, "--text", "--quick")) for key in "abcde"]
        listed = run(path, "list", path, "--quick")
        found = [run(path, "check", path)[2].split()[1], " ".join(gets), short(*run(path, "scan", path, "--text", "--quick"))]
        found.append("all" if listed[0] == 0 else listed[2].split()[1])
        if found != wanted:
            stop(path, f"{tables} answers {found}, and not {wanted}")
        looks.look(folder)


def of_no_files(looks):
    """A pipe, a folder and a link to nothing where the manifest has a table."""
    folder, table = WORK / "db", WORK / "db" / "000004.ldb"
    for make in (os.mkfifo, os.mkdir, lambda path: os.symlink("nothing", path)):
        shutil.rmtree(folder, ignore_errors=True)
        folder.mkdir()
        put_manifest(folder, {4: (1, 4096, files.internal_key("a@1+"), files.internal_key("e@1+"))}, 5)
        make(table)
        for words in (["get", str(folder), "61"], ["scan", str(folder)], ["list", str(folder)]):
            status, out, err = run(str(folder), *words, "--quick")
            if status != 1 or out or refusal(err) not in ("9 Device", "10 Missing", "32 WrongRange"):
                stop(str(folder), f"{words} --quick has status {status}, prints {out}{err}")
        looks.count += 1


def of_large_spellings(looks):
    """A table whose blocks share bytes, and one whose keys share nearly all of a long one."""
    folder = WORK / "db"
    text = shared.table(500, 500)
    mark = (((1 << 56) - 1) << 8 | 1).to_bytes(8, "little")
    front = b"a" * (1 << 17)
    block, number = files.varint(0) + files.varint(len(front) + 8) + b"\0" + front + files.internal_key("@1+"), 0
    while len(block) < 1 << 18:
        number += 1
        block += files.varint(len(front)) + b"\x0c\0" + number.to_bytes(4, "big") + files.internal_key("@1+")
    long = files.table(block + bytes(4) + (1).to_bytes(4, "little"))
    bounds = [bytes(4) + mark, (499).to_bytes(4, "big") + (499).to_bytes(4, "big") + mark]
    last = front + number.to_bytes(4, "big") + files.internal_key("@1+")
    for made, ends in ((text, bounds), (long, [front + files.internal_key("@1+"), last])):
        shutil.rmtree(folder, ignore_errors=True)
        folder.mkdir()
        (folder / "000005.ldb").write_bytes(made)
        put_manifest(folder, {5: (1, len(made), *ends)}, (1 << 56) - 1)
        for command in (["get", "00000001"], ["get", front[:64].hex()], ["scan", "--limit", "1"], ["list"]):
            run(str(folder), command[0], str(folder), *command[1:], "--quick")
        looks.count += 1


def main():
    looks = Looks()
    for part in (of_rows, of_named_cases, of_no_files, of_whole_kinds, of_damaged_kinds, of_drawn_tables, of_large_spellings):
        before = looks.count
        drawn.seed(f"{SEED} {part.__name__}")
        part(looks)
        print(f"{part.__name__.replace('_', ' ')}: {looks.count - before} folders", flush=True)
    looks.print_rows()
    refused = sum(ends.total() for row in looks.rows.values() for ends in row.values())
    print(f"quick: {looks.count} folders, {looks.compared} beside LevelDB, which read {looks.others} otherwise, each with a table"
          f" out of order; of {refused} commands where the whole judgment refuses {looks.answered} were answered, each as the bytes"
          f" say (seed {SEED})")


main()
