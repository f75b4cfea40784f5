#!/usr/bin/env python3
"""Whether what pages tell a user to do helps: cures.py PROGRAM

Without LevelDB:

- A lost `CURRENT`: the command that the second line of the refusal prints names it again, and the
  old content is there; `--begin` begins a new database.
- Tables of old names (`N.sst`): what COMPATIBILITY says, to rename them to `N.ldb`.
- A batch of `shell` that has no room: `commit`, `begin`, and the write once more.
- Locks: a folder that another program holds, by `flock` as goleveldb or by `fcntl` as LevelDB, is
  `refused 52 Locked`, and done once that has ended.
- A manifest that was cut short: `check` tells the rest, and `compact` is refused; once the longer
  one is put back, all is read, and `recover` brings the log in.
- A log: what reads tells of it, what writes is refused, `--beside-log` writes all the same, and
  `compact` and `clean` leave it.
- Manifests that are damaged, lost, or tell of tables what is not so: the second line names
  `lsm repair`, which cures them.
- The commands of examples/README.md, and the picture of `levels`; what README says of `rt version`,
  where there is a kit.

With LevelDB, which is its library, by its C interface; the module plyvel of the lines is the one
below:

- `lsm import`: the block of shell lines of that part of COMMANDS is run, over a folder that LevelDB
  compressed, with a log; `lsm` refuses that one and reads the new one.
- Compressed tables, and a log that is not flushed: the line of `lsm import` that the second line of
  the refusal has copies all pairs.
- A log that is not flushed: `lsm put` is refused; once LevelDB has opened the folder without
  compression, all is read, and the put comes in.
- Tables that overlap, one of which the manifest tells otherwise, and an older entry above a newer one: what the second
  line of the refusal says of LevelDB helps.
- A lost manifest: after LevelDB's `RepairDB`, and a compaction, all is read.
- A damaged table: after `RepairDB` with `paranoid_checks` what was not in the damaged block is
  read; without them nothing helps.
- Handles with zeros behind them, as iq80 writes them: after `RepairDB` and a compaction all is
  read.
- Another comparator: the pairs, printed by a program of LevelDB's and loaded.

With goleveldb (golang-go, golang-github-syndtr-goleveldb-dev) and LevelDB:

- A table that was added twice: one opening by LevelDB cures it, and two by goleveldb, without a
  write.
- Old ages, by `RecoverFile`: a compaction in either.
- More than seven levels: no compaction in goleveldb helps, and `RepairDB` with a compaction does.

With RocksDB (librocksdb-dev), before it has flushed a table: `lsm import` copies all pairs; behind
that the folder is refused, and the pairs are printed by a program of RocksDB's and loaded.

Where the library or the program is not there, what needs it is not judged.
"""

import ctypes
import ctypes.util
import os
import re
import shutil
import subprocess
import sys
import tempfile
from pathlib import Path

from markdown import TOP

sys.path.append(str(TOP / "checks" / "refusals"))
import files  # noqa: E402
import reading  # noqa: E402

PAIRS = 5000
PLYVEL = '''
import ctypes, ctypes.util
lib = ctypes.CDLL(ctypes.util.find_library("leveldb"))
for name in ("options_create", "readoptions_create", "writeoptions_create", "open", "create_iterator", "iter_key", "iter_value", "comparator_create"):
    getattr(lib, "leveldb_" + name).restype = ctypes.c_void_p
lib.leveldb_iter_valid.restype = ctypes.c_ubyte
lib.leveldb_iter_key.restype = lib.leveldb_iter_value.restype = ctypes.POINTER(ctypes.c_char)

def repair_db(path, paranoid_checks=False):
    options, error = ctypes.c_void_p(lib.leveldb_options_create()), ctypes.c_char_p()
    lib.leveldb_options_set_compression(options, 0)
    lib.leveldb_options_set_paranoid_checks(options, paranoid_checks)
    lib.leveldb_repair_db(options, path.encode(), ctypes.byref(error))
    assert error.value is None, error.value

@ctypes.CFUNCTYPE(ctypes.c_int, ctypes.c_void_p, ctypes.c_void_p, ctypes.c_size_t, ctypes.c_void_p, ctypes.c_size_t)
def compare(state, one, length, other, size):
    one, other = ctypes.string_at(one, length)[::-1], ctypes.string_at(other, size)[::-1]
    return (one > other) - (one < other)

@ctypes.CFUNCTYPE(ctypes.c_char_p, ctypes.c_void_p)
def name_of(state):
    return b"idb_cmp1"

@ctypes.CFUNCTYPE(None, ctypes.c_void_p)
def end(state):
    return None

class DB:
    def __init__(self, path, compression="snappy", is_backwards=False):
        options, error = ctypes.c_void_p(lib.leveldb_options_create()), ctypes.c_char_p()
        lib.leveldb_options_set_create_if_missing(options, 1)
        lib.leveldb_options_set_write_buffer_size(options, ctypes.c_size_t(1 << 16))
        lib.leveldb_options_set_compression(options, 1 if compression else 0)
        if is_backwards:
            lib.leveldb_options_set_comparator(options, ctypes.c_void_p(lib.leveldb_comparator_create(None, end, compare, name_of)))
        self.db = ctypes.c_void_p(lib.leveldb_open(options, path.encode(), ctypes.byref(error)))
        assert error.value is None, error.value

    def put(self, key, value):
        error, how = ctypes.c_char_p(), ctypes.c_void_p(lib.leveldb_writeoptions_create())
        lib.leveldb_put(self.db, how, key, ctypes.c_size_t(len(key)), value, ctypes.c_size_t(len(value)), ctypes.byref(error))

    def compact_range(self):
        lib.leveldb_compact_range(self.db, None, ctypes.c_size_t(0), None, ctypes.c_size_t(0))

    def __iter__(self):
        walk = ctypes.c_void_p(lib.leveldb_create_iterator(self.db, ctypes.c_void_p(lib.leveldb_readoptions_create())))
        lib.leveldb_iter_seek_to_first(walk)
        while lib.leveldb_iter_valid(walk):
            length = ctypes.c_size_t()
            key = lib.leveldb_iter_key(walk, ctypes.byref(length))[:length.value]
            yield key, lib.leveldb_iter_value(walk, ctypes.byref(length))[:length.value]
            lib.leveldb_iter_next(walk)
        lib.leveldb_iter_destroy(walk)

    def close(self):
        lib.leveldb_close(self.db)
'''
HOLDER = """
import fcntl, sys
file = open(sys.argv[1], "r+b")
(fcntl.flock if sys.argv[2] == "flock" else fcntl.lockf)(file, fcntl.LOCK_EX)
print(flush=True)
sys.stdin.read()
"""
passed = failed = 0


def judge(is_right, text):
    """Counts a judgment, and tells what is wrong."""
    global passed, failed
    passed, failed = passed + is_right, failed + (not is_right)
    if not is_right:
        print(f"cures: {text}")


def printed(command, folder):
    """What a command of the shell prints in the folder, but for the line of an unproved build."""
    environment = {**os.environ, "PYTHONPATH": str(folder)}
    done = subprocess.run(["bash", "-c", command], cwd=folder, env=environment, stdout=subprocess.PIPE, stderr=subprocess.STDOUT, text=True)
    return "\n".join(line for line in done.stdout.split("\n") if not line.startswith("lsm: unproved build")).strip()


def works(program):
    """Whether the program can be run."""
    return subprocess.run(["bash", "-c", '"$0" --version', program], capture_output=True).returncode == 0


def fill(folder, name, count, more=""):
    """A database of LevelDB's, filled by a program of its own, so that its lock is let go."""
    lines = f"import plyvel; db = plyvel.DB({name!r})\nfor i in range({count}): db.put(b'key%06d' % i, b'value' * 20)\n{more}db.close()"
    return printed(f"python3 -c \"{lines}\"", folder)


def begin(folder, name):
    """A database of two keys."""
    printed(f"mkdir {name}; printf '61=31\\n62=32\\n' | ./lsm ingest {name} -", folder)


def lost_current(folder):
    begin(folder, "lost")
    printed("rm lost/CURRENT", folder)
    said = printed("./lsm put lost 63 33", folder)
    judge(said.startswith("refused 10 Missing"), f"a put without CURRENT: {said}")
    cure = re.search(r"printf .* > DIR/CURRENT", said)
    printed(cure[0].replace("DIR", "lost") if cure else "false", folder)
    judge(printed("./lsm scan lost", folder) == "61=31\n62=32", f"CURRENT is not named again by what this says: {said}")
    printed("rm lost/CURRENT; ./lsm put lost 63 33 --begin", folder)
    judge(printed("./lsm scan lost", folder) == "63=33", "--begin does not begin a new database")


def old_names(folder):
    begin(folder, "older")
    printed("mv older/000002.ldb older/000002.sst", folder)
    judge(printed("./lsm scan older", folder).startswith("refused 10 Missing"), "a table N.sst is not refused")
    printed("for file in older/*.sst; do mv $file ${file%.sst}.ldb; done", folder)
    judge(printed("./lsm scan older --count", folder) == "2", "renamed tables are not read")


def full_batch(folder):
    lines = ["begin", *(f"put {number:06x} 00" for number in range(65536)), "put ffffff 00", "commit", "begin", "put ffffff 00", "commit"]
    (folder / "lines").write_text("\n".join(lines) + "\n")
    replies = printed("mkdir queued; ./lsm shell queued < lines", folder).split("\n")
    judge(replies[65537] == "refused 39 TooLarge", f"the write that a batch has no room for: {replies[65537]}")
    judge(printed("./lsm scan queued --count", folder) == "65537", "a write that was sent once more is not there")


def locks(folder):
    begin(folder, "held")
    for kind in ("flock", "fcntl"):
        words = [sys.executable, "-c", HOLDER, str(folder / "held" / "LOCK"), kind]
        with subprocess.Popen(words, stdin=subprocess.PIPE, stdout=subprocess.PIPE, text=True) as holder:
            holder.stdout.readline()
            for command in ("put held 63 33", "get held 61"):
                judge("refused 52 Locked" in printed(f"./lsm {command}", folder), f"{command} beside a lock by {kind} is not refused")
            holder.stdin.close()
        judge(printed("./lsm put held 63 33", folder).startswith("file "), f"a put behind a lock by {kind} is refused")


def cut_manifest(folder):
    begin(folder, "cut")
    printed("truncate -s -1 cut/MANIFEST-000001", folder)
    rest = re.search(r"^rest (\d+)$", printed("./lsm check cut", folder), re.M)
    judge(rest is not None and int(rest[1]) > 0, "check does not tell a rest")
    begin(folder, "longer")
    printed("./lsm put longer 63 33; ./lsm put longer 64 34; cp longer/MANIFEST-* whole; truncate -s -1 longer/MANIFEST-*", folder)
    write = (7).to_bytes(8, "little") + (1).to_bytes(4, "little") + b"\1\1e\0015"
    (folder / "longer" / "000009.log").write_bytes(files.record(write))
    judge(printed("./lsm scan longer 2> /dev/null", folder).count("=") == 3, "a cut manifest does not hide a table")
    judge("refused 61 TornManifest" in printed("./lsm compact longer", folder), "compact behind a cut manifest is not refused")
    printed("cp whole longer/$(cat longer/CURRENT)", folder)
    said = printed("./lsm compact longer && ./lsm recover longer", folder)
    judge(said.endswith("logs 1 entries 1 rest 0"), f"behind the longer manifest compact and recover say {said}")
    said = printed("./lsm scan longer --strict", folder)
    judge(said == "\n".join(f"6{it}=3{it}" for it in range(1, 6)), f"the longer manifest does not bring all back: {said}")


def beside_log(folder):
    begin(folder, "beside")
    printed("echo write > beside/000009.log", folder)
    judge(re.search(r"^log 000009\.log ", printed("./lsm check beside", folder), re.M) is not None, "check does not print a log")
    for command in ("list beside", "get beside 61", "scan beside"):
        judge("000009.log" in printed(f"./lsm {command} 2>&1 > /dev/null", folder), f"{command} does not name a log")
    judge("refused 51 UnflushedLog 9" in printed("./lsm put beside 63 33", folder), "a put beside a log is not refused")
    judge(printed("./lsm put beside 63 33 --beside-log", folder).startswith("file "), "--beside-log does not write")
    said = printed("./lsm compact beside && ./lsm clean beside && cat beside/000009.log", folder)
    judge(said.endswith("write"), f"compact or clean beside a log: {said}")


def examples(folder):
    (folder / "examples").symlink_to(TOP / "examples")
    commands = re.findall(r"`(\./lsm [^`]*)`", (TOP / "examples" / "README.md").read_text())
    judge(len(commands) == 3, "examples/README.md: a row without its command")
    printed("mkdir DIR tmp", folder)
    for command in commands:
        said = printed(f"{command.replace('/tmp/', 'tmp/')} || echo refused", folder)
        judge("refused" not in said, f"examples/README.md: {command}: {said}")
    if shutil.which("rt"):
        kit = re.search(r"`rt version` prints\s+`([\w-]+)`, a letter, and `(logic \w+)`", (TOP / "README.md").read_text())
        said = printed("rt version", folder)
        judge(re.fullmatch(rf"{kit[1]}[a-z] {kit[2]}", said) is not None, f"README.md: rt version prints {said}")
    picture = re.search(r"`(lsm levels [^`]* > [\w.]+)`", (TOP / "docs" / "COMMANDS.md").read_text())[1]
    printed("./" + picture.replace(" db ", " DIR "), folder)
    judge((folder / picture.split()[-1]).read_text().startswith("<svg"), f"{picture}: no picture")


def imported(folder, name, refused, count):
    """Follows the second line of a refusal, where the folder has so many pairs."""
    cure = re.search(r"lsm import DIR NEW", refused)
    line = cure[0].replace("DIR", name).replace("NEW", f"{name}-new") if cure else "false"
    said = printed(f"mkdir {name}-new; ./{line}", folder)
    judge(printed(f"./lsm scan {name}-new --count", folder) == str(count), f"{refused} does not cure: {said}")


def compressed(folder):
    part = (TOP / "docs" / "COMMANDS.md").read_text().split("## lsm import", 1)[1]
    cure = re.search(r"^```text\n(.*?)^```", part, re.S | re.M)[1]
    fill(folder, "old", PAIRS, "db.compact_range()\n")
    refused = printed("./lsm check old", folder)
    judge("refused 16 Compressed" in refused, "a compressed folder is not refused")
    imported(folder, "old", refused, PAIRS)
    said = printed(cure, folder)
    judge(printed("./lsm scan new --count", folder) == str(PAIRS), f"the lines of `lsm import` do not cure: {said}")


def logged(folder):
    fill(folder, "logged", 100)
    refused = printed("./lsm put logged 61 62", folder)
    judge("refused 51 UnflushedLog" in refused, "a log that is not flushed is not refused")
    imported(folder, "logged", refused, 100)
    printed("python3 -c \"import plyvel; plyvel.DB('logged', compression=None).close()\"", folder)
    judge(printed("./lsm put logged 61 62", folder).startswith("file "), "an opening without compression does not cure a log")
    judge(printed("./lsm scan logged --count", folder) == "101", "an opening without compression does not flush the log")
    part = (TOP / "docs" / "COMMANDS.md").read_text().split("## lsm recover", 1)[1]
    fill(folder, "unflushed", 100)
    said = printed(re.search(r"^```text\n(.*?)^```", part, re.S | re.M)[1].replace("DIR", "unflushed"), folder)
    judge(said == "logs 1 entries 100 rest 0", f"the line of `lsm recover` says {said}")
    judge(printed("./lsm scan unflushed --count --strict", folder) == "100", f"the line of `lsm recover` does not cure: {said}")


def by_leveldb(folder, lines):
    return printed(f"python3 -c \"import plyvel\n{lines}\"", folder)


def repaired(folder):
    begin(folder, "broken")
    printed("rm broken/CURRENT broken/MANIFEST-*", folder)
    judge(printed("./lsm scan broken", folder).startswith("refused 10 Missing"), "a lost manifest is not refused")
    printed("python3 -c \"import plyvel; plyvel.repair_db('broken')\"", folder)
    judge(printed("./lsm scan broken", folder) == "61=31\n62=32", f"RepairDB does not cure: {printed('./lsm scan broken', folder)}")
    # (it puts each table at level 0, older ones too, so that ages may be open until a compaction)
    open_it = "db = plyvel.DB('worn', compression=None)"
    writes = "for i in range(60000):\n  key = b'%05d' % (i * 7919 % 9001)\n  db.put(key, b'%d' % i + bytes(i % 90))"
    by_leveldb(folder, f"{open_it}\n{writes}\ndb.close()\n{open_it}\ndb.close()")
    before = printed("./lsm scan worn | cksum", folder)
    by_leveldb(folder, f"import glob, os\nfor name in glob.glob('worn/MANIFEST-*'): os.remove(name)\nplyvel.repair_db('worn')\n{open_it}\ndb.compact_range()\ndb.close()")
    judge(printed("./lsm scan worn | cksum", folder) == before, f"RepairDB and a compaction: {printed('./lsm scan worn --count', folder)}")


def count_of(folder, name):
    return printed(f"./lsm scan {name} --count", folder)


def damaged(folder):
    printed("mkdir hurt; for i in {10000..19999}; do echo $i=value; done | ./lsm ingest hurt - --text", folder)
    table = next((folder / "hurt").glob("*.ldb"))
    data = bytearray(table.read_bytes())
    data[50] ^= 1
    table.write_bytes(data)
    judge("refused 15 BadChecksum" in count_of(folder, "hurt"), "a damaged table is not refused")
    printed("cp -r hurt hurt2", folder)
    by_leveldb(folder, "plyvel.repair_db('hurt2')")
    judge("refused 15 BadChecksum" in count_of(folder, "hurt2"), "RepairDB looks at checksums without paranoid_checks")
    by_leveldb(folder, "plyvel.repair_db('hurt', paranoid_checks=True)")
    left = count_of(folder, "hurt")
    judge(left.isdigit() and 9500 < int(left) < 10000, f"behind RepairDB with paranoid_checks: {left}")


def padded(folder):
    """Handles of 20 bytes in the index of each table, and the manifest that has their new sizes."""
    begin(folder, "padded")
    place = folder / "padded"
    manifest = place / (place / "CURRENT").read_text().strip()
    tables, last = reading.version(manifest.read_bytes())
    edit = files.field("comparator=leveldb.BytewiseComparator") + b"".join(map(files.field, ("log=0", "next=9", f"last={last}")))
    for number, (_, _, *ends) in tables.items():
        path = place / f"{number:06}.ldb"
        table = path.read_bytes()
        at = 0
        for _ in range(2):
            _, at = reading.varint(table[-48:], at)
        meta, (offset, at) = table[-48:][:at], reading.varint(table[-48:], at)
        found = reading.entries(reading.block(table, offset, reading.varint(table[-48:], at)[0]))
        index = files.block([(key, handle.ljust(20, b"\0")) for key, handle in found])
        made = table[:offset] + index + b"\0" + files.masked_crc(index + b"\0")
        made += (meta + files.handle(offset, len(index))).ljust(40, b"\0") + files.MAGIC.to_bytes(8, "little")
        path.write_bytes(made)
        # (at level 2, below which nothing is: a compaction alone leaves it)
        edit += b"\7" + b"".join(map(files.varint, (2, number, len(made)))) + b"".join(map(files.with_length, ends))
    manifest.write_bytes(files.record(edit))
    judge("refused 18 BadIndex" in count_of(folder, "padded"), "a handle with zeros behind it is not refused")
    compact = "db = plyvel.DB('padded', compression=None)\ndb.compact_range()\ndb.close()"
    by_leveldb(folder, compact)
    judge("refused 18 BadIndex" in count_of(folder, "padded"), "a compaction alone cures padded handles of the last level")
    by_leveldb(folder, "plyvel.repair_db('padded')")
    by_leveldb(folder, compact)
    said = printed("./lsm scan padded", folder)
    judge(said == "61=31\n62=32", f"RepairDB and a compaction do not cure padded handles: {said}")


def backwards(folder):
    database = "db = plyvel.DB('backwards', is_backwards=True)"
    by_leveldb(folder, f"{database}\nfor i in range(300): db.put(b'%03d' % i, b'v%d' % i)\ndb.compact_range()\ndb.close()")
    judge("refused 29 OtherComparator" in count_of(folder, "backwards"), "another comparator is not refused")
    by_leveldb(folder, f"{database}\nwith open('copied', 'w') as file:\n  for key, value in db: print(key.hex(), value.hex(), sep='=', file=file)")
    printed("mkdir forwards; ./lsm load forwards copied", folder)
    judge(count_of(folder, "forwards") == "300", "pairs of another comparator are not loaded")
    judge(printed("./lsm get forwards 123 --text", folder) == "value v123", "a pair of another comparator is not loaded")


def of_goleveldb(folder):
    go = "PLAIN=1 ./makers/by_goleveldb"
    printed(f"for key in a b c; do {go} put twice $key 1; done; cp -r twice twice2; cp -r twice twice3", folder)
    judge("refused 30 DoubleFile" in count_of(folder, "twice"), "goleveldb adds no table twice")
    printed(f"{go} open twice; {go} open twice; {go} open twice2", folder)
    judge(count_of(folder, "twice") == "3", "two openings in goleveldb do not cure a table that was added twice")
    judge("refused 30 DoubleFile" in count_of(folder, "twice2"), "one opening in goleveldb cures a table that was added twice")
    by_leveldb(folder, "plyvel.DB('twice3', compression=None).close()")
    judge(count_of(folder, "twice3") == "3", "an opening in LevelDB does not cure a table that was added twice")
    pairs = len(printed(f"{go} make ages goleveldb_small; {go} open ages; {go} scan ages; {go} recover ages; cp -r ages ages2", folder).split("\n"))
    # (by the turns that goleveldb's compactions took, ages are open there or not)
    printed(f"{go} compact ages", folder)
    by_leveldb(folder, "db = plyvel.DB('ages2', compression=None)\ndb.compact_range()\ndb.close()")
    for name in ("ages", "ages2"):
        judge(count_of(folder, name) == str(pairs), f"a compaction does not cure old ages in {name}, of {pairs} pairs")
    printed(f"{go} deep deep; {go} compact deep", folder)
    refused = count_of(folder, "deep")
    judge("refused 23 BadLevel" in refused or refused == "20000", f"behind goleveldb's compaction: {refused}")
    # (RepairDB takes obsolete tables too, so that a key may be there twice until a compaction)
    by_leveldb(folder, "plyvel.repair_db('deep')\ndb = plyvel.DB('deep', compression=None)\ndb.compact_range()\ndb.close()")
    left = count_of(folder, "deep")
    judge(left == "20000", f"RepairDB and a compaction do not cure a level 7: {left}")


def of_rocksdb(folder):
    rocks = "./makers/by_rocksdb"
    pairs = len(printed(f"{rocks} make rocks rocksdb_log_alone; cp -r rocks rocks2; {rocks} scan rocks2", folder).split("\n"))
    printed("mkdir rocks-new; ./lsm import rocks rocks-new", folder)
    judge(count_of(folder, "rocks-new") == str(pairs), f"import copies other than the {pairs} pairs of RocksDB's log")
    printed(f"{rocks} make rocks3 rocksdb_flushed", folder)
    judge("refused 22 UnknownTag 103" in count_of(folder, "rocks3"), "a folder of RocksDB's is not refused")
    printed(f"{rocks} scan rocks3 > rocks-pairs; mkdir rocks-copy; ./lsm load rocks-copy rocks-pairs", folder)
    judge(printed("./lsm scan rocks-copy | cmp - rocks-pairs && echo same", folder) == "same", "RocksDB's pairs are not loaded as they were")


def makers(folder):
    """Makes the programs of checks/import that can be had, and says which can't."""
    script = f"source {TOP}/checks/import/makers.sh; make_makers $PWD/makers; make_rocksdb $PWD/makers"
    said = printed(f"mkdir makers; {script}", folder)
    print("".join(f"{line}\n" for line in said.split("\n") if "not tried" in line and "plyvel" not in line), end="")
    return {"by_goleveldb": of_goleveldb, "by_rocksdb": of_rocksdb}


def mended(folder, name, refusal, cure, line):
    """A folder is refused so, the second line names a cure, and this line of Python is that one: how
    many pairs are read behind it, in a copy where LevelDB compressed what it wrote."""
    said = printed(f"./lsm check {name}", folder)
    judge(said.startswith(refusal) and cure in said, f"{name} is not {refusal} with {cure}: {said}")
    printed(f"python3 -c \"import plyvel; {line}\"", folder)
    if "lsm import" in printed(f"./lsm check {name}", folder):
        printed(f"mkdir {name}-new; ./lsm import {name} {name}-new; mv {name} {name}-old; mv {name}-new {name}", folder)
    said = printed(f"./lsm check {name} > /dev/null && ./lsm scan {name} --count", folder)
    judge(said.isdecimal(), f"{cure} does not cure {refusal}: {said}")
    return int(said) if said.isdecimal() else 0


def damaged_block(folder):
    (folder / "lines").write_text("".join(f"{number:08}={number:08}\n" for number in range(PAIRS)))
    printed("mkdir block; ./lsm ingest block lines --text", folder)
    table = next((folder / "block").glob("*.ldb"))
    data = bytearray(table.read_bytes())
    data[len(data) // 2] ^= 255
    table.write_bytes(data)
    cure = "RepairDB with paranoid_checks"
    count = mended(folder, "block", "refused 15 BadChecksum", cure, "plyvel.repair_db('block', paranoid_checks=True)")
    judge(PAIRS // 2 < count < PAIRS, f"{cure} leaves {count} of {PAIRS} pairs")


def shaped(folder, name, tables, adds, log=0):
    """A folder of whole tables, of which the manifest tells so."""
    keys = {"a1": "61 1 put 76\n", "a2": "61 2 put 76\n", "b": "62 3 put 76\n", "ac": "61 1 put 76\n63 2 put 76\n"}
    (folder / name).mkdir()
    for number, table in enumerate(tables, 4):
        (folder / "list").write_text(keys[table])
        printed(f"./lsm mktable < list > {name}/{number:06}.ldb", folder)
    fields = [f"log={log}", "next=6", "last=3", *(f"add={add}" for add in adds)]
    (folder / name / "MANIFEST-000001").write_bytes(files.manifest([fields]))
    (folder / name / "CURRENT").write_text("MANIFEST-000001\n")


SHAPES = [
    ("overlap", ["ac", "b"], ["1,4,127,a@1+,c@2+", "1,5,114,b@3+,b@3+"], "refused 31 Overlap 1", 3),
    ("range", ["a1"], ["0,4,115,a@1+,a@1+"], "refused 32 WrongRange 4", 1),
    ("age", ["a1", "a2"], ["0,4,114,a@1+,a@1+", "1,5,114,a@2+,a@2+"], "refused 33 AgeOrder 61", 1),
]


def shapes(folder):
    """Folders whose tables are whole, and whose manifest tells of them what is not so."""
    repair = ("RepairDB", "plyvel.repair_db('{}')")
    compaction = ("compaction in LevelDB", "db = plyvel.DB('{}', compression=None); db.compact_range(); db.close()")
    for name, tables, adds, refusal, count in SHAPES:
        shaped(folder, name, tables, adds)
        cure, line = compaction if name == "age" else repair
        judge(mended(folder, name, refusal, cure, line.format(name)) == count, f"{name}: other pairs")


def by_repair(folder):
    """The same, and a table that is added twice, a manifest that is damaged, and none: the second line names
    `lsm repair`, which cures it, and has no log read that the old manifest did not."""
    twice = ("twice", ["a1"], ["0,4,114,a@1+,a@1+", "1,4,114,a@1+,a@1+"], "refused 30 DoubleFile 4", 1)
    damage = ("damage", ["a1"], ["0,4,114,a@1+,a@1+"], "refused 19 LogChecksum", 1)
    none = ("none", ["a1"], ["0,4,114,a@1+,a@1+"], "refused 10 Missing", 1)
    for name, tables, adds, refusal, count in [*SHAPES, twice, damage, none]:
        name = f"own-{name}"
        shaped(folder, name, tables, adds, log=7)
        manifest = folder / name / "MANIFEST-000001"
        if "damage" in name:
            manifest.write_bytes(manifest.read_bytes()[:-1] + b"?")
        if "none" in name:
            manifest.unlink()
        (folder / name / "000006.log").write_bytes(b"old")
        said = printed(f"./lsm check {name}", folder)
        judge(said.startswith(refusal) and "lsm repair DIR" in said, f"{name} is not {refusal} with lsm repair: {said}")
        said = printed(f"./lsm repair {name}", folder)
        judge(("note: 000006.log" in said) == ("damage" in name or "none" in name), f"{name}: of its log repair says {said}")
        said = printed(f"./lsm check {name} > /dev/null; ./lsm scan {name} --count 2> /dev/null", folder)
        judge(said == str(count), f"lsm repair does not cure {name}: {said}")


if not works(sys.argv[1]):
    print("cures: not run, for want of a program\n0 passed, 0 failed")
    sys.exit(0)
parts = [lost_current, old_names, full_batch, locks, cut_manifest, beside_log, examples, by_repair]
if ctypes.util.find_library("leveldb") is None:
    print("cures: compressed tables and logs not tried, for want of LevelDB's library")
else:
    parts += [compressed, logged, repaired, damaged, padded, backwards, damaged_block, shapes]
with tempfile.TemporaryDirectory() as scratch:
    folder = Path(scratch)
    (folder / "lsm").symlink_to(Path(sys.argv[1]).resolve())
    (folder / "plyvel.py").write_text(PLYVEL)
    for part in parts:
        part(folder)
    if damaged in parts:
        for name, part in makers(folder).items():
            if (folder / "makers" / name).exists():
                part(folder)
print(f"{passed} passed, {failed} failed")
sys.exit(failed != 0)
