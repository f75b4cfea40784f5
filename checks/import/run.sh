#!/usr/bin/env bash
# Imports folders of the real LevelDB with its default options (Debian's libleveldb-dev): blocks of
# Snappy, a log that is not flushed, of 64 MiB too, two after a kill; and, where they can be had
# (Debian's python3-plyvel; golang-go and golang-github-syndtr-goleveldb-dev; librocksdb-dev), of
# plyvel, of goleveldb, and of RocksDB before its first flush. Of each kind that the makers know
# one is made and imported; SRC is as it was, `lsm check` takes the copy, and LevelDB and `lsm
# scan` read there what LevelDB, goleveldb or RocksDB reads of SRC. Then FLIPS (200) copies of
# folders with damage, two fifths to a log, two to a block that Snappy compressed, one elsewhere in
# a table: a bit flipped, or an end cut off. Each is refused, and DST has no CURRENT; or the copy
# has the same pairs; or those that LevelDB reads of it, behind bytes that are told as the rest.
# Where a log is refused, --to-first-fault copies a front of the writes, with each batch before the
# damage.
# Words name kinds (none: all). SEED draws. Prints a line each, and stops at the first that is
# otherwise. Needs g++, libleveldb-dev, libsnappy-dev, python3; LSM=/path/to/lsm names a program.
set -euo pipefail
here=$(cd "$(dirname "$0")" && pwd)
top=$(cd "$here/../.." && pwd)
lsm=${LSM:-$("$top/tools/program")}
seed=${SEED:-$RANDOM}
work=$(mktemp -d)
trap 'rm -rf "$work"' EXIT
g++ -O2 -Wall -o "$work/leveldb" "$here/folders.cc" -lleveldb
source "$here/makers.sh"
make_makers "$work"
make_rocksdb "$work"
export PYTHONDONTWRITEBYTECODE=1
python3 "$here/import.py" "$lsm" "$work/leveldb$makers" "$work" "$seed" "${FLIPS:-200}" "$@"
