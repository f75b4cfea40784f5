#!/usr/bin/env bash
# Reads folders of the real LevelDB (Debian's libleveldb-dev) where they lie, by `--logs` and
# `--inflate`: the kinds of checks/import (LevelDB's, plyvel's, goleveldb's), with blocks of Snappy
# and a log that is not flushed, or two after a kill; and LevelDB's and plyvel's once more with
# blocks that are not compressed. Of each kind one is made. Then `lsm scan` with both, `get` of
# GETS (12) keys, there or not, and `list` and `check` say what LevelDB or goleveldb reads of a copy,
# and what `lsm check` says of the copy that `lsm import` makes; with `--inflate` alone `scan` has
# what LevelDB reads of a copy without its logs, and notes each; and without `--inflate` a compressed
# table is refused. Then FLIPS (200) copies of folders with damage, as in checks/import: `scan` is
# refused just where `import` is, by the same line (or 32 of a table that was cut), and has printed
# nothing; or has the pairs of its copy. In all of it the folder's files are as they were. Words name
# kinds (none: all). SEED draws.
# Prints a line each, and stops at the first that is otherwise. Needs g++, libleveldb-dev,
# libsnappy-dev, python3; LSM=/path/to/lsm names a program.
set -euo pipefail
here=$(cd "$(dirname "$0")" && pwd)
top=$(cd "$here/../.." && pwd)
lsm=${LSM:-$("$top/tools/program")}
seed=${SEED:-$RANDOM}
work=$(mktemp -d)
trap 'rm -rf "$work"' EXIT
g++ -O2 -Wall -o "$work/leveldb" "$here/../import/folders.cc" -lleveldb
sed 's/options.env = env;/&\n  options.compression = leveldb::kNoCompression;/' "$here/../import/folders.cc" > "$work/plain.cc"
g++ -O2 -Wall -o "$work/plain" "$work/plain.cc" -lleveldb
source "$here/../import/makers.sh"
make_makers "$work"
export PYTHONDONTWRITEBYTECODE=1
python3 "$here/seen.py" "$lsm" "$work/leveldb$makers" "$work/plain" "$work" "$seed" "${FLIPS:-200}" "${GETS:-12}" "$@"
