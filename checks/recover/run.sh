#!/usr/bin/env bash
# Recovers folders of the real LevelDB (Debian's libleveldb-dev) with a log that is not flushed, or
# two after a kill: the kinds of checks/import (LevelDB's, plyvel's, goleveldb's), with blocks that
# are not compressed, and some of them once more by LevelDB's `reuse_logs`. Of each one is made and
# recovered; then LevelDB, with `reuse_logs` and without, goleveldb in its own, and `lsm scan` read
# what LevelDB read before, LevelDB recovers no log, `lsm put` comes in, and a second recovery
# writes nothing. Then FLIPS (200) copies of folders with damage, two fifths to a log, two to a
# data block, one elsewhere in a table: a bit flipped, or an end cut off. Each is refused, and its
# files are as they were; or it has the same pairs; or those that LevelDB reads of it, behind bytes
# that are told as the rest. Where a log is refused, --to-first-fault brings a front of the writes
# in, with each batch before the damage. And KILLS (100) times a recovery is killed at any moment: LevelDB
# reads the same pairs, and the next recovery is done. Then LIVES (100) folders change hands
# between LevelDB and commands with --recover (lives.py). Words name kinds (none: all). SEED draws.
# Prints a line each, and stops at the first that is otherwise. Needs g++, libleveldb-dev, python3;
# LSM=/path/to/lsm names a program.
set -euo pipefail
here=$(cd "$(dirname "$0")" && pwd)
top=$(cd "$here/../.." && pwd)
lsm=${LSM:-$("$top/tools/program")}
seed=${SEED:-$RANDOM}
work=$(mktemp -d)
trap 'rm -rf "$work"' EXIT
reuse='options.reuse_logs = std::getenv("REUSE_LOGS") != nullptr;'
sed -e "s/options.env = env;/&\n  options.compression = leveldb::kNoCompression;\n  $reuse/" \
    -e "s/^  options.filter_policy = .*/&\n  $reuse/" "$here/../import/folders.cc" > "$work/folders.cc"
g++ -O2 -Wall -o "$work/leveldb" "$work/folders.cc" -lleveldb
source "$here/../import/makers.sh"
make_makers "$work"
export PYTHONDONTWRITEBYTECODE=1
python3 "$here/recover.py" "$lsm" "$work/leveldb$makers" "$work" "$seed" "${FLIPS:-200}" "${KILLS:-100}" "$@"
g++ -std=c++17 -O2 -Wall -o "$work/lives" "$here/lives.cc" -lleveldb
python3 "$here/lives.py" "$lsm" "$work/lives" "$work" "$seed" "${LIVES:-100}"
