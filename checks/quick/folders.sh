#!/usr/bin/env bash
# Runs `lsm get`, `scan` and `list` with `--quick` on damaged and crafted folders (folders.py says
# which): what they answer where `lsm check` refuses is what the bytes of the tables say and what
# LevelDB reads; where it does not, they print what they print without `--quick`. Prints a row for
# each refusal of `lsm check`: how often each of the three was refused alike, otherwise, or
# answered.
#
# Needs g++, libleveldb-dev and python3. LSM=/path/to/lsm names a built program. COUNT=300 is how
# many folders are drawn of each of two kinds, SEED draws.
set -euo pipefail
here=$(cd "$(dirname "$0")" && pwd)
program=$(readlink -f "${LSM:-$("$here/../../tools/program")}")
work=$(mktemp -d)
g++ -std=c++17 -O1 -Wall -o "$work/reader" "$here/reader.cc" -lleveldb
g++ -O1 -Wall -o "$work/leveldb" "$here/../leveldb_directories/directory.cc" -lleveldb
mkdir "$work/folders"
export PYTHONDONTWRITEBYTECODE=1
python3 "$here/folders.py" "$program" "$here/../refusals/refusals.txt" "$work/reader" "$work/leveldb" "$work/folders" \
  "${SEED:-$RANDOM}" "${COUNT:-300}"
rm -rf "$work"
