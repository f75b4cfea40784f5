#!/usr/bin/env bash
# How long a batch of 1,000 waits beside workers, and LevelDB's: run.sh [BATCHES], 1,500 if not said. FOLDER
# names where the databases are made, a disk at best. LSM names the program, or else the proved one. Needs
# g++ and libleveldb-dev.
set -euo pipefail
here=$(cd "$(dirname "$(readlink -f "${BASH_SOURCE[0]}")")" && pwd)
top=$here/../..
lsm=$(readlink -f "${LSM:-$("$top/tools/program" --proved)}")
work=$(mktemp -d)
folder=$(mktemp -d -p "${FOLDER:-${TMPDIR:-/tmp}}")
trap 'rm -rf "$work" "$folder"' EXIT
g++ -O2 -std=c++17 "$here/leveldb.cc" -o "$work/leveldb" -lleveldb
echo "in $folder ($(stat -f -c %T "$folder")), load $(cut -d' ' -f1-3 /proc/loadavg), $(nproc) processors"
python3 "$here/waits.py" "$lsm" "$work/leveldb" "$folder" "${1:-1500}"
echo "load $(cut -d' ' -f1-3 /proc/loadavg)"
