#!/usr/bin/env bash
# Kills `lsm load` at random moments: loads.py says how. Words: how many kills (100), and a seed
# (drawn, and printed). LSM=/path/to/a/built/program takes another program than the repository's; it
# has to be the program itself, no script that starts it. LINES, KEYS and VALUE change sizes. Needs
# gcc, g++, libleveldb-dev and python3. At a difference the directory is kept.
set -euo pipefail
here=$(cd "$(dirname "$0")" && pwd)
top=$(cd "$here/../.." && pwd)
scratch=$(mktemp -d)
program=$(readlink -f "${LSM:-$("$top/tools/program")}")
seed=${2:-$RANDOM$RANDOM}
echo "seed $seed"
g++ -O2 -Wall -o "$scratch/leveldb" "$here/../leveldb_directories/directory.cc" -lleveldb
gcc -O1 -Wall -shared -fPIC -o "$scratch/kill.so" "$here/kill.c" -ldl
mkdir "$scratch/directories"
python3 "$here/loads.py" "$program" "$scratch/leveldb" "$scratch/kill.so" "$scratch/directories" "${1:-100}" "$seed"
rm -rf "$scratch"
