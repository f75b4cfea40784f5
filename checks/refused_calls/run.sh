#!/usr/bin/env bash
# Runs `lsm ingest` and `lsm compact` by 1 and 2 workers with each of their calls write, fsync,
# rename, openat and unlink in DIR refused in turn: by ENOMEM, ENOSPC, EIO and EINTR, that one alone
# and all from then on, and of a write also after its first 5 bytes. Then `lsm check` takes the
# folder; what was answered with status 0 is there, and of what was refused all or nothing; behind a
# record of the manifest that was cut short nothing was written; the same command, asked again, is
# done; LevelDB opens the folder and gives the same. At a difference the folder is kept. Words of
# the command line choose calls and commands (all), ERRORS="ENOMEM EIO" errors, WORKERS=2 numbers of
# workers. LSM=/path/to/lsm names a built program. Needs gcc, g++, libleveldb-dev and python3.
set -euo pipefail
here=$(cd "$(dirname "$0")" && pwd)
scratch=$(mktemp -d)
program=$(readlink -f "${LSM:-$("$here/../../tools/program")}")
g++ -O2 -Wall -o "$scratch/leveldb" "$here/../leveldb_directories/directory.cc" -lleveldb
gcc -O1 -Wall -shared -fPIC -o "$scratch/refuse.so" "$here/refuse.c" -ldl
mkdir "$scratch/folder"
python3 "$here/refused.py" "$program" "$scratch/leveldb" "$scratch/refuse.so" "$scratch/folder" "$@"
rm -rf "$scratch"
