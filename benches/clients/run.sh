#!/usr/bin/env bash
# Times the clients beside LevelDB's C library and plyvel: run.sh [PAIRS], 1,000,000 if not said.
# Batches of 1,000 pairs and how long one waits, single puts, gets by one and by four threads, gets of
# 100 keys in a request, and an iterator over all; LevelDB, the server as a child process, the server
# inside the process; plyvel and the Python package. Best of three rounds, but for writes. FOLDER names where the
# databases are made.
#
# LSM_SERVER and LSM_SERVER_OBJECT name the server and its object, or else those that are proved.
# Needs gcc, libleveldb-dev, python3 (PYTHON; plyvel only if it is there), and a machine with nothing
# else to do.
set -euo pipefail
here=$(cd "$(dirname "$(readlink -f "${BASH_SOURCE[0]}")")" && pwd)
top=$here/../..
pairs=${1:-1000000}
server=$(readlink -f "${LSM_SERVER:-$top/crates/lsm_server/out/lsm_server}")
object=$(readlink -f "${LSM_SERVER_OBJECT:-$server.o}")
python=${PYTHON:-python3}
work=$(mktemp -d)
folder=$(mktemp -d -p "${FOLDER:-${TMPDIR:-/tmp}}")
trap 'rm -rf "$work" "$folder"' EXIT

"$top/clients/c/build.sh" "$work/c" "$object"
gcc -O2 -DLEVELDB "$here/bench.c" -o "$work/leveldb" -lleveldb -lpthread
gcc -O2 -I"$top/clients/c" "$here/bench.c" -o "$work/child" "$work/c/libtiswenor.a" -lpthread
gcc -O2 -I"$top/clients/c" "$here/bench.c" -o "$work/inside" "$work/c/libtiswenor_inside.a" -lpthread -lm

echo "$pairs pairs in $folder ($(stat -f -c %T "$folder")), load $(cut -d' ' -f1-3 /proc/loadavg), $(nproc) processors"
for name in leveldb child inside; do
  TISWENOR_SERVER=$server "$work/$name" "$folder/$name" "$name" "$pairs"
done
for module in plyvel tiswenor; do
  PYTHONPATH=$top/clients/python/src "$python" -c "import $module" || continue
  TISWENOR_SERVER=$server PYTHONPATH=$top/clients/python/src "$python" "$here/bench.py" "$module" "$folder/$module" "$pairs"
done
echo "load $(cut -d' ' -f1-3 /proc/loadavg)"
