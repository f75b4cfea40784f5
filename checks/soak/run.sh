#!/usr/bin/env bash
# Writers of each kind over databases that stay open: run.sh [SECONDS [PLOT]], a minute, at least one
# round of each; PLOT is a drawing of what each round measured. Keys ascending, descending, at random,
# the same 10,000 again and again, and in a hundred streams; single puts, and batches of 10 and of 1,000;
# and slow single puts. LevelDB has the same writes. soak.py says what is measured, and within which
# bounds it has to be. Ends with status 1 where a figure is not.
#
# The program is the one that LSM names, or the proved one, or else an unproved one that is built
# first. ROOM=/tmp names where the folders are made. Needs python3, g++ and libleveldb-dev.
set -euo pipefail
here=$(cd "$(dirname "$(readlink -f "${BASH_SOURCE[0]}")")" && pwd)
top=$(cd "$here/../.." && pwd)
work=$(mktemp -d)
folder=$(mktemp -d -p "${ROOM:-/tmp}" soak-XXXXXX)
trap 'rm -rf "$work" "$folder"' EXIT
program=${LSM:-$("$top/tools/program")}
g++ -std=c++17 -Wall -Wextra -Werror -O2 -o "$work/leveldb" "$here/leveldb.cc" -lleveldb -lpthread
echo "$program; load $(cut -d ' ' -f 1 /proc/loadavg)"
python3 "$here/soak.py" "$program" "$work/leveldb" "$folder" "${1:-60}" ${2:+"$2"}
