#!/usr/bin/env bash
# Loads the same lines by `lsm load` and by LevelDB, a process each, in one run: run.sh [PAIRS]
# (10,000,000: 1.2 GB). The lines have keys of 16 drawn digits and values of 100 bytes. LevelDB takes
# them in synced batches of the same size, and compacts the whole at the end. Prints a table:
# seconds that passed and how many times LevelDB's they are, seconds of the processor, the most
# memory in MB (10^6 bytes); and compares what the folders hold, read by LevelDB. WORKERS="1 4" says
# how many threads compact, ROOM=/tmp where folders are made: it has to have four times the bytes of
# the lines. PROGRAM=/path/to/lsm takes another program than the one whose path tools/program prints.
# Needs g++, libleveldb-dev, GNU time, and a machine with nothing else to do.
set -euo pipefail
here=$(cd "$(dirname "$0")" && pwd)
program=$(readlink -f "${PROGRAM:-$("$here/../../tools/program")}")
pairs=${1:-10000000}
scratch=$(mktemp -d "${ROOM:-/tmp}/load-XXXXXX")
trap 'rm -rf "$scratch"' EXIT
g++ -O2 -Wall -o "$scratch/leveldb" "$here/leveldb.cc" -lleveldb
leveldb="$scratch/leveldb"

base=
timed() { # NAME WORDS..: a row of figures
  local name=$1 passed worked most
  shift
  sync -f "$scratch"
  command time -f "%e %U %S %M" -o "$scratch/figures" "$@" > "$scratch/said" 2>&1 || { cat "$scratch/said" >&2; exit 1; }
  read -r passed worked most < <(awk '{ print $1, $2 + $3, $4 * 1.024 / 1000 }' "$scratch/figures")
  base=${base:-$passed}
  awk -v name="$name" -v passed="$passed" -v base="$base" -v worked="$worked" -v most="$most" 'BEGIN {
    printf "| %s | %.1f | %.2f | %.1f | %.0f |\n", name, passed, passed / base, worked, most }'
}

date -u '+%Y-%m-%d %H:%M UTC'
echo "$pairs lines on $(stat -f -c %T "$scratch"), load $(cut -d ' ' -f 1 /proc/loadavg); $program"
[[ $program != */unproved/* ]] || echo "this is the unproved build: ./prove makes the program that is to be timed"
"$leveldb" pairs "$pairs" 7 > "$scratch/lines"
printf '| %s | %s | %s | %s | %s |\n|---|---|---|---|---|\n' "$(($(stat -c %s "$scratch/lines") / 1000000)) MB" "passed, s" "of LevelDB's" "processor, s" "memory, MB"
timed "LevelDB" "$leveldb" load "$scratch/theirs" "$scratch/lines"
theirs=$("$leveldb" print "$scratch/theirs" | cksum)
rm -r "$scratch/theirs"
for workers in ${WORKERS:-1 4}; do
  mkdir "$scratch/ours"
  timed "\`lsm load --workers $workers\`" "$program" load "$scratch/ours" "$scratch/lines" --text --workers "$workers"
  [[ $("$leveldb" print "$scratch/ours" | cksum) == "$theirs" ]] || { echo "load: LevelDB reads other pairs" >&2; exit 1; }
  rm -r "$scratch/ours"
done
