#!/usr/bin/env bash
# What `lsm` does with a folder that it did not open before, beside LevelDB, in one run, a process
# each, in turn:
#
#   recover       a log of so many MB (LOGS="4 64"), beside LevelDB's opening, which flushes the
#                 same log
#   get --quick   of 10 MB and of 1 GB (PAIRS="86000 8600000"), and over 5,000 and 50,000 tables of
#                 2 MiB, most of their bytes a hole (TABLES="5000 50000"), beside LevelDB's opening
#                 and `Get`
#   import        of so many pairs that LevelDB compressed (SNAPPY=2000000), beside LevelDB's scan
#                 of them
#   scan          of what was imported, printed into nothing, beside LevelDB's scan that prints the
#                 compressed ones
#
# Prints a table: of each the milliseconds that passed, those of the processor, the most memory in
# MB (10^6 bytes), the least of TURNS=5 turns, and how many times LevelDB's time it took. What both
# print, or leave, is compared. LSM=/path/to/lsm names a program, ROOM=/dev/shm where folders are
# made: it has to have 3 GB, and 100,000 files. An empty list leaves its rows out. Needs gcc, g++,
# libleveldb-dev, python3, and a machine with nothing else to do.
set -euo pipefail
here=$(cd "$(dirname "$0")" && pwd)
program=$(readlink -f "${LSM:-$("$here/../../tools/program")}")
turns=${TURNS:-5}
scratch=$(mktemp -d "${ROOM:-/dev/shm}/opening-XXXXXX")
trap 'rm -rf "$scratch"' EXIT
g++ -O2 -Wall -o "$scratch/leveldb" "$here/leveldb.cc" -lleveldb
gcc -O2 -Wall -o "$scratch/measure" "$here/measure.c"
leveldb="$scratch/leveldb"

stop() { # WHAT
  echo "opening: $1" >&2
  exit 1
}

timed() { # WHO WORDS..: figures of one run more of `ours` or `theirs`; what it prints is in $scratch/WHO.out
  local who=$1
  shift
  "$scratch/measure" "$scratch/$who.figures" "$@" > "${out:-$scratch/$who.out}" || stop "$* ends with $?"
}

same() { # WORK: both print the same
  cmp -s "$scratch/ours.out" "$scratch/theirs.out" || stop "$1: lsm and LevelDB print other things"
}

row() { # WORK: the least figures of both, which begin anew
  local who
  for who in ours theirs; do
    sort -n "$scratch/$who.figures" | awk '
      NR == 1 { passed = $1; worked = $2; most = $3 }
      { if ($2 < worked) worked = $2; if ($3 < most) most = $3 }
      END { print passed / 1e3, worked / 1e3, most * 1.024 / 1e3 }'
    rm "$scratch/$who.figures"
  done | paste -sd ' ' | awk -v work="$1" '{
    printf "| %s | %.1f | %.1f | %.1f | %.1f | %.1f | %.1f | %.2f |\n", work, $1, $2, $3, $4, $5, $6, $1 / $4 }'
}

megabytes() { # FILE..: how many they have
  du -scb --apparent-size "$@" | tail -n 1 | awk '{ printf "%.3g MB", $1 / 1e6 }'
}

fresh() { # FOLDER NAME: a copy
  rm -rf "${scratch:?}/$2"
  cp -r "$scratch/$1" "$scratch/$2"
}

recovered() { # MB
  "$leveldb" log "$scratch/logged" $(($1 * 1000000 / 120))
  for ((turn = 0; turn < turns; turn++)); do
    fresh logged mine
    timed ours "$program" recover "$scratch/mine"
    fresh logged other
    timed theirs "$leveldb" open "$scratch/other"
    [[ $turn != 0 ]] || [[ $("$leveldb" print "$scratch/mine" | cksum) == $("$leveldb" print "$scratch/other" | cksum) ]] ||
      stop "recover: LevelDB reads other pairs"
  done
  row "recover, a log of $(megabytes "$scratch"/logged/*.log)"
  rm -rf "${scratch:?}"/{logged,mine,other}
}

got() { # WORK FOLDER KEY
  for ((turn = 0; turn < turns; turn++)); do
    timed ours "$program" get "$scratch/$2" "$3" --text --quick
    timed theirs "$leveldb" get "$scratch/$2" "$3"
    same "$1"
  done
  row "$1"
  rm -rf "${scratch:?}/$2"
}

tables() { # COUNT: as checks/quick makes them; the key of the whole one
  PYTHONDONTWRITEBYTECODE=1 PYTHONPATH="$here/../../checks/quick" python3 -c "
import sys, quick
quick.make('$scratch/sparse', $1, $1 // 3)
print(f'k{2 * ($1 // 3):010}')"
}

imported() { # PAIRS
  local out
  "$leveldb" snappy "$scratch/old" "$1"
  for ((turn = 0; turn < turns; turn++)); do
    rm -rf "$scratch/new"
    mkdir "$scratch/new"
    timed ours "$program" import "$scratch/old" "$scratch/new"
    out=/dev/null timed theirs "$leveldb" print "$scratch/old"
  done
  row "import, $(megabytes "$scratch/old") by Snappy"
  [[ $("$program" scan "$scratch/new" | cksum) == $("$leveldb" print "$scratch/old" | cksum) ]] || stop "scan prints other things"
  for ((turn = 0; turn < turns; turn++)); do
    out=/dev/null timed ours "$program" scan "$scratch/new"
    out=/dev/null timed theirs "$leveldb" print "$scratch/old"
  done
  row "scan of the $(megabytes "$scratch/new") that came in"
  for ((turn = 0; turn < turns; turn++)); do
    out=/dev/null timed ours "$program" scan "$scratch/new" --quick
    out=/dev/null timed theirs "$leveldb" print "$scratch/old"
  done
  row "the same, \`--quick\`"
  rm -rf "${scratch:?}"/{old,new}
}

date -u '+%Y-%m-%d %H:%M UTC'
sed -n 's/^model name[^:]*: //p' /proc/cpuinfo | head -n 1
echo "$(nproc) processors, load $(cut -d ' ' -f 1-3 /proc/loadavg), $(stat -f -c %T "$scratch"); $program"
[[ $program != */unproved/* ]] || echo "this is the unproved build: ./prove makes the program that is to be timed"
printf '| | %s | %s | %s | %s | %s | %s | %s |\n|---|---|---|---|---|---|---|---|\n' \
  "lsm, ms" "processor, ms" "memory, MB" "LevelDB, ms" "processor, ms" "memory, MB" "ratio"
for size in ${LOGS-4 64}; do recovered "$size"; done
for pairs in ${PAIRS-86000 8600000}; do
  "$leveldb" sorted "$scratch/sorted" "$pairs"
  got "get --quick, $(megabytes "$scratch/sorted")" sorted "$(printf %016d $((pairs / 2)))"
done
for count in ${TABLES-5000 50000}; do
  key=$(tables "$count")
  got "get --quick, $count tables" sparse "$key"
done
[[ ${SNAPPY:-2000000} == 0 ]] || imported "${SNAPPY:-2000000}"
