#!/usr/bin/env bash
# Times reads over a folder of 1,000,000 entries of 16 + 100 bytes, and counts the calls of the
# system: run.sh LSM.. takes built programs, and runs each command by each of them in turn, seven
# times. It prints the least milliseconds, those that passed and those of the processor (the latter
# tell more on a machine that others use), and, of one run more under strace, how often a file was
# opened, read and looked at. ROOM=/dev/shm names where the folder is made (/tmp).
#
# Needs python3 and strace. With no LSM it takes the program whose path tools/program prints.
set -euo pipefail
here=$(cd "$(dirname "$0")" && pwd)
programs=("$@")
[[ $# -gt 0 ]] || programs=("$("$here/../../tools/program")")
for i in "${!programs[@]}"; do programs[i]=$(readlink -f "${programs[i]}"); done
work=$(mktemp -d -p "${ROOM:-/tmp}")
trap 'rm -rf "$work"' EXIT
cd "$work"

batch() { # NUMBER: its 32,768 keys of the million
  python3 -c '
import random
random.seed('"$1"')
for key in range('"$1"' * 32768, min(1000000, ('"$1"' + 1) * 32768)):
    print(f"{key:016}=" + "".join(random.choices("abcdefghijklmnopqrstuvwxyz", k=100)))'
}

mkdir db
for i in $(seq 0 30); do
  batch "$i" | "${programs[0]}" ingest db - --text > out
  [[ $((i % 8)) != 7 ]] || "${programs[0]}" compact db > out
done
"${programs[0]}" compact db > out
echo "$(find db -name '*.ldb' | wc -l) tables, $(du -sb db | cut -f1) bytes; load $(cut -d' ' -f1 /proc/loadavg)"

least() { # OLD NEW
  if [[ -z $1 || $2 -lt $1 ]]; then echo "$2"; else echo "$1"; fi
}

TIMEFORMAT='%3R %3U %3S'
for command in "check db" "scan db" "get db 0000000000471113 --text"; do
  passed=() worked=()
  for _ in 1 2 3 4 5 6 7; do
    for i in "${!programs[@]}"; do
      # shellcheck disable=SC2086
      { time "${programs[i]}" $command > out; } 2> took
      read -r passing user system < <(tr -d . < took)
      passed[i]=$(least "${passed[i]-}" $((10#$passing)))
      worked[i]=$(least "${worked[i]-}" $((10#$user + 10#$system)))
    done
  done
  for i in "${!programs[@]}"; do
    # shellcheck disable=SC2086
    strace -f -c -o calls "${programs[i]}" $command > out
    echo "${command%% *} by ${programs[i]##*/}: ${passed[i]} ms, ${worked[i]} of the processor; $(awk '
      $4 ~ /^[0-9]+$/ && $NF != "total" { of[$NF] += $4; all += $4 }
      END { print of["open"] + of["openat"], "opens,", of["pread64"] + of["read"], "reads,", of["stat"] + of["newfstatat"] + of["statx"], "looks,", all, "calls" }' calls)"
  done
done
