#!/usr/bin/env bash
# Times `lsm mktable` and `lsm dump` on a million lines with values of 16 bytes, beside plain Rust,
# and compares what they write. Usage: benches/program/run.sh [LINES]. PROGRAM=/path/to/lsm takes
# another program than the one whose path tools/program prints. Needs rustc.
set -euo pipefail
lines=${1:-1000000}
top=$(cd "$(dirname "$0")/../.." && pwd)
work=$(mktemp -d)
trap 'rm -rf "$work"' EXIT
rustc --edition 2021 -O -o "$work/peer" "$top/benches/program/peer.rs"
awk -v n="$lines" 'BEGIN { for (i = 0; i < n; i++) printf "%016x %d put %016x%016x\n", i * 4001, i + 1, i * 2654435761 % 4294967296, i }' > "$work/list"
program=$(readlink -f "${PROGRAM:-$("$top/tools/program")}")
date -u '+%Y-%m-%d %H:%M UTC'
echo "$lines lines, load $(cut -d ' ' -f 1 /proc/loadavg); $program"
[[ $program != */unproved/* ]] || echo "this is the unproved build: ./prove makes the program that is to be timed"
TIMEFORMAT='%U user %S sys %R real'
for turn in 1 2 3; do
  for name in mktable dump; do
    if [[ $name == mktable ]]; then input="$work/list"; else input="$work/table.lsm"; fi
    echo -n "$name lsm:  "; time "$program" $name < "$input" > "$work/$name.lsm"
    echo -n "$name rust: "; time "$work/peer" $name < "$input" > "$work/$name.rust"
    cmp "$work/$name.lsm" "$work/$name.rust"
    [[ $name == mktable ]] && cp "$work/mktable.lsm" "$work/table.lsm"
  done
done
cmp "$work/list" "$work/dump.lsm"
ls -l "$work/list" "$work/table.lsm" | awk '{ print $5, $9 }'
