#!/usr/bin/env bash
# Runs `lsm dump` on tables whose blocks spell far more bytes of keys than they have (make.rs). Each
# is refused, once all of its bytes were read, as OutOfOrder at its last entry; the seconds that
# this takes are printed beside the size, and double with it. Then on tables whose data blocks share
# bytes (shared.py): each is refused as BadIndex before its second block is read, in at most two
# seconds, however many entries it spells. Needs rustc and python3. LSM=/path/to/lsm names a built
# program.
set -euo pipefail
here=$(cd "$(dirname "$0")" && pwd)
top=$(cd "$here/../.." && pwd)
work=$(mktemp -d)
trap 'rm -rf "$work"' EXIT
program=${LSM:-$("$top/tools/program")}
rustc -O -o "$work/make" "$here/make.rs"

for block in data index; do
  for size in ${SIZES:-8 16 32 63}; do
    last=$("$work/make" "$block" $((size * 1048576)) 2>&1 > "$work/table")
    start=$(date +%s.%N)
    status=0
    "$program" dump < "$work/table" > "$work/out" 2> "$work/err" || status=$?
    end=$(date +%s.%N)
    if [[ $status != 1 || -s $work/out || $(cat "$work/err") != "refused 8 OutOfOrder $last" ]]; then
      echo "$block block of $size MiB: status $status, says: $(head -c 200 "$work/err"), and not: refused 8 OutOfOrder $last" >&2
      exit 1
    fi
    echo "$block block of $size MiB: refused 8 OutOfOrder $last, after $(awk "BEGIN { printf \"%.2f\", $end - $start }") s"
  done
done

for blocks in ${BLOCKS:-500 1000 2000 4000}; do
  "$here/shared.py" "$blocks" "$blocks" > "$work/table"
  start=$(date +%s.%N)
  status=0
  timeout 60 "$program" dump < "$work/table" > "$work/out" 2> "$work/err" || status=$?
  took=$(awk "BEGIN { printf \"%.2f\", $(date +%s.%N) - $start }")
  if [[ $status != 1 || -s $work/out || $(cat "$work/err") != "refused 18 BadIndex" ]]; then
    echo "$blocks data blocks that share bytes: status $status, says: $(head -c 200 "$work/err"), and not: refused 18 BadIndex" >&2
    exit 1
  fi
  if awk "BEGIN { exit !($took > 2) }"; then
    echo "$blocks data blocks that share bytes: refused, but after $took s" >&2
    exit 1
  fi
  echo "$blocks data blocks that share bytes: refused 18 BadIndex, after $took s"
done
