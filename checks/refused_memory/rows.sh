#!/usr/bin/env bash
# Runs the program rows.rattle (rows on a state, over a shelf in memory) with each of its requests
# for memory refused in turn. The text of each run has to be that of an undisturbed one, rows.out.
# The program is built first, without proofs, in some minutes; ROWS=/path says where it is put, or is
# already. Needs rt and gcc.
set -euo pipefail
here=$(cd "$(dirname "$0")" && pwd)
top=$(cd "$here/../.." && pwd)
scratch=$(mktemp -d)
trap 'rm -rf "$scratch"' EXIT

program=$(realpath -m "${ROWS:-$scratch/rows}")
if [[ ! -x $program ]]; then
  mkdir -p "$scratch/crates/rows/src"
  cp "$here/rows.rattle" "$scratch/crates/rows/src/main.rt"
  cp "$top/checks/more_tests/lsm_state_tests/src/given.rt.txt" "$scratch/crates/rows/src/given.rt"
  echo 'rows: lsm_state lsm_batch lsm_merge lsm_slots lsm_history lsm_pins lsm_table lsm_storage lsm_shelf lsm_codec boxcar' > "$scratch/crates.txt"
  "$top/tools/unproved.sh" "$program" rows "$scratch"
fi
gcc -O1 -shared -fPIC -o "$scratch/refuse.so" "$here/refuse.c" -ldl
"$program" | diff "$here/rows.out" - >&2
number=1
while :; do
  rm -f "$scratch/mark"
  status=0
  timeout 60 env REFUSE="$number" REFUSED="$scratch/mark" LD_PRELOAD="$scratch/refuse.so" "$program" > "$scratch/out" || status=$?
  if [[ $status != 0 ]] || ! diff "$here/rows.out" "$scratch/out" > "$scratch/differences"; then
    echo "rows: request $number refused: status $status, $(head -n 5 "$scratch/differences")" >&2
    exit 1
  fi
  [[ -e $scratch/mark ]] || break
  number=$((number + 1))
done
echo "rows: $((number - 1)) requests, each refused once; the same text each time; $SECONDS s"
