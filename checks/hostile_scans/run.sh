#!/usr/bin/env bash
# What a version does with hostile tables, its check, a scan and a merge of two levels, beside the
# check of the tables alone: ever more files of one entry each, at level 0 once all of one sequence
# and once with sequences that rise with their numbers; and two tables whose one data block spells
# far more bytes of keys than it has (make.rs), once with ages that are settled and once with open
# ones. Prints milliseconds and the peak of memory for sizes that double (FILES, LEVEL0, RISING and
# SIZES name others): what is linear doubles with them. The merge of the largest blocks writes 2 GB,
# with blocks of 1 MiB it would write some 30. The program is built first, without proofs, in some
# minutes; PROGRAM=/path says where it is put, or is already. Needs rt, rustc and /usr/bin/time.
set -euo pipefail
here=$(cd "$(dirname "$0")" && pwd)
top=$(cd "$here/../.." && pwd)
scratch=$(mktemp -d)
trap 'rm -rf "$scratch"' EXIT

program=$(realpath -m "${PROGRAM:-$scratch/hostile.program}")
if [[ ! -x $program ]]; then
  mkdir -p "$scratch/crates/hostile/src"
  cp "$here/hostile.rattle" "$scratch/crates/hostile/src/main.rt"
  echo 'hostile: lsm_merge lsm_verify lsm_query lsm_version lsm_iterators lsm_reader lsm_table lsm_storage lsm_shelf lsm_folder lsm_block lsm_manifest lsm_model lsm_codec boxcar' > "$scratch/crates.txt"
  "$top/tools/unproved.sh" "$program" hostile "$scratch"
fi
rustc -O -o "$scratch/make" "$here/make.rs"

measure() { # NAME WORDS..: one line of figures
  local name=$1
  shift
  /usr/bin/time -f %M -o "$scratch/peak" "$program" "$@" > "$scratch/out"
  echo "$name: $(awk '{ printf "%s %s ms, ", $1, $2 }' "$scratch/out")at most $(($(cat "$scratch/peak") / 1024)) MiB"
  if grep -q -E 'refused|not merged|no ' "$scratch/out"; then cat "$scratch/out" >&2; exit 1; fi
}

for files in ${FILES:-125000 250000 500000 1000000}; do measure "$files files at levels 1 and 2" "$files" 1; done
for files in ${LEVEL0:-2000 4000 8000 16000}; do measure "$files files, half of them at level 0, of one sequence" "$files" 0; done
for files in ${RISING:-125000 250000 500000 1000000}; do measure "$files files, half of them at level 0, sequences rising" "$files" rising; done
for size in ${SIZES:-64 128 256}; do
  bytes=$((size * 1024))
  mkdir "$scratch/tables"
  "$scratch/make" "$bytes" 1 2> "$scratch/last" > "$scratch/tables/000006.ldb"
  for seq in 10 2; do
    "$scratch/make" "$bytes" "$seq" 2> "$scratch/last" > "$scratch/tables/000005.ldb"
    if [[ $seq == 10 ]]; then ages=settled; else ages=open; fi
    measure "two blocks of $size KiB, ages $ages" "$scratch/tables" "$((bytes / 2))" "$(cat "$scratch/last")" "$seq"
    rm -f "$scratch/tables"/000005.ldb "$scratch/tables"/[12]*.ldb
  done
  rm -rf "$scratch/tables"
done
