#!/usr/bin/env bash
# Reads Snappy beside libsnappy, and tables of LevelDB's beside LevelDB: COUNT texts (12,000), of
# which a half are altered or made by hand; then tables that LevelDB's builder compressed, which have
# to become, byte by byte, what it makes of the same entries without compression; then FLIPS of them
# (1,000) with a bit flipped, which have to be refused or to become the same. Stops at the first
# difference. Prints a line for each. SEED draws them. Needs rt, python3, g++, libsnappy-dev and
# libleveldb-dev.
set -euo pipefail
here=$(cd "$(dirname "$0")" && pwd)
top=$(cd "$here/../.." && pwd)
seed=${SEED:-$RANDOM}
work=$(mktemp -d)
trap 'rm -rf "$work"' EXIT
g++ -O2 -o "$work/texts" "$here/texts.cc" -lsnappy
g++ -O2 -o "$work/tables" "$here/tables.cc" -lleveldb
mkdir -p "$work/crates/read_snappy/src"
cp "$here/read.rattle" "$work/crates/read_snappy/src/main.rt"
echo 'read_snappy: lsm_inflate lsm_snappy lsm_table lsm_codec' > "$work/crates.txt"
"$top/tools/unproved.sh" "$work/read" read_snappy "$work" 2> "$work/log" || { cat "$work/log" >&2; exit 1; }

said=$("$work/texts" "$seed" "${COUNT:-12000}" "$work/in" "$work/want")
"$work/read" < "$work/in" > "$work/out"
python3 "$here/compare.py" "$work/want" "$work/out" 0
echo "$said: no difference (seed $seed)"
said=$("$work/tables" "$seed" 200 "${FLIPS:-1000}" "$work/in" "$work/want")
"$work/read" tables < "$work/in" > "$work/out"
told=$(python3 "$here/compare.py" "$work/want" "$work/out" "${FLIPS:-1000}")
echo "$said: each the same; $told (seed $seed)"
