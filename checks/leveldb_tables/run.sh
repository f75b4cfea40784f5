#!/usr/bin/env bash
# Compares `lsm` with the real LevelDB (Debian's libleveldb-dev): tables made of one list byte by
# byte, each other's tables read, the tables (with filter blocks and shortened separators) and the
# manifest of a directory that LevelDB made, and the tables of one that it compressed, which are
# refused as such. Stops at the first difference. Prints one line for each comparison, and times for
# a list of a million entries, three times (TURNS=0: not at all). Needs g++ and libleveldb-dev.
# LSM=/path/to/lsm names a built program.
set -euo pipefail
here=$(cd "$(dirname "$0")" && pwd)
top=$(cd "$here/../.." && pwd)
lsm=${LSM:-$("$top/tools/program")}
work=$(mktemp -d)
trap 'rm -rf "$work"' EXIT
g++ -O2 -o "$work/table" "$here/table_of_list.cc" -lleveldb
g++ -O2 -o "$work/database" "$here/database.cc" -lleveldb

list() { # LINES VALUE_BYTES: keys of 16 hex digits, every ninth a deletion, some keys with several entries
  awk -v n="$1" -v size="$2" 'BEGIN {
    for (i = 0; i < n; i++) {
      key = sprintf("%016x", int(i / 3) * 4001); value = sprintf("%016x", i * 2654435761 % 4294967296)
      while (length(value) < 2 * size) value = value value
      value = size ? substr(value, 1, 2 * size) : "."
      if (i % 9 == 5) print key, n - i, "del"; else print key, n - i, "put", value
    }
  }'
}

for shape in "0 0" "1 1" "2 0" "17 4" "1000 16" "20000 100" "300 5000"; do
  set -- $shape
  list "$1" "$2" > "$work/list"
  "$lsm" mktable < "$work/list" > "$work/ours"
  "$work/table" build 4096 16 "$work/theirs" < "$work/list"
  cmp "$work/ours" "$work/theirs"
  "$lsm" dump < "$work/theirs" | cmp - "$work/list"
  "$work/table" dump "$work/ours" | cmp - "$work/list"
  echo "a list of $1 entries with values of $2 bytes: the same $(wc -c < "$work/ours") bytes, each reads the other's"
done

"$work/database" "$work/db" 100000
entries=0
for file in "$work"/db/*.ldb; do
  "$lsm" dump < "$file" > "$work/ours"
  "$work/table" dump "$file" | cmp - "$work/ours"
  entries=$((entries + $(wc -l < "$work/ours")))
done
echo "LevelDB's directory: $(ls "$work"/db/*.ldb | wc -l) tables, $entries entries, read as LevelDB reads them"
"$lsm" manifest < "$work"/db/MANIFEST-* > "$work/manifest"
echo "its manifest: $(grep -c '^edit' "$work/manifest") edits, $(tail -1 "$work/manifest")"

"$work/database" "$work/compressed" 100000 compressed
for file in "$work"/compressed/*.ldb; do
  status=0
  "$lsm" dump < "$file" > "$work/ours" 2> "$work/refused" || status=$?
  if [[ $status != 1 || -s $work/ours || $(cat "$work/refused") != "refused 16 Compressed 1" ]]; then
    echo "$(basename "$file"), compressed: status $status, says: $(head -c 200 "$work/refused")" >&2
    exit 1
  fi
done
"$lsm" manifest < "$work"/compressed/MANIFEST-* > "$work/manifest"
echo "a directory with compression: $(ls "$work"/compressed/*.ldb | wc -l) tables, each refused 16 Compressed 1; its manifest is read"

[[ ${TURNS:-3} != 0 ]] || exit 0
list 1000000 16 > "$work/list"
TIMEFORMAT='%U user %S sys %R real'
for _ in $(seq "${TURNS:-3}"); do
  echo -n "mktable lsm:     "; time "$lsm" mktable < "$work/list" > "$work/ours"
  echo -n "mktable LevelDB: "; time "$work/table" build 4096 16 "$work/theirs" < "$work/list"
  echo -n "dump lsm:        "; time "$lsm" dump < "$work/ours" > "$work/out"
  echo -n "dump LevelDB:    "; time "$work/table" dump "$work/ours" > "$work/out2"
done
cmp "$work/ours" "$work/theirs"
cmp "$work/out" "$work/out2"
echo "a list of 1000000 entries: the same $(wc -c < "$work/ours") bytes, each reads the other's"
