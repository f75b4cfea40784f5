#!/usr/bin/env bash
# Times a table of a million entries (keys of 16 bytes, values of 100) in memory beside plain Rust
# and, where libleveldb-dev is there, the real LevelDB: building, checking, going through, reads of
# single keys. One table in nanoseconds an entry or a read, the least of fifteen turns. Needs rt and
# rustc. Proves the crates in a scratch folder first, over what crates/*/out keep.
set -euo pipefail
here=$(cd "$(dirname "$0")" && pwd)
top=$(cd "$here/../.." && pwd)
scratch=$(mktemp -d)
trap 'rm -rf "$scratch"' EXIT

source "$top/benches/copy_crates.sh"
copy_crates lsm_table "$scratch"
mkdir -p "$scratch/crates/bench_table/src"
cp "$here/table.rattle" "$scratch/crates/bench_table/src/main.rt"
echo 'bench_table: lsm_table lsm_block lsm_codec' >> "$scratch/crates.txt"
(cd "$scratch/crates/bench_table" && rt run > "$scratch/first" 2> "$scratch/log") || { cat "$scratch/log" >&2; exit 1; }
rustc --edition 2021 -O -C target-cpu=x86-64-v2 -o "$scratch/rust" "$here/peer.rs" 2> "$scratch/log"
if g++ -O2 -o "$scratch/leveldb" "$here/leveldb.cc" -lleveldb 2> "$scratch/log"; then leveldb="$scratch/leveldb"; else leveldb=true; fi

for turn in 1 2 3; do
    "$scratch/crates/bench_table/out/bench_table"
    "$scratch/rust"
    "$leveldb"
done > "$scratch/figures"
# all do the same work
if [[ $(awk '$2 == "bytes" || $2 == "values" { print $2, $3, $4 }' "$scratch/figures" | sort -u | wc -l) != 2 ]]; then
    sort -u "$scratch/figures" | grep -E 'bytes|values' >&2
    exit 1
fi

date -u '+%Y-%m-%d %H:%M UTC'
sed -n 's/^model name[^:]*: //p' /proc/cpuinfo | head -1
uptime | sed 's/.*load/load/'
awk '
    $2 != "bytes" && $2 != "values" && (!(($1, $2) in least) || $3 < least[$1, $2]) { least[$1, $2] = $3 }
    END {
        for (pair in least) { split(pair, part, SUBSEP); print part[1], part[2], least[pair] }
    }' "$scratch/figures" | sort
