#!/bin/sh
# Times crc32c of lsm_codec beside the same work in Rust and C, and prints one table in MB/s (10^6
# bytes a second). Needs rt, rustc and gcc. Proves lsm_codec in a scratch folder first, over what
# crates/lsm_codec/out keeps. Each figure is the best of three turns of 200 runs of 4 MiB, the text
# in the cache, its start moving over 16 places.
set -eu
here=$(cd "$(dirname "$0")" && pwd)
top=$(cd "$here/../.." && pwd)
scratch=$(mktemp -d)
trap 'rm -rf "$scratch"' EXIT

mkdir -p "$scratch/crates/bench_checksum/src"
cp -a "$top/crates/lsm_codec" "$scratch/crates/lsm_codec"
rm -rf "$scratch/crates/lsm_codec/must-fail"
cp "$here/checksum.rattle" "$scratch/crates/bench_checksum/src/main.rt"
grep '^lsm_codec:' "$top/crates.txt" > "$scratch/crates.txt"
echo 'bench_checksum: lsm_codec' >> "$scratch/crates.txt"
(cd "$scratch/crates/bench_checksum" && rt run > "$scratch/first" 2> "$scratch/log") || { cat "$scratch/log" >&2; exit 1; }
rustc --edition 2021 -O -C target-cpu=x86-64-v2 -o "$scratch/rust" "$here/peer.rs"
gcc -O2 -march=x86-64-v2 -o "$scratch/c" "$here/peer.c"

for turn in 1 2 3; do
    "$scratch/crates/bench_checksum/out/bench_checksum"
    "$scratch/rust"
    "$scratch/c"
done > "$scratch/figures"

date -u '+%Y-%m-%d %H:%M UTC'
sed -n 's/^model name[^:]*: //p' /proc/cpuinfo | head -1
uptime | sed 's/.*load/load/'
awk '
    !($1 in seen) { seen[$1] = 1; order[++rows] = $1 }
    $3 > best[$1, $2] { best[$1, $2] = $3 }
    END {
        printf "| Form | 64 bytes | 4 KiB | 1 MiB |\n|---|---|---|---|\n"
        name["proved"] = "`crc32c`, proved, `rt run` (LLVM)"
        name["rust"] = "the same in Rust, `rustc -O`"
        name["c"] = "the same in C, `gcc -O2`"
        name["rust_one_table"] = "one table in Rust, `rustc -O`"
        for (i = 1; i <= rows; i++)
            printf "| %s | %d | %d | %d |\n", name[order[i]], best[order[i], 64], best[order[i], 4096], best[order[i], 1048576]
    }' "$scratch/figures"
