#!/usr/bin/env bash
# Times reading Snappy in memory beside libsnappy: eight MiB of five kinds of data in blocks of 4,096
# bytes. A line for each: milliseconds of the proved program, of libsnappy, and how many times as
# long. Needs rt, g++ and libsnappy-dev. Proves the program in a scratch folder first, over what
# crates/*/out keep.
set -euo pipefail
here=$(cd "$(dirname "$0")" && pwd)
top=$(cd "$here/../.." && pwd)
scratch=$(mktemp -d)
trap 'rm -rf "$scratch"' EXIT

source "$top/benches/copy_crates.sh"
copy_crates lsm_snappy "$scratch"
mkdir -p "$scratch/crates/bench_snappy/src"
cp "$here/snappy.rattle" "$scratch/crates/bench_snappy/src/main.rt"
echo 'bench_snappy: lsm_snappy lsm_codec' >> "$scratch/crates.txt"
(cd "$scratch/crates/bench_snappy" && rt run > "$scratch/first" 2> "$scratch/log" < /dev/null) || { cat "$scratch/log" >&2; exit 1; }
g++ -O2 -o "$scratch/peer" "$here/peer.cc" -lsnappy

date -u '+%Y-%m-%d %H:%M UTC'
sed -n 's/^model name[^:]*: //p' /proc/cpuinfo | head -1
uptime | sed 's/.*load/load/'
kinds=(noise "four letters" "copies of all lengths" "text" "runs of one byte")
for kind in 0 1 2 3 4; do
    "$scratch/peer" "$kind" > "$scratch/in" 2> "$scratch/peers"
    "$scratch/crates/bench_snappy/out/bench_snappy" < "$scratch/in" > "$scratch/ours"
    paste "$scratch/ours" "$scratch/peers" | awk -v kind="${kinds[$kind]}" '
        $1 != $3 { print kind ": other bytes"; exit 1 }
        { printf "%s: %.2f beside %.2f, %.1f times\n", kind, $2 / 1e6, $4 / 1e6, $2 / $4 }'
done
