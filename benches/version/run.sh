#!/usr/bin/env bash
# Times a version of a million entries in 52 tables over a shelf in memory: its check, beside that
# of its tables alone; reads of single keys, with nothing cached and with footers and index blocks
# held; scans, copied and lent. Where libleveldb-dev is there, LevelDB reads the same tables at the
# same levels, in /dev/shm. Prints nanoseconds an entry or a read, the least of TURNS (5) turns, and
# how many times LevelDB's time that is. Then the memory that a check and scans of ever more tables
# in a folder take at most. Needs rt. Proves the program in a scratch folder first, over what
# crates/*/out keep.
set -euo pipefail
here=$(cd "$(dirname "$0")" && pwd)
top=$(cd "$here/../.." && pwd)
scratch=$(mktemp -d)
shared=$(mktemp -d -p /dev/shm)
trap 'rm -rf "$scratch" "$shared"' EXIT

bench="$scratch/crates/bench_version"
mkdir -p "$bench/src" "$bench"/proofs/{main,time}
source "$top/benches/copy_crates.sh"
for name in lsm_verify lsm_storage; do copy_crates "$name" "$scratch"; done
cp "$here/version.rattle" "$bench/src/main.rt"
cp "$here/holding.rattle" "$bench/src/holding.rt"
cat > "$bench/proofs/main/Invariants.antt" <<'PROOF'
use Rattle.lsm_folder.specs.SystemFolder.{system_place}
use Rattle.lsm_storage.specs.FileShelf.{folder_of}
use Rattle.bench_version.proofs.main.Given as goal

-- the records and the contents that were just made
abbrev pub ghosts-measured : goal.ghosts-measured
ghosts-measured g a = record { registry = a.records; place = system_place (folder_of a.shelf) }
PROOF
cat > "$bench/proofs/time/Invariants.antt" <<'PROOF'
use Rattle.lsm_storage.specs.MemoryShelf.{memory_told}
use Rattle.bench_version.proofs.time.Given as goal

-- the records and the contents that were just made
abbrev pub ghosts-measured : goal.ghosts-measured
ghosts-measured g a = record { registry = a.records; place = (memory_told a.shelf).place }
PROOF
echo 'bench_version: lsm_verify lsm_query lsm_version lsm_reader lsm_iterators lsm_table lsm_storage lsm_shelf lsm_folder lsm_block lsm_manifest lsm_model lsm_codec boxcar' >> "$scratch/crates.txt"
mkdir "$shared/same"
(cd "$bench" && rt run -- "$shared/same" > "$scratch/first" 2> "$scratch/log" || [[ -x out/bench_version ]]) || { cat "$scratch/log" >&2; exit 1; }
[[ -e $shared/same/CURRENT ]] || "$bench/out/bench_version" "$shared/same" > "$scratch/first"
if g++ -O2 -o "$scratch/leveldb" "$here/leveldb.cc" -lleveldb 2> "$scratch/log"; then leveldb="$scratch/leveldb"; else leveldb=true; fi

for ((turn = 0; turn < ${TURNS:-5}; turn++)); do
    "$bench/out/bench_version"
    "$leveldb" "$shared/same"
done > "$scratch/figures"
# all read the same
awk '$2 == "values" { print $3, $4, $5 }' "$scratch/figures" | sort -u > "$scratch/values"
[[ $(wc -l < "$scratch/values") == 1 ]] || { cat "$scratch/values" >&2; exit 1; }

date -u '+%Y-%m-%d %H:%M UTC'
sed -n 's/^model name[^:]*: //p' /proc/cpuinfo | head -1
uptime | sed 's/.*load/load/'
awk '
    $2 != "values" && NF == 3 && (!(($1, $2) in least) || $3 < least[$1, $2]) { least[$1, $2] = $3 }
    END {
        for (pair in least) {
            split(pair, part, SUBSEP)
            name = part[2]
            peer = name == "get_held" ? "get" : name == "scan_lent" || name == "scan" ? "scan_lent" : name
            times = part[1] == "proved" && (("leveldb", peer) in least) ? sprintf("  %.2f times", least[pair] / least["leveldb", peer]) : ""
            print part[1], name, least[pair] times
        }
    }' "$scratch/figures" | sort

for parts in 1 4 16; do
    mkdir "$shared/$parts"
    /usr/bin/time -f %M -o "$scratch/peak" "$bench/out/bench_version" "$shared/$parts" "$parts" > "$scratch/memory"
    echo "memory: $((parts * 198000 + 10000)) entries, $(du -sm "$shared/$parts" | cut -f1) MB of tables: at most $(cat "$scratch/peak") kB"
    rm -rf "${shared:?}/$parts"
done
