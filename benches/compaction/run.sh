#!/usr/bin/env bash
# Times the compaction of four tables of level 0 with 250,000 entries each (keys of 16 bytes, values
# of 100) over a shelf in memory: with disjoint keys, and with the same keys in every table. Where
# libleveldb-dev is there, the real LevelDB merges tables of the same entries in /dev/shm, by one
# thread too. Prints MB of input a second, the most of TURNS (5) turns, and how much of LevelDB's
# that is. Then the memory that a compaction in a folder takes at most, with input of 1, 4 and 16
# times the size. Needs rt. Proves the program in a scratch folder first, over what crates/*/out
# keep.
set -euo pipefail
here=$(cd "$(dirname "$0")" && pwd)
top=$(cd "$here/../.." && pwd)
scratch=$(mktemp -d)
shared=$(mktemp -d -p /dev/shm)
trap 'rm -rf "$scratch" "$shared"' EXIT

bench="$scratch/crates/bench_compaction"
mkdir -p "$bench/src" "$bench"/proofs/{main,time,copies_of,job_of}
source "$top/benches/copy_crates.sh"
for name in lsm_merge lsm_verify lsm_storage; do copy_crates "$name" "$scratch"; done
cp "$here/compaction.rattle" "$bench/src/main.rt"
cat > "$bench/proofs/Lib.antt" <<'PROOF'
mod Wholes
PROOF
cat > "$bench/proofs/Wholes.antt" <<'PROOF'
-- The tables of a level and of another one of a sound version are whole.
use Rattle.std.proofs.Common.{◌≡◌, ℕ, List, ◌++◌, subst, inl, inr}
use Rattle.lsm_codec.specs.Lists.{Has}
use Rattle.lsm_codec.proofs.CallerLemmas.{has_cases}
use Rattle.lsm_table.specs.Registry.{Table}
use Rattle.lsm_version.specs.Versions.{IsSound, IsWhole, Levels, level_in}

pub whole_inputs : (v : Levels) (n m : ℕ) (upper lower : List Table) → IsSound v → upper ≡ level_in v.tables n → lower ≡ level_in v.tables m
    → (t : Table) → Has (upper ++ lower) t → IsWhole t
whole_inputs v n m upper lower sound a b t h = elim (has_cases upper lower t h) [
  | inl k ↦ sound.tables n t (subst (λ (l : List Table). Has l t) a k)
  | inr k ↦ sound.tables m t (subst (λ (l : List Table). Has l t) b k)
]
PROOF
cat > "$bench/proofs/copies_of/Invariants.antt" <<'PROOF'
use Rattle.std.proofs.Common.{◌≡◌, take}
use Rattle.bench_compaction.proofs.copies_of.Given as goal

abbrev pub invariant-loop-table : goal.invariant-loop-table
invariant-loop-table g l = l.copies.items ≡ take l.table-index l.tables
PROOF
cat > "$bench/proofs/job_of/Answers.antt" <<'PROOF'
use Rattle.std.proofs.Common.{◌∙◌}
use Rattle.bench_compaction.proofs.Wholes.{whole_inputs}
use Rattle.bench_compaction.proofs.job_of.Goals as goal

pub of-requires-3-clause-whole : goal.of-requires-3-clause-whole
of-requires-3-clause-whole g c = λ lts lives honest.
    whole_inputs c.args.version.now 0 1 c.in_ok-upper.upper.items c.in_ok-lower.lower.items (c.last-last.ensures.sound honest)
    (c.in_ok-upper.ensures ∙ c.level-above.ensures) (c.in_ok-lower.ensures ∙ c.level-below.ensures)
PROOF
cat > "$bench/proofs/time/Invariants.antt" <<'PROOF'
use Rattle.lsm_storage.specs.MemoryShelf.{memory_told}
use Rattle.bench_compaction.proofs.time.Given as goal

-- the records and the contents that were just made
abbrev pub ghosts-measured : goal.ghosts-measured
ghosts-measured g a = record { registry = a.records; place = (memory_told a.shelf).place }
PROOF
cat > "$bench/proofs/main/Invariants.antt" <<'PROOF'
use Rattle.lsm_folder.specs.SystemFolder.{system_place}
use Rattle.lsm_storage.specs.FileShelf.{folder_of}
use Rattle.bench_compaction.proofs.main.Given as goal

-- the records and the contents that were just made
abbrev pub ghosts-measured : goal.ghosts-measured
ghosts-measured g a = record { registry = a.records; place = system_place (folder_of a.shelf) }
PROOF
echo 'bench_compaction: lsm_merge lsm_verify lsm_version lsm_iterators lsm_reader lsm_table lsm_storage lsm_shelf lsm_folder lsm_block lsm_manifest lsm_model lsm_codec boxcar' >> "$scratch/crates.txt"
(cd "$bench" && rt run > "$scratch/first" 2> "$scratch/log" || [[ -x out/bench_compaction ]]) || { cat "$scratch/log" >&2; exit 1; }
if g++ -O2 -o "$scratch/leveldb" "$here/leveldb.cc" -lleveldb 2> "$scratch/log"; then leveldb=yes; else leveldb=no; fi

turn() {
    "$bench/out/bench_compaction"
    [[ $leveldb == yes ]] || return 0
    for kind in disjoint equal; do
        for trust in "" trusting; do
            cp -r "$shared/$kind" "$shared/copy"
            "$scratch/leveldb" compact "$shared/copy" "$kind" $trust | sed "s/^leveldb/leveldb${trust:+_$trust}/"
            rm -rf "$shared/copy"
        done
    done
}

if [[ $leveldb == yes ]]; then
    for kind in disjoint equal; do "$scratch/leveldb" make "$shared/$kind" 250000 "$kind"; done
fi
for ((i = 0; i < ${TURNS:-5}; i++)); do turn; done > "$scratch/figures"

date -u '+%Y-%m-%d %H:%M UTC'
sed -n 's/^model name[^:]*: //p' /proc/cpuinfo | head -1
uptime | sed 's/.*load/load/'
grep bytes_ "$scratch/figures" | sort -u
awk '
    NF == 3 && $3 + 0 > most[$1, $2] { most[$1, $2] = $3 }
    END {
        for (pair in most) {
            split(pair, part, SUBSEP)
            if (part[1] == "proved" && (("leveldb", part[2]) in most)) share = sprintf("  %.2f of it", most[pair] / most["leveldb", part[2]])
            else share = ""
            print part[1], part[2], most[pair] " MB/s" share
        }
    }' "$scratch/figures" | sort

rm -rf "${shared:?}"/*
for tables in 16 64 256; do
    mkdir "$shared/tables"
    /usr/bin/time -f %M -o "$scratch/peak" "$bench/out/bench_compaction" "$shared/tables" "$tables" > "$scratch/memory"
    echo "memory: $tables tables of 15625 entries, $(awk '$2 ~ /^bytes/ { print int($3 / 1000000) }' "$scratch/memory") MB: at most $(cat "$scratch/peak") kB"
    rm -rf "$shared/tables"
done
