#!/bin/sh
# Measures pin + unpin on one board beside an Arc clone and drop in Rust, in one run, by 1, 2 and 4
# threads. It proves and builds the program in a folder of its own below /tmp, and leaves the
# repository as it is.
set -eu
top=$(cd "$(dirname "$0")/../.." && pwd)
room=$(mktemp -d /tmp/pins-bench.XXXXXX)
trap 'rm -rf "$room"' EXIT
bench="$room/crates/pins_bench"
mkdir -p "$bench/src" "$bench/proofs/idle_pinners" "$bench/proofs/rounds"
cp -r "$top/crates/lsm_pins" "$room/crates/lsm_pins"
rm -rf "$room/crates/lsm_pins/out"
cp "$top/HANDLES" "$room/HANDLES"
printf 'lsm_pins: atomic_table thiserror\npins_bench: lsm_pins\n' > "$room/crates.txt"
cp "$top/benches/pins/pins.rattle" "$bench/src/main.rt"
cat > "$bench/proofs/idle_pinners/Invariants.antt" <<'END'
use Rattle.std.proofs.Common.{◌≡◌, None, All}
use Rattle.lsm_pins.specs.declared.pinner.Pinner.{Pinner}
use Rattle.pins_bench.proofs.idle_pinners.Given as goal

abbrev pub invariant-loop : goal.invariant-loop
invariant-loop l = All (λ (p : Pinner). p.knows.held ≡ None) l.pinners.items
END
cat > "$bench/proofs/rounds/Invariants.antt" <<'END'
use Rattle.std.proofs.Common.{◌≡◌, None}
use Rattle.pins_bench.proofs.rounds.Given as goal

abbrev pub invariant-loop-done : goal.invariant-loop-done
invariant-loop-done l = l.pinner.knows.held ≡ None
END
rustc -O -o "$room/arc" "$top/benches/pins/arc.rs"
cd "$bench"
rt run --jobs 2 > "$room/log" || { cat "$room/log"; exit 1; }
for run in 1 2 3; do
    ./out/pins_bench
    "$room/arc" 4000000 5
done
