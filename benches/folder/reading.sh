#!/usr/bin/env bash
# Makes the program of reading.rattle, whose rows table.sh prints: reading.sh FILE. It copies the
# program with the crates that it stands on into a scratch folder, and proves it there over what
# crates/*/out keep. With UNPROVED=1 it is not proved, but compiled with checks at run time, as
# tools/unproved.sh does; FILE has then to have `unproved` in its path, by which table.sh knows it.
# Needs rt, and a space of some GB in /tmp.
set -euo pipefail
here=$(cd "$(dirname "$0")" && pwd)
top=$(cd "$here/../.." && pwd)
file=$(realpath -m "$1")
scratch=$(mktemp -d)
trap 'rm -rf "$scratch"' EXIT
bench="$scratch/crates/bench_folder"

source "$top/benches/copy_crates.sh"
copy_crates lsm_store "$scratch"
mkdir -p "$bench/src" "$bench"/proofs/{run,readers/start_all}
cp "$here/reading.rattle" "$bench/src/main.rt"
for name in keys opening readers writer; do cp "$here/$name.rattle" "$bench/src/$name.rt"; done
cat > "$bench/proofs/run/Invariants.antt" <<'PROOF'
use Rattle.bench_folder.proofs.run.Given as goal

-- the name stands for the records, the board and the history that were just made, and for the contents of the shelf
abbrev pub ghosts-serve-N-Naming : goal.ghosts-serve-N-Naming
ghosts-serve-N-Naming g a = record { registry = a.records; place = (g.S.Shelf.told a.shelf).place }

abbrev pub ghosts-serve-N-Boarded : goal.ghosts-serve-N-Boarded
ghosts-serve-N-Boarded g a = record { board = a.board.0.board }

abbrev pub ghosts-serve-N-Historied : goal.ghosts-serve-N-Historied
ghosts-serve-N-Historied g a = record { history = a.history.table.shared.table_id }
PROOF
cat > "$bench/proofs/readers/start_all/Invariants.antt" <<'PROOF'
use Rattle.std.proofs.Common.{vec_len}
use Rattle.bench_folder.proofs.readers.start_all.Given as goal

abbrev pub decreases-loop-reader : goal.decreases-loop-reader
decreases-loop-reader g l = vec_len l.readers
PROOF
echo 'bench_folder: lsm_store lsm_state lsm_batch lsm_slots lsm_pins lsm_history lsm_query lsm_iterators lsm_version lsm_model lsm_table lsm_storage lsm_shelf lsm_folder lsm_codec boxcar' >> "$scratch/crates.txt"

if [[ ${UNPROVED:-} ]]; then
  [[ $file == *unproved* ]] || { echo "reading: $file has no unproved in its path" >&2; exit 2; }
  mkdir "$scratch/tools"
  cp "$top/tools/unproved.sh" "$scratch/tools/"
  "$scratch/tools/unproved.sh" "$file" bench_folder
  exit
fi
(cd "$bench" && rt run > "$scratch/log" 2>&1) || [[ -x $bench/out/bench_folder ]] || { cat "$scratch/log" >&2; exit 1; }
mkdir -p "$(dirname "$file")"
cp "$bench/out/bench_folder" "$file"
tail -n 1 "$scratch/log"
