#!/usr/bin/env bash
# Directories of the real LevelDB (Debian's libleveldb-dev), without compression, beside this
# repository: of each kind that `directory.cc` knows (keys that span files, Bloom filters, many
# edits, reopened, compacted) one is made, its version checked, and all its live keys printed by
# both; stops at the first difference. Prints one line a kind. Words name kinds (none: all). The
# reading program is built first, without proofs, in some minutes; PROGRAM=/path says where it is put,
# or is already. Needs g++, libleveldb-dev and rt.
set -euo pipefail
here=$(cd "$(dirname "$0")" && pwd)
top=$(cd "$here/../.." && pwd)
scratch=$(mktemp -d)
trap 'rm -rf "$scratch"' EXIT

program=$(realpath -m "${PROGRAM:-$scratch/directory.program}")
if [[ ! -x $program ]]; then
  mkdir -p "$scratch/crates/directory/src"
  cp "$here/directory.rattle" "$scratch/crates/directory/src/main.rt"
  echo 'directory: lsm_verify lsm_query lsm_version lsm_table lsm_storage lsm_shelf lsm_folder lsm_block lsm_manifest lsm_codec boxcar' > "$scratch/crates.txt"
  "$top/tools/unproved.sh" "$program" directory "$scratch"
fi
g++ -O2 -Wall -o "$scratch/leveldb" "$here/directory.cc" -lleveldb

kinds=("$@")
[[ $# -gt 0 ]] || mapfile -t kinds < <("$scratch/leveldb" kinds)
for kind in "${kinds[@]}"; do
  "$scratch/leveldb" make "$scratch/$kind" "$kind"
  cp -r "$scratch/$kind" "$scratch/copy"
  "$program" "$scratch/$kind" > "$scratch/ours" || { echo "$kind: $(tail -1 "$scratch/ours")"; exit 1; }
  "$scratch/leveldb" scan "$scratch/copy" > "$scratch/theirs"
  cmp "$scratch/ours" "$scratch/theirs"
  echo "$kind: $(find "$scratch/$kind" -name '*.ldb' | wc -l) tables, $(wc -l < "$scratch/ours") live keys, the same;" \
      "$("$scratch/leveldb" spans "$scratch/copy") times a key goes on in the next file"
  rm -rf "${scratch:?}/$kind" "$scratch/copy"
done
echo "${#kinds[@]} kinds of directories, each checked and scanned: the same as LevelDB"
