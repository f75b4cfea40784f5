#!/usr/bin/env bash
# Directories of the real LevelDB (Debian's libleveldb-dev), without compression, written by `lsm`:
# of each kind that `directory.cc` knows one is made, listed, read, scanned, ingested into,
# compacted by 1, 2 and 4 workers (on a copy each), and then opened by LevelDB, which must give the
# same content, go on writing, and leave a directory that `lsm` reads again. The content is kept
# beside as a plain list (plain.py). Stops at the first difference; prints one line a kind. Words
# name kinds (none: all). Needs g++ and python3. LSM=/path/to/lsm names a built program; SEED=N
# draws other batches; BATCHES=N, GETS=N and VALUE=N change sizes.
set -euo pipefail
here=$(cd "$(dirname "$0")" && pwd)
top=$(cd "$here/../.." && pwd)
lsm=${LSM:-$("$top/tools/program")}
seed=${SEED:-1}
batches=${BATCHES:-5}
gets=${GETS:-12}
value=${VALUE:-300}
scratch=$(mktemp -d)
trap 'rm -rf "$scratch"' EXIT
leveldb="$scratch/leveldb"
g++ -O2 -Wall -o "$leveldb" "$here/directory.cc" -lleveldb
plain() { python3 "$here/plain.py" "$@"; }
stop() { echo "$kind (seed $seed): $*" >&2; exit 1; }

ask() { # WORDS..: the program's answer, in $scratch/answer; it has to be done
  "$lsm" "$@" > "$scratch/answer" 2> "$scratch/fault" || stop "lsm ${*/"$scratch/"/}: status $?, says: $(head -c 300 "$scratch/fault")"
  [[ ! -s $scratch/fault ]] || stop "lsm ${*/"$scratch/"/} says: $(head -c 300 "$scratch/fault")"
}

same() { # FILE WHAT: the program's answer is that file
  cmp "$scratch/answer" "$1" || stop "$2 differs"
}

holds() { # DIR LIST: lsm reads just this list there
  ask check "$1"
  ask scan "$1"
  same "$2" "lsm scan"
}

read_here() { # DIR: listed as LevelDB prints the manifest; some keys, and a part of a scan, as the plain list has them
  "$leveldb" edits "$1/$(cat "$1/CURRENT")" | plain files > "$scratch/files"
  ask list "$1"
  same "$scratch/files" "lsm list"
  holds "$1" "$scratch/list"
  plain keys "$scratch/list" "$seed" "$gets" > "$scratch/keys"
  plain answers "$scratch/list" "$scratch/keys" > "$scratch/answers"
  paste -d' ' "$scratch/keys" "$scratch/answers" | while read -r key answer; do
    ask get "$1" "$key"
    [[ $(cat "$scratch/answer") == "$answer" ]] || stop "lsm get of $key: $(head -c 100 "$scratch/answer")"
  done
  local from to
  from=$(head -2 "$scratch/keys" | LC_ALL=C sort | head -1) to=$(head -2 "$scratch/keys" | LC_ALL=C sort | tail -1)
  ask scan "$1" --from "$from" --to "$to"
  LC_ALL=C awk -F= -v from="$from" -v to="$to" '($1 "") >= from && ($1 "") <= to' "$scratch/list" > "$scratch/part"
  same "$scratch/part" "lsm scan --from $from --to $to"
}

ingest() { # DIR: batches come in until there are as many as asked for, or level 0 is full; how many came in
  came=0
  local i count last
  for i in $(seq "$batches"); do
    plain batch "$scratch/list" "$seed-$i" $((i * i * 40)) "$value" > "$scratch/batch"
    count=$(wc -l < "$scratch/batch")
    ask check "$1"
    last=$(sed -n 's/^last //p' "$scratch/answer")
    if ! "$lsm" ingest "$1" "$scratch/batch" > "$scratch/answer" 2> "$scratch/fault"; then
      [[ $(head -1 "$scratch/fault") == "refused 40 LevelZeroFull" ]] || stop "lsm ingest says: $(head -c 300 "$scratch/fault")"
      break
    fi
    [[ $(cat "$scratch/answer") =~ ^file\ ([0-9]+)\ first\ $((last + 1))\ last\ $((last + count))$ ]] || stop "lsm ingest says: $(cat "$scratch/answer")"
    ask list "$1"
    grep -q "^0 ${BASH_REMATCH[1]} " "$scratch/answer" || stop "the table ${BASH_REMATCH[1]} is not listed at level 0"
    plain apply "$scratch/list" "$scratch/batch" > "$scratch/next"
    mv "$scratch/next" "$scratch/list"
    holds "$1" "$scratch/list"
    came=$i
  done
}

compact() { # DIR WORKERS: nothing is due at level 0 then, and each table that lies there is listed
  ask compact "$1" --workers "$2"
  [[ $(cat "$scratch/answer") =~ ^installed\ ([0-9]+)$ ]] || stop "lsm compact says: $(cat "$scratch/answer")"
  installed+=("${BASH_REMATCH[1]}")
  holds "$1" "$scratch/list"
  ask list "$1"
  [[ $(grep -c '^0 ' "$scratch/answer") -lt 4 ]] || stop "$(grep -c '^0 ' "$scratch/answer") tables at level 0 after lsm compact"
  awk 'NF == 5 { printf "%06d.ldb\n", $2 }' "$scratch/answer" | sort > "$scratch/listed"
  find "$1" -name '*.ldb' -printf '%f\n' | sort | cmp - "$scratch/listed" || stop "the tables that lie there are not those listed"
}

[[ $# != 0 ]] || mapfile -t all < <("$leveldb" kinds)
for kind in "${@:-${all[@]}}"; do
  begun=$SECONDS installed=()
  "$leveldb" make "$scratch/$kind" "$kind"
  cp -r "$scratch/$kind" "$scratch/copy"
  "$leveldb" scan "$scratch/copy" > "$scratch/list"
  rm -rf "$scratch/copy"
  keys=$(wc -l < "$scratch/list") tables=$(find "$scratch/$kind" -name '*.ldb' | wc -l)
  read_here "$scratch/$kind"
  ingest "$scratch/$kind"
  read_here "$scratch/$kind"
  for workers in 1 2 4; do
    work="$scratch/work"
    cp -r "$scratch/$kind" "$work"
    compact "$work" "$workers"
    "$leveldb" same "$work" "$kind" "$scratch/list" || stop "after $workers workers LevelDB does not give the same"
    "$leveldb" write "$work" "$kind" 300
    "$leveldb" scan "$work" > "$scratch/theirs"
    holds "$work" "$scratch/theirs"
    rm -rf "$work"
  done
  echo "$kind: $tables tables, $keys live keys; $came batches came in, $(wc -l < "$scratch/list") live keys;" \
    "1, 2 and 4 workers installed ${installed[*]}; LevelDB gives the same, each time ($((SECONDS - begun)) s)"
  rm -rf "${scratch:?}/$kind" "$scratch/copy"
done
