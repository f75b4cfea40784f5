#!/usr/bin/env bash
# Runs `lsm` on a folder of some 40 tables under `ulimit -n 16`: `get`, `scan`, `check`, `list`, and
# `compact --workers 4` give what they give without it. Then it stops a scan in the middle, counts
# its descriptors, takes from it all that it has not open yet, and lets it go on: it closes what it
# keeps open, and prints what an undisturbed scan prints. Last it counts how many tables one reader
# and all workers keep open (limits.py).
#
# Needs python3 and prlimit (util-linux). LSM=/path/to/lsm names a built program.
set -euo pipefail
here=$(cd "$(dirname "$0")" && pwd)
program=$(readlink -f "${LSM:-$("$here/../../tools/program")}")
work=$(mktemp -d)
trap 'rm -rf "$work"' EXIT
cd "$work"

stop() { # WHAT
  echo "few_descriptors: $1" >&2
  exit 1
}

few() { # WORDS..: `lsm` with 16 descriptors
  (ulimit -n 16 && exec "$program" "$@")
}

batch() { # FIRST STEP: 4,000 keys in order, with values that tell the batch
  python3 -c '
first, step = int('"$1"'), int('"$2"')
for i in range(first, first + 4000 * step, step):
    print(f"key{i:08}={first:08}{step}" + 230 * "v")'
}

tables() { # DIR: how many tables a folder has
  find "$1" -name '*.ldb' | wc -l
}

same() { # DIR: what is read is read with 16 descriptors too
  local words
  for words in "scan $1 --text" "check $1" "list $1" "get $1 key00000000 --text" "get $1 key00111111 --text"; do
    # shellcheck disable=SC2086
    "$program" $words > wide.out 2> wide.err && status=0 || status=$?
    # shellcheck disable=SC2086
    few $words > few.out 2> few.err && found=0 || found=$?
    [[ $found == "$status" ]] || stop "lsm $words ends with $found, not $status: $(head -c 200 few.err)"
    cmp -s wide.out few.out && cmp -s wide.err few.err || stop "lsm $words prints other things"
  done
}

mkdir db
for i in $(seq 0 47); do
  batch $((i * 4000)) 1 | few ingest db - --text > out || stop "ingest $i: $(cat out)"
  [[ $((i % 8)) != 7 ]] || few compact db --workers 4 > out || stop "compact: $(cat out)"
done
[[ $(tables db) -ge 40 ]] || stop "$(tables db) tables, not 40"
same db
for i in $(seq 0 7); do batch $((i * 7)) 20 | "$program" ingest db - --text > out; done
same db
"$program" scan db --text > whole
cp -r db other
"$program" compact other --workers 4 > wide.out
few compact db --workers 4 > few.out || stop "compact --workers 4: $(cat few.out)"
[[ $(head -c 9 few.out) == installed ]] || stop "compact prints $(cat few.out)"
same db
for folder in db other; do
  "$program" scan $folder --text | cmp -s - whole || stop "a scan of $folder after the compaction"
  "$program" check $folder > out || stop "check of $folder: $(cat out)"
done

# a scan that stands still, since no one reads what it prints
mkfifo line
"$program" scan db --text > line &
scan=$!
exec 9< line
head -c 65536 <&9 > front
sleep 1
open=$(find "/proc/$scan/fd" -mindepth 1 | wc -l)
[[ $open -le $(($(tables db) + 8)) ]] || stop "a scan of $(tables db) tables has $open descriptors"
first=$(find "/proc/$scan/fd" -lname '*.ldb' -printf '%f\n' | sort -n | head -n 1)
prlimit --pid "$scan" --nofile=$((first + 1))
cat <&9 > rest
wait "$scan" || stop "a scan whose descriptors were taken ends with $?"
cat front rest | cmp -s - whole || stop "a scan whose descriptors were taken prints other things"
echo "few_descriptors: the same with 16 descriptors as without; $(tables db) tables, $open descriptors in mid-scan"
mkdir limits
python3 "$here/limits.py" "$program" limits
