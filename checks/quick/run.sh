#!/usr/bin/env bash
# Runs `lsm get`, `scan` and `list` with `--quick`: over a folder that `lsm` wrote they print what they
# print without it; over 5,000 tables of 2 MiB, of which all but one are damaged, a key of the whole
# one is answered, within so much processor time (quick.py).
#
# Needs python3. LSM=/path/to/lsm names a built program. TABLES=5000.
set -euo pipefail
here=$(cd "$(dirname "$0")" && pwd)
program=$(readlink -f "${LSM:-$("$here/../../tools/program")}")
work=$(mktemp -d)
trap 'rm -rf "$work"' EXIT
cd "$work"

stop() { # WHAT
  echo "quick: $1" >&2
  exit 1
}

same() { # WORDS..: the same status and lines with --quick as without
  local found status
  "$program" "$@" > whole.out 2> whole.err && status=0 || status=$?
  "$program" "$@" --quick > quick.out 2> quick.err && found=0 || found=$?
  [[ $found == "$status" ]] || stop "lsm $* --quick ends with $found, not $status: $(head -c 200 quick.err)"
  cmp -s whole.out quick.out && cmp -s whole.err quick.err || stop "lsm $* --quick prints other things"
}

mkdir db
for i in $(seq 0 11); do
  python3 -c '
import sys
first = int(sys.argv[1])
for key in sorted({i * 7 % 9000 for i in range(first, first + 3000, 3)}):
    print(f"key{key:06}!" if key % 5 == 0 else f"key{key:06}=round{first}")' "$((i * 100))" > lines
  "$program" load db lines --text > out 2> err || stop "load: $(cat out err)"
done
for words in "list db" "list db --text" "scan db" "scan db --text" "scan db --keys" "scan db --json" "scan db --count" \
  "scan db --from 6b657930 --limit 7" "scan db --text --prefix key0001" "get db key000021 --text" "get db key000700 --text --raw" \
  "get db nothing --text" "get db nothing --text --exists" "get db key000021 --text --strict" "scan nowhere" "get nowhere 61"; do
  # shellcheck disable=SC2086
  same $words
done
mkdir beside && cp db/* beside && head -c 40 /dev/zero > beside/999999.log
for words in "scan beside --text" "get beside key000021 --text" "list beside" "list beside --strict"; do
  # shellcheck disable=SC2086
  same $words
done
python3 "$here/quick.py" "$program" "$work/many" "${TABLES:-5000}"
