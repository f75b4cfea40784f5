#!/usr/bin/env bash
# Runs each command of `lsm` with standard input, output and error closed, in each combination: no
# file is then opened as descriptor 0, 1 or 2; the status is 0, or 1 where a stream is wanted that
# is closed; reading commands leave the folder byte for byte; a batch is in, and a compaction
# changes no answer. Then `lsm compact --progress` by 2 and 8 workers, standard error closed, while
# each sync takes 40 ms, ten times each: a line of progress must not come into a file. Needs gcc.
# LSM=/path/to/lsm names a built program; ROUNDS=N changes the ten.
set -euo pipefail
here=$(cd "$(dirname "$0")" && pwd)
top=$(cd "$here/../.." && pwd)
work=$(mktemp -d)
trap 'rm -rf "$work"' EXIT
program=$(readlink -f "${LSM:-$("$top/tools/program")}")
gcc -O1 -Wall -shared -fPIC -o "$work/slow.so" "$here/slow.c" -ldl
cd "$work"

stop() { # WHAT
  echo "lsm $words, closed: ${closed:-none}: $1; status ${status:-0}, says: $(head -c 300 err)" >&2
  exit 1
}

run() { # INPUT WORDS..: one run with the streams of `closed` closed; its status
  local input=$1
  shift
  words=$* status=0
  rm -f mark
  (
    [[ $closed != *0* ]] || exec 0<&-
    [[ $closed != *1* ]] || exec 1>&-
    [[ $closed != *2* ]] || exec 2>&-
    MARK="$work/mark" LD_PRELOAD="$work/slow.so" exec "$program" "$@"
  ) < "$input" > out 2> err || status=$?
  [[ ! -e mark ]] || stop "a file was opened as descriptor 0, 1 or 2"
}

same_content() { # LIST
  "$program" scan db > now 2>> err || stop "the folder is not read afterwards"
  cmp -s "$1" now || stop "other content afterwards"
  [[ $("$program" check db | tail -n 1) == "rest 0" ]] || stop "the manifest ends otherwise"
}

put_back() {
  rm -rf db
  cp -r db.old db
}

make_folder() { # three groups of three tables, so that compactions apart are due; what it holds, before and after a batch
  local turn group i
  mkdir db
  for turn in 1 2 3; do
    for group in a b c; do
      for i in {10..39}; do [[ $(((i + turn) % 3)) == 0 ]] || echo "$group$i=$turn"; done > batch
      "$program" ingest db batch --text > out
    done
  done
  "$program" scan db > old.list
  cp -r db db.old
  echo 'new=1' > batch
  "$program" ingest db batch --text > out
  "$program" scan db > new.list
}

judge() { # READS INPUT WORDS..: 1 where the command reads standard input; all print, and say so where they can't
  local reads=$1 wanted=0
  shift
  put_back
  run "$@"
  if [[ $closed == *1* || ($reads == 1 && $closed == *0*) ]]; then wanted=1; fi
  [[ $status == "$wanted" ]] || stop "status $wanted is wanted"
  [[ $closed == *2* || $status == 0 ]] || grep -q -x -E '(read|write) fault' err || stop "no such refusal"
  case $2 in
    ingest) same_content new.list ;;
    compact) same_content old.list ;;
    *) diff -r db.old db > differences || stop "the folder changed: $(head -n 1 differences)" ;;
  esac
}

: > nothing
echo "get 61" > script
make_folder
"$program" mktable < "$top/examples/fruit.txt" > table
for closed in "" 0 1 2 01 02 12 012; do
  judge 1 "$top/examples/fruit.txt" mktable
  judge 1 table dump
  judge 1 "db.old/$(cat db.old/CURRENT)" manifest
  judge 1 script script
  judge 0 nothing help
  judge 0 nothing --version
  judge 0 nothing check db
  judge 0 nothing list db
  judge 0 nothing get db a10 --text
  judge 0 nothing scan db
  judge 0 nothing ingest db batch --text
  for workers in 1 2 8; do judge 0 nothing compact db --workers "$workers" --progress; done
  echo "closed: ${closed:-none}: 13 runs as they should be"
done
export SLOW=1 closed=2
for workers in 2 8; do
  for _ in $(seq "${ROUNDS:-10}"); do judge 0 nothing compact db --workers "$workers" --progress; done
  echo "$workers workers, each sync slow, standard error closed: the content stays in ${ROUNDS:-10} rounds"
done
