#!/usr/bin/env bash
# Runs two commands of `lsm` on one folder at once: pairs of ingest and ingest, compact and ingest,
# compact and scan, each ROUNDS times (25). What was answered with status 0 is there, what was
# refused is `52 Locked` and left nothing, and a scan that was not refused printed just what is
# there. Then a reader that holds the folder beside a reader and beside a compaction, and a live
# LevelDB that has it open, beside each command: all but `52 Locked` is a difference, and once it is
# closed all are done; but `levels`, which asks for no lock, is done each time. Then commands with
# `--wait 10` beside a shell that ends after a second, which are done, and with `--wait 1` beside one
# that ends later, which are refused 52 once the second is over. Then the folder of a shell is moved
# away and another gets its path: what the shell answers is in the first, and the other is as it
# was. Needs g++ and libleveldb-dev. LSM=/path/to/lsm names a built program.
set -euo pipefail
here=$(cd "$(dirname "$0")" && pwd)
work=$(mktemp -d)
trap 'rm -rf "$work"' EXIT
program=$(readlink -f "${LSM:-$("$here/../../tools/program")}")
g++ -O2 -Wall -o "$work/hold" "$here/hold.cc" -lleveldb
cd "$work"

stop() { # WHAT
  echo "$pair: $1" >&2
  exit 1
}

lsm() { # NAME WORDS..: a run, with its answer in NAME.out, NAME.err and NAME.status
  local name=$1 status=0
  shift
  "$program" "$@" > "$name.out" 2> "$name.err" || status=$?
  echo "$status" > "$name.status"
}

is_done() { # NAME: done, or else refused as locked
  case $(cat "$1.status") in
    0) return 0 ;;
    1) [[ $(head -n 1 "$1.err") == "refused 52 Locked" && ! -s $1.out ]] || stop "says: $(head -c 300 "$1.err")" ;;
    *) stop "status $(cat "$1.status"), says: $(head -c 300 "$1.err")" ;;
  esac
  refused=$((refused + 1))
  return 1
}

make_folder() { # three groups of three tables: compactions are due
  local turn group i
  mkdir db
  for turn in 1 2 3; do
    for group in a b c; do
      for i in {10..39}; do [[ $(((i + turn) % 3)) == 0 ]] || echo "$group$i=$turn"; done > batch
      "$program" ingest db batch --text > out
    done
  done
  "$program" scan db --text > old.list
  cp -r db db.old
}

put_back() {
  rm -rf db
  cp -r db.old db
}

holds() { # LIST: the folder holds just that
  "$program" check db > out 2> err || stop "the folder does not open: $(cat err)"
  "$program" scan db --text > now 2> err || stop "the folder is not read: $(cat err)"
  cmp -s "$1" now || stop "what is there is not what was answered"
}

pair_of() { # NAME FIRST.. -- SECOND..: two runs at once, ROUNDS times
  local round one=() two=()
  pair=$1 refused=0
  shift
  while [[ $1 != -- ]]; do one+=("$1"); shift; done
  two=("${@:2}")
  for round in $(seq "${ROUNDS:-25}"); do
    put_back
    echo "x$round=1" > first
    echo "y$round=2" > second
    lsm one "${one[@]}" &
    lsm two "${two[@]}"
    wait
    cp old.list wanted
    if is_done one && [[ ${one[0]} == ingest ]]; then cat first >> wanted; fi
    if is_done two; then
      if [[ ${two[0]} == ingest ]]; then cat second >> wanted; fi
      if [[ ${two[0]} == scan ]]; then cmp -s two.out old.list || stop "the scan printed something else"; fi
    fi
    holds wanted
  done
  echo "$pair: ${ROUNDS:-25} pairs, $refused runs refused 52, all that was answered is there"
}

beside() { # WANTED WORDS..: a command beside whoever holds the folder, done (0) or refused 52 (1)
  local wanted=$1
  shift
  lsm one "$@"
  refused=0
  if is_done one; then [[ $wanted == 0 ]] || stop "$1 is not refused"; else [[ $wanted == 1 ]] || stop "$1 is refused"; fi
}

each_beside() { # READING WRITING: what is wanted of reading and of writing commands beside whoever holds the folder
  local command
  beside 0 levels db
  for command in "check db" "list db" "get db a11 --text" "scan db"; do beside "$1" $command; done
  beside "$1" shell db --read-only < /dev/null
  for command in "ingest db first --text" "compact db" "clean db"; do beside "$2" $command; done
}

pair=begin
make_folder
echo "x=1" > first
pair_of "ingest and ingest" ingest db first --text -- ingest db second --text
pair_of "compact and ingest" compact db -- ingest db second --text
pair_of "ingest and compact" ingest db first --text -- compact db
pair_of "compact and scan" compact db -- scan db --text

# a scan that can't go on printing holds the folder
pair="beside a reader"
put_back
head -c 200000 /dev/zero | tr '\0' z | sed 's/^/big=/' > big
"$program" ingest db big --text > out
"$program" scan db --text > big.list
mkfifo slow
"$program" scan db > slow &
exec 3< slow
head -c 1 <&3 > out
each_beside 0 1
cat <&3 > out
exec 3<&-
wait
holds big.list
echo "beside a reader: reading commands are done, writing ones refused 52"

pair="a lock that is waited for"
put_back
cp old.list wanted
held_for() { # SECONDS: a shell holds the folder for so long
  rm -f told
  { echo "get a11"; sleep "$1"; } | "$program" shell db --text > told 2> err &
  until [[ -s told ]]; do kill -0 $! 2> /dev/null || stop "no shell holds the folder: $(cat err)"; sleep 0.05; done
}
for command in "check db" "get db a11 --text" "put db x1 1 --text" "compact db"; do
  held_for 1
  lsm one $command --wait 10
  is_done one || stop "$command is refused"
  wait
done
echo "x1=1" >> wanted
for command in "scan db" "put db x2 2 --text"; do
  held_for 4
  begun=$(date +%s%N)
  lsm one $command --wait 1
  took=$((($(date +%s%N) - begun) / 1000000))
  if is_done one; then stop "$command is done beside the shell"; fi
  [[ $took -ge 1000 && $took -lt 3000 ]] || stop "$command is refused after $took ms"
  wait
done
holds wanted
echo "a lock that is waited for: commands with --wait are done once it is free, else refused 52 in time"

pair="a folder that is moved"
put_back
mkfifo asked answered
"$program" shell db --text < asked > answered 2> err &
exec 5> asked 6< answered
cp old.list wanted
for key in x1 x2 x3; do
  echo "put $key $key" >&5
  read -r reply <&6
  [[ $reply == file* ]] || stop "the shell answers $reply"
  echo "$key=$key" >> wanted
  [[ $key != x1 ]] || { mv db moved; cp -r db.old db; }
done
exec 5>&-
cat <&6 > out
exec 6<&-
wait
holds old.list
rm -r db
mv moved db
holds wanted
echo "a folder that is moved: what is put is in it, and the one in its place is as it was"

pair="beside a live LevelDB"
put_back
mkfifo until
"$work/hold" db < until > held 2> err &
exec 4> until
until [[ -s held ]]; do kill -0 $! 2> err || stop "LevelDB does not open the folder"; sleep 0.1; done
each_beside 1 1
exec 4>&-
wait
each_beside 0 0
echo "beside a live LevelDB: each command but levels is refused 52, and done once it is closed"
