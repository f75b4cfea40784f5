#!/usr/bin/env bash
# Runs `lsm` on folders that are not as it would like them, and looks at what it says and what it
# leaves. Parts, which words of the command line choose (all):
#
#   logs      a log that LevelDB has not flushed: 51, --beside-log, notes on standard error;
#             flushed, all is done
#   current   CURRENT is lost: 10, and the second line's way back; --begin begins beside the old
#             manifests and tables
#   links     a symbolic link as DIR; links under the names that are written next
#   pipes     a FIFO as CURRENT, as the manifest, as a table, as LOCK, as a log: refused, no command
#             waits for ever
#   folders   a folder that is named as a table
#   numbers   a table of the number 2^64 - 1: 46
#   clean     what `lsm clean` removes, and what stays
#   orphans   `lsm compact` over 2,000 tables that no version names: few syncs
#   reasons   second lines of `9 Device`, of a damaged table, of bad lines and of limits
#
# Needs gcc, g++ and libleveldb-dev. LSM=/path/to/lsm names a built program.
set -euo pipefail
here=$(cd "$(dirname "$0")" && pwd)
work=$(mktemp -d)
trap 'rm -rf "$work"' EXIT
program=$(readlink -f "${LSM:-$("$here/../../tools/program")}")
g++ -O2 -Wall -o "$work/leveldb" "$here/../leveldb_directories/directory.cc" -lleveldb
gcc -O1 -Wall -shared -fPIC -o "$work/refuse.so" "$here/../refused_calls/refuse.c" -ldl
cd "$work"

stop() { # WHAT
  echo "$part: lsm $words: $1; status $status, prints: $(head -c 200 out), says: $(head -c 400 err)" >&2
  exit 1
}

lsm() { # WORDS..: a run that may not wait for ever, in out, err and `status`
  words=$* status=0
  timeout 20 "$program" "$@" > out 2> err || status=$?
}

is_done() { # WORDS..: without a word on standard error
  lsm "$@"
  [[ $status == 0 && ! -s err ]] || stop "it is not done"
}

refuses() { # FIRST SECOND WORDS..: status 1, that first line, and what stands behind it matches
  local first=$1 second=$2
  shift 2
  lsm "$@"
  [[ $status == 1 && ! -s out && $(head -n 1 err) == "$first" ]] || stop "it is not $first"
  [[ $(sed 1d err) =~ $second ]] || stop "no line behind it is $second"
}

is_same() { # OLD NEW: two folders, but for the file LOCK
  diff -r -x LOCK "$1" "$2" > differences || stop "the folder changed: $(head -n 1 differences)"
}

make_folder() { # two tables, begun by lsm; what a scan of it prints
  rm -rf db db.old
  mkdir db
  printf 'apple=red\nplum=blue\n' > batch
  is_done ingest db batch --text
  printf 'apple=green\npear=1\n' > batch
  is_done ingest db batch --text
  printf 'fig=2\n' > batch
  is_done scan db
  cp out list
  cp -r db db.old
}

put_back() {
  rm -rf db
  cp -r db.old db
}

manifest() { # FOLDER: the name of its manifest
  cat "$1/CURRENT"
}

each_command() { # CALL WORDS..: that call, with these words, for each command on a folder
  local command
  for command in "check db" "list db" "get db pear --text" "scan db" "ingest db batch --text" "compact db" "clean db"; do
    "$@" $command
  done
}

logs() {
  local number log
  "$work/leveldb" make db small
  "$work/leveldb" put db 7a7a 6c6f67
  is_done check db
  log=$(sed -n 's/^log \([0-9]*\)\.log [0-9]*$/\1/p' out) number=$((10#$log))
  [[ -n $log ]] || stop "it names no log"
  cp -r db db.old
  for command in "list db" "get db 7a7a" "scan db"; do
    lsm $command
    [[ $status == 0 && $(head -1 err) == "note: $log.log is not flushed: its $(stat -c %s "db/$log.log") bytes are not read" ]] || stop "no such note"
    [[ $(sed 1d err) == "note: --logs reads what stands there" ]] || stop "no note of --logs"
    lsm $command --logs
    [[ $status == 0 && ! -s err ]] || stop "--logs does not read the log"
  done
  echo '7a7a=6e6577' > batch
  refuses "refused 51 UnflushedLog $number" "$log\.log .*--beside-log" ingest db batch
  refuses "refused 51 UnflushedLog $number" "$log\.log .*--beside-log" ingest db batch --begin
  is_same db.old db
  is_done ingest db batch --beside-log
  is_done compact db
  cmp -s "db.old/$log.log" "db/$log.log" || stop "the log changed"
  # LevelDB would read it into a database that is begun beside it, too
  put_back
  rm db/CURRENT
  refuses "refused 10 Missing" "" ingest db batch
  refuses "refused 51 UnflushedLog $number" "$log\.log .*--beside-log" ingest db batch --begin
  rm -r db
  mkdir db
  cp "db.old/$log.log" db
  refuses "refused 51 UnflushedLog $number" "$log\.log .*--beside-log" ingest db batch
  [[ $(ls db) == "$log.log" || $(ls db) == "$log.log"$'\n'LOCK ]] || stop "it began a database"
  is_done ingest db batch --beside-log
  # the way that the second line names
  put_back
  "$work/leveldb" scan db > list
  is_done check db
  if grep -q ^log out; then stop "it names a log that was flushed"; fi
  is_done ingest db batch
  is_done scan db
  sed 's/^7a7a=.*/7a7a=6e6577/' list | cmp -s - out || stop "the batch is not in"
  cp out list
  "$work/leveldb" same db small list || stop "LevelDB does not give the same"
}

current() {
  local name
  make_folder
  name=$(manifest db)
  rm db/CURRENT db.old/CURRENT
  refuses "refused 10 Missing" "printf '$name.n' > DIR/CURRENT" ingest db batch --text
  for command in check list scan compact clean; do refuses "refused 10 Missing" "CURRENT: No such file" $command db; done
  refuses "refused 10 Missing" "CURRENT: No such file" get db 61
  is_same db.old db
  printf '%s\n' "$name" > db/CURRENT
  is_done scan db
  cmp -s list out || stop "the old database is not there again"
  # begun anew, beside what is there
  put_back
  is_done ingest db batch --text --begin
  [[ $(manifest db) != "$name" && -e db/$name ]] || stop "it begins under a name that is there"
  is_done scan db --text
  [[ $(cat out) == fig=2 ]] || stop "other content"
  cp db/CURRENT now
  rm db/CURRENT
  cp now db/CURRENT
  for it in db.old/*; do cmp -s "$it" "db/${it#db.old/}" || stop "$it changed"; done
  # nothing but an old table, and nothing at all
  rm -rf db
  mkdir db
  touch db/000005.sst
  refuses "refused 10 Missing" "begin" ingest db batch --text
  rm db/000005.sst
  touch db/000005.log
  is_done ingest db batch --text
  [[ $(manifest db) == MANIFEST-000001 ]] || stop "a new database does not begin under 1"
}

links() {
  local number table
  make_folder
  mv db real
  ln -s real db
  each_command is_done
  # links under the names that are written next: nothing is written through them
  rm -r real db
  make_folder
  table=$(cd db && ls -- *.ldb | head -n 1)
  for number in 0000{01..20}; do
    ln -s CURRENT "db/$number.dbtmp"
    [[ -e db/MANIFEST-$number ]] || ln -s "$table" "db/MANIFEST-$number"
  done
  is_done_beside MANIFEST-000020 compact db
  is_done scan db
  cmp -s list out || stop "other content"
}

pipes() {
  local name table
  make_folder
  name=$(manifest db) table=$(cd db && ls -- *.ldb | head -n 1)
  for it in CURRENT "$name" "$table"; do
    put_back
    rm "db/$it"
    mkfifo "db/$it"
    each_command is_refused_file "$it"
  done
  put_back
  rm -f db/LOCK
  mkfifo db/LOCK
  each_command is_refused_file LOCK
  put_back
  mkfifo db/000099.log
  for command in "check db" "list db" "get db pear --text" "scan db" "ingest db batch --text"; do
    is_refused_file 000099.log $command
  done
}

is_refused_file() { # NAME WORDS..: `9 Device`, and NAME in one of the lines
  local name=$1
  shift
  lsm "$@"
  [[ $status == 1 && $(head -n 1 err) == "refused 9 Device"* ]] || stop "it is not refused 9 Device"
  grep -q -F "$name" err || stop "it does not name $name"
}

is_done_beside() { # NAME WORDS..: at most with the note that this manifest is there
  local name=$1 named
  named=$(manifest db)
  shift
  lsm "$@"
  [[ $status == 0 && (! -s err || $(cat err) == "note: CURRENT names $named, and $name is there") ]] || stop "it is not done"
}

folders() {
  make_folder
  mkdir db/000777.ldb db/000778.log db/MANIFEST-000779
  each_command is_done_beside MANIFEST-000779
  [[ -d db/000777.ldb && -d db/000778.log && -d db/MANIFEST-000779 ]] || stop "a folder is gone"
}

numbers() {
  make_folder
  touch db/18446744073709551615.ldb
  cp -r db db.spent
  each_command refuses "refused 46 NumbersSpent" ""
  is_same db.spent db
}

clean() {
  local name
  make_folder
  name=$(manifest db)
  touch db/{000050.ldb,000051.ldb,000060.dbtmp,000007.log,000052.sst,other,MANIFEST-000099,CURRENT.bak}
  (cd db && { ls -- MANIFEST-* | grep -v -x "$name"; ls 000050.ldb 000051.ldb 000060.dbtmp; } | LC_ALL=C sort) > removed
  (cd db && ls | grep -v -x -F -f ../removed) > left
  is_done_beside MANIFEST-000099 clean db
  cmp -s removed out || stop "it prints other names"
  # the lock file may be new
  (cd db && ls | grep -v -x LOCK) | cmp -s - <(grep -v -x LOCK left) || stop "other files are left"
  is_done scan db
  cmp -s list out || stop "other content"
  is_done clean db
  [[ ! -s out ]] || stop "it removes more the second time"
  # nothing is removed where the folder is refused
  put_back
  printf x > "db/$(cd db && ls -- *.ldb | head -n 1)"
  touch db/000050.ldb
  cp -r db db.bad
  lsm clean db
  [[ $status == 1 && ! -s out ]] || stop "it is not refused"
  is_same db.bad db
}

orphans() {
  make_folder
  for i in {10001..12000}; do : > "db/0$i.ldb"; done
  rm -f mark
  words="compact db" status=0
  CALL=fsync WITHIN="$work/db" AT=100 MORE=0 ERROR=5 MARK="$work/mark" LD_PRELOAD="$work/refuse.so" "$program" compact "$work/db" > out 2> err || status=$?
  [[ $status == 0 && ! -s err && ! -e mark ]] || stop "it takes a hundred syncs, or is refused"
  [[ $(ls db/*.ldb | wc -l) == 2 ]] || stop "tables are left that no version names"
}

reasons() {
  local table
  make_folder
  for command in check list scan compact clean; do refuses "refused 9 Device" "none: No such file" $command none; done
  refuses "refused 9 Device" "none: No such file" ingest none batch --text
  refuses "refused 9 Device" "batch: Not a directory" scan batch
  words="ingest db batch" status=0
  CALL=write WITHIN="$work/db" AT=1 MORE=9999 ERROR=28 MARK="$work/mark" LD_PRELOAD="$work/refuse.so" "$program" ingest "$work/db" batch --text > out 2> err || status=$?
  [[ $status == 1 && $(sed -n 1p err) == "refused 9 Device" && $(sed -n 2p err) == *"db/"*"No space left on device"* ]] || stop "it does not say that the disk is full"
  # a damaged table
  put_back
  table=$(cd db && ls -- *.ldb | head -n 1)
  printf '\xff' | dd of="db/$table" bs=1 seek=2 conv=notrunc status=none
  for command in check scan; do refuses "refused 15 BadChecksum 0 in $table" "" $command db; done
  for command in "list db" "get db 61" "ingest db batch --text" "compact db" "clean db"; do
    refuses "refused 15 BadChecksum 0" "in $table" $command
  done
  # lines of FILE
  put_back
  printf 'a=1\nb c=2\n' > bad
  refuses "bad line 2" 'column 2.*\\x20' ingest db bad --text
  printf 'a=caf\xc3\xa9\n' > bad
  refuses "bad line 1" 'column 6.*\\xc3' ingest db bad --text
  printf 'apple=red\n' > bad
  refuses "bad line 1" 'column 2.*--text' ingest db bad
  printf 'b=1\na=2\n' > bad
  refuses "refused 38 KeyOrder 1" "line 2" ingest db bad --text
  { head -c 4097 /dev/zero | tr '\0' k; echo '=1'; } > bad
  refuses "refused 39 TooLarge" "line 1.*4096" ingest db bad --text
  is_same_content
}

is_same_content() { # nothing came in by what was refused
  put_back
  is_done scan db
  cmp -s list out || stop "other content"
}

for part in ${*:-logs current links pipes folders numbers clean orphans reasons}; do
  rm -rf db db.* real
  "$part"
  echo "$part: as it should be"
done
