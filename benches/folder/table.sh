#!/usr/bin/env bash
# What `lsm`, and a program over this repository's libraries, do over folders beside LevelDB, in one
# run: table.sh [PROGRAM [READING]]. Each work is done by both in turn, a process each, in a folder on
# tmpfs and in one on a disk; the files are in the system's cache. Prints the least time that passed
# of TURNS (3) turns, ratios, and the goal that the work has, where it has one. What both print, read
# or leave is compared.
#
# PROGRAM is the one whose path tools/program prints. Of it, in milliseconds:
#
#   get           of one key: it judges all tables first. Beside LevelDB's `Get`, which reads one block
#   opening       the same, beside LevelDB's scan of all pairs
#   check         beside that scan; by 1 and by 4 threads where the program has `--workers` for it
#   scan          pairs as text, into /dev/null, beside LevelDB's scan that prints the same
#   compaction    four tables of level 0 with the same keys, by one worker
#   four groups   16 tables of level 0, four of them with the same keys, by 1 and by 4 workers;
#                 LevelDB has one thread
#   mktable, dump a list of a million lines, and its table
#
# "Merged alone" is the whole command less what `lsm get` takes of the same folder; LevelDB's time
# stays whole.
#
# READING is the program that reading.sh makes; with no such word its rows are left out. Of it, in
# microseconds an operation:
#
#   opening       `State::open_by`, alone and with four threads, beside the first scan of all pairs by
#                 a LevelDB that was just opened, an entry
#   cached        drawn keys of the first 100,000 by a view that is held, whose blocks the reader
#                 keeps; LevelDB has a cache that holds them
#   uncached      drawn keys of all, a block each; both hold the indexes of all tables. A reader has a
#                 cache of 1,024 blocks, LevelDB none
#   scan          all pairs by a view, lent, beside a second scan by LevelDB, whose files are mapped
#   newest        cached and uncached, each key by a view of the newest version
#   compaction    and four groups, as above, without the opening; LevelDB's with it, since it compacts
#                 while it opens
#   beside        newest, beside a writer, which brings in 10,000 entries each tenth of a second where
#                 it can, and compacts. LevelDB's are synced too
#
# ENTRIES=8600000 are those of the large folder (1 GB; of the list a million at most), YOUNG=250000
# those of a table of level 0, READS=1000000 how many cached keys each reader reads; a fifth of them
# uncached, and half of each beside a writer. TMPFS=/dev/shm and DISK=/tmp name where folders are made;
# each has to have some 3 GB. No process may take longer than LIMIT=300 seconds, and no turn but the
# first of a place begins that would not end within MINUTES=15 of all, or half of them on tmpfs. Needs
# g++, libleveldb-dev, and a machine with nothing else to do.
set -euo pipefail
here=$(cd "$(dirname "$0")" && pwd)
program=$(readlink -f "${1:-$("$here/../../tools/program")}")
reading=$(readlink -f "${2:-}" || true)
entries=${ENTRIES:-8600000} young=${YOUNG:-250000} reads=${READS:-1000000}
turns=${TURNS:-3} limit=${LIMIT:-300} minutes=${MINUTES:-15}
lines=$((entries < 1000000 ? entries : 1000000))
scratch=$(mktemp -d)
rooms=()
trap 'rm -rf "$scratch" "${rooms[@]}"' EXIT
g++ -O2 -Wall -o "$scratch/leveldb" "$here/leveldb.cc" -lleveldb
leveldb="$scratch/leveldb"
has_workers="" by_one=()
! "$program" check --help | grep -q -e --workers || has_workers=yes by_one=(--workers 1)

stop() { # WHAT
  echo "table: $1" >&2
  exit 1
}

declare -A least
printed="$scratch/output"
timed() { # NAME WORDS..: runs it from `input` to $printed, and keeps the least microseconds of NAME
  local name=$1 begun ended
  shift
  begun=${EPOCHREALTIME/./}
  timeout "$limit" "$@" < "$scratch/input" > "$printed" || stop "$* ends with $?"
  ended=${EPOCHREALTIME/./}
  if [[ -z ${least[$name]-} || $((ended - begun)) -lt ${least[$name]} ]]; then least[$name]=$((ended - begun)); fi
}

beside() { # WORK NAME: what LevelDB's NAME printed has to be what `lsm` printed, which is kept in last
  cmp -s "$scratch/output" "$scratch/last" || stop "$1: $2 prints other things"
}

keep() {
  mv "$scratch/output" "$scratch/last"
}

ready() { # FOLDER: a copy of links to its files, none of which is written again; all are on the device
  rm -rf "$room/copy"
  cp -rl "$1" "$room/copy"
  sync -f "$room"
}

compacted() { # NAME FOLDER WORDS..: a compaction of a copy, and that LevelDB finds the same pairs
  local name=$1 folder=$2
  shift 2
  ready "$folder"
  timed "$name" "$@"
  [[ $turn != 0 ]] || "$leveldb" print "$room/copy" | cmp -s - "$folder.pairs" || stop "$name left other pairs"
}

folder_turn() {
  local key=30303030303030303030303030303030 # the first
  timed get "$program" get "$room/sorted" "$key"
  keep
  timed leveldb-get "$leveldb" get "$room/sorted" "$key"
  beside get leveldb
  timed leveldb-scan "$leveldb" scan "$room/sorted"
  timed check "$program" check "$room/sorted" "${by_one[@]}"
  [[ $(awk '/ entries / { all += $NF } END { print all }' "$scratch/output") == "$entries" ]] || stop "check counts other entries"
  [[ ! $has_workers ]] || timed check-4 "$program" check "$room/sorted" --workers 4
  if [[ $turn == 0 ]]; then
    [[ $("$program" scan "$room/sorted" | cksum) == $("$leveldb" print "$room/sorted" | cksum) ]] || stop "scan: leveldb prints other things"
  fi
  printed=/dev/null
  timed scan "$program" scan "$room/sorted"
  timed leveldb-print "$leveldb" print "$room/sorted"
  printed="$scratch/output"
  timed four-get "$program" get "$room/four" "$key"
  timed one-get "$program" get "$room/one" "$key"
  compacted one "$room/one" "$program" compact "$room/copy" --workers 1
  compacted leveldb-one "$room/one" "$leveldb" compact "$room/copy"
  compacted four-1 "$room/four" "$program" compact "$room/copy" --workers 1
  compacted four-4 "$room/four" "$program" compact "$room/copy" --workers 4
  compacted leveldb-four "$room/four" "$leveldb" compact "$room/copy"
}

list_turn() {
  cp "$scratch/list" "$scratch/input"
  timed mktable "$program" mktable
  keep
  timed leveldb-mktable "$leveldb" mktable
  beside mktable leveldb
  mv "$scratch/output" "$scratch/input"
  timed dump "$program" dump
  keep
  timed leveldb-dump "$leveldb" dump
  beside dump leveldb
  cmp -s "$scratch/output" "$scratch/list" || stop "dump prints another list than was read"
  : > "$scratch/input"
}

rows_of() { # WHO BEFORE WORDS..: keeps the least picoseconds an operation of each of its rows, as `WHO BEFORE-NAME`
  local who=$1 before=$2 name count spent sum each
  shift 2
  timeout "$limit" "$@" > "$scratch/rows" || stop "$* ends with $?"
  while read -r name count spent sum; do
    [[ $sum ]] || stop "$* prints: $name $count $spent"
    name=$before$name each=$((count > 0 ? spent * 1000 / count : 0))
    if [[ -z ${least[$who $name]-} || $each -lt ${least[$who $name]} ]]; then least[$who $name]=$each; fi
  done < "$scratch/rows"
  grep -vE '^(opening|verified)_|_writer_' "$scratch/rows" | awk '{ print $1, $2, $4 }' | sort > "$scratch/output"
}

compaction_rows() { # WHO BEFORE FOLDER WORDS..: the rows of a compaction of a copy, and that LevelDB finds the same pairs
  local who=$1 before=$2 folder=$3
  shift 3
  ready "$folder"
  rows_of "$who" "$before" "$@"
  [[ $turn != 0 ]] || "$leveldb" print "$room/copy" | cmp -s - "$folder.pairs" || stop "$* left other pairs"
}

reading_turn() {
  local kind
  sync -f "$room"
  rows_of ours "" "$reading" "$room/sorted" "$entries" "$reads" alone
  keep
  rows_of leveldb "" "$leveldb" alone "$room/sorted" "$entries" "$reads"
  beside alone leveldb
  for kind in cached uncached; do
    ready "$room/sorted"
    rows_of ours "" "$reading" "$room/copy" "$entries" "$reads" "$kind"
    keep
    ready "$room/sorted"
    rows_of leveldb "" "$leveldb" "$kind" "$room/copy" "$entries" "$reads"
    beside "$kind" leveldb
  done
  compaction_rows ours one_ "$room/one" "$reading" "$room/copy" $((4 * young)) 0 compact1
  compaction_rows leveldb one_ "$room/one" "$leveldb" compact1 "$room/copy" $((4 * young)) 0
  compaction_rows ours four_ "$room/four" "$reading" "$room/copy" $((16 * young)) 0 compact1
  compaction_rows ours four_ "$room/four" "$reading" "$room/copy" $((16 * young)) 0 compact4
  compaction_rows leveldb four_ "$room/four" "$leveldb" compact1 "$room/copy" $((16 * young)) 0
  rm -rf "$room/copy"
}

row() { # WORK MICROSECONDS LEVELDB GOAL; nothing is left of a merge that is lost in the noise
  awk -v work="$1" -v one="$2" -v other="$3" -v goal="$4" 'BEGIN {
    ratio = one > 0 ? sprintf("%.2f", one / other) : "too short to tell"
    printf "| %s | %.0f | %.0f | %s | %s |\n", work, one / 1000, other / 1000, ratio, goal }'
}

times() { # WORK ONE OTHER GOAL: how many times as fast the other is
  awk -v work="$1" -v one="$2" -v other="$3" -v goal="$4" 'BEGIN {
    ratio = one > 0 && other > 0 ? sprintf("%.2f times as fast", one / other) : "too short to tell"
    printf "| %s | | | %s | %s |\n", work, ratio, goal }'
}

title() { # WHAT [UNIT OURS]
  printf '\n| %s | %s, %s | LevelDB, %s | ratio | goal |\n|---|---|---|---|---|\n' "$1" "${3:-lsm}" "${2:-ms}" "${2:-ms}"
}

each() { # WORK NAME [GOAL [LEVELDB'S NAME]]: microseconds an operation
  awk -v work="$1" -v one="${least[ours $2]}" -v other="${least[leveldb ${4:-$2}]}" -v goal="${3:-}" 'BEGIN {
    ratio = other > 0 ? sprintf("%.2f", one / other) : "too short to tell"
    printf "| %s | %.3f | %.3f | %s | %s |\n", work, one / 1e6, other / 1e6, ratio, goal }'
}

scales() { # WORK NAME NAME [GOAL]: how many times as fast the second is; of LevelDB too, where it has both
  awk -v work="$1" -v one="${least[ours $2]}" -v more="${least[ours $3]}" -v its="${least[leveldb $2]-}" -v itsmore="${least[leveldb $3]-}" -v goal="${4:-}" 'BEGIN {
    if (its != "" && itsmore != "") other = sprintf("%.2f times", its / itsmore)
    printf "| %s | %.2f times | %s | | %s |\n", work, one / more, other, goal }'
}

reading_rows() {
  local kind
  each "opening, an entry, by one thread" opening_1 "" verified_1
  each "the same, by 4 threads" opening_4 0.4 verified_1
  each "read of a key, cached" cached_1 0.35
  each "the same, 4 readers" cached_4
  each "read of a key, uncached" uncached_1 0.9
  each "the same, 4 readers" uncached_4 0.9
  each "scan, a pair, lent" scan_1 0.8
  each "compaction, an entry, 1 worker" one_compact_1 0.8
  each "four groups, an entry, 1 worker" four_compact_1
  each "the same, 4 workers" four_compact_4 0.25 four_compact_1
  scales "four groups, 4 workers, to 1" four_compact_1 four_compact_4 "3 times"
  for kind in cached uncached; do
    each "read of the newest, $kind" "${kind}_newest_1"
    each "the same, 4 readers" "${kind}_newest_4"
    each "the same, beside a writer, 1 reader" "${kind}_beside_1"
    each "the same, 4 readers" "${kind}_beside_4"
    each "an entry of the writer, beside 1" "${kind}_writer_1"
    each "the same, beside 4" "${kind}_writer_4"
    scales "4 readers beside a writer, to 1 beside it, $kind" "${kind}_beside_1" "${kind}_beside_4" "3 times"
    scales "4 readers beside a writer, to 1 alone, $kind" "${kind}_newest_1" "${kind}_beside_4"
  done
}

date -u '+%Y-%m-%d %H:%M UTC'
sed -n 's/^model name[^:]*: //p' /proc/cpuinfo | head -n 1
echo "$(nproc) processors, load $(cut -d' ' -f1-3 /proc/loadavg), $(ulimit -n) descriptors; $program $reading"
[[ $program$reading != *unproved* ]] || echo "this is an unproved build: ./prove makes the program that is to be timed, reading.sh the other"
: > "$scratch/input"
awk -v n="$lines" 'BEGIN { for (i = 0; i < n; i++) printf "%016x %d put %016x%016x\n", i * 4001, i + 1, i * 2654435761 % 4294967296, i }' > "$scratch/list"
for ((turn = 0; turn < turns; turn++)); do list_turn; done
title "$lines lines"
row "mktable" "${least[mktable]}" "${least[leveldb-mktable]}" "0.6"
row "dump" "${least[dump]}" "${least[leveldb-dump]}" "0.6"
ends=0
for place in "${TMPFS:-/dev/shm}" "${DISK:-/tmp}"; do
  kind=$(stat -f -c %T "$place")
  room=$(mktemp -d -p "$place")
  rooms+=("$room")
  for words in "sorted $room/sorted $entries" "young $room/one 1 $young" "young $room/four 4 $young"; do
    # shellcheck disable=SC2086
    timeout "$limit" "$leveldb" $words || stop "leveldb $words ends with $?"
  done
  for folder in one four; do "$program" scan "$room/$folder" > "$room/$folder.pairs"; done
  least=()
  ends=$((ends + 30 * minutes)) took=0
  for ((turn = 0; turn < turns && (turn == 0 || SECONDS + took < ends); turn++)); do
    took=$SECONDS
    folder_turn
    [[ ! $reading ]] || reading_turn
    took=$((SECONDS - took))
  done
  title "$kind, $entries entries, $(($(du -sb "$room/sorted" | cut -f1) / 1000000)) MB; $young in a table of level 0; turns: $turn"
  row "opening, by one thread" "${least[get]}" "${least[leveldb-scan]}" "0.4 by 4 threads"
  row "get of a key, opening and all" "${least[get]}" "${least[leveldb-get]}" ""
  row "check${has_workers:+, by one thread}" "${least[check]}" "${least[leveldb-scan]}" "0.5 by 4 threads"
  [[ ! $has_workers ]] || row "check, by 4 threads" "${least[check-4]}" "${least[leveldb-scan]}" "0.5"
  row "scan, printed" "${least[scan]}" "${least[leveldb-print]}" ""
  row "compaction, one worker, whole" "${least[one]}" "${least[leveldb-one]}" "0.8"
  row "compaction, one worker, merged alone" $((least[one] - least[one-get])) "${least[leveldb-one]}" "0.8"
  row "four groups, 4 workers, whole" "${least[four-4]}" "${least[leveldb-four]}" "0.25"
  merged=$((least[four-4] - least[four-get])) alone=$((least[four-1] - least[four-get]))
  row "four groups, 4 workers, merged alone" "$merged" "${least[leveldb-four]}" "0.25"
  times "four groups, 4 workers beside one, merged alone" "$alone" "$merged" "3 times"
  if [[ $reading ]]; then
    title "$kind, a program that keeps the folder open" us program
    reading_rows
  fi
  rm -rf "$room"
done
