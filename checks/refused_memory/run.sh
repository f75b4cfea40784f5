#!/usr/bin/env bash
# Runs `lsm` with each of its requests for memory refused in turn (a thread is one too), until runs
# meet none, and then once more with all later requests refused too. What may come of it:
#
# - mktable, dump, manifest, list, get, help: `refused 1 OutOfMemory` on standard error, nothing on
#   standard output, status 1; or the program asked again for less, and answers as an undisturbed
#   run does. Once DIR/LOCK is open, want of memory is `refused 9 Device` too; its second line says
#   `lock ..: out of memory`, where there is memory for that.
# - check and scan may say `refused 1 OutOfMemory in 000005.ldb`; of a scan whole lines from the
#   first on may stand on standard output. Check, list, get and scan leave the folder byte for byte
#   as it was.
# - ingest, each time in a folder as it was: also `refused 9 Device`, where it can't be undone
#   (docs/DECISIONS.md). `lsm check` then takes the folder, and a scan shows just the old keys or
#   just those with the whole batch. Asked again, with memory, it brings the batch in.
# - compact, each time in a folder as it was: also `refused 9 Device`, 36 with a 9 behind it, or 42
#   Halted where another worker met the 9. A scan shows what it showed before. Asked again, with
#   memory, it compacts: the tables are those of an undisturbed run but for their numbers. Its
#   threads may take turns otherwise in each run, so it goes on until ten numbers in a row meet no
#   request.
# - script: the replies up to that of want of memory, `refused 1 OutOfMemory`, and status 1; or as
#   the first point says.
#
# Parts are singles, reads, ingest, compact, script and rows; words of the command line choose among
# them (all). Rows run a Rattle program on the state itself (rows.sh). Takes a quarter of an hour.
# Needs gcc, and rt for rows. LSM=/path/to/lsm names a built program.
set -euo pipefail
here=$(cd "$(dirname "$0")" && pwd)
top=$(cd "$here/../.." && pwd)
work=$(mktemp -d)
trap 'rm -rf "$work"' EXIT
program=${LSM:-$("$top/tools/program")}
program=$(realpath "$program")
gcc -O1 -shared -fPIC -o "$work/refuse.so" "$here/refuse.c" -ldl
: > "$work/nothing"
cd "$work"

undisturbed() { # INPUT WORDS..: what is wanted
  local input=$1
  shift
  wanted=0
  "$program" "$@" < "$input" > wanted.out 2> wanted.err || wanted=$?
}

refuse() { # NUMBER INPUT WORDS..: one run; whether it met a request of that number
  local number=$1 input=$2
  shift 2
  rm -f mark
  status=0
  timeout 60 env REFUSE="$number" REFUSED="$work/mark" LD_PRELOAD="$work/refuse.so" "$program" "$@" < "$input" > out 2> err || status=$?
  [[ -e mark ]]
}

stop() { # WHAT: where an ending is none of those
  echo "lsm $words: request $number refused${LATER:+, and all later ones}: $1; status $status, $(wc -c < out) bytes out, says: $(head -c 200 err)" >&2
  exit 1
}

is_undisturbed() {
  [[ $status == "$wanted" ]] && cmp -s wanted.out out && cmp -s wanted.err err
}

said() { # a second line is for people
  head -n 1 err
}

is_out_of_memory() {
  [[ $status == 1 && ! -s out ]] || return 1
  case $(said) in
    "refused 1 OutOfMemory") ;;
    "refused 9 Device") grep -q '^lock .*: out of memory$' err || [[ -n ${LATER:-} && $(wc -l < err) == 1 ]] ;;
    *) return 1 ;;
  esac
}

is_whole_lines() { # whether standard output is whole lines of what is wanted, from the first on, and not all
  local bytes
  bytes=$(wc -c < out)
  [[ $bytes -lt $(wc -c < wanted.out) && ($bytes == 0 || -z $(tail -c 1 out)) ]] && cmp -s -n "$bytes" wanted.out out
}

each() { # JUDGE INPUT WORDS..: refuses each request in turn, and has each run judged
  local judge=$1 input=$2 none=0 number=1 wanted=0 status words refused=0 second=$SECONDS
  shift 2
  words=$*
  undisturbed "$input" "$@"
  begin "$@"
  while [[ $none -lt $gap ]]; do
    if refuse "$number" "$input" "$@"; then
      none=0
      if is_undisturbed; then :; else refused=$((refused + 1)); fi
    else
      none=$((none + 1))
    fi
    "$judge" "$@"
    number=$((number + 1))
  done
  echo "lsm $words < $(basename "$input"): $((number - 1 - gap)) requests, each refused once${LATER:+ with all later ones}; $refused times refused, else status $wanted as undisturbed; ${note:+$note; }$((SECONDS - second)) s"
}

judge_single() {
  is_undisturbed || { [[ -e mark ]] && is_out_of_memory; } || stop "no such answer"
}

judge_read() {
  if is_undisturbed; then :; elif [[ ! -e mark ]]; then
    stop "no such answer"
  elif ! is_out_of_memory; then
    [[ $status == 1 && ($1 == check || $1 == scan) && $(said) =~ ^refused\ 1\ OutOfMemory(\ in\ [0-9]{6}\.ldb)?$ ]] || stop "no such answer"
    [[ ! -s out ]] || { [[ $1 == scan ]] && is_whole_lines; } || stop "other lines"
  fi
  diff -r "$2.old" "$2" > differences || stop "the folder changed: $(head -n 1 differences)"
}

scan_of() { # FOLDER OUT: the keys of a folder that a check takes, or where no database had begun and none has
  if [[ ! -e $1/CURRENT && ! -e $1.old/CURRENT ]]; then
    : > "$2"
    return 0
  fi
  "$program" check "$1" > check.out 2> check.err || stop "the folder does not open: $(cat check.err)"
  "$program" scan "$1" > "$2" 2> check.err || stop "the folder is not read: $(cat check.err)"
}

files_of() { # FOLDER: its tables, but for their numbers
  "$program" list "$1" | sed 's/^\([0-6]\) [0-9]* /\1 /' | sort
}

put_back() { # FOLDER
  rm -rf "$1"
  cp -r "$1.old" "$1"
}

again() { # WORDS..: the same with memory
  "$program" "$@" > again.out 2> again.err || stop "refused when asked again: $(cat again.err)"
}

judge_ingest() {
  local told=0
  is_undisturbed || told=1
  [[ $told == 0 || ($status == 1 && ! -s out && $(said) =~ ^refused\ (1\ OutOfMemory|9\ Device)$ && -e mark) ]] || stop "no such answer"
  if [[ $told == 1 ]] && diff -rq -x LOCK "$2.old" "$2" > differences; then
    same=$((same + 1))
    return 0
  fi
  scan_of "$2" now
  if [[ $told == 0 ]]; then
    cmp -s "$2.new.scan" now || stop "the batch did not come in"
  elif cmp -s "$2.new.scan" now; then
    whole=$((whole + 1))
    [[ $(said) != *Device ]] || device=$((device + 1))
  elif cmp -s "$2.old.scan" now; then
    kept=$((kept + 1))
    [[ $(said) != *Device ]] || device=$((device + 1))
  else
    stop "half a batch came in"
  fi
  if [[ $told == 1 ]]; then
    again "$@"
    scan_of "$2" now
    cmp -s "$2.new.scan" now || stop "the batch did not come in when asked again"
  fi
  put_back "$2"
  note="of the refused $same left the folder byte for byte, $kept its keys, $whole brought the whole batch in; $device said 9"
}

judge_compact() {
  if [[ $status == 0 ]]; then
    [[ ! -s err && $(cat out) =~ ^installed\ [0-9]+$ ]] || stop "no such answer"
  else
    [[ -e mark && $status == 1 && ! -s out && $(said) =~ ^refused\ (1\ OutOfMemory|9\ Device|36\ PutFailed\ [0-9]+\ 9|42\ Halted)$ ]] || stop "no such answer"
    if diff -rq -x LOCK "$2.old" "$2" > differences; then
      same=$((same + 1))
      return 0
    fi
    kept=$((kept + 1))
    case $(said) in
      *Device | *9) device=$((device + 1)) ;;
      *Halted) halted=$((halted + 1)) ;;
    esac
    scan_of "$2" now
    cmp -s "$2.old.scan" now || stop "other keys"
    again "$@"
  fi
  scan_of "$2" now
  cmp -s "$2.old.scan" now || stop "other keys"
  files_of "$2" > now
  cmp -s "$2.new.list" now || stop "not compacted"
  put_back "$2"
  note="of the refused $same left the folder byte for byte, $kept its keys; $device said 9, $halted 42"
}

judge_script() {
  if is_undisturbed || { [[ -e mark ]] && is_out_of_memory; }; then return 0; fi
  [[ -e mark && $status == 1 && ! -s err && $(tail -n 1 out) == "refused 1 OutOfMemory" ]] || stop "no such answer"
  head -n -1 out > replies
  mv replies out
  is_whole_lines || stop "other replies"
  # Not within the lines of a list.
  [[ ! $(tail -n 1 out) =~ ^[0-6]\ [0-9]+\  ]] || stop "half a list"
  replied=$((replied + 1))
  note="$replied times with replies"
}

begin() { # WORDS..: what a part begins with; the undisturbed run has been
  same=0 kept=0 whole=0 device=0 halted=0 replied=0 note=
  case $1 in
    ingest | compact)
      "$program" scan "$2" > "$2.new.scan"
      files_of "$2" > "$2.new.list"
      put_back "$2"
      ;;
  esac
}

keep() { # FOLDER: as it stands
  cp -r "$1" "$1.old"
  "$program" scan "$1" > "$1.old.scan"
}

keys() { # TURN FROM COUNT STEP: a batch
  awk -v turn="$1" -v from="$2" -v count="$3" -v step="$4" 'BEGIN {
    for (i = 0; i < count; i++) printf "%04x%s\n", from + i * step, (i + turn) % 5 ? sprintf("=76616c7565%02x", turn) : "!" }'
}

ingest() { # FOLDER TURN FROM COUNT STEP
  keys "${@:2}" > lines
  "$program" ingest "$1" lines > ingested
}

singles() {
  printf '61 1 put 76\n61 2 put 76\n' > unordered
  awk 'BEGIN { for (i = 0; i < 3000; i++) printf "%08x %d %s\n", i * 7, i + 1, i % 5 ? "put 76616c7565" : "del" }' > long
  "$program" mktable < long > long.ldb
  head -c 1000 long.ldb > cut.ldb
  printf '957cb9c5220001011a6c6576656c64622e4279746577697365436f6d70617261746f72020003020400' | xxd -r -p > manifest
  each judge_single "$top/examples/fruit.txt" mktable
  each judge_single nothing mktable
  each judge_single long mktable
  each judge_single unordered mktable
  each judge_single long.ldb dump
  each judge_single cut.ldb dump
  each judge_single manifest manifest
  each judge_single nothing --help
  each judge_single nothing dump --help
  each judge_single nothing nonsense
}

reads() { # over two levels: a compacted table, and two above it
  mkdir -p shelf
  for turn in 1 2 3 4; do ingest shelf "$turn" 0 200 3; done
  "$program" compact shelf > compacted
  ingest shelf 5 100 200 2
  ingest shelf 6 0 50 9
  keep shelf
  each judge_read nothing check shelf
  each judge_read nothing list shelf
  each judge_read nothing get shelf 0003
  each judge_read nothing get shelf 0001
  each judge_read nothing scan shelf
  each judge_read nothing scan shelf --from '\x00\x10' --to '\x01' --text
  each judge_read nothing scan shelf --from 0010 --to 0100
}

ingests() { # over two levels, and where nothing is there
  mkdir -p fresh full
  for turn in 1 2 3 4; do ingest full "$turn" 0 60 3; done
  "$program" compact full > compacted
  ingest full 5 50 60 2
  keys 7 20 90 2 > brought
  keep full
  each judge_ingest nothing ingest full brought
  mkdir fresh.old
  : > fresh.old.scan
  # where a run made the manifest and no CURRENT, only --begin goes on
  each judge_ingest nothing ingest fresh brought --begin
}

compacts() { # two jobs whose keys lie apart
  mkdir -p apart
  for turn in 1 2 3 4; do
    ingest apart "$turn" 0 30 3
    ingest apart "$turn" 1000 30 3
  done
  keep apart
  gap=10
  each judge_compact nothing compact apart --workers 1
  each judge_compact nothing compact apart --workers 2
  gap=1
}

scripts() {
  for script in "$here"/*.script; do each judge_script "$script" script; done
}

chosen() {
  [[ " $parts " == *" $1 "* ]]
}

parts=${*:-singles reads ingest compact script rows}
gap=1
for later in '' 1; do
  if [[ -n $later ]]; then export LATER=1; fi
  rm -rf shelf* fresh* full* apart*
  if chosen singles; then singles; fi
  if chosen reads; then reads; fi
  if chosen ingest; then ingests; fi
  if chosen compact; then compacts; fi
  if chosen script; then scripts; fi
done
unset LATER
if chosen rows; then "$here/rows.sh"; fi
