#!/usr/bin/env bash
# Runs the checks of this folder, one after another, each with its time, and goes on whatever failed:
#
#   run.sh [--quick] [--record] [--without NAME].. [NAME..]
#
# Names are those of checks.txt, which lists what each needs and how it is called; none: all that
# have a long form, but those after --without. By --quick only those that have a quick form, and by
# it. By --record what each said becomes its row in FIGURES.md. `run.sh --list` prints the names.
#
# All run the same program: LSM=/path/to/lsm, or the proved one, or else the unproved build, which is
# made first where it is not there (tools/program); so the server, LSM_SERVER. What a check prints is
# in out/checks/NAME.log; its last line, and where it failed its last twenty, are printed here.
#
# A check whose last line is `N passed, M failed` counts as that; another one as 1, by its status. One
# that lacks a tool, a program or a line of checks.txt counts as failed, and is named, as is what a
# check says that it did not try. LIMIT=180 is how many minutes one may take. The last line is
# `N passed, M failed`; the status is 1 where M is not 0.
set -uo pipefail
here=$(cd "$(dirname "$(readlink -f "${BASH_SOURCE[0]}")")" && pwd)
top=$(cd "$here/.." && pwd)
form=long is_recorded=
declare -A needs command is_left_out has_no
names=() chosen=() failed_ones=() not_tried=()
passed=0 failed=0

die() { # WHY
  echo "checks: $1; see the head of checks/run.sh" >&2
  exit 2
}

trim() { # TEXT
  local text=$1
  text=${text#"${text%%[![:space:]]*}"}
  echo "${text%"${text##*[![:space:]]}"}"
}

read_list() { # what checks.txt says, for the form that was asked for
  local name lacks quick long
  while IFS='|' read -r name lacks _ quick long; do
    name=$(trim "$name") quick=$(trim "$quick") long=$(trim "$long")
    [[ $name && $name != \#* ]] || continue
    [[ $quick && $long ]] || die "checks.txt: the line of $name lacks a column"
    [[ $long != = ]] || long=$quick
    names+=("$name") needs[$name]=$(trim "$lacks")
    if [[ $form == quick ]]; then command[$name]=$quick; else command[$name]=$long; fi
  done < "$here/checks.txt"
}

choose() { # NAME..: the checks to run
  local name
  for name in "$@" "${!is_left_out[@]}"; do
    [[ ${command[$name]-} ]] || die "checks.txt has no check $name"
    [[ ${command[$name]} != - ]] || die "$name has no $form form"
  done
  if [[ $# -gt 0 ]]; then
    chosen=("$@")
    return
  fi
  for name in "${names[@]}"; do
    [[ ${command[$name]} == -* || ${is_left_out[$name]-} ]] || chosen+=("$name")
  done
}

fail() { # NAME WHY: one that is not run
  failed=$((failed + 1))
  failed_ones+=("$1")
  echo "$1: not run: $2"
}

program_for() { # VARIABLE CRATE: exports the path of a program, once
  local path
  [[ -z ${!1-} ]] || return 0
  [[ -z ${has_no[$2]-} ]] || return 1
  path=$("$top/tools/program" "$2") || { has_no[$2]=1; return 1; }
  export "$1=$path"
}

lacking() { # NAME: what this check needs and is not there
  local it
  for it in ${needs[$1]}; do
    case $it in
      lsm) program_for LSM lsm_tool || echo "the program lsm" ;;
      lsm_server) program_for LSM_SERVER lsm_server || echo "the program lsm_server" ;;
      leveldb) [[ -f /usr/include/leveldb/db.h ]] || echo "libleveldb-dev" ;;
      prover) command -v rt > /dev/null && ls "$top"/crates/*/out/rlib > /dev/null 2>&1 || echo "libraries that rt check keeps" ;;
      python:*) python3 -c "import ${it#python:}" 2> /dev/null || echo "python's ${it#python:}" ;;
      *) command -v "$it" > /dev/null || echo "$it" ;;
    esac
  done
}

build_of() { # PATH of a program
  case $1 in
    '') echo - ;;
    */unproved/*) echo unproved ;;
    *) echo proved ;;
  esac
}

run() { # NAME: runs it, counts it, and says how it ended
  local name=$1 log="$top/out/checks/$1.log" begun=$SECONDS status=0 line more result time build=- lacks ended
  lacking "$name" > "$top/out/checks/lacking" # (here, not in a process of its own: it exports programs)
  lacks=$(sort -u "$top/out/checks/lacking" | paste -sd ,)
  if [[ $lacks ]]; then
    fail "$name" "it lacks ${lacks//,/, }"
    return
  fi
  echo "== $name: ${command[$name]#-}"
  # (variables in front of a script are words of the shell)
  (cd "$here" && eval "timeout $((${LIMIT:-180} * 60)) env ${command[$name]#-}") > "$log" 2>&1 < /dev/null || status=$?
  time=$((SECONDS - begun))
  line=$(tail -n 1 "$log")
  if [[ $line =~ ^([0-9]+)\ passed,\ ([0-9]+)\ failed$ ]]; then
    passed=$((passed + BASH_REMATCH[1])) more=${BASH_REMATCH[2]}
    [[ $status == 0 || $more != 0 ]] || more=1
  else
    more=$((status != 0)) passed=$((passed + 1 - more))
  fi
  failed=$((failed + more))
  mapfile -t -O "${#not_tried[@]}" not_tried < <(sed -n "s/^not tried: /$name: /p" "$log")
  if [[ $more == 0 ]]; then
    result=passed
    [[ ! $line ]] || echo "   $line"
  else
    result=FAILED
    failed_ones+=("$name")
    tail -n 20 "$log" | sed 's/^/   /'
  fi
  ended=
  ((status == 0)) || ended=", status $status"
  ((status != 124)) || ended=", no end within ${LIMIT:-180} min"
  printf '   %s, %d:%02d min%s\n' "$result" $((time / 60)) $((time % 60)) "$ended"
  case " ${needs[$name]} " in
    *" lsm "*) build=$(build_of "$LSM") ;;
    *" lsm_server "*) build=$(build_of "$LSM_SERVER") ;;
    *" rt "*) build=unproved ;;
  esac
  [[ ! $is_recorded ]] || "$here/figures.py" record "$name" "$build" "$form" "$result" "$time" "$line"
}

words=() is_listed=
while [[ $# -gt 0 ]]; do
  case $1 in
    --quick) form=quick ;;
    --record) is_recorded=1 ;;
    --list) is_listed=1 ;;
    --without)
      [[ ${2-} ]] || die "--without lacks a name"
      is_left_out[$2]=1
      shift
      ;;
    -*) die "there is no word $1" ;;
    *) words+=("$1") ;;
  esac
  shift
done
read_list
if [[ $is_listed ]]; then
  for name in "${names[@]}"; do echo "$name: ${command[$name]}"; done
  exit
fi
choose "${words[@]}"
mkdir -p "$top/out/checks"
# (checks run in folders of their own)
for variable in LSM LSM_SERVER; do
  [[ ! ${!variable-} ]] || export "$variable=$(readlink -f "${!variable}")"
done
if [[ ${#words[@]} -eq 0 ]]; then
  for script in "$here"/*/run.sh; do
    folder=$(basename "$(dirname "$script")")
    grep -q "^[a-z].*[ -]$folder/run.sh" "$here/checks.txt" || fail "$folder" "no line of checks.txt has $folder/run.sh"
  done
fi
for name in "${chosen[@]}"; do run "$name"; done
echo "checks: ${#chosen[@]} checks in $(((SECONDS + 30) / 60)) min"
for name in "${!is_left_out[@]}"; do echo "left out: $name, by --without"; done
if [[ ${#words[@]} -eq 0 ]]; then
  for name in "${names[@]}"; do
    case ${command[$name]} in
      -) echo "left out: $name, which has no $form form" ;;
      -*) echo "left out: $name, which is run by its name alone" ;;
    esac
  done
fi
for line in "${not_tried[@]}"; do echo "not tried: $line"; done
[[ ${#failed_ones[@]} -eq 0 ]] || echo "failed: ${failed_ones[*]}"
echo "$passed passed, $failed failed"
((failed == 0))
