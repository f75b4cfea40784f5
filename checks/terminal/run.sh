#!/usr/bin/env bash
# What `lsm` shows of how far it is, where standard error is a terminal: one line, which each later
# one replaces, and which is gone at the end, also in a window of 40 columns; nothing where it is
# none or dumb, or where a `scan` writes anywhere but into a file; with --progress lines that stay; a
# refusal, and which lines are in, stay too. Lines of `lsm shell` are edited by rlwrap. Needs
# python3; what needs tmux, for a look at the screen, or rlwrap is left out where they are not.
# LSM=/path/to/lsm names a built program.
set -euo pipefail
here=$(cd "$(dirname "$0")" && pwd)
top=$(cd "$here/../.." && pwd)
work=$(mktemp -d)
name="lsm-terminal-$$"
trap 'tmux -L "$name" kill-server 2> /dev/null || true; rm -rf "$work"' EXIT
program=$(readlink -f "${LSM:-$("$top/tools/program")}")
cd "$work"
python3 "$here/lines.py" "$program"
if ! command -v tmux > /dev/null; then
  echo "not tried: the screen: tmux is not installed"
  exit
fi

see() { # COLUMNS COMMANDS: what stands on a screen behind these, whose numbers are N in `found`
  tmux -L "$name" new-session -d -x "$1" -y 30 "$2; echo status \$?; sleep 60"
  for _ in $(seq 600); do
    tmux -L "$name" capture-pane -p | sed '/^$/d' > seen
    [[ $(tail -n 1 seen) != "status 0" ]] || break
    sleep 0.1
  done
  tmux -L "$name" kill-server
  sed -E 's/[0-9]+/N/g' seen > found
}

see 90 "$program check db; $program load db more.txt --text; $program get db key000007 --text"
{
  for _ in $(seq 7); do echo "level N files N bytes N entries N"; done
  printf '%s\n' "last N" "rest N" "loaded N lines in N batches" "value N" "status N"
} > wanted
cmp found wanted || { cat seen >&2; exit 1; }
echo "a screen: as wanted"

# 24 tables, whose lines are wider than the window; and the terminal wraps again behind them
mkdir narrow
for n in {11..22} {31..42}; do
  "$program" put narrow "$n" 00 > out || { "$program" compact narrow > out && "$program" put narrow "$n" 00 > out; }
done
long="behind_it_a_line_of_fifty_characters_is_wrapped_again"
see 40 "$program check narrow --workers 1 > out; printf '%s\n' $long"
printf '%s\n' "${long:0:40}" "${long:40}" "status N" > wanted
cmp found wanted || { cat seen >&2; exit 1; }
echo "a narrow screen: as wanted"

if ! command -v rlwrap > /dev/null; then
  echo "not tried: line editing: rlwrap is not installed"
  exit
fi

# a shell whose lines are edited and come again: the second put is the first one with another value
type_line() { # KEYS..: and looks until the screen has rested
  tmux -L "$name" send-keys "$@"
  sleep 1
}

mkdir edited
tmux -L "$name" new-session -d -x 80 -y 30 "rlwrap $program shell edited --text; sleep 60"
for _ in $(seq 100); do
  [[ $(tmux -L "$name" capture-pane -p | head -n 1) != "lsm>"* ]] || break
  sleep 0.1
done
type_line "put apple red" Enter
type_line Up BSpace BSpace BSpace "blue" Enter
type_line "get apple" Enter
tmux -L "$name" capture-pane -p | sed '/^$/d; s/ *$//' > found
tmux -L "$name" kill-server
printf '%s\n' "lsm> put apple red" "file 2 first 1 last 1" "lsm> put apple blue" \
  "file 3 first 2 last 2" "lsm> get apple" "value blue" "lsm>" > wanted
cmp found wanted || { cat found >&2; exit 1; }
echo "a shell in rlwrap: lines are edited, and come again"
