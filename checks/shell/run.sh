#!/usr/bin/env bash
# Drives `lsm shell` as another program does, through pipes, and as a person does, in a terminal:
# each line has its reply before the next line is sent, also beside workers, a list ends by `end`, bad
# and too long lines and refusals are replies, which the status tells in the end, and with --bail end
# it, what was said to be in is in after a kill, a second shell is refused, shells that only read
# stand beside each other and leave each file as it was, and a reply that can't be written ends it.
# Needs python3, and tmux for the last part, which is left out where there is none.
# LSM=/path/to/lsm names a built program.
set -euo pipefail
here=$(cd "$(dirname "$0")" && pwd)
top=$(cd "$here/../.." && pwd)
work=$(mktemp -d)
trap 'rm -rf "$work"' EXIT
program=$(readlink -f "${LSM:-$("$top/tools/program")}")
cd "$work"
python3 "$here/talk.py" "$program"
if ! command -v tmux > /dev/null; then
  echo "not tried: the terminal: tmux is not installed"
  exit
fi
mkdir typed
name="lsm-shell-$$"
tmux -L "$name" new-session -d -x 90 -y 30 "$program shell typed --text; echo status \$?; sleep 60"
trap 'tmux -L "$name" kill-server 2> /dev/null || true; rm -rf "$work"' EXIT
wait_for() { # LINE: until it is the last line in the terminal
  for _ in $(seq 300); do
    tmux -L "$name" capture-pane -p | sed '/^$/d' > seen
    [[ $(tail -n 1 seen) != "$1" ]] || return 0
    sleep 0.1
  done
  cat seen >&2
  exit 1
}
for line in "put pear green" begin "put fig blue" "get fig" commit frob scan compact quit; do
  wait_for "lsm>"
  tmux -L "$name" send-keys -l "$line"
  tmux -L "$name" send-keys Enter
done
wait_for "status 1"
cat > wanted << END
lsm> put pear green
file 2 first 1 last 1
lsm> begin
begun
lsm> put fig blue
queued
lsm> get fig
absent
lsm> commit
file 3 first 2 last 2
lsm> frob
bad line: help tells what lines there are
lsm> scan
fig=blue
pear=green
end
lsm> compact
installed 0
lsm> quit
failed line
a line was bad or was refused: its reply says why
status 1
END
cmp seen wanted || { cat seen >&2; exit 1; }
echo "a terminal: as wanted"
