#!/usr/bin/env bash
# Compares the manual page and the completions of this repository with what tools/manual.py makes of
# the help of the program, and has them read by the shells that are there: run.sh [PROGRAM], else
# LSM, else the program of the repository. What is completed is seen by checks/completions. The last
# line is `N passed, M failed`; a shell that is not installed is named, and counts as neither.
# To write them anew: tools/manual.py PROGRAM . at the top of the repository.
set -uo pipefail
top=$(cd "$(dirname "$(readlink -f "${BASH_SOURCE[0]}")")/../.." && pwd)
program=$(realpath -e "${1:-${LSM:-$("$top/tools/program")}}") || { echo "0 passed, 1 failed"; exit 1; }
scratch=$(mktemp -d)
trap 'rm -rf "$scratch"' EXIT
passed=0 failed=0

try() { # NAME COMMAND..: counts it
  local name=$1
  shift
  if "$@" > "$scratch/said" 2>&1; then
    passed=$((passed + 1))
  else
    failed=$((failed + 1))
    echo "FAILED: $name"
    head -n 20 "$scratch/said"
  fi
}

has() { # NAME: whether this program is installed
  command -v "$1" > /dev/null || { echo "not tried: $1 is not installed"; return 1; }
}

mkdir -p "$scratch/made"
python3 "$top/tools/manual.py" "$program" "$scratch/made"
for file in man/lsm.1 completions/lsm.bash completions/_lsm completions/lsm.fish; do
  try "$file is what the program's help says" diff -u "$top/$file" "$scratch/made/$file"
done

try "bash reads it" bash -n "$top/completions/lsm.bash"
if has mandoc; then try "mandoc finds no error" mandoc -T lint -W error "$top/man/lsm.1"; fi
if has zsh; then try "zsh reads it" zsh -n "$top/completions/_lsm"; fi
if has fish; then try "fish reads it" fish -n "$top/completions/lsm.fish"; fi
echo "$passed passed, $failed failed"
((failed == 0))
