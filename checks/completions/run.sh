#!/usr/bin/env bash
# Types lines of `lsm` with a Tab in bash, zsh and fish, in a folder that has a folder `check`, and
# looks at what becomes of them. run.sh [SHELL..]: these shells alone. Needs python3; a shell that is
# not there is named, and not tried. The last line is `N passed, M failed`.
set -euo pipefail
here=$(cd "$(dirname "$(readlink -f "${BASH_SOURCE[0]}")")" && pwd)
work=$(mktemp -d)
trap 'rm -rf "$work"' EXIT
mkdir -p "$work/in/check" "$work/in/db" "$work/in/my folder" "$work/home"
touch "$work/in/dump of it" "$work/in/lines.txt"
cd "$work/in"
HOME=$work/home ZDOTDIR=$work/home python3 "$here/typing.py" "$here/../../completions" "$@"
