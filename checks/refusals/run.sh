#!/usr/bin/env bash
# Makes each refusal of `lsm` once, in a folder of its own, as refusals.txt says, and compares the
# exit status, the first line, and what stands behind it; and sees that no file came or changed.
# run.sh [ROW..]: these rows alone. A row with a mark is known to be wrong: it is printed, and fails
# once it is right, so that the mark is taken away. Each number of docs/FORMATS.md has a row, or a
# line that says why no run is refused by it; and each refusal that is printed, on a first line or
# behind it, has the name and as many fields as its number has there.
#
# Needs python3. LSM=/path/to/lsm names a built program. The last line is `N passed, M failed`.
set -euo pipefail
here=$(cd "$(dirname "$(readlink -f "${BASH_SOURCE[0]}")")" && pwd)
work=$(mktemp -d)
trap 'rm -rf "$work"' EXIT
program=$(readlink -f "${LSM:-$("$here/../../tools/program")}")
cd "$work"
PYTHONDONTWRITEBYTECODE=1 python3 "$here/refuse.py" "$program" "$here/refusals.txt" "$here/../../docs/FORMATS.md" "$@"
