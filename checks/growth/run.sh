#!/usr/bin/env bash
# Runs `lsm` and `lsm_server` on folders of which one has more tables than the other, and bounds how
# much longer that takes (growth.py): a compaction of deletions over deeper tables, reads, and the
# beginnings of scans. So with the memory that a manifest or a `CURRENT` takes that is too large.
# Needs python3. LSM=/path/to/lsm and LSM_SERVER=/path/to/lsm_server name built programs.
set -euo pipefail
here=$(cd "$(dirname "$0")" && pwd)
program=$(readlink -f "${LSM:-$("$here/../../tools/program")}")
server=$(readlink -f "${LSM_SERVER:-$("$here/../../tools/program" lsm_server)}")
work=$(mktemp -d)
trap 'rm -rf "$work"' EXIT
PYTHONDONTWRITEBYTECODE=1 "$here/growth.py" "$program" "$server" "$work"
