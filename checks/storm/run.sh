#!/usr/bin/env bash
# A storm over a server: run.sh [SECONDS] [SEED], two minutes, the seed drawn and printed. Four
# threads read, at snapshots that they hold and let go and at what is there now; one brings batches
# in; three workers compact; a sixth thread has tables removed. Each read has to be what the history
# of its keys says: storm.c says how. The folder is opened again afterwards, by the server and by
# LevelDB. Ends with status 1 at the first difference, and leaves the folder, whose path is printed.
#
# The server is the one that LSM_SERVER names, or the proved one, or else the unproved build, which is
# made first where it is not there (tools/program). INSIDE=1 takes its object (LSM_SERVER_OBJECT, or
# the one beside it) into the process. ROOM=/tmp names where the folder is made. Needs gcc and
# libleveldb-dev.
set -euo pipefail
here=$(cd "$(dirname "$(readlink -f "${BASH_SOURCE[0]}")")" && pwd)
top=$(cd "$here/../.." && pwd)
time=${1:-120} seed=${2:-$RANDOM$RANDOM}
work=$(mktemp -d)
folder=$(mktemp -d -p "${ROOM:-/tmp}" storm-XXXXXX)
trap 'rm -rf "$work"' EXIT
server=${LSM_SERVER:-$("$top/tools/program" lsm_server)}
server=$(readlink -f "$server")
echo "seed $seed, $time s; $server${INSIDE:+, inside the process}; load $(cut -d ' ' -f 1 /proc/loadavg)"
if [[ ${INSIDE:-} ]]; then
  "$top/clients/c/build.sh" "$work/c" "$(readlink -f "${LSM_SERVER_OBJECT:-$server.o}")"
  library=("$work/c/libtiswenor_inside.a" -lm)
else
  "$top/clients/c/build.sh" "$work/c"
  library=("$work/c/libtiswenor.a")
fi
gcc -std=c11 -Wall -Wextra -Werror -O2 -g -I"$top/clients/c" -I"$top/clients/c/tests" -o "$work/storm" "$here/storm.c" "${library[@]}" -lleveldb -lpthread
export TISWENOR_SERVER=$server
timeout -k 10 $((time + 120)) "$work/storm" "$folder/db" "$time" "$seed" || {
  echo "storm: status $?; the folder is $folder" >&2
  exit 1
}
rm -rf "$folder"
