#!/usr/bin/env bash
# Power cuts: `lsm ingest` and `lsm compact` by 1 and 4 workers run under `strace`; what a disk may
# have after a power cut in any of their calls is drawn and put into a folder; `lsm` and LevelDB
# open it, and both give what was answered: cuts.py says how. Words:
#
#   run.sh [--garbage | --forget-syncs[=KIND] | --cleaned] [PROGRAM]
#
# PROGRAM is a built `lsm` (also LSM=PROGRAM; the repository's own), the program itself, no script
# that starts it. CRASHES=1000 says how many power cuts, SEED=.. draws the same ones again, as far as
# threads take the same turns. At a difference the folder is kept.
# With --garbage there may be other bytes behind the durable ones of a file (zeros, or any); then a
# manifest behind which no answer stands may be refused for its damage where such bytes stand, and
# nothing else.
# With --cleaned a compaction is killed before a sync, `lsm clean` runs, and then power is cut
# (cleaned.py).
# With --forget-syncs the disk makes nothing durable that it is asked to: the check has to find a
# loss. KIND leaves out one kind of syncs alone: tables, manifests (before CURRENT names them),
# records (appended to one), temporaries (of N.dbtmp, before it is renamed to CURRENT), folder.
#
# Statuses: 0, nothing was lost; 1, something was, or the check is broken, or it cut no install by 1
# worker, none by 4 or no roll-over; 2, other words; and with --forget-syncs 3, a loss was found
# after a power cut, as it must be. kinds.sh runs each KIND and wants 3.
# Needs strace, g++, libleveldb-dev and python3.
set -euo pipefail
here=$(cd "$(dirname "$0")" && pwd)
forget=none garbage= cleaned=
case ${1-} in
  --garbage) garbage=garbage ;;
  --cleaned) cleaned=cleaned ;;
  --forget-syncs) forget=all ;;
  --forget-syncs=tables | --forget-syncs=manifests | --forget-syncs=records) forget=${1#*=} ;;
  --forget-syncs=temporaries | --forget-syncs=folder) forget=${1#*=} ;;
  -*)
    echo "power_cuts: $1 is no word of run.sh; see its head" >&2
    exit 2
    ;;
esac
[[ $forget == none && ! $garbage && ! $cleaned ]] || shift
if [[ $# -gt 1 || ${1-} == -* ]]; then
  echo "power_cuts: other words than those of run.sh: $*; see its head" >&2
  exit 2
fi
scratch=$(mktemp -d)
program=$(readlink -f "${1:-${LSM:-$("$here/../../tools/program")}}")
seed=${SEED:-$RANDOM$RANDOM}
echo "seed $seed"
if [[ $cleaned ]]; then
  mkdir "$scratch/folders"
  python3 "$here/cleaned.py" "$program" "$scratch/folders" "${CRASHES:-60}" "$seed"
  rm -rf "$scratch"
  exit
fi
g++ -O2 -Wall -o "$scratch/leveldb" "$here/../leveldb_directories/directory.cc" -lleveldb
mkdir "$scratch/folders"
if [[ $forget == none ]]; then
  trap '[[ -d $scratch/folders ]] || rm -rf "$scratch"' EXIT
else
  trap 'rm -rf "$scratch"' EXIT
fi
python3 "$here/cuts.py" "$program" "$scratch/leveldb" "$scratch/folders" "${CRASHES:-1000}" "$seed" "$forget" $garbage
rm -rf "$scratch"
