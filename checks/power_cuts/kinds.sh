#!/usr/bin/env bash
# Whether run.sh sees each kind of syncs that a disk forgets: kinds.sh [PROGRAM], which is as for
# run.sh; so are SEED and CRASHES. Ends with status 1 where a kind ends with another status than 3.
set -euo pipefail
here=$(cd "$(dirname "$0")" && pwd)
export SEED=${SEED:-$RANDOM$RANDOM}
bad=0
for kind in tables manifests records temporaries folder; do
  status=0
  "$here/run.sh" --forget-syncs=$kind "$@" || status=$?
  if [[ $status != 3 ]]; then
    echo "power_cuts: where the syncs of kind $kind are forgotten, run.sh ends with $status, not 3" >&2
    bad=1
  fi
done
[[ $bad != 0 ]] || echo "each kind of syncs forgotten alone: a loss was found"
exit $bad
