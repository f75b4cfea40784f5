#!/usr/bin/env bash
# Tries edits that must fail and are not part of the gate, for their time: each folder here is a
# crate's. Names of crates choose among them. Works in a scratch folder, crate by crate, over what
# crates/*/out keep. Ends with status 1 where an edit is proved. Needs rt.
set -euo pipefail
here=$(cd "$(dirname "$0")" && pwd)
top=$(cd "$here/../.." && pwd)
source "$top/benches/copy_crates.sh"
scratch=$(mktemp -d)
trap 'rm -rf "$scratch"' EXIT
names=("$@")
[[ $# -gt 0 ]] || names=($(cd "$here" && ls -d */ | tr -d /))
status=0
for name in "${names[@]}"; do
    rm -rf "${scratch:?}"/*
    copy_crates "$name" "$scratch"
    cp -r "$here/$name" "$scratch/crates/$name/must-fail"
    (cd "$scratch" && rt must-fail "$name") || status=1
done
exit "$status"
