#!/usr/bin/env bash
# Opens the tests that stand beside the gate as files of Rattle: open.sh FOLDER makes a second root
# there, in which an editor, `rt fmt`, `rt check`, `rt try --test` and a search by language work:
# each crate of tests, and each library that they use, is a folder of `.rt` and `.antt` files,
# beside copies of the crates of this repository, which are only to be read. `save.sh FOLDER` brings
# edits of tests back.
#
# FOLDER lies outside the repository, since `rt ci` stops at each `.rt` file in it that no check
# reads; there the files are kept with `.txt` behind their names.
set -euo pipefail
here=$(cd "$(dirname "$0")" && pwd)
top=$(cd "$here/../.." && pwd)
[[ $# == 1 ]] || { echo "open.sh FOLDER" >&2; exit 2; }
to=$(realpath -m "$1")
[[ $to/ != "$top"/* ]] || { echo "$to lies in the repository, where rt ci would stop at it" >&2; exit 2; }
[[ ! -e $to || -d $to && -z $(ls -A "$to") ]] || { echo "$to is there already: save it and remove it first" >&2; exit 2; }

mkdir -p "$to/crates"
cp "$top/HANDLES" "$to"
cp "$top/crates.txt" "$to"
# (links would do for an editor, but rt takes no crate behind one)
for crate in "$top"/crates/*; do
    name=${crate##*/}
    mkdir "$to/crates/$name"
    find "$crate" -mindepth 1 -maxdepth 1 ! -name out ! -name must-fail -exec cp -r -t "$to/crates/$name" {} +
    [[ -d $here/$name ]] || echo "$name"
done > "$to/.lower"
while read -r name; do find "$to/crates/$name" -type f -exec chmod a-w {} +; done < "$to/.lower"
for folder in "$here"/lsm_*; do
    name=${folder##*/}
    crate="$to/crates/$name"
    mkdir -p "$crate"
    # a crate of that name in the gate lends its files; save.sh leaves them there
    [[ ! -d $top/crates/$name ]] || (cd "$crate" && find . -type f ! -name .lent -exec sha256sum {} + > .lent)
    cp -r "$folder/." "$crate"
    find "$crate" -name '*.txt' -exec bash -c 'for it; do mv "$it" "${it%.txt}"; done' _ {} +
    sed -i -E "/^$name( [^:]*)?:/d" "$to/crates.txt"
done
cat "$here/lines.txt" >> "$to/crates.txt"
# what was opened: save.sh refuses where the repository has become another one since
(cd "$here" && find lsm_* lines.txt -type f -exec sha256sum {} + | sort -k2) > "$to/.opened"
echo "$to: $(ls -d "$here"/lsm_*_tests | wc -l) crates of tests"
