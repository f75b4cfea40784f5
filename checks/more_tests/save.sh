#!/usr/bin/env bash
# Brings edits of tests back from a root that `open.sh FOLDER` made: save.sh FOLDER. Changed, new
# and removed files of the crates of tests and of their libraries are changed, new and removed here,
# with `.txt` behind the names of `.rt` and `.antt` files, and their lines of crates.txt in
# lines.txt. Prints a line for each. Writes nothing, and ends with status 1, where a file was
# changed here too since the root was opened. FOLDER stays, and can be saved again.
set -euo pipefail
here=$(cd "$(dirname "$0")" && pwd)
[[ $# == 1 && -f $1/.opened ]] || { echo "save.sh FOLDER, of a folder that open.sh made" >&2; exit 2; }
from=$(cd "$1" && pwd)
scratch=$(mktemp -d)
trap 'rm -rf "$scratch"' EXIT

# What the folders here shall be.
new="$scratch/new"
mkdir "$new"
for crate in "$from"/crates/*; do
    name=${crate##*/}
    [[ -d $crate ]] && ! grep -qxF "$name" "$from/.lower" || continue
    while IFS= read -r -d '' file; do
        # what a crate of the gate lent stays with it, unless it is another file now
        if [[ -f $crate/.lent && ! -f $here/$name/$file.txt && ! -f $here/$name/$file ]]; then
            ! grep -qxF "$(cd "$crate" && sha256sum "./$file")" "$crate/.lent" || continue
            if grep -qF "  ./$file" "$crate/.lent"; then
                echo "$name/$file is a file of the gate's crate: edit it there" >&2
                exit 1
            fi
        fi
        to="$new/$name/$file"
        [[ $file != *.rt && $file != *.antt ]] || to+=.txt
        mkdir -p "$(dirname "$to")"
        cp "$crate/$file" "$to"
    done < <(cd "$crate" && find . -path ./out -prune -o -type f ! -name .lent ! -name .rattle\* -printf '%P\0')
done
while read -r line; do
    name=${line%%[ :]*}
    [[ ! -d $new/$name ]] || echo "$line"
done < "$from/crates.txt" > "$new/lines.txt"

(cd "$here" && find lsm_* lines.txt -type f -exec sha256sum {} + | sort -k2) > "$scratch/now"
(cd "$new" && find lsm_* lines.txt -type f -exec sha256sum {} + | sort -k2) > "$scratch/new.sums"
python3 - "$here" "$new" "$from/.opened" "$scratch/now" "$scratch/new.sums" <<'END'
import os, shutil, sys

here, new, opened, now, wanted = sys.argv[1:]


def sums(file):
    with open(file, encoding="utf-8") as lines:
        return {name: sum_ for sum_, name in (line.rstrip("\n").split("  ", 1) for line in lines)}


opened_sums, now, wanted = sums(opened), sums(now), sums(wanted)
names = sorted({*opened_sums, *now, *wanted})
# edited there, and here another one than was opened, and not the same edit
lost = [it for it in names if wanted.get(it) != opened_sums.get(it) and now.get(it) != opened_sums.get(it) and now.get(it) != wanted.get(it)]
for it in lost:
    print(f"{it} was changed in the repository too, since it was opened", file=sys.stderr)
if lost:
    sys.exit(1)
for it in names:
    if wanted.get(it) == opened_sums.get(it) or wanted.get(it) == now.get(it):
        continue
    if it in wanted:
        os.makedirs(os.path.dirname(f"{here}/{it}"), exist_ok=True)
        shutil.copyfile(f"{new}/{it}", f"{here}/{it}")
        print(f"{'changed' if it in now else 'new'} {it}")
    else:
        os.remove(f"{here}/{it}")
        print(f"removed {it}")
END
(cd "$here" && find lsm_* -depth -type d -empty -delete)
# from now on this is what was opened
cp "$scratch/new.sums" "$from/.opened"
