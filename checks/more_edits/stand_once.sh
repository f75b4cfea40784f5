#!/usr/bin/env bash
# Whether each edit that must fail, here and in crates/*/must-fail, can be applied: its file is
# there, and each text after `old:` stands in it just once, followed by a `new:`. A second's work,
# without proofs: run it when code was moved. Names of crates choose among them. Prints those that
# cannot be applied, and ends with status 1 where there is one.
set -euo pipefail
here=$(cd "$(dirname "$0")" && pwd)
top=$(cd "$here/../.." && pwd)
names=("$@")
[[ $# -gt 0 ]] || names=($(cd "$top" && ls -d checks/more_edits/*/ crates/*/must-fail/ | sed -E 's:/(must-fail/)?$::; s:.*/::' | sort -u))
status=0
tried=0
for name in "${names[@]}"; do
    for edit in "$here/$name"/*.edit "$top/crates/$name/must-fail"/*.edit; do
        [[ -e $edit ]] || continue
        tried=$((tried + 1))
        (cd "$top/crates/$name" && LC_ALL=C awk -v edit="${edit#"$top"/}" '
            function refuse(why) { print edit ": " why; refused = 1 }
            # How often a text stands in the file.
            function times(text,    i, count, rest, at) {
                for (i = 1; i <= lines; i++)
                    for (rest = line[i]; (at = index(rest, text)) > 0; rest = substr(rest, at + 1)) count++
                return count + 0
            }
            /^file: / {
                file = substr($0, 7)
                for (lines = 0; (got = (getline text < file)) > 0;) line[++lines] = text
                close(file)
                if (got < 0) { refuse("there is no " file); exit }
            }
            /^old: / { old = substr($0, 6); found = times(old); olds++
                if (found != 1) refuse("stands " found " times in " file ": " old) }
            /^new:/ { news++; if (news != olds) refuse("a new: without its old:") }
            END { if (!refused && (olds == 0 || olds != news)) refuse("not as many new: as old:"); exit refused }
        ' "$edit") || status=1
    done
done
echo "$tried edits looked at"
exit "$status"
