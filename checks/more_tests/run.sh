#!/usr/bin/env bash
# Runs tests that are not part of the gate, since their proofs take long, without proofs (`rt try
# --test`): each folder `lsm_*_tests` here is a crate of tests, its files named as a crate's with
# `.txt` behind, and `lines.txt` has the lines of crates.txt. Names of folders choose among them.
# Other folders are libraries that tests use. Needs rt, and nothing else.
#
# What costs is not the tests but the libraries below them, read again for each crate. So the crates
# are dealt out to at most six groups, and each group is built as one crate, whose modules are the
# crates of tests; as many groups at a time as processors and memory allow. (One group of all would
# take 9 GB.) A crate that does not compile is told from the others of its group by building each of
# these alone.
#
# Prints a line for each crate of tests, behind it what failed; then `N passed, M failed`, where a
# crate that was not run counts as one that failed. Status 1 where M is not 0.
set -euo pipefail
here=$(cd "$(dirname "$0")" && pwd)
top=$(cd "$here/../.." && pwd)
scratch=$(mktemp -d)
trap 'rm -rf "$scratch"' EXIT
names=("$@")
[[ $# -gt 0 ]] || mapfile -t names < <(cd "$here" && ls -d lsm_*_tests)

line_of() { # NAME: its line of crates.txt
    grep -E "^$1( [^:]*)?:" "$here/lines.txt"
}

for name in "${names[@]}"; do
    if [[ $name != *_tests || ! -d $here/$name ]] || ! line_of "$name" > /dev/null; then
        echo "$name is no folder of tests in checks/more_tests with a line in lines.txt" >&2
        exit 2
    fi
done

cp "$top/crates.txt" "$top/HANDLES" "$scratch"
for crate in "$top"/crates/*; do
    mkdir -p "$scratch/crates/${crate##*/}"
    find "$crate" -mindepth 1 -maxdepth 1 ! -name out ! -name must-fail -exec cp -r -t "$scratch/crates/${crate##*/}" {} +
done
mkdir "$scratch/.git"

put_library() { # NAME: a library that tests use, as a crate
    local file as
    while IFS= read -r -d '' file; do
        as="$scratch/crates/$1/${file#"$here/$1"/}"
        mkdir -p "$(dirname "$as")"
        cp "$file" "${as%.txt}"
    done < <(find "$here/$1" -type f -print0)
    line_of "$1" >> "$scratch/crates.txt" || { echo "$1 has no line in lines.txt" >&2; exit 2; }
}

for folder in "$here"/lsm_*; do
    name=${folder##*/}
    [[ $name == *_tests ]] || put_library "$name"
done

sources_of() { # NAME: its files, those of a crate of this name in the gate first
    [[ ! -d $top/crates/$1 ]] || find "$top/crates/$1/src" -name '*.rt' -print0
    find "$here/$1/src" -name '*.rt.txt' -print0
}

join() { # CRATE NAME..: makes one crate of these crates of tests, each a module of it
    local crate=$1 to="$scratch/crates/$1" name file as lower
    shift
    mkdir -p "$to/src"
    printf '//! Crates of tests, joined.\n#![tactic(auto)]\n' > "$to/src/lib.rt"
    for name in "$@"; do
        while IFS= read -r -d '' file; do
            as=${file##*/src/}
            as="$to/src/$name/${as%.txt}"
            [[ $as != */lib.rt ]] || as="$to/src/$name.rt"
            mkdir -p "$(dirname "$as")"
            # names from the root are names from the module, but for those of proofs, which are not
            # read
            sed -E "/^#!\[tactic/d; s/\bcrate::/crate::$name::/g; s/crate::$name::(proofs|specs)::/crate::\1::/g" \
                "$file" > "$as"
        done < <(sources_of "$name")
        printf '#[cfg(test)]\nmod %s;\n' "$name" >> "$to/src/lib.rt"
    done
    lower=$(for name in "$@"; do line_of "$name" | sed 's/.*://'; done | tr ' ' '\n' | sort -u | tr '\n' ' ')
    echo "$crate tests_may=Threads+Wait: $lower"
}

# Deals the crates out, the longest first, each to the group that is shortest so far.
size() { find "$here/$1/src" -name '*.rt.txt' -exec cat {} + | wc -l; }
groups=6
((groups <= ${#names[@]})) || groups=${#names[@]}
at_once=$(nproc)
by_memory=$(awk '/^MemAvailable:/ { print int($2 / 4194304) }' /proc/meminfo)
((at_once <= by_memory)) || at_once=$((by_memory > 0 ? by_memory : 1))
members=() lengths=()
for ((i = 0; i < groups; i++)); do members[i]="" lengths[i]=0; done
while read -r length name; do
    least=0
    for ((i = 1; i < groups; i++)); do ((lengths[i] >= lengths[least])) || least=$i; done
    # (a build of libraries alone weighs as much as some hundred lines)
    members[least]+=" $name" lengths[least]=$((lengths[least] + length + 100))
done < <(for name in "${names[@]}"; do echo "$(size "$name") $name"; done | sort -k1,1nr -k2)

run_joined() { # CRATE: runs its tests, with what they print in CRATE.log
    (cd "$scratch/crates/$1" && rt try --test --seconds 600) > "$scratch/$1.log" 2>&1 || true
}

is_run() { # CRATE: whether its tests were built and run to their end
    grep -q '^test result: ' "$scratch/$1.log"
}

tell() { # CRATE NAME..: a line for each of these crates of tests, and what failed
    local crate=$1 name
    shift
    for name in "$@"; do
        if is_run "$crate"; then
            awk -v name="$name" '
                /^test / {
                    is_ours = index($2, name "::") == 1
                    is_bad = is_ours && $NF != "ok"
                    if (is_ours) { if (is_bad) failed++; else passed++ }
                }
                is_bad && !/^test result/ { told = told "    " $0 "\n" }
                /^test result/ { is_bad = 0 }
                END {
                    if (passed + failed == 0) { failed = 1; told = "    no test of it was run\n" }
                    printf "%s: %d passed, %d failed\n%s", name, passed, failed, told
                }' "$scratch/$crate.log"
        else
            echo "$name: 0 passed, 1 failed"
            echo "    it was not built, or its tests were not run:"
            tail -n 12 "$scratch/$crate.log" | cut -c1-300 | sed 's/^/    /'
        fi
    done
}

run_group() { # CRATE NAME..: runs a group, or each crate of it alone where they cannot be built as one
    local crate=$1 name
    shift
    run_joined "$crate"
    if is_run "$crate" || (($# == 1)); then
        tell "$crate" "$@" > "$scratch/$crate.told"
        return
    fi
    for name in "$@"; do
        run_joined "alone_$name"
        tell "alone_$name" "$name"
    done > "$scratch/$crate.told"
}

for ((i = 0; i < groups; i++)); do
    join "group_$i" ${members[i]}
    for name in ${members[i]}; do join "alone_$name" "$name"; done
done >> "$scratch/crates.txt"
running=0
for ((i = 0; i < groups; i++)); do
    if ((running == at_once)); then
        wait -n || true
        running=$((running - 1))
    fi
    run_group "group_$i" ${members[i]} &
    running=$((running + 1))
done
wait
cat "$scratch"/group_*.told | awk '
    /^[a-z_]+: [0-9]+ passed, [0-9]+ failed$/ { passed += $2; failed += $4; crates++ }
    { print }
    END {
        lost = '"${#names[@]}"' - crates
        if (lost) { failed += lost; print lost " crates of tests were not run" }
        printf "%d passed, %d failed\n", passed, failed
        exit failed > 0
    }'
