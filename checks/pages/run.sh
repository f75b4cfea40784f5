#!/usr/bin/env bash
# Checks the pages for strangers: README.md, docs/COMMANDS.md, and the book, docs/book.
#
#   sessions.py   each command of their shell sessions is run in a scratch folder and prints what the
#                 page says
#   code.py       each line of Rattle that they show is a line of a source file in crates or of a
#                 test; so in docs/CALLING.md, docs/PROVED.md and the CALLING.md of each crate; what
#                 clients/README.md shows is of clients/examples
#   commands.py   each command of the program that a page names is one, and so is each option of it;
#                 the table of COMMANDS has all of them
#   cures.py      what pages and refusals tell a user to do helps: against a lost CURRENT, a cut
#                 manifest, old names, a full batch, locks, logs; with LevelDB's library also against
#                 compressed and damaged tables, a lost manifest, padded handles, another comparator;
#                 with goleveldb's and RocksDB's what these leave
#   mending.py    each file that CONTRIBUTING's table "What to mend" names is there
#   names.py      each clause, call or test that the page of a crate names is in the sources
#   form.py       the pages of the book and of crates are short, drawings are well-formed, as scripts
#                 draw them, and each is shown; all code is in fences
#   links.py      of every page of the repository: each link leads to a file, and to a heading of it
#   checks.py     checks/README.md has each check of checks/checks.txt, and FIGURES.md no other
#   definitions   docs/DEFINITIONS.md, and the table in docs/PROVED.md of what a reader has to believe,
#                 are as tools/definitions makes them
#   refusals.py   the table of refusals of docs/FORMATS.md has the numbers and names of the code
#
# Names of pages as words choose which pages' sessions and code are looked at. Runs the proved
# program, or else the unproved build, which is made first where it is not there (some minutes);
# LSM=/path/to/lsm names another one. Where there is none the sessions count as failed, and what
# needs no program is looked at. Needs python3, and rt where a program has to be built. Prints each fault with its
# file and line. The last line is `N passed, M failed`; the status is 1 where M is not 0.
set -uo pipefail
here=$(cd "$(dirname "$0")" && pwd)
top=$(cd "$here/../.." && pwd)
program=${LSM:-$top/lsm}
passed=0 failed=0
export PYTHONDONTWRITEBYTECODE=1 LC_ALL=C.UTF-8

pages=("$@") code=("$@")
if [[ $# -eq 0 ]]; then
  pages=("$top/README.md" "$top/docs/COMMANDS.md" "$top"/docs/book/*.md)
  code=("${pages[@]}" "$top/docs/CALLING.md" "$top/docs/PROVED.md" "$top"/crates/*/CALLING.md "$top/clients/README.md")
fi
count() { # NAME COMMAND..: runs it, and adds its last line `N passed, M failed`
  local name=$1 said line
  shift
  said=$("$@")
  line=${said##*$'\n'}
  if [[ $line =~ ^([0-9]+)\ passed,\ ([0-9]+)\ failed$ ]]; then
    passed=$((passed + BASH_REMATCH[1])) failed=$((failed + BASH_REMATCH[2]))
    [[ $said == "$line" ]] || echo "${said%$'\n'*}"
    echo "$name: $line"
  else
    failed=$((failed + 1))
    echo "$said"
    echo "$name: ended without a count"
  fi
}

if "$program" --version > /dev/null; then
  count sessions python3 "$here/sessions.py" "$program" "${pages[@]}"
  count commands python3 "$here/commands.py" "$program"
else
  failed=1
  echo "sessions: not run, for want of a program: 0 passed, 1 failed"
fi
count code python3 "$here/code.py" "${code[@]}"
count cures python3 "$here/cures.py" "$program"
count mending python3 "$here/mending.py"
count names python3 "$here/names.py"
count form python3 "$here/form.py" "${code[@]}"
count links python3 "$here/links.py"
count checks python3 "$here/checks.py"
count definitions python3 "$top/tools/definitions" --check
count refusals python3 "$here/refusals.py"
echo "$passed passed, $failed failed"
((failed == 0))
