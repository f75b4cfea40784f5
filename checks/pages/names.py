#!/usr/bin/env python3
"""Whether the names of crates' pages and of docs/NOT_PROVED.md are names of this repository: what
stands between backticks there and looks like the name of a clause, a call, a type, a definition or a
test has to be a word of the sources, or a file of them. So a page does not go on to name a clause
that is gone.
"""

import re
import sys

from markdown import TOP

SOURCES = ["crates/*/src/**/*.rt", "crates/*/specs/**/*.antt", "crates/*/proofs/CallerLemmas.antt",
           "checks/**/*.rt.txt", "checks/**/*.py", "clients/**/*.py", "tools/*"]
# of LevelDB, of the system, or of the kit
OF_OTHERS = {"WriteBatch", "CompactRange", "NewFileNumber", "kNoCompression", "create_if_missing",
             "NewIterator", "SharedBoundary"}
NAME = re.compile(r"[A-Za-z_][A-Za-z0-9_]*")
passed = failed = 0


def words():
    """Each word of the sources, and each name of a file or a folder."""
    found = {"HANDLES"} | {path.name for folder in ("crates", "checks", "checks/more_tests") for path in (TOP / folder).iterdir()}
    for path in (path for pattern in SOURCES for path in TOP.glob(pattern) if path.is_file()):
        found.add(path.stem.split(".")[0])
        found.update(NAME.findall(path.read_text(errors="ignore")))
    return found


def names(page):
    """The names that a page has between backticks, outside of its blocks of code."""
    text = re.sub(r"^```.*?^```", "", page.read_text(), flags=re.S | re.M)
    for code in re.findall(r"`([^`\n]+)`", text):
        if not re.search(r"[\s/=<>*-]", code.strip()) and not re.search(r"\.(md|cc|h|c|svg|sh)$", code):
            yield from (part for part in re.split(r"::|\.", code) if NAME.fullmatch(part) and ("_" in part or part[:1].isupper()))


known = words() | OF_OTHERS
for page in [*sorted((TOP / "crates").glob("*/*.md")), TOP / "docs" / "NOT_PROVED.md"]:
    unknown = sorted({name for name in names(page) if len(name) > 3} - known)
    passed, failed = passed + (not unknown), failed + bool(unknown)
    if unknown:
        print(f"{page.relative_to(TOP)}: no name of the sources: {' '.join(unknown)}")
print(f"{passed} passed, {failed} failed")
sys.exit(failed != 0)
