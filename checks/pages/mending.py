#!/usr/bin/env python3
"""The table "What to mend" of CONTRIBUTING.md: each file that a row names is there, each row says
what changed and what to mend, and each script of checks that a user may run stands in some row.

A name between backticks is a file of the repository where it has a `/` or an end such as `.md`, or
is one of the files at the top without an end. NAME in it is any crate. Other names are not judged.
"""

import re
import sys

from markdown import TOP

PAGE = TOP / "CONTRIBUTING.md"
AT_TOP = {"test", "completions", "HANDLES"}
passed = failed = 0


def judge(is_right, text):
    """Counts a judgment, and tells what is wrong."""
    global passed, failed
    passed, failed = passed + is_right, failed + (not is_right)
    if not is_right:
        print(f"CONTRIBUTING.md, What to mend: {text}")


def rows():
    """The rows of the table, each as its cells."""
    section = PAGE.read_text().split("## What to mend", 1)[1].split("\n## ", 1)[0]
    lines = [line for line in section.split("\n") if line.startswith("| ")]
    return [[cell.strip() for cell in line.strip("|").split("|")] for line in lines[1:]]


def files(cell):
    """The files that a cell names."""
    for name in re.findall(r"`([^`]+)`", cell):
        word = name.split()[0]
        if word in AT_TOP or re.fullmatch(r"[\w./-]+\.(md|py|sh|svg|txt|1)", word) or re.fullmatch(r"[\w.-]+(/[\w.-]+)+", word):
            yield word


named = set()
for cells in rows():
    judge(len(cells) == 3 and all(cells[:2]), f"a row without two cells: {cells[0]}")
    for word in (word for cell in cells[1:] for word in files(cell)):
        named.add(word)
        judge(any(TOP.glob(word.replace("NAME", "*"))), f"{word}: no such file")
for script in sorted((TOP / "checks").glob("*/run.sh")):
    word = str(script.relative_to(TOP))
    judge(word in named, f"{word} is in no row")
print(f"{passed} passed, {failed} failed")
sys.exit(failed != 0)
