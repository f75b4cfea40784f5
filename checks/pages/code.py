#!/usr/bin/env python3
"""Whether the code of pages is code of this repository: code.py PAGE..

Each block of a page says what it is: `console` (a session, see sessions.py), `rust` (Rattle),
`antt` (a definition or a proof), `edit` (one that must fail), `output` (what a program of `crates`
prints: its file `stdout`), `c`, `cpp` and `python` (a program of clients/examples), `text` (anything
else, which nothing compares). The lines of a block have
to be lines of one file of its kind, to the letter and one after another. The whole may be indented
otherwise. A line `..` parts the block in two: both are in the file, in this order.
"""

import sys
from pathlib import Path

from markdown import TOP, blocks

KINDS = {
    "rust": ["crates/*/src/**/*.rt", "checks/more_tests/*/src/**/*.rt.txt"],
    "antt": ["crates/*/specs/**/*.antt", "crates/*/proofs/**/*.antt"],
    "output": ["crates/*/stdout"],
    "edit": ["crates/*/must-fail/*.edit", "checks/more_edits/*/*.edit"],
    "c": ["clients/examples/*.c"],
    "cpp": ["clients/examples/*.cc", "clients/examples/*.cpp"],
    "python": ["clients/examples/*.py"],
}


def sources(patterns):
    """The files of a kind, each as its lines."""
    paths = [path for pattern in patterns for path in sorted(TOP.glob(pattern))]
    return [[line.rstrip() for line in path.read_text().split("\n")] for path in paths]


def indentation(line):
    return len(line) - len(line.lstrip())


def parts(lines):
    """The parts of a block between its lines `..`, each with its own indentation taken away."""
    part, found = [], []
    for line in [*lines, ".."]:
        if line.strip() != "..":
            part.append(line.rstrip())
            continue
        while part and not part[0]:
            part.pop(0)
        while part and not part[-1]:
            part.pop()
        if part:
            shift = min(indentation(text) for text in part if text)
            found.append([text[shift:] for text in part])
        part = []
    return found


def ends_of(part, lines, begin):
    """Where the part may end in a file when it begins at the line `begin` or behind it."""
    for at in range(begin, len(lines) - len(part) + 1):
        shift = " " * (indentation(lines[at]) - indentation(part[0]))
        if all(lines[at + k] == (shift + text if text else "") for k, text in enumerate(part)):
            yield at + len(part)


def stands_in(all_parts, lines):
    """Whether all parts are in the file, in their order."""
    at = 0
    for part in all_parts:
        at = next(ends_of(part, lines, at), None)
        if at is None:
            return False
    return True


files = {tag: sources(patterns) for tag, patterns in KINDS.items()}
passed = failed = 0
for name in sys.argv[1:]:
    for block in blocks(Path(name).resolve()):
        if block.tag in ("console", "text"):
            continue
        if block.tag not in KINDS:
            why = f"`{block.tag}` is no kind of block"
        elif not parts(block.lines):
            why = "nothing to compare"
        elif any(stands_in(parts(block.lines), lines) for lines in files[block.tag]):
            passed += 1
            continue
        else:
            why = f"no file {' or '.join(KINDS[block.tag])} has these lines"
        failed += 1
        print(f"{block.place()}: {why}")
        print("".join(f"    {line}\n" for line in block.lines), end="")
print(f"{passed} passed, {failed} failed")
sys.exit(failed != 0)
