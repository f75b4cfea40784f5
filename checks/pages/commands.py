#!/usr/bin/env python3
"""Whether pages name commands and options that there are: commands.py PROGRAM

Wherever a page has `lsm WORD ..`, in a line of prose, a table or a block, WORD is a command of the
program's help, and each option behind it is one of that command. The table of docs/COMMANDS.md has
a row for each command, with just its options.
"""

import re
import subprocess
import sys
from pathlib import Path

from markdown import TOP, pages

NAMED = re.compile(r"(?<![\w/.-])(?:\./)?lsm ([a-z]+)\b([^`|>;\n]*)")
OPTION = re.compile(r"--[a-z][a-z-]*")
ALWAYS = {"--help", "--version"}
passed = failed = 0


def judge(is_right, text):
    """Counts a judgment, and tells what is wrong."""
    global passed, failed
    passed, failed = passed + is_right, failed + (not is_right)
    if not is_right:
        print(text)


def said(*words):
    return subprocess.run([program, *words], stdout=subprocess.PIPE, stderr=subprocess.DEVNULL, text=True).stdout


program = str(Path(sys.argv[1]).resolve())
overview = said("help").split("\nCommands:\n", 1)[1].split("\n\n", 1)[0]
commands = re.findall(r"^  ([a-z]+) ", overview, re.M)
options = {name: set(OPTION.findall(re.search(r"^Usage: .*", said("help", name), re.M)[0])) for name in commands}
for page in pages():
    for number, line in enumerate(page.read_text().split("\n"), 1):
        for name, rest in NAMED.findall(line):
            unknown = sorted(set(OPTION.findall(rest)) - options.get(name, set()) - ALWAYS)
            judge(name in options and not unknown, f"{page.relative_to(TOP)}:{number}: lsm {name} {' '.join(unknown)}: no such words")
rows = {}
for name, cell in re.findall(r"^\| `lsm ([a-z]+)\b(.*?) \| ", (TOP / "docs" / "COMMANDS.md").read_text(), re.M):
    rows.setdefault(name, set()).update(OPTION.findall(cell))
for name in commands:
    told = rows.get(name)
    judge(told is not None and told - ALWAYS == options[name] - ALWAYS, f"docs/COMMANDS.md: lsm {name} has {sorted(options[name])}, and {told} in the table")
print(f"{passed} passed, {failed} failed")
sys.exit(failed != 0)
