#!/usr/bin/env python3
"""Whether the checks are told: each script that checks/checks.txt names is there and in the table of
checks/README.md, each crate that it names is one, each checks/NAME/run.sh is in it, and each row of
FIGURES.md is of a check.
"""

import re
import sys

from markdown import TOP

CHECKS = TOP / "checks"
passed = failed = 0


def judge(is_right, text):
    """Counts a judgment, and tells what is wrong."""
    global passed, failed
    passed, failed = passed + is_right, failed + (not is_right)
    if not is_right:
        print(text)


lines = [line for line in (CHECKS / "checks.txt").read_text().split("\n") if line.strip() and not line.startswith("#")]
readme = (CHECKS / "README.md").read_text()
names, listed = set(), set()
for line in lines:
    name, _, crates, *commands = [column.strip() for column in line.split("|")]
    names.add(name)
    scripts = {script for command in commands for script in re.findall(r"\w+/\w+\.sh", command)}
    judge(len(commands) == 2 and bool(scripts), f"checks/checks.txt: {name}: no command")
    listed |= scripts
    for script in sorted(scripts):
        judge((CHECKS / script).is_file(), f"checks/checks.txt: {name}: there is no {script}")
        folder, file = script.split("/")
        told = re.search(rf"`{folder}/(?:\w+\.sh`, `)?{file}`|`{folder}/[^|]*`{file}`", readme)
        judge(bool(told), f"checks/README.md: {script} is not in the table")
    for crate in crates.split():
        is_crate = crate == "test" or (TOP / "crates" / crate.lstrip("+")).is_dir()
        judge(is_crate, f"checks/checks.txt: {name}: {crate} is no crate")
for script in sorted(CHECKS.glob("*/run.sh")):
    name = str(script.relative_to(CHECKS))
    judge(name in listed, f"checks/checks.txt: no line has {name}")
for row in re.findall(r"^\| `(\w+)` \| \d{4}-", (CHECKS / "FIGURES.md").read_text(), re.M):
    judge(row in names, f"checks/FIGURES.md: {row} is no check of checks.txt")
print(f"{passed} passed, {failed} failed")
sys.exit(failed != 0)
