#!/usr/bin/env python3
"""Runs the shell sessions of pages: sessions.py PROGRAM PAGE..

A session is a block of the kind `console`. A line that begins with `$ ` is a command; lines that
begin with `> ` behind it go on with it. The lines behind it are what the command prints, standard
output and standard error together. A line that begins with `..` is any number of lines. Lines that
the script `lsm` writes of an unproved build, and while it is built, count on neither side.

Each page has a scratch folder of its own, where `./lsm` is PROGRAM and `examples` is that of the
repository. A path /tmp/.. of a page is a path in that folder. The blocks of a page are run in
order, so one may go on with the files of those before it.
"""

import re
import subprocess
import sys
import tempfile
from pathlib import Path

from markdown import TOP, blocks

SECONDS = 300
OF_THE_BUILD = re.compile(r"lsm: (unproved build$|built first, once,|built in |waits for another run |.* min so far, load )")


def commands(block):
    """The commands of a session, each with its line and with what the page says it prints."""
    found = []
    for number, line in enumerate(block.lines, block.line):
        if line.startswith("$ "):
            found.append([number, line[2:], []])
        elif not found:
            raise SystemExit(f"{block.place()}: the session does not begin with `$ `")
        elif line.startswith("> ") and not found[-1][2]:
            found[-1][1] += "\n" + line[2:]
        else:
            found[-1][2].append(line)
    return found


def without_build(lines):
    return [line for line in lines if not OF_THE_BUILD.match(line)]


def is_as_said(said, printed):
    """Whether the lines printed are those that the page says, `..` being any."""
    if not said:
        return not printed
    if said[0].startswith(".."):
        return any(is_as_said(said[1:], printed[skipped:]) for skipped in range(len(printed) + 1))
    return bool(printed) and said[0] == printed[0] and is_as_said(said[1:], printed[1:])


def run(command, folder):
    """What a command of a page prints."""
    inner = command.replace("/tmp/", f"{folder}/tmp/")
    try:
        done = subprocess.run(
            ["bash", "-c", inner], cwd=folder, timeout=SECONDS, stdin=subprocess.DEVNULL,
            stdout=subprocess.PIPE, stderr=subprocess.STDOUT,
        )
    except subprocess.TimeoutExpired:
        return [f"(no end within {SECONDS} seconds)"]
    text = done.stdout.decode(errors="replace").replace(f"{folder}/tmp/", "/tmp/")
    return without_build(text.split("\n")[:-1] if text.endswith("\n") or not text else text.split("\n"))


def set_up(folder, program):
    (folder / "tmp").mkdir()
    (folder / "lsm").symlink_to(program)
    (folder / "examples").symlink_to(TOP / "examples")


def judge(page, program):
    """How many commands of the page printed what it says, and how many did not."""
    passed = failed = 0
    with tempfile.TemporaryDirectory() as scratch:
        folder = Path(scratch).resolve()
        set_up(folder, program)
        for block in blocks(page):
            if block.tag != "console":
                continue
            for line, command, said in commands(block):
                printed = run(command, folder)
                if is_as_said(without_build(said), printed):
                    passed += 1
                    continue
                failed += 1
                print(f"{page.relative_to(TOP)}:{line}: $ {command}\n  the page says:")
                print("".join(f"    {text}\n" for text in said), end="")
                print("  printed:")
                print("".join(f"    {text}\n" for text in printed), end="")
    return passed, failed


program = Path(sys.argv[1]).resolve()
counts = [judge(Path(name).resolve(), program) for name in sys.argv[2:]]
passed, failed = sum(p for p, _ in counts), sum(f for _, f in counts)
print(f"{passed} passed, {failed} failed")
sys.exit(failed != 0)
