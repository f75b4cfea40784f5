#!/usr/bin/env python3
"""The rows of checks/FIGURES.md: what each check said last, and of which text.

figures.py old
    Names the checks without a row, and the rows that are older than the last change of what they
    speak of: the sources of one of the crates that checks.txt lists for the check are others than
    in the row's commit. Says so where git cannot tell. The status is 0, whatever it names.

figures.py record NAME BUILD FORM RESULT SECONDS SAID
    Writes the row of a check, but of one that ./test runs each time: today, the last commit that
    changed a crate (with a `+` where there are changes without a commit), and the words.
    `checks/run.sh --record` calls it.
"""

import datetime
import fcntl
import re
import subprocess
import sys
from pathlib import Path

HERE = Path(__file__).resolve().parent
TOP = HERE.parent
PAGE = HERE / "FIGURES.md"
BEGIN, END = "<!-- rows: checks/run.sh --record writes them -->", "<!-- end of rows -->"
HEAD = ["| Check | Day | Commit | Build | Form | Result | Minutes | What it said |", "|---|---|---|---|---|---|---|---|"]
LONGEST = 64  # characters of what a check said


def checks():
    """Of each check in checks.txt, in order: the words for its crates."""
    found = {}
    for line in (HERE / "checks.txt").read_text().split("\n"):
        if line.strip() and not line.startswith("#"):
            columns = [column.strip() for column in line.split("|")]
            found[columns[0]] = columns[2].split()
    return found


def parts(text):
    """The text before the rows, the rows as lists of columns, and the text behind them."""
    before, _, rest = text.partition(BEGIN)
    table, _, behind = rest.partition(END)
    if not rest or not behind:
        raise SystemExit(f"figures: {PAGE.name} has no rows between its two comments")
    lines = [line for line in table.split("\n") if line.startswith("| `")]
    return before, [[column.strip() for column in line.strip("|").split(" | ")] for line in lines], behind


def git(*words):
    """What git says of the repository; nothing where it fails."""
    try:
        done = subprocess.run(["git", "--no-optional-locks", "-C", TOP, *words], capture_output=True, text=True, check=True)
    except (OSError, subprocess.CalledProcessError):
        return None
    return done.stdout.strip()


def crates_of(words):
    """The crates that the words of checks.txt name."""
    names = []
    for word in words:
        if word.startswith("+"):
            said = subprocess.run([TOP / "tools/crates_of", word[1:]], capture_output=True, text=True, check=False)
            names += said.stdout.split()
        else:
            names.append(word)
    return list(dict.fromkeys(names))


def why_git_cannot_tell():
    if git("rev-parse", "--show-toplevel") != str(TOP):
        return "this is no clone of the repository"
    if git("rev-parse", "--is-shallow-repository") != "false":
        return "this is a shallow clone"
    return None


def fault(words, row):
    """Why a row is no figure of the text as it is; else nothing."""
    lost = [crate for crate in crates_of(words) if not (TOP / "crates" / crate).is_dir()]
    if lost:
        return f"checks.txt names what is no crate: {', '.join(lost)}"
    commit = row[2].rstrip("+")
    if git("cat-file", "-e", f"{commit}^{{commit}}") is None:
        return f"git cannot tell: it has no commit {commit}"
    names = git("diff", "--name-only", "--no-renames", commit, "HEAD", "--", "crates").split("\n")
    since = {name.split("/")[1] for name in names if re.match(r"crates/\w+/src/", name)}
    changed = [crate for crate in crates_of(words) if crate in since]
    if not changed:
        return None
    more = f" and {len(changed) - 3} more" if len(changed) > 3 else ""
    return f"of {row[1]}, before the last change of {', '.join(changed[:3])}{more}"


def tell_old():
    listed = {name: words for name, words in checks().items() if words != ["test"]}
    rows = {row[0].strip("`"): row for row in parts(PAGE.read_text())[1]}
    why = why_git_cannot_tell()
    if why:
        print(f"note: whether checks/FIGURES.md is old git cannot tell: {why}")
    old = 0
    for name, words in listed.items():
        found = "has no row" if name not in rows else None if why else fault(words, rows[name])
        if found:
            old += 1
            print(f"note: checks/FIGURES.md: {name}: {found}")
    for name in sorted(set(rows) - set(checks())):
        print(f"note: checks/FIGURES.md: {name}: no check of checks.txt")
    if not why:
        print(f"note: {old} of {len(listed)} checks have no figures of this text; `checks/run.sh --record NAME..` makes them")


def record(name, build, form, result, seconds, said):
    if name not in checks():
        raise SystemExit(f"figures: checks.txt has no check {name}")
    if checks()[name] == ["test"]:
        return
    commit = git("log", "-1", "--format=%h", "--abbrev=10", "--", "crates") or "-"
    if git("status", "--porcelain", "--", "crates"):
        commit += "+"
    said = re.sub(r"\s+", " ", said).replace("|", "/").replace("<", "&lt;").strip()
    said = said if len(said) <= LONGEST else said[: LONGEST - 2].rsplit(" ", 1)[0] + " .."
    minutes, rest = divmod(int(seconds), 60)
    row = [f"`{name}`", f"{datetime.date.today()}", commit, build, form, result, f"{minutes}:{rest:02}", said or "-"]
    with open(HERE / "checks.txt") as lock:  # two runs may end at once
        fcntl.flock(lock, fcntl.LOCK_EX)
        before, rows, behind = parts(PAGE.read_text())
        rows = {**{old[0]: old for old in rows}, row[0]: row}
        order = [f"`{it}`" for it in checks()]
        lines = [f"| {' | '.join(rows[it])} |" for it in order if it in rows]
        PAGE.write_text("\n".join([f"{before}{BEGIN}", *HEAD, *lines, f"{END}{behind}"]))


if __name__ == "__main__":
    if sys.argv[1:] == ["old"]:
        tell_old()
    elif len(sys.argv) == 8 and sys.argv[1] == "record":
        record(*sys.argv[2:])
    else:
        sys.exit(__doc__)
