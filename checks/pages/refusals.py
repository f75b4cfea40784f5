#!/usr/bin/env python3
"""The table of refusals of docs/FORMATS.md, and that of the server's own of clients/README.md, beside
the code: each refusal that the code or a specification numbers stands in a table with this number
and name, and each of FORMATS is numbered by the code, but for those that are answered no more.
What `thiserror` prints of one begins with its name and shows as many fields. Where a page, a help
text, a test or a client says `refused N Name`, it is one of the tables.
"""

import os
import re
import sys
from pathlib import Path

from markdown import TOP

CRATES = TOP / "crates"
OWN = 200  # from here on numbers are those of the server and its clients
FEWER = {  # how many fields are printed where a crate knows fewer than the table names
    ("lsm_merge", "OutOfOrder"): 0,  # stands behind 35, which names the input
    ("lsm_snappy", "BadSnappy"): 1,  # the cause; lsm_inflate adds where the block is
}
passed = failed = 0


def judge(is_right, text):
    """Counts a judgment, and tells what is wrong."""
    global passed, failed
    passed, failed = passed + is_right, failed + (not is_right)
    if not is_right:
        print(text)


def table():
    """By its number, of each refusal in the tables: its name, how many fields it has, and whether it
    is answered no more."""
    rows = {}
    formats = (TOP / "docs/FORMATS.md").read_text().split("\n## Refusals\n")[1]
    for row in re.findall(r"^\| (\d+(?:, \d+)*) \| (.*?) \| (.*) \|$", formats, re.M):
        numbers = [int(number) for number in row[0].split(", ")]
        names = re.findall(r"(\w+)(?:\(([^)]*)\))?(?:, |$)", row[1])
        judge(len(numbers) == len(names), f"docs/FORMATS.md: {row[0]} has other than as many names")
        for number, (name, fields) in zip(numbers, names):
            judge(number not in rows, f"docs/FORMATS.md: {number} stands twice")
            rows[number] = name, len(fields.split(", ")) if fields else 0, "answered no more" in row[2]
    judge(sorted(rows) == list(range(1, len(rows) + 1)), "docs/FORMATS.md: a number is left out")
    clients = (TOP / "clients/README.md").read_text()
    for row in re.findall(r"^\| (2\d\d \w+(?:, \d+ \w+)*) \|", clients, re.M):
        for number, name in re.findall(r"(\d+) (\w+)", row):
            judge(int(number) not in rows, f"clients/README.md: {number} stands twice")
            rows[int(number)] = name, 0, False
    return rows


def sources(ending, folder):
    """The files of this ending in this folder of each crate."""
    for crate in sorted(CRATES.iterdir()):
        for path in sorted((crate / folder).rglob("*" + ending)):
            yield path


def bodies(text, method):
    """The bodies of methods of this name, each with the enum that it matches on."""
    for body in re.findall(rf"fn {method}\(&self\)[^{{]*(?:ensures[^\n]*\n\s*)*\{{(.*?)\n    \}}\n", text, re.S):
        owner = re.search(r"(\w+)::\w+", body)
        if owner:
            yield owner.group(1), body


def arms(body, value):
    """By variant, what its arm answers."""
    found = {}
    for patterns, answer in re.findall(rf"((?:\|?\s*\w+::\w+(?:\([^)]*\)|\s*\{{[^}}]*\}})?\s*)+)=> {value}", body):
        for variant in re.findall(r"\w+::(\w+)", patterns):
            found[variant] = answer
    return found


def numbered_in_code():
    """Of each refusal that a method `number` numbers: file, number, name, and what is printed."""
    for path in sources(".rt", "src"):
        text = path.read_text()
        names = {}
        for owner, body in bodies(text, "name"):
            names.setdefault(owner, {}).update(arms(body, r'"(\w+)"'))
        for owner, body in bodies(text, "number"):
            for variant, number in arms(body, r"(?:Some\()?(\d+)\)?,").items():
                shown = re.search(rf'#\[error\("([^"]*)"[^\n]*\)\]\s*{variant}\b', text)
                name = names.get(owner, {}).get(variant, variant)
                yield path, int(number), name, shown and shown.group(1)


def numbered_in_specs():
    """Of each refusal that `number_of` or `field` of a specification numbers: file, number, name."""
    for path in sources(".antt", "specs"):
        text = path.read_text()
        names = dict(re.findall(r'^name_of \(?(?:\w+\.)?(\w+).*? = codes "(\w+)"$', text, re.M))
        for variant, number in re.findall(r"^number_of \(?(?:\w+\.)?(\w+).*? = (?:Some )?(\d+)$", text, re.M):
            yield path, int(number), names.get(variant, variant)


SPELLED = (  # how the number and the name of a refusal stand together, and in which files
    (re.compile(r"\brefused\s+(\d+)\s+([A-Z]\w+)"), (".rt", ".antt", ".txt", ".md", ".1", ".py", ".sh", ".c", ".h", ".cc", ".go", ".java")),
    (re.compile(r'refusal_text (\d+) \(codes "(\w+)"\)'), (".rt", ".antt")),
    (re.compile(r'number: (\d+),\s+name: "(\w+)"'), (".rt",)),
    (re.compile(r'=> \((\d+), "(\w+)"\)'), (".rt",)),
)


def spelled():
    """Each place that has the number and the name of a refusal: file, number, name."""
    for folder, folders, files in os.walk(TOP):
        folders[:] = sorted(name for name in folders if name != "out" and not name.startswith("."))
        for path in (Path(folder, name) for name in sorted(files)):
            patterns = [pattern for pattern, endings in SPELLED if path.suffix in endings]
            text = path.read_text(errors="replace") if patterns and path.is_file() else ""
            for pattern in patterns:
                for number, name in pattern.findall(text):
                    yield path, int(number), name


def main():
    rows = table()
    given = set()
    for path, number, name, shown in numbered_in_code():
        where = path.relative_to(TOP)
        given.add(number)
        row, fields, _ = rows.get(number, (None, 0, False))
        judge(row == name, f"{where}: {number} is {name}, and {row} in the tables")
        if shown and not shown.startswith("{"):
            judge(shown.split()[0] == name, f"{where}: {name} is printed as {shown.split()[0]}")
            count = shown.count("{")
            fields = FEWER.get((where.parts[1], name), fields)
            judge(count == fields, f"{where}: {name} is printed with {count} fields, of {fields} in the tables")
    for path, number, name in (*numbered_in_specs(), *spelled()):
        where = path.relative_to(TOP)
        if where.parts[0] == "crates" and where.parts[-1] != "pages.rt":
            given.add(number)
        row = rows.get(number, (None, 0, False))[0]
        judge(row == name, f"{where}: {number} is {name}, and {row} in the tables")
    for number, (name, _, is_past) in rows.items():
        judge(is_past or number >= OWN or number in given, f"no code numbers {number} {name}")
    print(f"{passed} passed, {failed} failed")
    return failed == 0


sys.exit(0 if main() else 1)
