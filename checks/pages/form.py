#!/usr/bin/env python3
"""The form of the book: each page has at most 1,200 words, and its first page names it. Each drawing
in docs is well-formed and shown by some page; those of docs/book/draw.py are as it draws them, and
docs/layers.svg has just the crates that docs/draw_layers.py would draw. The page of each crate has
at most 60 lines, and docs/CRATES.md leads to it.

form.py PAGE.. also looks for blocks of code without fences in these pages.
"""

import re
import sys
import xml.etree.ElementTree as xml
from pathlib import Path

from markdown import FENCE, TOP, links

DOCS = TOP / "docs"
BOOK = DOCS / "book"
sys.path.append(str(BOOK))
sys.path.append(str(DOCS))
from draw import DRAWINGS  # noqa: E402
from draw_layers import uses  # noqa: E402

MOST_WORDS = 1200
MOST_LINES = 60
passed = failed = 0


def judge(is_right, text):
    """Counts a judgment, and tells what is wrong."""
    global passed, failed
    passed, failed = passed + is_right, failed + (not is_right)
    if not is_right:
        print(text)


def is_well_formed(drawing):
    try:
        return xml.parse(drawing).getroot().tag.endswith("svg")
    except xml.ParseError:
        return False


def indented_blocks(page):
    """The lines at which a block without fences begins."""
    inside, before = False, ""
    for number, line in enumerate(page.read_text().split("\n"), 1):
        if FENCE.match(line):
            inside = not inside
        elif not inside and not before.strip() and line.startswith("    "):
            yield number
        before = line


def shown(pages):
    """The drawings that pages show or lead to."""
    return {(page.parent / link).resolve() for page in pages for _, link in links(page) if link.endswith(".svg")}


named = {(BOOK / link).resolve() for _, link in links(BOOK / "README.md")}
for page in sorted(BOOK.glob("*.md")):
    words = len(page.read_text().split())
    judge(words <= MOST_WORDS, f"{page.relative_to(TOP)}: {words} words, {MOST_WORDS} at most")
    if page.name != "README.md":
        judge(page in named, f"{page.relative_to(TOP)}: README.md beside it does not name it")
drawn = set(re.findall(r">(lsm_\w+)<", (DOCS / "layers.svg").read_text()))
for crate in sorted(drawn ^ set(uses())):
    judge(False, f"docs/layers.svg: {crate} is not drawn, or no crate any more: run docs/draw_layers.py")
in_list = {(DOCS / link).resolve() for _, link in links(DOCS / "CRATES.md")}
for page in sorted((TOP / "crates").glob("*/README.md")):
    lines = page.read_text().count("\n")
    judge(lines <= MOST_LINES, f"{page.relative_to(TOP)}: {lines} lines, {MOST_LINES} at most")
    is_listed = page in in_list or page.parent.name.endswith("_tests")
    judge(is_listed, f"{page.relative_to(TOP)}: docs/CRATES.md does not lead to it")
for name, draw in DRAWINGS.items():
    judge((DOCS / name).read_text() == draw().svg(), f"docs/{name}: not as docs/book/draw.py draws it")
in_pages = shown([TOP / "README.md", *DOCS.glob("**/*.md"), *(TOP / "crates").glob("*/*.md")])
for drawing in sorted(DOCS.glob("**/*.svg")):
    judge(is_well_formed(drawing), f"{drawing.relative_to(TOP)}: no well-formed drawing")
    judge(drawing in in_pages, f"{drawing.relative_to(TOP)}: no page shows it")
for name in sys.argv[1:]:
    page = Path(name).resolve()
    at = list(indented_blocks(page))
    judge(not at, f"{page.relative_to(TOP)}: blocks without fences at lines {at}")
print(f"{passed} passed, {failed} failed")
sys.exit(failed != 0)
