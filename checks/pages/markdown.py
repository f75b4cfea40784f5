"""What the checks of the pages read of a page: its blocks of code, its headings, its links."""

import re
from dataclasses import dataclass
from pathlib import Path

TOP = Path(__file__).resolve().parents[2]
FENCE = re.compile(r"^```(\S*)\s*$")
NO_PAGES = {".git", "out", "target"}


@dataclass
class Block:
    """A block of code between two fences."""

    page: Path
    line: int  # of its first line of code, from 1
    tag: str  # the word behind the fence that opens it
    lines: list

    def place(self):
        return f"{self.page.relative_to(TOP)}:{self.line}"


def pages():
    """The pages of the repository."""
    return [page for page in sorted(TOP.rglob("*.md")) if not NO_PAGES & set(page.relative_to(TOP).parts)]


def blocks(page):
    """The fenced blocks of a page, in order."""
    found, opened = [], None
    for number, line in enumerate(page.read_text().split("\n"), 1):
        fence = FENCE.match(line)
        if opened is None and fence:
            opened = Block(page, number + 1, fence[1], [])
        elif opened is not None and fence and not fence[1]:
            found.append(opened)
            opened = None
        elif opened is not None:
            opened.lines.append(line)
        elif line.lstrip().startswith("```"):
            raise SystemExit(f"{page.relative_to(TOP)}:{number}: a fence that is not at the line's front")
    if opened is not None:
        raise SystemExit(f"{opened.place()}: a block without an end")
    return found


def prose(page):
    """The text of a page with empty lines in the place of its fenced and indented blocks."""
    lines, inside, after_blank = [], False, True
    for line in page.read_text().split("\n"):
        code = inside or (after_blank and line.startswith("    ") and not line.lstrip().startswith(("-", "|")))
        if FENCE.match(line):
            inside, code = not inside, True
        lines.append("" if code else line)
        after_blank = not line.strip() or code
    return "\n".join(lines)


def anchors(page):
    """The names of a page's headings, as they stand behind # in a link."""
    seen, names = {}, set()
    for line in prose(page).split("\n"):
        heading = re.match(r"^#{1,6} +(.*?) *#*$", line)
        if heading is None:
            continue
        text = re.sub(r"\[([^\]]*)\]\([^)]*\)", r"\1", heading[1])
        name = re.sub(r"[^\w\- ]", "", text.lower()).replace(" ", "-")
        count = seen.get(name, 0)
        seen[name] = count + 1
        names.add(name if count == 0 else f"{name}-{count}")
    return names


def links(page):
    """The links of a page: the line of each, from 1, and where it leads."""
    text = re.sub(r"`[^`\n]*`", lambda code: "`" + "x" * (len(code[0]) - 2) + "`", prose(page))
    for link in re.finditer(r"\[[^\[\]]*\]\(([^()\s]+)\)", text):
        yield text.count("\n", 0, link.start()) + 1, link[1]
