#!/usr/bin/env python3
"""Whether each link of each page leads to a file of this repository, and to a heading of it."""

import sys

from markdown import TOP, anchors, links, pages


def fault(page, link):
    """Why a link leads nowhere; else nothing."""
    path, _, heading = link.partition("#")
    target = (page.parent / path).resolve() if path else page
    if TOP not in (target, *target.parents):
        return "leads out of the repository"
    if not target.exists():
        return "no such file"
    if heading and (target.suffix != ".md" or heading not in anchors(target)):
        return f"no such heading in {target.relative_to(TOP)}"
    return None


passed = failed = 0
for page in pages():
    for line, link in links(page):
        if link.startswith(("http://", "https://")):
            continue
        why = fault(page, link)
        if why is None:
            passed += 1
        else:
            failed += 1
            print(f"{page.relative_to(TOP)}:{line}: {link}: {why}")
print(f"{passed} passed, {failed} failed")
sys.exit(failed != 0)
