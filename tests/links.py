#!/usr/bin/env python3
"""Checks the links of the documents: each names a file or a folder that is there, and a heading of it if it names one. Each page below docs/ is
listed in docs/README.md.

    tests/links.py

It reads all .md files of the repository. Links to other sites are not followed. The last line is 'N passed, M failed', a case for each link and each page.
"""
import re
import subprocess
import sys
from pathlib import Path
from urllib.parse import unquote

TOP = Path(__file__).resolve().parent.parent
INDEX = TOP / "docs" / "README.md"
LINK = re.compile(r"\]\(([^()\s]+(?:\([^()\s]*\)[^()\s]*)*)\)")
FENCED = re.compile(r"^(```|~~~).*?^\1", re.M | re.S)
CODE = re.compile(r"`[^`\n]*`")


def pages():
    """The documents that git knows, and those that it would add."""
    left = subprocess.run(["git", "ls-files", "-co", "--exclude-standard", "*.md"], cwd=TOP, capture_output=True, text=True, check=True)
    return [TOP / line for line in left.stdout.splitlines() if (TOP / line).exists()]


def anchors(page):
    """The names of the headings of a page, as GitHub makes them: a second one of the same text has a number."""
    found, seen = set(), {}
    for heading in re.findall(r"^#{1,6}\s+(.*?)\s*#*$", FENCED.sub("", page.read_text()), re.M):
        text = re.sub(r"\[([^\]]*)\]\([^)]*\)", r"\1", heading)
        name = re.sub(r"[^\w\- ]", "", text.lower()).replace(" ", "-")
        again = seen.get(name, 0)
        seen[name] = again + 1
        found.add(f"{name}-{again}" if again else name)
    return found


def wrong(page, link):
    """What is wrong with a link of a page, or nothing."""
    path, _, anchor = unquote(link).partition("#")
    target = (page.parent / path).resolve() if path else page
    if not target.exists():
        return "no such file"
    if TOP not in (target, *target.parents):
        return "outside the repository"
    if anchor and target.suffix == ".md" and anchor not in anchors(target):
        return "no such heading"
    return ""


def links(page):
    """The links of a page to files, headings and folders here."""
    text = CODE.sub("", FENCED.sub("", page.read_text()))
    return [link for link in LINK.findall(text) if not re.match(r"[a-z]+:", link)]


def faults():
    """A line for each link and each page, which is empty if nothing is wrong."""
    for page in pages():
        for link in links(page):
            fault = wrong(page, link)
            yield fault and f"{page.relative_to(TOP)}: {link}: {fault}"
    listed = {(INDEX.parent / link.partition("#")[0]).resolve() for link in links(INDEX)}
    for page in pages():
        if INDEX.parent in page.parents and page != INDEX:
            yield "" if page in listed else f"{page.relative_to(TOP)}: not in {INDEX.relative_to(TOP)}"


def main():
    found = list(faults())
    for fault in filter(None, found):
        print(fault)
    failed = sum(map(bool, found))
    print(f"{len(found) - failed} passed, {failed} failed")
    return 1 if failed or not found else 0


if __name__ == "__main__":
    sys.exit(main())
