#!/usr/bin/env python3
"""Looks for long sentences in the README and in docs/.

    tests/sentences.py [FILE ..]

A sentence of a paragraph, of an item of a list or of a table's cell has at most 40 words. Code is left out, and so are the tables that
commands write. Without FILE it reads all pages, and ends with 'N passed, 0 failed', where N counts the pages.
"""
import re
import sys
from pathlib import Path

TOP = Path(__file__).resolve().parent.parent
MOST = 40  # words of a sentence
WRITTEN = re.compile(r"<!-- begin: .*?<!-- end -->", re.S)  # by a command
CODE = re.compile(r"^(```.*?^```|(?: {4}|\t).*?$)", re.S | re.M)
INLINE = re.compile(r"`[^`]*`|\]\([^)]*\)")  # code and the targets of links
START = re.compile(r"^\s*(?:[-*+]|\d+\.|#+|>)\s+")  # of an item or a heading
END = re.compile(r"(?<=[.!?:;])\s+|(?<=[.!?:;])\*\*\s+")


def blank(found):
    """As many lines, with nothing in them."""
    return "\n" * found.group().count("\n")


def blocks(text):
    """The paragraphs, items and cells of a page, each with its first line's number."""
    text = CODE.sub(blank, WRITTEN.sub(blank, text))
    block, first = [], 0
    for at, line in enumerate([*text.split("\n"), ""], 1):
        if block and (not line.strip() or START.match(line) or line.startswith("|")):
            yield first, " ".join(block)
            block = []
        if line.startswith("|"):
            yield from ((at, cell) for cell in line.strip().strip("|").split(" | "))
        elif line.strip():
            block, first = [*block, START.sub("", line).strip()], first if block else at


def long_sentences(path):
    """The long sentences of a page: line, number of words, and how it begins."""
    for line, block in blocks(path.read_text()):
        for sentence in END.split(INLINE.sub(" x ", block)):
            if len(words := re.findall(r"[\w'’]+(?:[-.,]\w+)*", sentence)) > MOST:
                yield line, len(words), sentence[:60]


def main():
    pages = [Path(it).resolve() for it in sys.argv[1:]] or [TOP / "README.md", *sorted((TOP / "docs").rglob("*.md"))]
    failed = 0
    for page in pages:
        found = list(long_sentences(page))
        failed += bool(found)
        for line, count, start in found:
            print(f"{page.name}:{line}: a sentence of {count} words: {start} ..")
    print(f"{len(pages) - failed} passed, {failed} failed")
    return failed > 0


if __name__ == "__main__":
    sys.exit(main())
