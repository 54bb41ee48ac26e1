#!/usr/bin/env python3
"""Checks the man pages: mandoc finds nothing to say of them, and a page of this repository that they name is there.

    tests/manual.py

Without mandoc (Debian's package of this name) only the names are checked. The last line is 'N passed, M failed', two cases a page, with what was skipped.
"""
import re
import shutil
import subprocess
import sys
from pathlib import Path

import counting

MAN = Path(__file__).resolve().parent.parent / "man"
ABSENT = re.compile(r"referenced manual not found: Xr (\S+) (\d)")  # said of pages that are not installed


def names(page):
    """Whether a name that begins as the programs do is that of a page here."""
    named = re.findall(r"^\.Xr (cmph\S*) (\d)", page.read_text(), re.M)
    return [f"there is no page {name}.{section}" for name, section in named if not (MAN / f"{name}.{section}").exists()]


def lint(page):
    """What mandoc says of a page, except that pages of this repository are not installed."""
    said = subprocess.run(["mandoc", "-T", "lint", page], stdout=subprocess.PIPE, stderr=subprocess.DEVNULL, text=True).stdout
    absent = [ABSENT.search(line) for line in said.splitlines()]
    return [line for line, found in zip(said.splitlines(), absent) if not found or not (MAN / f"{found[1]}.{found[2]}").exists()]


def main():
    checks = [names]
    if shutil.which("mandoc"):
        checks.append(lint)
    else:
        counting.skipped("what mandoc says of the pages", "there is no mandoc, which Debian's package of this name has")
    for page in sorted(MAN.glob("*.[1-9]")):
        for check in checks:
            counting.case(page.name, "; ".join(check(page)))
    return counting.close()


if __name__ == "__main__":
    sys.exit(main())
