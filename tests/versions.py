#!/usr/bin/env python3
"""Compares the file VERSION with what the packages, the program and the library say of their versions.

    tests/versions.py CMPH [LIB]     LIB has libcmph_c.so.1, and pkgconfig/cmph_c.pc if it was installed

The last line is 'N passed, M failed'.
"""
import ctypes
import re
import sys
from pathlib import Path

from counting import case, close, run, skipped

TOP = Path(__file__).resolve().parent.parent
VERSION = (TOP / "VERSION").read_text().strip()
# Files, each with a pattern that finds every version of ours in it.
PACKAGES = {
    "library/python/pyproject.toml": r'^version = "(.*)"',
    "library/python/cmph/__init__.py": r'^__version__ = "(.*)"',
    "library/rust/cmph/Cargo.toml": r'^version = "(.*)"',
    "library/rust/cmph-c-sys/Cargo.toml": r'^version = "(.*)"',
    "library/rust/Cargo.lock": r'^name = "cmph.*"\nversion = "(.*)"',
}


def stated(path, pattern):
    found = set(re.findall(pattern, path.read_text(), re.MULTILINE))
    case(f"the version in {path.name} of {path.parent.name}", found != {VERSION} and f"{found}, and VERSION has {VERSION}")


def number():
    """The version as the C library has it: 20000 for 2.0.0."""
    major, minor, patch = map(int, VERSION.split("."))
    return major * 10000 + minor * 100 + patch


def of_library(lib):
    if (lib / "pkgconfig" / "cmph_c.pc").exists():
        stated(lib / "pkgconfig" / "cmph_c.pc", r"^Version: (.*)$")
    else:
        skipped("the version in cmph_c.pc", f"{lib} has none")
    library = ctypes.CDLL(str(lib / "libcmph_c.so.1"))
    if not hasattr(library, "cmph_c_version"):
        skipped("cmph_c_version", "the library has no such call")
        return
    found = library.cmph_c_version()
    case("cmph_c_version", found != number() and f"it returns {found}")


def main():
    program, *lib = map(Path, sys.argv[1:])
    for name, pattern in PACKAGES.items():
        stated(TOP / name, pattern)
    case("CMPH_C_VERSION of the header", f"#define CMPH_C_VERSION {number()}\n" not in (TOP / "library" / "cmph_c.h").read_text())
    left = run(program.resolve(), "-V")
    case("cmph -V", left.stdout != f"cmph {VERSION.split('.')[0]}\n" and left)
    for folder in lib:
        of_library(folder.resolve())
    return close()


if __name__ == "__main__":
    sys.exit(main())
