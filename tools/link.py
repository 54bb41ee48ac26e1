#!/usr/bin/env python3
"""Makes the C library of its archive: FOLDER/libcmph_c.a, which is complete, and FOLDER/libcmph_c.so.1.

    tools/link.py [ARCHIVE] FOLDER     the archive below crates/ if it is left out

The archive of the crate lacks the three functions by which the library takes memory: they are in the kit's archive, which is put into both. The shared
library exports what library/exports.map lists, and nothing else. `make library` calls this, and so do the tests.
"""
import shutil
import subprocess
import sys
from pathlib import Path

TOP = Path(__file__).resolve().parent.parent
ARCHIVE = TOP / "crates" / "cmph_c" / "out" / "libcmph_c.a"
EXPORTS = TOP / "library" / "exports.map"


def memory():
    """The kit's archive with the functions that take memory."""
    return Path(shutil.which("rt")).resolve().parent.parent / "c" / "liblibc_c.a"


def static_library(archive, folder):
    """Makes the complete archive, and gives its path."""
    made = Path(folder) / "libcmph_c.a"
    made.unlink(missing_ok=True)
    script = f"create {made}\naddlib {archive}\naddlib {memory()}\nsave\nend\n"
    subprocess.run(["ar", "-MD"], input=script, text=True, check=True)
    return made


def shared_library(archive, folder, compiler="cc"):
    """Links the shared library of a complete archive, and gives its path."""
    made = Path(folder) / "libcmph_c.so.1"
    whole = ["-Wl,--whole-archive", str(archive), "-Wl,--no-whole-archive"]
    strict = ["-Wl,-z,defs", "-Wl,-z,text", "-Wl,-soname,libcmph_c.so.1", f"-Wl,--version-script={EXPORTS}"]
    subprocess.run([compiler, "-shared", "-o", str(made), *whole, *strict], check=True)
    return made


def main():
    *archive, folder = sys.argv[1:]
    Path(folder).mkdir(parents=True, exist_ok=True)
    shared_library(static_library(Path(archive[0] if archive else ARCHIVE).resolve(), Path(folder).resolve()), folder)


if __name__ == "__main__":
    main()
