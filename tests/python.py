#!/usr/bin/env python3
"""Calls the C library from Python, by the package below library/python: numbers of a million keys by functions that cmph builds by all four algorithms, other
keys, shards, and the unit tests of the package. The structs and codes of the package are those of the header, the sessions of its documents are true, and pip
installs it.

    tests/python.py [CMPH [LIB]]        the program below crates/ if it is left out

LIB is the folder of libcmph_c.so.1. If it is left out, it is made of the archive below crates/, which takes the kit. The last line is 'N passed, M failed', with what was
skipped after it. The unit tests run by this interpreter and by /usr/bin/python3, of which one may have numpy.
"""
import ctypes
import os
import random
import re
import shutil
import sys
import tempfile
from array import array
from itertools import accumulate
from pathlib import Path

import judge
import places
from counting import case, close, run, skipped

TOP = Path(__file__).resolve().parent.parent
CMPH = Path(sys.argv[1] if len(sys.argv) > 1 else TOP / "crates" / "cmph" / "out" / "cmph").resolve()
LIB = places.library(sys.argv[2:])
LIBRARY = TOP / "library"
PACKAGE = LIBRARY / "python"
ALGORITHMS = ["chm", "bdz", "bdz_ph", "brz"]
MANY = 1_000_000
# A program that prints where the fields of the header's structs are.
LAYOUT = """#include <stdio.h>
#include "cmph_c.h"
int main(void) {{ {} return 0; }}
"""

def interpreters():
    found = {os.path.realpath(path): path for path in ("/usr/bin/python3", sys.executable) if os.access(path, os.X_OK)}
    return list(found.values())[::-1]


def has(python, module):
    return run(python, "-c", f"import {module}").returncode == 0


def codes(c):
    """The codes and the calls of the header."""
    header = (LIBRARY / "cmph_c.h").read_text()
    wanted = {name: int(number) for name, number in re.findall(r"#define CMPH_C_(\w+) (\d+)", header)}
    found = {name: number for name, number in vars(c).items() if name.isupper() and isinstance(number, int) and not re.match("NONE|MOST", name)}
    found.update({name.upper(): number for number, name in c.ALGORITHMS.items()})
    case("the codes", set(wanted.items()) ^ set(found.items()))
    called = {f"cmph_{name}" for name in vars(c) if name.startswith("c_") and hasattr(getattr(c, name), "argtypes")}
    case("the calls", set(re.findall(r"\b(cmph_c_\w+)\(", header)) ^ called)


def layout(room, c):
    """The structs of the header, as a compiler lays them out."""
    if shutil.which("cc") is None:
        skipped("the layout of structs", "cc is not there")
        return
    structs = {"cmph_c_place": c.CPlace, "cmph_c_function": c.CFunction, "cmph_c_plan": c.CPlan}
    wanted, lines = [], []
    for name, struct in structs.items():
        lines.append(f'printf("%zu\\n", sizeof({name}));')
        wanted.append(str(ctypes.sizeof(struct)))
        for field, _ in struct._fields_:
            lines.append(f'printf("%zu %zu\\n", offsetof({name}, {field}), sizeof((({name} *)0)->{field}));')
            wanted.append(f"{getattr(struct, field).offset} {getattr(struct, field).size}")
    (room / "layout.c").write_text(LAYOUT.format(" ".join(lines)))
    left = run("cc", f"-I{LIBRARY}", room / "layout.c", "-o", room / "layout")
    case("the layout is compiled", left.stderr)
    case("the layout of the structs", run(room / "layout").stdout.split("\n")[:-1] != wanted)


def answers(room, function, keys):
    """The numbers that cmph writes for the lines of a file of keys. It writes no line for a key that has none."""
    left = run(CMPH, "-m", function, keys, cwd=room)
    return [int(line.rpartition(" -> ")[2]) for line in left.stdout.split("\n")[:-1]]


def numbers(room, cmph, algorithm, keys):
    """The numbers of many keys, by each call, beside those that cmph writes."""
    left = run(CMPH, "-g", "-a", algorithm, "-m", f"many_{algorithm}", "many", cwd=room)
    case(f"{algorithm}: cmph builds", left.stderr)
    f = cmph.Function(room / f"many_{algorithm}")
    case(f"{algorithm}: keys, span and name", (len(f), f.algorithm) != (MANY, algorithm) or (f.span == MANY) == (algorithm == "bdz_ph"))
    found = f.many(keys).tolist()
    case(f"{algorithm}: the numbers of a list", found != answers(room, f"many_{algorithm}", "many") and "other numbers than cmph's")
    case(f"{algorithm}: distinct numbers", len(set(found)) != MANY or max(found) >= f.span)
    joined, ends = b"".join(keys), array("Q", accumulate(map(len, keys)))
    case(f"{algorithm}: the numbers of arrays", f.arrays(joined, ends).tolist() != found)
    case(f"{algorithm}: the number of a key", [f[key] for key in keys] != found)
    # some lines that are no keys of it
    others = [line.encode() for line in (room / "words").read_text().split("\n")[:-1]]
    found = [number for number in f.many(others).tolist() if number != cmph.NONE]
    case(f"{algorithm}: other keys", found != answers(room, f"many_{algorithm}", "words") and "other numbers than cmph's")


def builds(room, cmph, algorithm, keys):
    """Files that are built in memory, beside those that cmph writes."""
    case(f"{algorithm}: a build in memory", cmph.build(keys, algorithm) != (room / f"many_{algorithm}").read_bytes())
    b = 70 if algorithm == "brz" else 4
    run(CMPH, "-g", "-a", algorithm, "-s", 5, "-r", 50, "-c", 3, "-b", b, "-m", "wanted", "words", cwd=room)
    words = (room / "words").read_bytes().split(b"\n")[:-1]
    case(f"{algorithm}: a build by other numbers", cmph.build(words, algorithm, 3, b, 5, 50) != (room / "wanted").read_bytes())


def shards(room, cmph):
    words = (room / "words").read_bytes().split(b"\n")[:-1]
    case("shards", cmph.route(words, 3, 7).tolist() != [judge.hashes(word, 3)[2] % 7 for word in words])


def unit_tests(python, room, around):
    left = run(python, "-m", "unittest", "discover", "-v", "-s", PACKAGE / "tests", cwd=room, env=around)
    for line in left.stderr.splitlines():
        if " ... skipped " in line:
            print(f"{python}: {line}")
    case(f"{python}: unit tests", left.returncode and left.stderr)
    for page in (PACKAGE / "README.md", TOP / "docs" / "use" / "python.md", TOP / "README.md"):
        left = run(python, "-m", "doctest", page, cwd=room, env=around)
        case(f"{python}: the sessions of {page.name}", left.returncode and left.stdout + left.stderr)


def install(room, library):
    """pip installs a copy of the package, with the library beside its modules."""
    python = next((python for python in interpreters() if all(has(python, module) for module in ("pip", "setuptools", "wheel"))), None)
    if python is None:
        skipped("the installation by pip", "pip or setuptools or wheel is not there")
        return
    around = {name: value for name, value in os.environ.items() if name not in ("CMPH_C_LIBRARY", "PYTHONPATH")}
    copy, site = room / "copy", room / "site"
    shutil.copytree(PACKAGE, copy, ignore=shutil.ignore_patterns("__pycache__"))
    shutil.copy(library, copy / "cmph" / "libcmph_c.so.1")
    words = ("--no-deps", "--no-build-isolation", "--no-index", "--disable-pip-version-check")
    left = run(python, "-m", "pip", "install", *words, "--target", site, copy, cwd=room, env=around)
    case("pip installs it", left.returncode and left.stdout + left.stderr)
    code = "import cmph; print(cmph.__file__, cmph.Function(cmph.build([b'a', b'b'], 'chm'))[b'b'])"
    left = run(python, "-c", code, cwd=room, env={**around, "PYTHONPATH": str(site)})
    case("the installed package", left.stdout != f"{site / 'cmph' / '__init__.py'} 1\n" and left)
    case("its type hints", not (site / "cmph" / "py.typed").exists())


def try_all(room):
    """All cases, in a folder of their own."""
    library = LIB / "libcmph_c.so.1"
    os.environ.update(CMPH_C_LIBRARY=str(library), PYTHONDONTWRITEBYTECODE="1", PYTHONPATH=str(PACKAGE), CMPH=str(CMPH))
    sys.dont_write_bytecode = True
    sys.path.insert(0, str(PACKAGE))
    import cmph

    codes(cmph._library)
    layout(room, cmph._library)
    shutil.copy(TOP / "examples" / "words", room / "words")
    random.seed(1)
    keys = [b"%x%s" % (random.getrandbits(64), b"-" * (i % 7)) for i in range(MANY)]
    (room / "many").write_bytes(b"\n".join(keys) + b"\n")
    for algorithm in ALGORITHMS:
        numbers(room, cmph, algorithm, keys)
        builds(room, cmph, algorithm, keys)
    shards(room, cmph)
    for python in interpreters():
        unit_tests(python, room, os.environ)
    if not any(has(python, "numpy") for python in interpreters()):
        skipped("numpy", "no interpreter has it")
    install(room, library)


def main():
    with tempfile.TemporaryDirectory() as scratch:
        try_all(Path(scratch).resolve())
    return close()


if __name__ == "__main__":
    sys.exit(main())
