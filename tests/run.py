#!/usr/bin/env python3
"""Runs the tests of this repository, over programs and a C library that are built: as many side by side as there are processors.

    tests/run.py [--bin FOLDER | --prefix PREFIX | --release | --gate] [NAME ..]

Without NAME it runs all. The programs are those of bin/ with the library of lib/, if all of them are there; else those of the release, which is unpacked. --bin
names another folder of programs, with the library in lib/ beside it; --prefix the one below which all was installed. --gate takes what the gate built below
crates/, and runs what needs the kit or the proofs, too.

Of each test it prints what passed, failed and was skipped and the seconds that it took, and all that it printed if it failed. The last line is 'N passed, M failed', with the
names of what was skipped after it.
"""
import argparse
import os
import re
import signal
import subprocess
import sys
import tempfile
import time
from concurrent.futures import ThreadPoolExecutor, as_completed
from pathlib import Path
from typing import NamedTuple

TOP = Path(__file__).resolve().parent.parent
sys.path.insert(0, str(TOP / "tools"))

import sources  # noqa: E402

PROGRAMS = sources.programs()
LIB = "lib"  # stands for the folder of the C library
LAST = re.compile(r"(\d+) passed, (\d+) failed(?: \(\d+ skipped: (.*)\))?")


class Test(NamedTuple):
    script: str  # below the top
    words: list = []  # programs, each by its name; LIB; or other words
    gate: bool = False  # it needs the kit, or what the gate proved
    alone: bool = False  # it measures time or fills disks, so nothing runs beside it

    @property
    def name(self):
        return Path(self.script).stem


# All tests, those that take longest first.
TESTS = [
    Test("tests/sharding.py", ["cmph", "cmph_shards"]),
    Test("tests/library.py", ["cmph", LIB]),
    Test("tests/edge.py", PROGRAMS),
    Test("tests/judging.py", ["cmph", "cmph_judge"]),
    Test("tests/dist.py", gate=True),
    Test("tests/rust.py", ["cmph", LIB]),
    Test("tests/python.py", ["cmph", LIB]),
    Test("tests/storing.py", ["cmph", "cmph_store"]),
    Test("tests/filtering.py", ["cmph", "cmph_filter"]),
    Test("bench/drawings.py", ["--check", "cmph", "cmph_store", "cmph_shards"], gate=True),
    Test("tests/examples.py", PROGRAMS),
    Test("tests/completions.py", PROGRAMS),
    Test("tests/versions.py", ["cmph", LIB]),
    Test("tests/release.py", gate=True),
    Test("tests/manual.py", gate=True),
    Test("tests/links.py", gate=True),
    Test("tests/sentences.py", gate=True),
    Test("bench/tables.py", ["--check"], gate=True),
    Test("tests/installing.py", alone=True),
]


class Found(NamedTuple):
    """What a run of a test found."""
    passed: int
    failed: int
    skipped: list
    seconds: float
    said: str


def installed(prefix):
    """The programs and the library below a prefix."""
    return {name: prefix / "bin" / name for name in PROGRAMS}, prefix / "lib"


def built(room):
    """What the gate built below crates/, with the library as callers link it."""
    if subprocess.run([sys.executable, TOP / "tools" / "link.py", room / "lib"]).returncode != 0:
        sys.exit("the C library is not linked: tools/gated.py makes its archive, after `rt ci`")
    return {name: TOP / "crates" / name / "out" / name for name in PROGRAMS}, room / "lib"


def released(room):
    """What the release has."""
    left = subprocess.run(["sh", TOP / "release" / "install.sh", room], capture_output=True, text=True)
    if left.returncode != 0:
        sys.exit(f"there are no programs to test: `make` and `make library` build them, and the release can't be taken: {left.stderr.strip()}")
    return installed(room)


def missing(programs, lib):
    """The programs and the libraries that are not there."""
    return [path for path in (*programs.values(), lib / "libcmph_c.a", lib / "libcmph_c.so.1") if not path.exists()]


def taken(asked, room):
    """The programs by their names, and the folder of the library."""
    if asked.gate:
        return built(room)
    if asked.release:
        return released(room)
    programs, lib = installed((asked.prefix or asked.bin and asked.bin.parent or TOP).resolve())
    if asked.bin:
        programs = {name: asked.bin.resolve() / name for name in PROGRAMS}
    lacking = missing(programs, lib)
    if lacking and not (asked.bin or asked.prefix):
        print(f"there is no {lacking[0].relative_to(TOP)}: the release is tested")
        return released(room)
    if lacking and lacking[0] in programs.values():
        sys.exit(f"there is no {lacking[0]}")
    return programs, lib


def command(test, programs, lib):
    """The command of a test, or none if it needs a library and there is none."""
    if LIB in test.words and not (lib / "libcmph_c.so.1").exists():
        return None
    places = {**programs, LIB: lib}
    return [sys.executable, TOP / test.script, *(str(places.get(word, word)) for word in test.words)]


def ran(test, words, running):
    """Runs a test, and reads its last line. One that has no such line is one case."""
    if words is None:
        return Found(0, 0, ["all of it"], 0, "skipped: all of it: there is no library")
    start = time.monotonic()
    process = subprocess.Popen(words, cwd=TOP, stdin=subprocess.DEVNULL, stdout=subprocess.PIPE, stderr=subprocess.STDOUT, text=True, errors="replace", start_new_session=True)
    running[test.name] = process
    said, _ = process.communicate()
    del running[test.name]
    status, seconds = process.returncode, time.monotonic() - start
    counted = LAST.fullmatch(said.rstrip("\n").rpartition("\n")[2])
    passed, failed, skipped = counted.groups() if counted else (int(status == 0), int(status != 0), "")
    return Found(int(passed), max(int(failed), int(status != 0)), skipped.split(", ") if skipped else [], seconds, said)


def show(test, found):
    counts = f"{found.passed} passed, {found.failed} failed" + (f", {len(found.skipped)} skipped" if found.skipped else "")
    print(f"{test.name:<12} {counts:<36} {found.seconds:5.0f} s", flush=True)
    if found.failed:
        print(found.said, flush=True)
    elif found.skipped:
        print(*(f"    {line}" for line in found.said.splitlines() if line.startswith("skipped: ")), sep="\n", flush=True)


def run_all(tests, commands):
    """Runs tests side by side, and then those that are alone, and yields what each found as it ends."""
    running = {}
    for group, room in (([test for test in tests if not test.alone], len(os.sched_getaffinity(0))), ([test for test in tests if test.alone], 1)):
        with ThreadPoolExecutor(room) as pool:
            waiting = {pool.submit(ran, test, commands[test.name], running): test for test in group}
            try:
                for ended in as_completed(waiting):
                    yield waiting[ended], ended.result()
            except BaseException:
                pool.shutdown(wait=False, cancel_futures=True)
                for process in list(running.values()):
                    os.killpg(process.pid, signal.SIGTERM)
                raise


def chosen(asked):
    """The tests that are asked for."""
    unknown = set(asked.names) - {test.name for test in TESTS}
    if unknown:
        sys.exit(f"there is no test {', '.join(sorted(unknown))}; there are: {' '.join(test.name for test in TESTS)}")
    return [test for test in TESTS if test.name in asked.names or not asked.names and (asked.gate or not test.gate)]


def parsed():
    parser = argparse.ArgumentParser(description=__doc__, formatter_class=argparse.RawDescriptionHelpFormatter)
    where = parser.add_mutually_exclusive_group()
    where.add_argument("--bin", type=Path, metavar="FOLDER")
    where.add_argument("--prefix", type=Path)
    where.add_argument("--release", action="store_true")
    where.add_argument("--gate", action="store_true")
    parser.add_argument("names", nargs="*", metavar="NAME")
    return parser.parse_args()


def main():
    asked, passed, failed, skipped = parsed(), 0, 0, []
    tests = chosen(asked)
    signal.signal(signal.SIGTERM, signal.default_int_handler)
    with tempfile.TemporaryDirectory(prefix="cmph-test-") as scratch:
        os.chmod(scratch, 0o755)
        programs, lib = taken(asked, Path(scratch)) if any(test.words for test in tests) else ({}, None)
        if programs:
            print(f"{len(tests)} tests, of {programs['cmph'].parent} and {lib}", flush=True)
        for test, found in run_all(tests, {test.name: command(test, programs, lib) for test in tests}):
            show(test, found)
            passed, failed = passed + found.passed, failed + found.failed
            skipped += [f"{test.name}: {name}" for name in found.skipped]
    print(f"{passed} passed, {failed} failed" + (f" ({len(skipped)} skipped: {', '.join(skipped)})" if skipped else ""))
    return 1 if failed or not passed else 0


if __name__ == "__main__":
    try:
        sys.exit(main())
    except KeyboardInterrupt:
        sys.exit("stopped")
