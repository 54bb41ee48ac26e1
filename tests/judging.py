#!/usr/bin/env python3
"""Compares what the judge of reports says with what tests/judge.py says: of the worked reports, of those of refused builds by each algorithm, and of all
of these with a line left out, or a byte changed, removed or doubled. Only the lines of the build itself are true, under a seed by which they are the keys'.

    tests/judging.py [CMPH [JUDGE]]        the programs below crates/ if they are left out

The last line is 'N passed, M failed', where each set of keys is one case.
"""
import functools
import subprocess
import sys
import tempfile
from pathlib import Path

import judge
from judge import said

judge.hashes = functools.cache(judge.hashes)  # of the same keys, for thousands of reports

CMPH, JUDGE = (Path(path).resolve() for path in (sys.argv[1:] + ["crates/cmph/out/cmph", "crates/cmph_judge/out/cmph_judge"][len(sys.argv) - 1:])[:2])
EMPTIES = [b"", b"a", b"", b""]
NAMES = [b"key number %d" % number for number in range(40)]
TWO = b"core chm seed 0 edges 2\nedge 1 4 1\nedge 2 4 1\nequal 1 2\n"

# Reports with their keys, and what is said of them.
WORKED = [
    (TWO, [b"", b""], 0, b"true\n", b""),
    (TWO[:-len(b"equal 1 2\n")], [b"", b""], 1, b"false: pair of line 2\n", b""),
    (b"core chm seed 0 edges 1\nedge 2 4 1\n", [b"", b""], 1, b"false: vertex 1 is touched once\n", b""),
    (b"core chm seed 0 edges 2\nedge 1 1 7\nedge 3 1 7\nequal 1 3\n", EMPTIES, 1, b"false: line 4 is missing\n", b""),
    (b"", [b"", b""], 3, b"", b"cmph_judge: report: bad report at line 1\n"),
]

# Keys and options of builds that are refused.
REFUSED = [
    ([b"", b""], ["-a", "chm", "-s", "0"]), (EMPTIES, ["-a", "chm", "-s", "0"]), (EMPTIES, ["-a", "bdz", "-s", "7"]), (EMPTIES, ["-a", "bdz_ph"]),
    (EMPTIES, ["-a", "brz"]), (NAMES, ["-a", "chm", "-c", "1", "-r", "1"]), (NAMES[:12], ["-a", "bdz", "-c", "1", "-r", "1"]),
    (NAMES * 5, ["-a", "brz", "-b", "64", "-r", "1"]), ([b"x"] * 1024 + NAMES, ["-a", "brz", "-b", "64", "-r", "1"]),
    ([b"x", b"y", b"z", b"w"] * 1024, ["-a", "brz", "-r", "1"]), ([b"x"] * 1023 + NAMES, ["-a", "brz", "-b", "700", "-r", "1"]),
]


def judged(room, report, options=()):
    (room / "report").write_bytes(report)
    return subprocess.run([JUDGE, *options, "report", "keys"], cwd=room, stdin=subprocess.DEVNULL, capture_output=True, timeout=60)


def differing(report):
    """The report without a line, with the number of edges that are left, and with a byte changed, removed or doubled: of a long one at some places, and
    at its ends."""
    head, *lines = report.splitlines(keepends=True)
    for at in range(0, len(lines), 1 + len(lines) // 60):
        words = head.split()
        words[-1] = b"%d" % (int(words[-1]) - lines[at].startswith(b"edge"))
        yield b" ".join(words) + b"\n" + b"".join(lines[:at] + lines[at + 1:])
    places = range(len(report)) if len(report) < 700 else sorted({*range(90), *range(0, len(report), 1 + len(report) // 60), *range(len(report) - 40, len(report))})
    for at in places:
        for byte in (report[at] ^ 1, ord("0"), ord("9"), ord(" "), ord("\n")):
            yield report[:at] + bytes([byte]) + report[at + 1:]
        yield report[:at] + report[at + 1:]
        yield report[:at + 1] + report[at:]


def expected(report, keys, c, b):
    status, what = said(report, keys, c, b)
    return (3, b"", b"cmph_judge: report: bad report at line %d\n" % what) if status == 3 else (status, what.encode() + b"\n", b"")


def lines_of(report):
    """The lines of edges and pairs."""
    return report.partition(b"\n")[2]


def refused(room, keys, words):
    """What goes wrong with the reports of a refused build."""
    (room / "keys").write_bytes(b"".join(key + b"\n" for key in keys))
    built = subprocess.run([CMPH, "-g", *words, "keys"], cwd=room, stdin=subprocess.DEVNULL, capture_output=True, timeout=60)
    values = dict(zip(words[::2], words[1::2]))
    options = [word for letter in ("-b", "-c") if letter in values for word in (letter, values[letter])]
    c, b = int(float(values["-c"]) * 10**6) if "-c" in values else None, int(values.get("-b", 128))
    if built.returncode != 1 or judged(room, built.stdout, options).stdout != b"true\n":
        yield f"the report itself, status {built.returncode}"
    for report in differing(built.stdout):
        run = judged(room, report, options)
        found = (run.returncode, run.stdout, run.stderr)
        if found != expected(report, keys, c, b) or (run.returncode == 0 and lines_of(report) != lines_of(built.stdout)):
            yield f"{report!r}: {found}, not {expected(report, keys, c, b)}"


def main():
    failures, cases = [], len(WORKED) + len(REFUSED)
    with tempfile.TemporaryDirectory() as scratch:
        room = Path(scratch)
        for report, keys, *wanted in WORKED:
            (room / "keys").write_bytes(b"".join(key + b"\n" for key in keys))
            run = judged(room, report)
            if [run.returncode, run.stdout, run.stderr] != wanted or expected(report, keys, None, 128) != tuple(wanted):
                failures.append(f"{report!r}: {run.returncode} {run.stdout!r} {run.stderr!r}")
        for keys, words in REFUSED:
            failures += list(refused(room, keys, words))[:1]
    for failure in failures:
        print("failed:", failure)
    print(f"{cases - len(failures)} passed, {len(failures)} failed")
    sys.exit(bool(failures))


if __name__ == "__main__":
    main()
