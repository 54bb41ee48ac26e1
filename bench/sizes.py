#!/usr/bin/env python3
"""Measures builds and queries by all algorithms against the number of keys, beside the C tool of the CMPH library.

    bench/sizes.py [--merge] [--rounds N] [--limit SECONDS] [--folder FOLDER] [--program PROGRAM] [KEYS ..]

KEYS are numbers of generated keys of 14 bytes, 1000 to 67108864 if none is given. PROGRAM is bin/cmph if none is given. Keys,
function files and spill files go to a new directory in FOLDER, which is that of temporary files if none is given: the most keys need five
gigabytes.

For each number and each algorithm both tools build and query in interleaved runs; the least processor time and the greatest memory
count. There are N runs (50), but no more than 20,000,000 keys need, and one at least. Each tool takes a seed whose first graph
or split works. A build by the C tool that takes more than SECONDS of processor time (600), or more memory than the machine has, is
shown as `-`, and so is one that the first 30 seeds don't serve.

It prints a table. With --merge the rows of other numbers of keys that bench/results/sizes.md has are kept, with what it says of them, so that
the largest numbers can be measured alone:

    bench/tables.py --record sizes python3 bench/sizes.py 1000 10000 100000 1000000
    bench/tables.py --record sizes python3 bench/sizes.py --merge 10000000
"""

import argparse
import os
import re
import sys
import tempfile
from pathlib import Path
from typing import NamedTuple

import compare
from compare import Used

RESULTS = compare.TOP / "bench" / "results" / "sizes.md"
SIZES = [1_000, 10_000, 100_000, 1_000_000, 10_000_000, 67_108_864]
MEGABYTE = 1 << 20
ROUNDS_FOR = 20_000_000  # keys of all runs of a tool, by which large numbers have fewer runs
MOST_SEEDS = 30  # that the C tool tries
HEADS = ["keys", "algorithm", "runs", "build, s", "C tool", "peak, MB", "C tool", "query, s", "C tool", "peak, MB", "C tool"]
KEPT = re.compile(r"^Kept: ([\d,; ]+) keys\. (.*)$", re.MULTILINE)


class Asked(NamedTuple):
    """What is measured with."""

    program: str
    tool: str | None  # the C tool
    seconds: int  # of processor time that a build by the C tool may take
    rounds: int


# The builds


def limited(build: list, seconds: int) -> list:
    """A build that is ended after so much processor time, or if it wants more memory than the machine has."""
    memory = os.sysconf("SC_PAGE_SIZE") * os.sysconf("SC_PHYS_PAGES") // 1024
    return ["sh", "-c", f'ulimit -t {seconds}; ulimit -v {memory}; exec "$@"', "sh", *build]


def our_build(asked: Asked, algorithm: str, keys: Path) -> list:
    """A build by the first seed that works, which an unmeasured build finds."""
    words = [asked.program, *compare.our_build(algorithm, keys)[1:]]
    compare.must(words)
    return [*words[:2], "-s", compare.our_seed(keys), *words[2:]]


def c_build(asked: Asked, algorithm: str, function: Path, keys: Path) -> list | None:
    """A build by a seed whose first graph or split works, or nothing if the build is past a limit."""
    for seed in range(1, MOST_SEEDS + 1) if asked.tool else []:
        build = compare.c_build(asked.tool, algorithm, seed, function, keys)
        serves = compare.c_serves(limited([build[0], "-v", *build[1:]], asked.seconds))
        if serves is not False:
            return build if serves else None
    return None


# The rows


def seconds(used: Used | None) -> str:
    return "-" if used is None else f"{used.seconds:.3g}" if used.seconds < 1000 else f"{used.seconds:.0f}"


def megabytes(used: Used | None) -> str:
    return "-" if used is None else f"{used.memory / MEGABYTE:,.1f}"


def row(asked: Asked, algorithm: str, count: int, scratch: Path) -> str:
    keys, function = scratch / "keys", scratch / "c.mph"
    rounds = max(1, min(asked.rounds, ROUNDS_FOR // count))
    builds, queries = {"ours": our_build(asked, algorithm, keys)}, {"ours": [asked.program, keys]}
    theirs = c_build(asked, algorithm, function, keys)
    if theirs:
        builds["c"], queries["c"] = theirs, [asked.tool, "-v", "-m", function, keys]
    built, queried = compare.interleaved(builds, rounds), compare.interleaved(queries, rounds)
    for path in (function, Path(f"{keys}.mph")):
        path.unlink(missing_ok=True)
    cells = [f"{count:,}", algorithm, str(rounds)]
    for used in (built, queried):
        cells += [shown(used.get(tool)) for shown in (seconds, megabytes) for tool in ("ours", "c")]
    line = f"| {' | '.join(cells)} |"
    compare.note(line)
    return line


def measured(asked: Asked, count: int, folder: str | None) -> list[str]:
    with tempfile.TemporaryDirectory(dir=folder) as scratch:
        compare.make_keys(Path(scratch) / "keys", count, 0)
        return [row(asked, algorithm, count, Path(scratch)) for algorithm in compare.ALGORITHMS]


# Rows that are kept


def size_of(line: str) -> int:
    """How many keys a row is of, or 0 if it is none."""
    found = re.match(r"\| ([\d,]+) \|", line)
    return int(found[1].replace(",", "")) if found else 0


def kept(sizes: list[int]) -> tuple[list[str], list[str]]:
    """The rows of the results that are of other numbers of keys, and what is said of them."""
    said = RESULTS.read_text() if RESULTS.exists() else ""
    rows = [line for line in said.split("\n") if size_of(line) and size_of(line) not in sizes]
    facts = {int(number.replace(",", "")): text for numbers, text in KEPT.findall(said) for number in numbers.split("; ")}
    latest, groups = said.split("\n\n")[0], {}
    for size in dict.fromkeys(map(size_of, rows)):
        groups.setdefault(facts.get(size, latest), []).append(f"{size:,}")
    return rows, [f"Kept: {'; '.join(group)} keys. {text}" for text, group in groups.items()]


def main() -> None:
    parser = argparse.ArgumentParser(description=__doc__, formatter_class=argparse.RawDescriptionHelpFormatter)
    parser.add_argument("--merge", action="store_true", help="keep the other rows of the results")
    parser.add_argument("--rounds", type=int, default=50, help="how often each runs at most (50)")
    parser.add_argument("--limit", type=int, default=600, help="seconds of processor time of a build by the C tool (600)")
    parser.add_argument("--folder")
    parser.add_argument("--program", default=str(compare.OURS))
    parser.add_argument("keys", metavar="KEYS", nargs="*", type=int, default=SIZES)
    given = parser.parse_args()
    if not Path(given.program).exists():
        sys.exit("run make first")
    compare.adopt()
    asked = Asked(str(Path(given.program).resolve()), compare.c_tool(), given.limit, given.rounds)
    rows, facts = kept(given.keys) if given.merge else ([], [])
    for count in given.keys:
        rows += measured(asked, count, given.folder)
    said = "The least processor time and the greatest memory of interleaved runs. A megabyte has 1,048,576 bytes."
    table = [f"| {' | '.join(HEADS)} |", "|---" * len(HEADS) + "|", *sorted(rows, key=size_of)]
    print("\n\n".join(["\n".join(table), said, *facts]))


if __name__ == "__main__":
    main()
