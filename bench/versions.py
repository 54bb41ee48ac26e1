#!/usr/bin/env python3
"""Measures this program beside an earlier version of it, and a query of one key beside the C tool.

    bench/versions.py [--rounds N] [--queries N] BEFORE [KEYS ..]

BEFORE is the program of the earlier version: `git worktree add FOLDER COMMIT`, then `make` there. For each number of KEYS
(100000 1000000 10000000) it generates that many keys of 14 bytes that seed 1 serves, and each version builds by CHM, BDZ and
BDZ_PH over them in N interleaved runs (3): that is with the greatest number, and with fewer keys there are up to six times as many
runs, since a short one is disturbed more. The function files of both versions have to be the same, once the
present program has upgraded that of the earlier one (`-u`). Then each queries a file of one
key with the function by CHM in N interleaved runs (100), as does the C tool with its own, if it is installed: the start of the
program and the load of the function are nearly all of that. The least processor time counts, and the greatest memory. A ratio of
times is the median of the ratios of runs that follow each other, so no program gains by a faster moment of the machine.

It needs bin/cmph (`make`).
"""

import argparse
import filecmp
import shutil
import statistics
import sys
import tempfile
from pathlib import Path

import compare

ALGORITHMS = ["bdz_ph", "bdz", "chm"]  # CHM last: the functions that it leaves are queried
COUNTS = [100_000, 1_000_000, 10_000_000]
MORE = 6  # times as many runs with fewer keys
MEGABYTE = 1 << 20


def built_by(program: str, algorithm: str, function: Path, keys: Path) -> list:
    return [program, "-g", "-a", algorithm, "-m", function, keys]


def in_turns(commands: dict[str, list], rounds: int) -> dict[str, list[compare.Used]]:
    """What each used in each of its runs."""
    runs = [compare.interleaved(commands, 1) for _ in range(rounds)]
    return {name: [run[name] for run in runs] for name in commands}


def least(runs: list[compare.Used]) -> float:
    return min(used.seconds for used in runs)


def peak(runs: list[compare.Used]) -> int:
    return max(used.memory for used in runs)


def ratio(runs: list[compare.Used], others: list[compare.Used]) -> str:
    return f"{statistics.median(used.seconds / other.seconds for used, other in zip(runs, others)):.2f}"


def upgraded(function: Path) -> Path:
    """A copy of a function file, in the version that the present program writes."""
    copy = function.with_suffix(".upgraded")
    shutil.copyfile(function, copy)
    compare.must([compare.OURS, "-u", "-m", copy])
    return copy


def builds(before: str, algorithm: str, rounds: int, scratch: Path, count: int) -> str:
    """The row of an algorithm. The keys that seed 1 serves are in the file `keys` then."""
    keys = scratch / "keys"
    compare.fitting_keys(str(count), algorithm, keys)
    functions = {"before": scratch / "before.mph", "now": scratch / "now.mph"}
    programs = {"before": before, "now": compare.OURS}
    commands = {name: built_by(programs[name], algorithm, function, keys) for name, function in functions.items()}
    compare.note(f"builds of {count} keys by {algorithm}")
    found = in_turns(commands, rounds)
    if not filecmp.cmp(upgraded(functions["before"]), functions["now"], shallow=False):
        sys.exit(f"{count} keys by {algorithm}: the function files differ")
    old, new = found["before"], found["now"]
    cells = [f"{least(old):.3f}", f"{least(new):.3f}", ratio(new, old), f"{1e9 * least(new) / count:.0f}"]
    memory = [f"{peak(runs) / count:.1f}" for runs in (old, new)]
    return " | ".join([f"| {count:,}", algorithm, *cells, *memory]) + " |"


def one_key(before: str, tool: str | None, rounds: int, scratch: Path, count: int) -> list[str]:
    """The rows of a query of one key, with the functions by CHM that the builds left."""
    keys, one, function = scratch / "keys", scratch / "one", scratch / "c.mph"
    with open(keys, "rb") as file:
        one.write_bytes(file.readline())
    commands = {
        "before": [before, "-m", scratch / "before.mph", one],
        "now": [compare.OURS, "-m", scratch / "now.mph", one],
    }
    if tool:
        compare.c_seed(tool, "chm", function, keys)  # leaves the function of the seed that serves
        commands["C tool"] = [tool, "-m", function, one]
    compare.note(f"queries of one of {count} keys")
    found = in_turns(commands, rounds)
    last = found["C tool"] if tool else None
    rows = []
    for name, runs in found.items():
        ratios = [ratio(runs, last), f"{peak(runs) / peak(last):.2f}"] if last else ["-", "-"]
        rows.append(f"| {count:,} | {name} | {1e3 * least(runs):.2f} | {ratios[0]} | {peak(runs) / MEGABYTE:.1f} | {ratios[1]} |")
    return rows


def main() -> None:
    parser = argparse.ArgumentParser(description=__doc__, formatter_class=argparse.RawDescriptionHelpFormatter)
    parser.add_argument("--rounds", type=int, default=3, help="how often each version builds with the most keys (3)")
    parser.add_argument("--queries", type=int, default=100, help="how often each queries one key (100)")
    parser.add_argument("before", metavar="BEFORE", help="the program of the earlier version")
    parser.add_argument("counts", metavar="KEYS", nargs="*", type=int, default=COUNTS)
    asked = parser.parse_args()
    if not compare.OURS.exists():
        sys.exit("run make first")
    compare.adopt()
    before, tool = str(Path(asked.before).resolve()), compare.c_tool()
    built, queried = [], []
    for count in asked.counts:
        with tempfile.TemporaryDirectory() as folder:
            rounds = asked.rounds * min(MORE, max(asked.counts) // count)
            rows = [builds(before, algorithm, rounds, Path(folder), count) for algorithm in ALGORITHMS]
            built += reversed(rows)
            queried += one_key(before, tool, asked.queries, Path(folder), count)
    print("| keys | algorithm | build before, s | now, s | ratio | now, ns a key | peak before, bytes a key | now |\n" + "|---" * 8 + "|")
    print("\n".join(built))
    print("\nA query of one key with a function by CHM:\n")
    print("| keys | program | processor time, ms | to the C tool | peak, MB | to the C tool |\n" + "|---" * 6 + "|")
    print("\n".join(queried))


if __name__ == "__main__":
    main()
