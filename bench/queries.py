#!/usr/bin/env python3
"""Measures queries of many keys beside the C tool, plain Rust and an earlier version of the program.

    bench/queries.py [--before PROGRAM] [--rounds N] [KEYS]

KEYS is 10,000,000 if it isn't given: so many keys of 14 bytes are generated. A function by each algorithm is built once, by this program
and by the C tool, and all tools then query all keys in N interleaved runs (15). A time is the median of the runs, in processor time, and
a ratio the median of the ratios of runs of one round. What is not installed is left out: the C tool (Debian's libcmph-tools), and rustc.
It needs bin/cmph (`make`).
"""
import argparse
import statistics
import sys
import tempfile
from pathlib import Path

import compare

OTHERS = {"plain": "plain Rust", "c": "C tool", "before": "version before"}


def queries(algorithm: str, keys: Path, tool: str | None, before: str | None) -> dict[tuple[str, str], list]:
    """Builds by an algorithm, and gives the command of each tool's query. Plain Rust reads the same function file."""
    compare.note(f"building by {algorithm}")
    own = keys.with_name(algorithm)
    own.symlink_to(keys)
    compare.must([compare.OURS, "-g", "-a", algorithm, "-d", keys.parent, own])
    commands = {"ours": [compare.OURS, own]}
    if plain := compare.plain_rust(algorithm):
        commands["plain"] = [plain, own]
    if tool:
        function = keys.with_name(f"{algorithm}.c")
        compare.must([tool, "-g", "-a", algorithm, *compare.buffer_of(algorithm, keys), "-m", function, keys])
        commands["c"] = [tool, "-v", "-m", function, keys]
    if before:
        commands["before"] = [before, own]
    return {(algorithm, name): command for name, command in commands.items()}


def ratio(times: dict, one: tuple[str, str], other: tuple[str, str]) -> str:
    """How many times as long one takes as another."""
    if other not in times:
        return "-"
    return f"{statistics.median(a / b for a, b in zip(times[one], times[other])):.2f}"


def rows(times: dict, count: int) -> list[str]:
    """A row for each algorithm: ns a key, and ratios."""
    shown = {name: said for name, said in OTHERS.items() if any(name == other for _, other in times)}
    heads = ["algorithm", "ns a key", *(f"to {said}" for said in shown.values()), "to bdz_ph"]
    lines = [f"| {' | '.join(heads)} |", "|---" * len(heads) + "|"]
    for algorithm in compare.ALGORITHMS:
        ours = algorithm, "ours"
        cells = [f"{1e9 * statistics.median(times[ours]) / count:.0f}", *(ratio(times, ours, (algorithm, name)) for name in shown)]
        lines.append(f"| {' | '.join([algorithm, *cells, ratio(times, ours, ('bdz_ph', 'ours'))])} |")
    return lines


def main() -> None:
    parser = argparse.ArgumentParser(description=__doc__, formatter_class=argparse.RawDescriptionHelpFormatter)
    parser.add_argument("--before", help="the program of an earlier version")
    parser.add_argument("--rounds", type=int, default=15, help="how often each query runs (15)")
    parser.add_argument("keys", metavar="KEYS", nargs="?", type=int, default=10_000_000)
    asked = parser.parse_args()
    if not compare.OURS.exists():
        sys.exit("run make first")
    compare.adopt()
    tool = compare.c_tool()
    with tempfile.TemporaryDirectory() as folder:
        keys = Path(folder) / "keys"
        compare.make_keys(keys, asked.keys, 0)
        commands = {}
        for algorithm in compare.ALGORITHMS:
            commands |= queries(algorithm, keys, tool, asked.before)
        runs = [compare.interleaved(commands, 1) for _ in range(asked.rounds)]
    times = {name: [run[name].seconds for run in runs] for name in commands}
    print("\n".join(rows(times, asked.keys)))
    print(f"\n{asked.keys:,} generated keys. Medians of {asked.rounds} interleaved runs, in processor time; a ratio is the median of those of each round.")


if __name__ == "__main__":
    main()
