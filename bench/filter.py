#!/usr/bin/env python3
"""Measures membership filters beside builds and queries by cmph, libbloom and plain Rust.

    bench/filter.py [--rounds N] [--width W] [--strange N] [--folder FOLDER] [KEYS ..]

KEYS are numbers of generated keys of 14 bytes that seed 1 serves, 1000000 and 10000000 if none is given. The files go to a new directory in FOLDER, which
is that of temporary files if none is given.

For each number it builds a filter with fingerprints of W bits (8), a function by BDZ, a Bloom filter that lets as many strange keys through, and the filter
in plain Rust; and then it asks each for its own keys, and for as many strange keys. For these cmph has a function by BDZ_PH. It prints a table of processor
time, peaks of memory and sizes, of N interleaved runs (9); and a table of how many of N strange keys (1000000) filters of several widths let through.

It needs bin/cmph and bin/cmph_filter (`make`). What is not installed is left out with a line that says so: Debian's libbloom-dev with gcc, and rustc.
"""

import argparse
import filecmp
import subprocess
import sys
import tempfile
from pathlib import Path
from statistics import median
from typing import Callable, NamedTuple

import compare

FILTER = compare.OURS.with_name("cmph_filter")
BLOOM = "libbloom"
TOOLS = ["cmph_filter", "cmph", BLOOM, "plain Rust"]
WIDTHS = [1, 4, 8, 12, 16]
STRANGE_FROM = 2_000_000_000  # the number of the first strange key: no own key has it


class Took(NamedTuple):
    """What a run took."""
    seconds: float  # processor time
    memory: int  # bytes, at the peak


class Files(NamedTuple):
    """The files of a measurement. Each tool has a name of its own for the keys file, and keeps its function or filter beside it."""
    folder: Path
    count: int
    width: int

    def keys(self, tool: str) -> Path:
        return self.folder / tool.split()[0]

    @property
    def strange(self) -> Path:
        return self.folder / "strange"

    @property
    def queried(self) -> Path:
        """The function by BDZ_PH."""
        return self.folder / "queried.mph"


# The tools


def bloom() -> Path | None:
    return compare.c_program("bloom", "libbloom-dev", "bloom", "m")


def taken_tools() -> list[str]:
    there = {BLOOM: bloom(), "plain Rust": compare.plain_rust("filter")}
    return [tool for tool in TOOLS if tool not in there or there[tool]]


def ran(words: list, statuses: tuple = (0,)) -> Took:
    used = compare.run(words)
    if used.status not in statuses:
        sys.exit(f"status {used.status}: {' '.join(map(str, words))}")
    return Took(used.seconds, used.memory)


def said_by_bloom(report: Path) -> tuple[float, float, int, int]:
    """The seconds of building and of testing, the bits of the filter, and how many keys it let through."""
    built, tested, bits, through = report.read_text().split()
    return float(built), float(tested), int(bits), int(through)


def by_bloom(files: Files, tested: Path, part: int) -> Took:
    """One part of a run: its building, 0, or its testing, 1. The memory is that of the whole."""
    report = files.folder / "report"
    used = ran([bloom(), files.keys(BLOOM), files.width, tested, report])
    return Took(said_by_bloom(report)[part], used.memory)


def build(tool: str, files: Files) -> Took:
    keys = files.keys(tool)
    match tool:
        case "cmph_filter":
            return ran([FILTER, "-g", "-w", files.width, keys])
        case "cmph":
            return ran([compare.OURS, "-g", "-a", "bdz", keys])
        case "libbloom":
            return by_bloom(files, Path("/dev/null"), 0)
    return ran([compare.plain_rust("filter"), "-g", keys, 1, files.width])


def ask(tool: str, files: Files, tested: Path) -> Took:
    """Asks a tool for the keys of a file. A filter's program has status 1 if a key does not hold."""
    keys = files.keys(tool)
    match tool:
        case "cmph_filter":
            return ran([FILTER, "-m", f"{keys}.flt", tested], (0, 1))
        case "cmph":
            return ran([compare.OURS, "-m", files.queried, tested], (0, 1))
        case "libbloom":
            return by_bloom(files, tested, 1)
    return ran([compare.plain_rust("filter"), f"{keys}.flt", tested])


def size(tool: str, files: Files) -> float:
    """Bits a key."""
    if tool == BLOOM:
        by_bloom(files, Path("/dev/null"), 0)
        return said_by_bloom(files.folder / "report")[2] / files.count
    ending = "mph" if tool == "cmph" else "flt"
    return 8 * Path(f"{files.keys(tool)}.{ending}").stat().st_size / files.count


# The measuring


def interleaved(tools: list[str], rounds: int, run: Callable[[str], Took]) -> dict[str, list[Took]]:
    """What each tool took in each round."""
    taken = {tool: [] for tool in tools}
    for _ in range(rounds):
        for tool in tools:
            taken[tool].append(run(tool))
    return taken


def written(words: list, out: Path) -> Path:
    with open(out, "wb") as file:
        subprocess.run(list(map(str, words)), stdout=file, check=False)
    return out


def expect_same(tools: list[str], files: Files) -> None:
    """Stops if plain Rust writes another filter file or other lines than the program, or if own keys don't hold."""
    ours, plain = files.keys("cmph_filter"), files.keys("plain Rust")
    if not filecmp.cmp(written([FILTER, ours], files.folder / "lines"), ours, shallow=False):
        sys.exit("the keys of a filter do not all hold")
    if "plain Rust" not in tools:
        return
    lines = [written([FILTER, "-m", f"{ours}.flt", files.strange], files.folder / "lines"),
             written([compare.plain_rust("filter"), f"{plain}.flt", files.strange], files.folder / "plain-lines")]
    if not filecmp.cmp(f"{ours}.flt", f"{plain}.flt", shallow=False) or not filecmp.cmp(*lines, shallow=False):
        sys.exit("filter.rs: another filter file or other lines than those of the program")


def put_keys(files: Files, tools: list[str]) -> None:
    keys = files.keys("cmph_filter")
    compare.fitting_keys(str(files.count), "bdz", keys)
    for tool in tools:
        if files.keys(tool) != keys:
            files.keys(tool).symlink_to(keys)
    compare.make_keys(files.strange, files.count, STRANGE_FROM)
    compare.must([compare.OURS, "-g", "-a", "bdz_ph", "-m", files.queried, keys])


def cells_of(tools: list[str], taken: dict[str, list[Took]]) -> list[str]:
    """For each tool the least and in brackets the median of its seconds."""
    seconds = {tool: [one.seconds for one in taken.get(tool, [])] for tool in TOOLS}
    return [f"{min(of):.3f} ({median(of):.3f})" if (of := seconds[tool]) else "-" for tool in TOOLS]


def peaks(taken: dict[str, list[Took]], count: int) -> list[str]:
    return [f"{max(one.memory for one in taken[tool]) / count:.1f}" if tool in taken else "-" for tool in TOOLS]


def rows(files: Files, tools: list[str], rounds: int) -> list[str]:
    """The rows of the table of one number of keys."""
    compare.note(f"{files.count} keys")
    put_keys(files, tools)
    built = interleaved(tools, rounds, lambda tool: build(tool, files))
    expect_same(tools, files)
    own = interleaved(tools, rounds, lambda tool: ask(tool, files, files.keys(tool)))
    strange = interleaved(tools, rounds, lambda tool: ask(tool, files, files.strange))
    lines = {"build, s": cells_of(tools, built), "own keys, s": cells_of(tools, own), "strange keys, s": cells_of(tools, strange),
             "build, bytes a key": peaks(built, files.count), "own keys, bytes a key": peaks(own, files.count),
             "bits a key": [f"{size(tool, files):.2f}" if tool in tools else "-" for tool in TOOLS]}
    return [f"| {files.count:,} | {what} | {' | '.join(cells)} |" for what, cells in lines.items()]


def percent(part: float) -> str:
    return f"{float(f'{100 * part:.3g}'):.5g} %"


def through(files: Files, tools: list[str], count: int) -> str:
    """The row of a width: how many of some strange keys are let through, and what part of them that is."""
    keys, found = files.keys("cmph_filter"), {}
    ran([FILTER, "-g", "-w", files.width, keys])
    found["cmph_filter"] = written([FILTER, "-m", f"{keys}.flt", files.strange], files.folder / "lines").read_bytes().count(b"\n")
    bits = {tool: f"{size(tool, files):.2f}" for tool in ("cmph_filter", BLOOM) if tool in tools}
    if BLOOM in tools:
        by_bloom(files, files.strange, 1)
        found[BLOOM] = said_by_bloom(files.folder / "report")[3]
    cells = [cell for tool in ("cmph_filter", BLOOM) for cell in (bits.get(tool, "-"), f"{found[tool]:,}" if tool in found else "-", percent(found[tool] / count) if tool in found else "-")]
    return f"| {files.width} | {percent(2.0**-files.width)} | {' | '.join(cells)} |"


def shares(count: int, strange: int, tools: list[str], folder: Path) -> list[str]:
    """The rows of all widths, over one set of keys."""
    compare.note(f"{strange} strange keys, {count} keys")
    files = Files(folder, count, WIDTHS[0])
    put_keys(files, tools)
    compare.make_keys(files.strange, strange, STRANGE_FROM)
    return [through(files._replace(width=width), tools, strange) for width in WIDTHS]


def table(heads: list[str], lines: list[str]) -> str:
    return "\n".join([f"| {' | '.join(heads)} |", "|---" * len(heads) + "|", *lines])


def main() -> None:
    parser = argparse.ArgumentParser(description=__doc__, formatter_class=argparse.RawDescriptionHelpFormatter)
    parser.add_argument("--rounds", type=int, default=9, help="how often each tool runs (9)")
    parser.add_argument("--width", type=int, default=8, help="the bits of a fingerprint (8)")
    parser.add_argument("--strange", type=int, default=1_000_000, help="how many strange keys the second table has (1000000)")
    parser.add_argument("--folder", help="where the files go")
    parser.add_argument("keys", metavar="KEYS", nargs="*", type=int, default=[1_000_000, 10_000_000])
    asked = parser.parse_args()
    if not compare.OURS.exists() or not FILTER.exists():
        sys.exit("run make first")
    compare.adopt()
    tools, lines = taken_tools(), []
    for count in asked.keys:
        with tempfile.TemporaryDirectory(dir=asked.folder) as folder:
            lines += rows(Files(Path(folder), count, asked.width), tools, asked.rounds)
    with tempfile.TemporaryDirectory(dir=asked.folder) as folder:
        parts = shares(min(asked.keys), asked.strange, tools, Path(folder))
    print(table(["keys", "", f"`cmph_filter -w {asked.width}`", "`cmph`, bdz and bdz_ph", BLOOM, "plain Rust"], lines))
    print(f"\nThe least processor time, in brackets the median, and the greatest memory of {asked.rounds} interleaved runs. `cmph` builds by bdz and is asked "
          f"for keys by bdz_ph. {BLOOM} lets one strange key in 2^{asked.width} through; its memory is that of a build and a test in one run.\n")
    print(table(["w", "2^-w", "bits a key", f"let through of {asked.strange:,}", "share", f"{BLOOM}: bits a key", "let through", "share"], parts))
    print(f"\nStrange keys that filters of {min(asked.keys):,} keys let through.")


if __name__ == "__main__":
    main()
