#!/usr/bin/env python3
"""Measures splits, queries by a manifest, and all steps from keys to the manifest.

    bench/shards.py [--keys N] [--rounds N] [--shards N] [--folder FOLDER] [--cmph PROGRAM] [--program PROGRAM]

N generated keys (5000000) go to a new directory in FOLDER, which is that of temporary files if none is given. It measures

  - a split into 16, 64 and 1,024 shards, beside a splitter in plain Rust (bench/shards.rs), whose files must be the same;
  - a query of all keys in random order by a manifest of N shards (64), beside `cmph` with one function of all keys, both by BDZ; and of one key alone, which shows
    what loading takes;
  - all steps one after another by hand: the split, a build of each shard, and the join; beside contrib/shards/cmph-shards with some workers, and beside one build
    over all keys.

What is compared runs interleaved. The table has the medians of N rounds (5), and the median of the ratios of each round. Seconds of the first two are processor time, and those of all steps are
of the clock.

It needs bin/cmph and bin/cmph_shards (`make`). What is not installed is left out with a line that says so: rustc, and dask for /usr/bin/python3.
"""

import argparse
import filecmp
import os
import random
import statistics
import subprocess
import sys
import tempfile
import time
from pathlib import Path
from typing import Callable, Iterator, NamedTuple

import compare

ENGINE = compare.TOP / "contrib" / "shards" / "cmph-shards"
PYTHON = "/usr/bin/python3"
COUNTS = [16, 64, 1024]


class Programs(NamedTuple):
    cmph: Path
    shards: Path


class Files(NamedTuple):
    """The files of a measurement."""
    folder: Path
    count: int
    shards: int

    @property
    def keys(self) -> Path:
        return self.folder / "keys"

    @property
    def shuffled(self) -> Path:
        return self.folder / "shuffled"

    @property
    def one(self) -> Path:
        """One key."""
        return self.folder / "one"

    @property
    def function(self) -> Path:
        """The function of all keys."""
        return self.folder / "function"

    @property
    def out(self) -> Path:
        """The folder of the shards and of the manifest."""
        return self.folder / "out"


class Row(NamedTuple):
    what: str
    ours: str
    beside: str
    which: str
    ratio: float


def put_keys(files: Files) -> None:
    compare.make_keys(files.keys, files.count, 0)
    lines = files.keys.read_text().splitlines(True)
    random.Random(1).shuffle(lines)
    files.shuffled.write_text("".join(lines))
    files.one.write_text(lines[0])


# Turns


def turns(rounds: int, *measured: Callable[[], float]) -> tuple[list[float], list[float]]:
    """The medians of what is measured in turn, and the median ratios of the first to each."""
    seen = [[each() for each in measured] for _ in range(rounds)]
    medians = [statistics.median(column) for column in zip(*seen)]
    return medians, [statistics.median(row[0] / max(row[at], 1e-9) for row in seen) for at in range(len(measured))]


def processor(words: list) -> Callable[[], float]:
    return lambda: compare.must(words).seconds


def clock(body: Callable[[], None]) -> float:
    start = time.perf_counter()
    body()
    return time.perf_counter() - start


def peak(words: list) -> float:
    return compare.must(words).memory / 2**20


# The split


def emptied(folder: Path) -> Path:
    folder.mkdir(exist_ok=True)
    for file in folder.iterdir():
        file.unlink()
    return folder


def splits(programs: Programs, files: Files, rounds: int, count: int) -> Iterator[Row]:
    compare.note(f"a split into {count} shards")
    at, beside, plain = emptied(files.folder / "ours"), emptied(files.folder / "plain"), compare.plain_rust("shards")
    ours = [programs.shards, "-n", count, "-d", at, files.keys]
    theirs = [plain, count, beside, files.keys]
    medians, ratios = turns(rounds, processor(ours), *([processor(theirs)] if plain else []))
    if plain and filecmp.cmpfiles(at, beside, [file.name for file in beside.iterdir()], shallow=False)[1:] != ([], []):
        sys.exit("shards.rs: other files than those of the program")
    cells = [f"{1e9 * value / files.count:.1f}" for value in medians] + ["-"]
    yield Row(f"split into {count:,} shards, ns a key", *cells[:2], "plain Rust", ratios[-1] if plain else 0)
    memory = [peak(ours), peak(theirs)] if plain else [peak(ours)]
    yield Row(f"split into {count:,} shards, MB at the peak", *([f"{value:.1f}" for value in memory] + ["-"])[:2], "plain Rust", memory[0] / memory[-1] if plain else 0)
    emptied(at), emptied(beside)


# Queries


def by_hand(programs: Programs, files: Files) -> None:
    """Splits, builds each shard, and joins."""
    out = emptied(files.out)
    subprocess.run([programs.shards, "-n", str(files.shards), "-d", out, files.keys], check=True)
    pieces = [out / f"shard-{shard:04}" for shard in range(files.shards)]
    for piece in pieces:
        subprocess.run([programs.cmph, "-g", "-a", "bdz", piece], check=True)
    subprocess.run([programs.shards, "-j", "-m", out / "manifest", "-d", out, *(f"{piece}.mph" for piece in pieces)], check=True)


def queries(programs: Programs, files: Files, rounds: int) -> Iterator[Row]:
    compare.note("queries")
    by_hand(programs, files)
    compare.must([programs.cmph, "-g", "-a", "bdz", "-m", files.function, files.keys])
    tested = subprocess.run([programs.shards, "-t", "-m", files.out / "manifest", files.keys], capture_output=True)
    if tested.stdout != b"true\n":
        sys.exit(f"the manifest does not number the keys: {tested.stdout!r}")
    for what, keys in (("all keys in random order", files.shuffled), ("one key alone", files.one)):
        ours, theirs = [programs.shards, "-m", files.out / "manifest", keys], [programs.cmph, "-m", files.function, keys]
        medians, ratios = turns(rounds, processor(ours), processor(theirs))
        if keys == files.shuffled:
            yield Row(f"query of {what}, ns a key", *(f"{1e9 * value / files.count:.1f}" for value in medians), "`cmph`", ratios[1])
        else:
            yield Row(f"query of {what}, s", *(f"{value:.4f}" for value in medians), "`cmph`", ratios[1])
    memory = [peak([programs.shards, "-m", files.out / "manifest", files.shuffled]), peak([programs.cmph, "-m", files.function, files.shuffled])]
    yield Row("query of all keys, bytes a key at the peak", *(f"{value * 2**20 / files.count:.2f}" for value in memory), "`cmph`", memory[0] / memory[1])
    sizes = [sum(file.stat().st_size for file in files.out.iterdir() if file.suffix == ".mph" or file.name == "manifest"), files.function.stat().st_size]
    yield Row("functions and manifest, bits a key", *(f"{8 * size / files.count:.3f}" for size in sizes), "`cmph`", sizes[0] / sizes[1])


# All steps


def engine(programs: Programs, files: Files, workers: int) -> None:
    words = [PYTHON, ENGINE, "--quiet", "--restart", "--shards", files.shards, "--workers", workers, "--out", files.folder / "engine", "--tmp", files.folder, "--block", 8]
    subprocess.run([str(word) for word in (*words, "--cmph", programs.cmph, "--cmph-shards", programs.shards, files.keys)], check=True)


def has_dask() -> bool:
    found = Path(PYTHON).exists() and subprocess.run([PYTHON, "-c", "import dask.distributed"], capture_output=True).returncode == 0
    if not found:
        compare.note("cmph-shards: left out, install Debian's python3-distributed")
    return found


def steps(programs: Programs, files: Files, rounds: int) -> Iterator[Row]:
    compare.note("all steps")
    workers = [number for number in (1, 2, 3) if number <= max(1, os.cpu_count() - 1)] if has_dask() else []
    whole = [programs.cmph, "-g", "-a", "bdz", "-m", files.function, files.keys]
    # compare.must would take a process that dask left for the one that it started.
    measured = [lambda: clock(lambda: by_hand(programs, files)), lambda: clock(lambda: subprocess.run(whole, check=True))]
    measured += [lambda number=number: clock(lambda: engine(programs, files, number)) for number in workers]
    medians, ratios = turns(rounds, *measured)
    whats = ["one build by `cmph`, without shards", *(f"`cmph-shards`, {number} worker{'s' * (number > 1)}" for number in workers)]
    for what, median, ratio in zip(whats, medians[1:], ratios[1:]):
        yield Row("split, builds and join one after another, s of the clock", f"{medians[0]:.2f}", f"{median:.2f}", what, ratio)
    if workers and not filecmp.cmp(files.folder / "engine" / "manifest", files.folder / "out" / "manifest", shallow=False):
        sys.exit("cmph-shards: another manifest than by hand")


def main() -> None:
    parser = argparse.ArgumentParser(description=__doc__, formatter_class=argparse.RawDescriptionHelpFormatter)
    parser.add_argument("--keys", type=int, default=5_000_000, help="how many keys (5000000)")
    parser.add_argument("--rounds", type=int, default=5, help="how often each runs (5)")
    parser.add_argument("--shards", type=int, default=64, help="how many shards the query and all steps have (64)")
    parser.add_argument("--folder", help="where the files go")
    parser.add_argument("--cmph", type=Path, default=compare.OURS, help="the program cmph (bin/cmph)")
    parser.add_argument("--program", type=Path, default=compare.OURS.with_name("cmph_shards"), help="the program of shards (bin/cmph_shards)")
    asked = parser.parse_args()
    programs = Programs(asked.cmph.resolve(), asked.program.resolve())
    if not all(program.exists() for program in programs):
        sys.exit("run make first")
    compare.adopt()
    with tempfile.TemporaryDirectory(dir=asked.folder) as folder:
        files = Files(Path(folder), asked.keys, asked.shards)
        put_keys(files)
        rows = [row for count in COUNTS for row in splits(programs, files, asked.rounds, count)]
        rows += [*queries(programs, files, asked.rounds), *steps(programs, files, asked.rounds)]
        size = f"{files.count:,} keys, {files.keys.stat().st_size / 1e6:.1f} MB"
    print(f"| {size} | `cmph_shards` | beside it | which is | ratio |\n|---|---|---|---|---|")
    for row in rows:
        print(f"| {row.what} | {row.ours} | {row.beside} | {row.which if row.ratio else '-'} | {f'{row.ratio:.2f}' if row.ratio else '-'} |")
    print(f"\nMedians of {asked.rounds} interleaved rounds, and the median of the ratios of each round. A query and all steps have {asked.shards} shards, by BDZ. A split and a query are measured in processor "
          "time. One key alone shows what loading takes: all function files are read, checked, and their SHA-256 is compared.")


if __name__ == "__main__":
    main()
