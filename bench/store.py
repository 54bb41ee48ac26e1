#!/usr/bin/env python3
"""Measures record stores beside builds and queries by cmph, tinycdb and LMDB.

    bench/store.py [--rounds N] [--records N] [--folder FOLDER] [SET ..]

A SET is `words`, `paths` or `values`, all if none is given: N generated lines (1000000), with word-like keys, with path-like keys, and with values of 100
bytes. The files go to a new directory in FOLDER, which is that of temporary files if none is given.

For each set it builds a store, a function by BDZ over the keys, and the databases. Then it looks up all keys in random order, and asks the function for
them; and last one key alone, which shows what loading takes. It prints a table of processor time, peaks of memory and sizes, of N interleaved runs (5).

It needs bin/cmph and bin/cmph_store (`make`). What is not installed is left out with a line that says so: Debian's libcdb-dev and liblmdb-dev with gcc.
"""

import argparse
import filecmp
import random
import subprocess
import sys
import tempfile
from pathlib import Path
from typing import Callable, Iterator, NamedTuple

import compare

STORE = compare.OURS.with_name("cmph_store")
OURS, QUERY, CDB, LMDB = "cmph_store", "cmph, bdz", "tinycdb", "LMDB"
TOOLS = [OURS, QUERY, CDB, LMDB]
SETS = ["words", "paths", "values"]
SYLLABLES = "ba ce di fo gu ha je ki lo mu na pe ri so tu va we xi yo zu st nd er in on ra le te".split()
MILLION = 1_000_000


class Files(NamedTuple):
    """The files of a measurement."""
    folder: Path
    count: int

    @property
    def lines(self) -> Path:
        return self.folder / "lines"

    @property
    def keys(self) -> Path:
        """The keys in the order of the lines."""
        return self.folder / "keys"

    @property
    def shuffled(self) -> Path:
        return self.folder / "shuffled"

    @property
    def one(self) -> Path:
        """One key."""
        return self.folder / "one"

    def made(self, tool: str) -> Path:
        """What a tool builds."""
        return self.folder / f"{tool.split(',')[0]}.made"


# The lines


def words_of(dice: random.Random, count: int) -> list[str]:
    """Distinct words of two syllables or more."""
    found = {}
    while len(found) < count:
        found["".join(dice.choices(SYLLABLES, k=dice.choice((2, 3, 4, 4, 5, 6))))] = None
    return list(found)


def paths_of(dice: random.Random, count: int) -> list[str]:
    """Distinct paths of files, some in the same folders."""
    names, found = words_of(dice, 3000), {}
    folders = ["/".join(["/usr", "share", *dice.choices(names, k=dice.choice((1, 2, 3, 4)))]) for _ in range(count // 20 + 1)]
    while len(found) < count:
        found[f"{dice.choice(folders)}/{dice.choice(names)}-{dice.randrange(1000)}.{dice.choice(('txt', 'h', 'so', 'html'))}"] = None
    return list(found)


def lines_of(kind: str, count: int) -> Iterator[tuple[str, str]]:
    """The keys and the values of a set."""
    dice = random.Random(1)
    if kind == "values":
        keys = (f"key-{2654435761 * i % 4294967296:010d}" for i in range(count))
        return ((key, "".join(dice.choices(SYLLABLES, k=50))) for key in keys)
    keys = words_of(dice, count) if kind == "words" else paths_of(dice, count)
    return ((key, f"{dice.getrandbits(40):x} {number}") for number, key in enumerate(keys))


def put_lines(kind: str, files: Files) -> None:
    keys = []
    with open(files.lines, "w") as file:
        for key, value in lines_of(kind, files.count):
            keys.append(f"{key}\n")
            file.write(f"{key}\t{value}\n")
    files.keys.write_text("".join(keys))
    random.Random(2).shuffle(keys)
    files.shuffled.write_text("".join(keys))
    files.one.write_text(keys[0])


# The tools


def databases() -> dict[str, Path | None]:
    return {CDB: compare.c_program("tinycdb", "libcdb-dev", "cdb"), LMDB: compare.c_program("lmdb", "liblmdb-dev", "lmdb")}


def build_words(tool: str, files: Files) -> list:
    made = files.made(tool)
    match tool:
        case "cmph_store":
            return [STORE, "-g", "-m", made, files.lines]
        case "cmph, bdz":
            return [compare.OURS, "-g", "-a", "bdz", "-m", made, files.keys]
    return [databases()[tool], "-g", files.lines, made]


def look_up_words(tool: str, files: Files, keys: Path) -> list:
    made = files.made(tool)
    match tool:
        case "cmph_store":
            return [STORE, "-m", made, keys]
        case "cmph, bdz":
            return [compare.OURS, "-m", made, keys]
    return [databases()[tool], made, keys]


# The measuring


def least(tools: list[str], rounds: int, words: Callable[[str], list]) -> dict[str, compare.Used]:
    return compare.interleaved({tool: words(tool) for tool in tools}, rounds)


def start(rounds: int) -> float:
    """The seconds of a run that does nothing."""
    return min(compare.run([STORE]).seconds for _ in range(rounds))


def expect_same(tools: list[str], files: Files) -> None:
    """Stops if a tool has other lines than those of the lines file."""
    text = files.folder / "text"
    for tool in tools:
        if tool == QUERY:
            continue
        with open(text, "wb") as out:
            subprocess.run(list(map(str, look_up_words(tool, files, files.keys))), stdout=out, check=True)
        if not filecmp.cmp(text, files.lines, shallow=False):
            sys.exit(f"{tool}: other lines than those of the file")


def figures(values: dict[str, float], digits: int) -> list[str]:
    """A cell for each tool, and how many times the store's are those of the function and of tinycdb."""
    cells = [f"{values[tool]:,.{digits}f}" if tool in values else "-" for tool in TOOLS]
    return cells + [f"{values[OURS] / values[tool]:.2f}" if values.get(tool) and round(values[tool], digits) else "-" for tool in (QUERY, CDB)]


def rows(kind: str, files: Files, tools: list[str], rounds: int) -> list[str]:
    """The rows of the table of a set."""
    compare.note(f"{files.count} records, {kind}")
    put_lines(kind, files)
    built = least(tools, rounds, lambda tool: build_words(tool, files))
    expect_same(tools, files)
    every = least(tools, rounds, lambda tool: look_up_words(tool, files, files.shuffled))
    one = least(tools, rounds, lambda tool: look_up_words(tool, files, files.one))
    idle = start(rounds)

    def for_each(value: Callable[[str], float]) -> dict[str, float]:
        return {tool: value(tool) for tool in tools}

    lines = [
        ("build, s", 3, for_each(lambda tool: built[tool].seconds)),
        ("build, bytes a record at the peak", 1, for_each(lambda tool: built[tool].memory / files.count)),
        ("all keys in random order, s", 3, for_each(lambda tool: every[tool].seconds)),
        ("the same without one key alone, ns a key", 0, for_each(lambda tool: 1e9 * (every[tool].seconds - one[tool].seconds) / files.count)),
        ("all keys, bytes a record at the peak", 1, for_each(lambda tool: every[tool].memory / files.count)),
        ("one key alone, s", 4, for_each(lambda tool: one[tool].seconds)),
        ("loading, ns a record", 1, {tool: 1e9 * max(0.0, one[tool].seconds - idle) / files.count for tool in (OURS, QUERY)}),
        ("file, bytes a record", 2, for_each(lambda tool: files.made(tool).stat().st_size / files.count)),
    ]
    size = f"{files.count:,} {kind}, {files.lines.stat().st_size / MILLION:.1f} MB"
    return [f"| {size} | {what} | {' | '.join(figures(values, digits))} |" for what, digits, values in lines]


def main() -> None:
    parser = argparse.ArgumentParser(description=__doc__, formatter_class=argparse.RawDescriptionHelpFormatter)
    parser.add_argument("--rounds", type=int, default=5, help="how often each tool runs (5)")
    parser.add_argument("--records", type=int, default=MILLION, help="how many lines a set has (1000000)")
    parser.add_argument("--folder", help="where the files go")
    parser.add_argument("sets", metavar="SET", nargs="*", default=SETS)
    asked = parser.parse_args()
    if not set(asked.sets) <= set(SETS):
        parser.error(f"there are the sets {', '.join(SETS)}")
    if not compare.OURS.exists() or not STORE.exists():
        sys.exit("run make first")
    compare.adopt()
    there = databases()
    tools, lines = [tool for tool in TOOLS if there.get(tool, STORE)], []
    for kind in asked.sets:
        with tempfile.TemporaryDirectory(dir=asked.folder) as folder:
            lines += rows(kind, Files(Path(folder), asked.records), tools, asked.rounds)
    heads = ["lines", "", *(f"`{tool}`" if tool == OURS else tool for tool in TOOLS), "of cmph's", "of tinycdb's"]
    print("\n".join([f"| {' | '.join(heads)} |", "|---" * len(heads) + "|", *lines]))
    print(f"\nThe least processor time and the greatest memory of {asked.rounds} interleaved runs. `cmph` builds over the keys alone, and is asked for their "
          "numbers. Loading is a look-up of one key less the start of a process. The last columns say how many times the store's figure is those of `cmph` "
          "and of tinycdb.")


if __name__ == "__main__":
    main()
