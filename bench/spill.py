#!/usr/bin/env python3
"""Builds by brz with buffers of several sizes, compares the function files byte by byte, and measures the builds.

    bench/spill.py [--program PROGRAM] [--rounds N] [--folder FOLDER] [--buffers "MEGABYTES .."] [SET ..]

A SET is one of bench/compare.py: a number of generated keys, `words`, `paths`, or the path of a file of keys. If none is given,
they are 100000, 1000000, 10000000 and words. PROGRAM is bin/cmph if none is given. Keys and spill files go to a new directory in
FOLDER, which is that of temporary files if none is given: the disk counts.

For each set it builds by brz with each buffer (1, 2, 64 and 1024 megabytes) and by bdz, and by brz with the C tool and with the
program in plain Rust, in N interleaved runs (3). It prints a table of the least processor time and wall time, and of the greatest
memory. Its status is 1 if two function files by brz differ, those of plain Rust among them, or if a spill file stays; then
it says which.
"""

import argparse
import filecmp
import sys
import tempfile
import time
from pathlib import Path
from typing import NamedTuple

import compare

SETS = ["100000", "1000000", "10000000", "words"]
BUFFERS = "1 2 64 1024"
SEED = 1
MEGABYTE = 1 << 20


class Build(NamedTuple):
    tool: str  # this program, plain Rust, the C tool
    buffer: str  # megabytes, or `bdz`
    words: list
    function: Path


class Figures(NamedTuple):
    seconds: float  # processor time
    wall: float
    memory: int  # bytes, at the peak

    def with_(self, other: "Figures") -> "Figures":
        """The least times and the greatest memory of both."""
        return Figures(min(self.seconds, other.seconds), min(self.wall, other.wall), max(self.memory, other.memory))

    def cells(self) -> list[str]:
        return [f"{self.seconds:.3f}", f"{self.wall:.3f}", f"{self.memory / MEGABYTE:.1f}"]


def put_keys(name: str, path: Path) -> int | None:
    """Leaves the keys of a set in a file, and says how many they are: none if they aren't there."""
    if name.isdigit():
        compare.make_keys(path, int(name), 0)
        return int(name)
    lines = compare.lines_of(name)
    if lines is None:
        return None
    path.write_bytes(b"".join(line + b"\n" for line in lines))
    return len(lines)


def builds_of(program: str, buffers: list[str], tool: str | None, scratch: Path) -> list[Build]:
    """All builds of a set, over the keys in the file `keys`."""
    keys, plain, builds = scratch / "keys", compare.plain_rust("brz"), []
    for size in buffers:
        function = scratch / f"function-{size}"
        builds.append(Build("ours", size, [program, "-g", "-a", "brz", "-M", size, "-d", scratch, "-s", SEED, "-m", function, keys], function))
        if plain:
            # Its function file stands beside its keys.
            own = scratch / f"plain-{size}"
            own.unlink(missing_ok=True)
            own.symlink_to(keys)
            builds.append(Build("plain", size, [plain, "-g", own, SEED, size, scratch], Path(f"{own}.mph")))
        if tool:
            function = scratch / f"c-{size}"
            builds.append(Build("c", size, [tool, "-g", "-a", "brz", "-M", size, "-d", scratch, "-s", SEED, "-m", function, keys], function))
    function = scratch / "function-bdz"
    builds.append(Build("ours", "bdz", [program, "-g", "-a", "bdz", "-s", SEED, "-m", function, keys], function))
    return builds


def measured(build: Build) -> Figures:
    begun = time.monotonic()
    used = compare.must(build.words)
    return Figures(used.seconds, time.monotonic() - begun, used.memory)


def faults_of(name: str, builds: list[Build], scratch: Path) -> list[str]:
    """What differs between the function files by brz, and which spill files stay."""
    ours = [build for build in builds if build.tool != "c" and build.buffer != "bdz"]
    other = [each for each in ours[1:] if not filecmp.cmp(ours[0].function, each.function, shallow=False)]
    faults = [f"{name}: the function of {each.tool} with a buffer of {each.buffer} MB differs from that with {ours[0].buffer} MB" for each in other]
    return faults + [f"{name}: {path.name} stays" for path in scratch.glob("*.spill")]


def rows_of(keys: str, builds: list[Build], best: dict[Path, Figures]) -> list[str]:
    """One row for each buffer, and one for bdz: this program, plain Rust, the C tool."""
    rows = []
    for size in dict.fromkeys(build.buffer for build in builds):
        found = {build.tool: best[build.function] for build in builds if build.buffer == size}
        cells = [keys, "by bdz" if size == "bdz" else f"{size} MB"]
        for tool in ("ours", "plain", "c"):
            cells += found[tool].cells() if tool in found else ["-"] * 3
        rows.append(f"| {' | '.join(cells)} |")
    return rows


def tried(name: str, asked: argparse.Namespace, tool: str | None, scratch: Path) -> tuple[list[str], list[str]]:
    """The rows of a set, and its faults."""
    count = put_keys(name, scratch / "keys")
    if count is None:
        return [], []
    builds, best = builds_of(asked.program, asked.buffers.split(), tool, scratch), {}  # by the function file of each
    for turn in range(asked.rounds):
        for build in builds:
            compare.note(f"{name}, run {turn + 1}: {build.tool}, {build.buffer}")
            figures = measured(build)
            best[build.function] = best.get(build.function, figures).with_(figures)
    keys = f"{count:,} {'generated' if name.isdigit() else Path(name).name}"
    return rows_of(keys, builds, best), faults_of(name, builds, scratch)


def main() -> int:
    parser = argparse.ArgumentParser(description=__doc__, formatter_class=argparse.RawDescriptionHelpFormatter)
    parser.add_argument("--program", default=str(compare.OURS))
    parser.add_argument("--rounds", type=int, default=3)
    parser.add_argument("--folder")
    parser.add_argument("--buffers", default=BUFFERS)
    parser.add_argument("sets", metavar="SET", nargs="*", default=SETS)
    asked = parser.parse_args()
    if not Path(asked.program).exists():
        sys.exit("run make first")
    asked.program = str(Path(asked.program).resolve())
    compare.adopt()
    tool, rows, faults = compare.c_tool(), [], []
    for name in asked.sets:
        with tempfile.TemporaryDirectory(dir=asked.folder) as folder:
            more, wrong = tried(name, asked, tool, Path(folder))
            rows += more
            faults += wrong
    figures = ["processor time, s", "wall time, s", "peak, MB"]
    heads = ["keys", "buffer", *figures, *(f"plain Rust: {each}" for each in figures), *(f"C tool: {each}" for each in figures)]
    print(f"The least times and the greatest memory of {asked.rounds} interleaved runs. A megabyte has 1,048,576 bytes.\n")
    print("\n".join([f"| {' | '.join(heads)} |", "|---" * len(heads) + "|", *rows]))
    if faults:
        print("\n".join(faults), file=sys.stderr)
    else:
        print("\nThe function files by brz of each set are the same, byte by byte, with all buffers.")
    return 1 if faults else 0


if __name__ == "__main__":
    sys.exit(main())
