#!/usr/bin/env python3
"""Builds functions over as many keys as a function may have, and has each answer all of them.

    bench/most.py [--program PROGRAM] [--folder FOLDER] [KEYS]

KEYS is 67,108,864 if it isn't given: so many keys of 14 bytes are generated. PROGRAM is bin/cmph if none is given. Keys, function
files and spill files go to a new directory in FOLDER, which is that of temporary files if none is given: it needs three gigabytes.

It builds by each algorithm, by brz with buffers of 1 and of 16 megabytes too, with 700 keys a bucket, and with the greatest ratio and the
most buckets. It prints a table of processor time and the greatest memory, for one run each. A query that ends with status 0 has met no
unknown key and no number twice, so that the numbers of all keys differ; else this program ends with status 1 and says where.
"""

import argparse
import sys
import tempfile
from pathlib import Path

import compare

MOST = 67_108_864
MEGABYTE = 1 << 20
BUILDS = [
    ["chm"],
    ["bdz"],
    ["bdz_ph"],
    ["brz"],
    ["brz", "-M", 16],
    ["brz", "-M", 16, "-b", 700],
    ["brz", "-M", 16, "-b", 64, "-c", 10],
]


def row(program: str, options: list, scratch: Path, count: int) -> str:
    """Builds and queries, and gives the row of both."""
    compare.note(f"{count} keys by {' '.join(map(str, options))}")
    keys, function = scratch / "keys", scratch / "function"
    build = compare.must([program, "-g", "-a", *options, "-d", scratch, "-m", function, keys])
    query = compare.must([program, "-m", function, keys])
    size = function.stat().st_size
    cells = [f"{build.seconds:.1f}", f"{1e9 * build.seconds / count:.0f}", f"{build.memory / MEGABYTE:,.0f}", f"{build.memory / count:.1f}"]
    cells += [f"{query.seconds:.1f}", f"{1e9 * query.seconds / count:.0f}", f"{query.memory / MEGABYTE:,.0f}", f"{8 * size / count:.2f}"]
    return f"| {count:,} | {' '.join(map(str, options))} | {' | '.join(cells)} |"


def main() -> None:
    parser = argparse.ArgumentParser(description=__doc__, formatter_class=argparse.RawDescriptionHelpFormatter)
    parser.add_argument("--program", default=str(compare.OURS))
    parser.add_argument("--folder")
    parser.add_argument("keys", metavar="KEYS", nargs="?", type=int, default=MOST)
    asked = parser.parse_args()
    if not Path(asked.program).exists():
        sys.exit("run make first")
    program = str(Path(asked.program).resolve())
    compare.adopt()
    with tempfile.TemporaryDirectory(dir=asked.folder) as folder:
        compare.make_keys(Path(folder) / "keys", asked.keys, 0)
        rows = [row(program, options, Path(folder), asked.keys) for options in BUILDS]
    heads = ["keys", "algorithm and options", "build, s", "ns a key", "peak, MB", "bytes a key", "query, s", "ns a key", "peak, MB", "function, bits a key"]
    print("\n".join([f"| {' | '.join(heads)} |", "|---" * len(heads) + "|", *rows]))
    print("\nProcessor time and the greatest memory of one run each. A megabyte has 1,048,576 bytes.")


if __name__ == "__main__":
    main()
