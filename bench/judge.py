#!/usr/bin/env python3
"""Measures the judge of reports beside the refused builds that printed them.

    bench/judge.py [--rounds N] [--folder FOLDER] [KEYS ..]

KEYS are numbers of generated keys of 14 bytes, 1000000 and 10000000 if none is given. Keys and reports go to a new directory in FOLDER, which is that
of temporary files if none is given.

For each number it builds over distinct keys and one of them again, over half as many keys that each come twice, and over distinct keys with
one cell for each and one seed. All are refused. It prints a table of the least processor time and the greatest memory of the build, of reading its report alone
(a run over no keys, which ends after the report was read), and of the judge, in N interleaved runs (3). Its status is 1 if a judge doesn't say `true`.
"""

import argparse
import subprocess
import sys
import tempfile
from pathlib import Path

import compare

JUDGE = compare.OURS.with_name("cmph_judge")
MEGABYTE = 1 << 20
ONE_PAIR, HALVES, TIGHT = "one pair", "each key twice", "one cell a key"
CASES = [
    (ONE_PAIR, ["-a", "chm"]),
    (ONE_PAIR, ["-a", "bdz"]),
    (ONE_PAIR, ["-a", "brz", "-M", "16", "-r", "1"]),
    (HALVES, ["-a", "bdz"]),
    (TIGHT, ["-a", "chm", "-c", "1", "-r", "1"]),
    (TIGHT, ["-a", "bdz", "-c", "1", "-r", "1"]),
]


def put_keys(kind: str, count: int, path: Path) -> None:
    if kind == HALVES:
        compare.make_keys(path, count // 2, 0)
        path.write_bytes(path.read_bytes() * 2)
        return
    compare.make_keys(path, count, 0)
    if kind == ONE_PAIR:
        with open(path, "a") as file:
            file.write("key-0000000000\n")


def checked(words: list, status: int) -> compare.Used:
    used = compare.run(words)
    if used.status != status:
        sys.exit(f"status {used.status}: {' '.join(map(str, words))}")
    return used


def row(kind: str, options: list, count: int, rounds: int, folder: Path) -> str:
    """Builds, judges, and gives the row of both."""
    compare.note(f"{count} keys, {kind}, {' '.join(options)}")
    keys, report, none = folder / "keys", folder / "report", folder / "none"
    build = [compare.OURS, "-g", *options, "-d", folder, "-m", folder / "function", keys]
    with open(report, "wb") as out:
        subprocess.run(build, stdout=out, stderr=subprocess.DEVNULL, check=False)
    none.write_bytes(b"")
    settings = options[2:4] if options[2:3] == ["-c"] else []
    runs = [(build, 1), ([JUDGE, report, none], 8), ([JUDGE, *settings, report, keys], 0)]
    used = [[checked(words, status) for words, status in runs] for _ in range(rounds)]
    built, read, judged = ((min(one[i].seconds for one in used), max(one[i].memory for one in used)) for i in range(3))
    lines = report.read_bytes().count(b"\n")
    edges = int(report.read_bytes().split(b"\n", 1)[0].split()[-1])
    cells = [f"{built[0]:.3f}", f"{judged[0]:.3f}", f"{judged[0] / built[0]:.2f}", f"{1e9 * read[0] / lines:.0f}" if lines > 1000 else "",
             f"{built[1] / MEGABYTE:,.0f}", f"{judged[1] / MEGABYTE:,.0f}", f"{(judged[1] - built[1]) / edges:.1f}" if edges > 1000 else ""]
    return f"| {count:,} | {kind} | {' '.join(options)} | {lines:,} | {' | '.join(cells)} |"


def main() -> None:
    parser = argparse.ArgumentParser(description=__doc__, formatter_class=argparse.RawDescriptionHelpFormatter)
    parser.add_argument("--rounds", type=int, default=3)
    parser.add_argument("--folder")
    parser.add_argument("keys", metavar="KEYS", nargs="*", type=int, default=[1_000_000, 10_000_000])
    asked = parser.parse_args()
    if not compare.OURS.exists() or not JUDGE.exists():
        sys.exit("run make first")
    compare.adopt()
    rows = []
    with tempfile.TemporaryDirectory(dir=asked.folder) as folder:
        for count in asked.keys:
            kind = None
            for case, options in CASES:
                if case != kind:
                    kind = case
                    put_keys(kind, count, Path(folder) / "keys")
                rows.append(row(kind, options, count, asked.rounds, Path(folder)))
    heads = ["keys", "kind", "options", "lines of the report", "build, s", "judge, s", "judge / build", "reading, ns a line", "build, MB", "judge, MB", "more bytes an edge"]
    print("\n".join([f"| {' | '.join(heads)} |", "|---" * len(heads) + "|", *rows]))
    print(f"\nThe least processor time and the greatest memory of {asked.rounds} interleaved runs. A megabyte has 1,048,576 bytes.")


if __name__ == "__main__":
    main()
