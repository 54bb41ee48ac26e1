#!/usr/bin/env python3
"""Measures a build by BDZ beside bbhash, another library of minimal perfect hash functions, in one thread.

    bench/bbhash.py [--rounds N] [KEYS ..]

For each number of KEYS (1000000) it generates that many keys of 14 bytes that seed 1 serves, and runs each N times (9), interleaved. The
least processor time counts. This program is measured as a whole: it reads the file, builds, and saves. Of bbhash only the
building counts, with the hashing of its keys, which stand in memory before.

It needs bin/cmph (`make`), Debian's libbbhash-dev, and g++.
"""

import argparse
import subprocess
import tempfile
from pathlib import Path

import compare

GAMMAS = ["1", "2"]


def program() -> Path:
    built = compare.TOP / "bench" / "out" / "bbhash"
    built.parent.mkdir(exist_ok=True)
    source = compare.TOP / "bench" / "bbhash.cpp"
    subprocess.run(["g++", "-O3", "-DNDEBUG", "-std=c++17", "-pthread", "-w", "-o", built, source], check=True)
    return built


def ours(keys: Path, count: int) -> tuple[float, float]:
    """Nanoseconds and bits a key of this program."""
    used = compare.must(compare.our_build("bdz", keys))
    return 1e9 * used.seconds / count, 8 * Path(f"{keys}.mph").stat().st_size / count


def theirs(bbhash: Path, keys: Path, gamma: str) -> tuple[float, float]:
    said = subprocess.run([bbhash, keys, gamma], stdout=subprocess.PIPE, check=True, text=True).stdout
    nanos, bits = said.splitlines()[-1].split()
    return float(nanos), float(bits)


def measure(bbhash: Path, keys: Path, count: int, rounds: int) -> dict[str, tuple[float, float]]:
    """The least nanoseconds a key of each, and its bits a key."""
    least = {}
    for _ in range(rounds):
        seen = {"this program, bdz": ours(keys, count)}
        seen |= {f"bbhash, gamma {gamma}": theirs(bbhash, keys, gamma) for gamma in GAMMAS}
        least = {name: min(value, least.get(name, value)) for name, value in seen.items()}
    return least


def main() -> None:
    parser = argparse.ArgumentParser(description=__doc__, formatter_class=argparse.RawDescriptionHelpFormatter)
    parser.add_argument("--rounds", type=int, default=9, help="how often each runs (9)")
    parser.add_argument("keys", metavar="KEYS", nargs="*", type=int, default=[1_000_000])
    asked = parser.parse_args()
    compare.adopt()
    bbhash = program()
    print("| keys | | ns a key | bits a key |\n|---|---|---|---|")
    with tempfile.TemporaryDirectory() as scratch:
        for count in asked.keys:
            keys = Path(scratch) / "keys"
            compare.fitting_keys(str(count), "bdz", keys)
            for name, (nanos, bits) in measure(bbhash, keys, count, asked.rounds).items():
                print(f"| {count:,} | {name} | {nanos:.0f} | {bits:.2f} |")


if __name__ == "__main__":
    main()
