#!/usr/bin/env python3
"""Measures the C library beside libcmph, in one process: look-ups of one key and of many, opening, and builds in memory.

    bench/library.py [--rounds N] [--builds N] [--keys N] [--python] [--program PROGRAM] [--archive FILE].. [ALGORITHM ..]

For each ALGORITHM (chm, bdz, bdz_ph and brz) it generates N keys of 14 bytes (1000000) that seed 1 serves, and takes a seed for libcmph whose first graph
works. One process (bench/library.c) then has the keys in memory. In each of N rounds (31) it looks all of them up by `cmph_search`, by `cmph_c_answer` and by
one `cmph_c_answers`, and opens the function file by `cmph_load` and by `cmph_c_open`, which maps it. By brz, which libcmph builds by another algorithm, it is
ours alone.

In each of N rounds (5) of builds, one process builds by `cmph_c_build` and by `cmph_new` over keys in memory, this program builds over the file of the keys,
and by bdz so does bbhash. It stops if the library and the program build other files.

With --python it measures the package in library/python, too: `Function.arrays` and `Function.many`.

It prints a table: the least processor time a key, and the median of the ratios of the rounds with its quartiles, and beside them what is aimed at. It needs
bin/cmph and lib/libcmph_c.a (`make all library`; --program and --archive name others), gcc and Debian's libcmph-dev. What isn't there of Debian's
libbbhash-dev with g++, and of the Python package, is left out with a line that says so.
"""

import argparse
import filecmp
import shutil
import statistics
import subprocess
import sys
import tempfile
import time
from array import array
from pathlib import Path
from typing import NamedTuple

import bbhash
import compare

ARCHIVE = compare.TOP / "lib" / "libcmph_c.a"
PACKAGE = compare.TOP / "library" / "python"
MILLION = 1_000_000
SEARCH, ANSWER, ANSWERS, LOAD, OPEN, NEW, BUILD = "cmph_search", "cmph_c_answer", "cmph_c_answers", "cmph_load", "cmph_c_open", "cmph_new", "cmph_c_build"
PROGRAM, ARRAYS, MANY = "cmph", "Function.arrays", "Function.many"
BBHASH = {f"bbhash, gamma {gamma}": gamma for gamma in bbhash.GAMMAS}
# The greatest ratio that is aimed at, by what is measured, beside what, and the algorithm.
GOALS = {
    (ANSWER, SEARCH): {"chm": 0.80, "bdz": 0.80, "bdz_ph": 0.90},
    (ANSWERS, SEARCH): {"chm": 0.40, "bdz": 0.60, "bdz_ph": 0.70},
    (OPEN, LOAD): {"chm": 1.0, "bdz": 1.0, "bdz_ph": 1.0},
    (BUILD, PROGRAM): {"chm": 0.90, "bdz": 0.90, "bdz_ph": 0.90},
    (ARRAYS, ANSWERS): {name: 1.5 for name in compare.ALGORITHMS},
}
MOST_OF_A_LIST = 400  # ns a key
Times = dict[str, list[float]]  # seconds of each round, by what is measured


class Keys(NamedTuple):
    """Keys in a file, and the function file over them."""
    algorithm: str
    count: int
    path: Path
    seed: int  # of libcmph, whose first graph works

    @property
    def function(self) -> Path:
        return Path(f"{self.path}.mph")


# What is measured


def program(archives: list[str]) -> Path:
    """bench/library.c with the library and libcmph."""
    built = compare.TOP / "bench" / "out" / "library"
    built.parent.mkdir(exist_ok=True)
    source, include = built.parent.parent / "library.c", compare.TOP / "library"
    if not shutil.which("gcc"):
        sys.exit("install gcc")
    made = subprocess.run(["gcc", "-O2", f"-I{include}", source, *archives, "-lcmph", "-o", built], stderr=subprocess.PIPE, text=True)
    if made.returncode != 0:
        missing = "install Debian's libcmph-dev" if "<cmph.h>" in made.stderr or "-lcmph" in made.stderr else made.stderr
        sys.exit(f"bench/library.c is not compiled: {missing}")
    return built


def bbhash_program() -> Path | None:
    try:
        return bbhash.program()
    except (OSError, subprocess.CalledProcessError):
        compare.note("bbhash: left out, install Debian's libbbhash-dev and g++")
        return None


def said(words: list) -> list[str]:
    done = subprocess.run(list(map(str, words)), stdout=subprocess.PIPE, text=True)
    if done.returncode != 0:
        sys.exit(f"status {done.returncode}: {' '.join(map(str, words))}")
    return done.stdout.splitlines()


def add(times: Times, lines: list[str]) -> None:
    for line in lines:
        name, seconds = line.split()
        times.setdefault(name, []).append(float(seconds))


def asked(ours: Path, keys: Keys, rounds: int) -> Times:
    """Look-ups and opening."""
    times: Times = {}
    add(times, said([ours, "ask", keys.algorithm, keys.path, keys.function, keys.seed, rounds, keys.path.with_name("theirs")]))
    return times


def built(ours: Path, theirs: Path | None, keys: Keys, rounds: int) -> Times:
    """Builds, of which those by this program and by bbhash are processes of their own."""
    times: Times = {}
    out = keys.path.with_name("built")
    for _ in range(rounds):
        add(times, said([ours, "build", keys.algorithm, keys.path, keys.seed, out]))
        times.setdefault(PROGRAM, []).append(compare.must(compare.our_build(keys.algorithm, keys.path)).seconds)
        for name, gamma in BBHASH.items() if theirs and keys.algorithm == "bdz" else ():
            times.setdefault(name, []).append(bbhash.theirs(theirs, keys.path, gamma)[0] * keys.count / 1e9)
        if not filecmp.cmp(out, keys.function, shallow=False):
            sys.exit(f"{keys.algorithm}: another function file than that of the program")
    return times


def asked_from_python(cmph, keys: Keys, rounds: int) -> Times:
    """Look-ups by the Python package, of keys in one buffer and of a list of bytes."""
    lines = keys.path.read_bytes().splitlines()
    data, ends, until = b"".join(lines), array("Q"), 0
    for line in lines:
        until += len(line)
        ends.append(until)
    function, times = cmph.Function(str(keys.function)), {ARRAYS: [], MANY: []}
    for _ in range(rounds):
        for name, call in ((ARRAYS, lambda: function.arrays(data, ends)), (MANY, lambda: function.many(lines))):
            start = time.process_time()
            call()
            times[name].append(time.process_time() - start)
    return times


def package():
    """The Python package, if it is there."""
    sys.path.insert(0, str(PACKAGE))
    try:
        import cmph
    except (ImportError, OSError) as fault:
        compare.note(f"the Python package: left out, {fault}")
        return None
    return cmph


# The table


def spread(ratios: list[float]) -> str:
    """The median and the quartiles."""
    if len(ratios) < 2:
        return f"{ratios[0]:.2f}"
    low, middle, high = statistics.quantiles(ratios, n=4, method="inclusive")
    return f"{middle:.2f} ({low:.2f} to {high:.2f})"


def judged(value: float, goal: float | None, unit: str = "") -> list[str]:
    return ["", ""] if goal is None else [f"at most {goal:g}{unit}" if unit else f"at most {goal:.2f}", "met" if value <= goal else "MISSED"]


def row(what: str, keys: Keys, times: Times, ours: str, theirs: str | None = None) -> str:
    """Least times, and the ratios of the rounds; of calls from Python, which are in another process, the ratio of the least times."""
    cells = [f"{1e9 * min(times[ours]) / keys.count:.1f}"]
    if theirs is None:
        cells += ["", "", *judged(float(cells[0]), MOST_OF_A_LIST if ours == MANY else None, " ns")]
    else:
        ratios = [min(times[ours]) / min(times[theirs])] if ours == ARRAYS else [a / b for a, b in zip(times[ours], times[theirs])]
        goal = GOALS.get((ours, theirs), {}).get(keys.algorithm)
        cells += [f"{1e9 * min(times[theirs]) / keys.count:.1f}", spread(ratios), *judged(statistics.median(ratios), goal)]
    beside = "" if theirs is None else theirs if " " in theirs else f"`{theirs}`"
    return f"| {keys.algorithm} | {what}: `{ours}` | {beside} | {' | '.join(cells)} |"


def rows(keys: Keys, times: Times) -> list[str]:
    pairs = [
        ("one key a call", ANSWER, [SEARCH]),
        ("all keys in a call", ANSWERS, [SEARCH]),
        ("opening", OPEN, [LOAD]),
        ("a build in memory", BUILD, [NEW, PROGRAM, *BBHASH]),
        ("from Python, two buffers", ARRAYS, [ANSWERS]),
        ("from Python, a list", MANY, []),
    ]
    lines = []
    for what, ours, others in pairs:
        there = [other for other in others if other in times]
        lines += [row(what, keys, times, ours, other) for other in there or [None] if ours in times]
    return lines


def measure(ours: Path, theirs: Path | None, cmph, options: argparse.Namespace, algorithm: str, path: Path) -> list[str]:
    count = compare.fitting_keys(str(options.keys), algorithm, path)
    compare.note(f"{count} keys, {algorithm}")
    seed = 0 if algorithm == "brz" else int(said([ours, "seed", algorithm, path])[0])
    keys = Keys(algorithm, count, path, seed)
    times = asked(ours, keys, options.rounds)
    if algorithm != "brz":
        times |= built(ours, theirs, keys, options.builds)
    if cmph:
        times |= asked_from_python(cmph, keys, options.builds)
    return rows(keys, times)


def main() -> None:
    parser = argparse.ArgumentParser(description=__doc__, formatter_class=argparse.RawDescriptionHelpFormatter)
    parser.add_argument("--rounds", type=int, default=31, help="how often the keys are looked up (31)")
    parser.add_argument("--builds", type=int, default=5, help="how often each builds (5)")
    parser.add_argument("--keys", type=int, default=MILLION, help="how many keys there are (1000000)")
    parser.add_argument("--python", action="store_true", help="the Python package, too")
    parser.add_argument("--program", default=str(compare.OURS))
    parser.add_argument("--archive", action="append", help="another archive than lib/libcmph_c.a; more than one may be given")
    parser.add_argument("algorithms", metavar="ALGORITHM", nargs="*", default=compare.ALGORITHMS)
    options = parser.parse_args()
    compare.OURS, archives = Path(options.program).resolve(), options.archive or [str(ARCHIVE)]
    if not compare.OURS.exists() or not all(map(Path.exists, map(Path, archives))):
        sys.exit("run make all library first")
    compare.adopt()
    ours, theirs, cmph, lines = program(archives), bbhash_program(), package() if options.python else None, []
    with tempfile.TemporaryDirectory() as folder:
        for algorithm in options.algorithms:
            lines += measure(ours, theirs, cmph, options, algorithm, Path(folder) / "keys")
    heads = ["algorithm", "", "beside", "ns a key", "beside, ns a key", "ratio", "aim", ""]
    print("\n".join([f"| {' | '.join(heads)} |", "|---" * len(heads) + "|", *lines]))
    print(f"\n{options.keys:,} keys of 14 bytes in memory. Processor time, the least of {options.rounds} interleaved rounds, and of {options.builds} of builds. "
          "A ratio is the median of those of the rounds, with its quartiles. The time of opening, too, is divided by the number of keys.")


if __name__ == "__main__":
    main()
