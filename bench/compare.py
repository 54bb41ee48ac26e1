#!/usr/bin/env python3
"""Measures this program beside the C tool of the CMPH library, and beside the same algorithms in plain Rust.

    bench/compare.py [--name NAME] [--rounds N] [--builds N] [SET ..]

A SET is a number of generated keys, `words` (Debian's word list), `paths` (paths of files of this machine), or the path of a
file of keys. Every tool builds a function over the same keys and answers them all, in N interleaved runs (3), or builds it in
fewer: a build of the C tool over many keys takes long. The least processor time counts, and the greatest memory.

For equal work each tool takes a seed whose first graph works, or by brz the first split. This program tries seeds from 1 on,
so the keys are chosen: the first block of generated keys that seed 1 serves, or a file without its last few lines. For the C
tool the seed is chosen. By brz each tool has a buffer of 1 megabyte, and its spill files go beside the keys; the C tool builds
its buckets by another algorithm than BDZ.

It prints one table: seconds of processor time, peaks of memory and sizes for each key, and in brackets the ratio to the
C tool. It leaves the table in bench/results/NAME.md and its numbers in bench/results/NAME.csv; bench/tables.py puts them into
the documents. It needs bin/cmph (`make`). What is not installed is left out with a line that says so: the C tool (Debian's
libcmph-tools), the word list (wamerican), and rustc.
"""

import argparse
import csv
import ctypes
import filecmp
import functools
import os
import platform
import shlex
import shutil
import subprocess
import sys
import tempfile
from datetime import date
from pathlib import Path
from typing import NamedTuple

TOP = Path(__file__).resolve().parent.parent
OURS = TOP / "bin" / "cmph"
ALGORITHMS = ["chm", "bdz", "bdz_ph", "brz"]  # asked of the program one by one; it is measured with those that it takes
MEGABYTES = 1  # of the buffer for builds by brz, of each tool
SETS = ["100000", "1000000", "10000000", "words", "paths"]
WORDS = Path("/usr/share/dict/words")
PATHS_FROM, MOST_PATHS = "/usr", 1_000_000
TOOLS = ["ours", "plain", "c"]
MEASURES = ["build, s", "query, s", "build, bytes a key", "query, bytes a key", "function, bits a key"]
COLUMNS = ["set", "keys", "algorithm", "measure", *TOOLS, "to_plain", "to_c"]
DIGITS = {"build, s": 3, "query, s": 3, "function, bits a key": 2}  # how many the table shows after the point


def note(text: str) -> None:
    print(text, file=sys.stderr, flush=True)


# Running


class Used(NamedTuple):
    status: int
    seconds: float  # processor time, of the program and of the system for it
    memory: int  # bytes, at the peak


def adopt() -> None:
    """Makes this process the parent of those whose own parent ends."""
    set_child_subreaper = 36
    if ctypes.CDLL(None, use_errno=True).prctl(set_child_subreaper, 1, 0, 0, 0) != 0:
        sys.exit("this system can't hand over the children of a child")


def run(words: list) -> Used:
    """Runs a program to its end and throws away what it writes.

    The peak of a process is never below that of the one it was forked from. So a shell, which is small, forks the
    program and ends, and the program becomes a child of this one.
    """
    script = '"$@" >/dev/null 2>&1 & exit 0'
    shell = os.posix_spawn("/bin/sh", ["sh", "-c", script, "sh", *map(str, words)], os.environ)
    os.waitpid(shell, 0)
    _, status, used = os.wait4(-1, 0)
    return Used(os.waitstatus_to_exitcode(status), used.ru_utime + used.ru_stime, used.ru_maxrss * 1024)


def must(words: list) -> Used:
    used = run(words)
    if used.status != 0:
        sys.exit(f"status {used.status}: {' '.join(map(str, words))}")
    return used


# The tools


def buffer_of(algorithm: str, keys: Path) -> list:
    """The options of the buffer and of the spill file, which goes beside the keys."""
    return ["-M", MEGABYTES, "-d", keys.parent] if algorithm == "brz" else []


def our_build(algorithm: str, keys: Path) -> list:
    choice = [] if algorithm == "chm" else ["-a", algorithm]
    return [OURS, "-g", *choice, *buffer_of(algorithm, keys), keys]


def our_seed(keys: Path) -> int:
    """The seed of the function file, which has it at byte 20."""
    with open(f"{keys}.mph", "rb") as file:
        return int.from_bytes(file.read(24)[20:], "little")


def taken_algorithms(scratch: Path) -> list[str]:
    """Those by which the program builds a function over one key."""
    keys = scratch / "one"
    keys.write_bytes(b"key\n")
    taken = [name for name in ALGORITHMS if run(our_build(name, keys)).status == 0]
    for name in ALGORITHMS:
        if name not in taken:
            note(f"{name}: left out, the program doesn't take it")
    return taken


def c_tool() -> str | None:
    """The C tool: a `cmph` of the path that isn't this one."""
    found = shutil.which("cmph")
    if found is None or Path(found).resolve() == OURS or not says_c(found):
        note("the C tool: left out, install Debian's libcmph-tools")
        return None
    return found


def says_c(program: str) -> bool:
    helped = subprocess.run([program, "-h"], stdout=subprocess.PIPE, stderr=subprocess.STDOUT)
    return b"-t keys_per_bin" in helped.stdout


def c_build(tool: str, algorithm: str, seed: int, function: Path, keys: Path) -> list:
    return [tool, "-g", "-a", algorithm, *buffer_of(algorithm, keys), "-m", function, "-s", seed, keys]


def c_serves(build: list) -> bool | None:
    """Whether this build by the C tool serves at its first try: it notes each that fails. Nothing if it ends in another way."""
    words = list(map(str, build))
    with subprocess.Popen(words, stdout=subprocess.DEVNULL, stderr=subprocess.PIPE) as running:
        failed = any(b"failure" in line.lower() for line in running.stderr)
        if failed:
            running.kill()
    return False if failed else True if running.returncode == 0 else None


def c_seed(tool: str, algorithm: str, function: Path, keys: Path) -> int:
    """A seed whose first graph or split serves the C tool."""
    for seed in range(1, 1000):
        if c_serves([tool, "-v", *c_build(tool, algorithm, seed, function, keys)[1:]]):
            return seed
    sys.exit(f"{algorithm}: no seed below 1000 serves the C tool")


@functools.cache
def plain_rust(algorithm: str) -> Path | None:
    """The same algorithm in plain Rust, if there is one: bench/NAME.rs, which writes the same bytes."""
    source = TOP / "bench" / f"{algorithm}.rs"
    if not source.exists():
        return None
    if shutil.which("rustc") is None:
        note(f"{source.name}: left out, install rustc")
        return None
    program = TOP / "bench" / "out" / algorithm
    program.parent.mkdir(exist_ok=True)
    subprocess.run(["rustc", "--edition", "2024", "-O", "-o", program, source], check=True)
    return program


@functools.cache
def c_program(name: str, package: str, *libraries: str) -> Path | None:
    """The program of bench/NAME.c, if gcc and the libraries are there."""
    program = TOP / "bench" / "out" / name
    program.parent.mkdir(exist_ok=True)
    words = ["gcc", "-O2", "-o", program, TOP / "bench" / f"{name}.c", *(f"-l{library}" for library in libraries)]
    built = shutil.which("gcc") and subprocess.run(words, stderr=subprocess.DEVNULL)
    if not built or built.returncode != 0:
        note(f"{name}: left out, install Debian's {package} and gcc")
        return None
    return program


# The keys


def make_keys(path: Path, count: int, first: int) -> None:
    """`count` keys of 14 bytes, all distinct: those of the numbers from `first` on."""
    with open(path, "w") as file:
        for start in range(first, first + count, 100_000):
            numbers = range(start, min(start + 100_000, first + count))
            file.writelines(f"key-{2654435761 * i % 4294967296:010d}\n" for i in numbers)


def lines_of_paths() -> list[bytes]:
    """The paths of the files of this machine, in the order of their bytes."""
    paths = []
    for folder, folders, files in os.walk(os.fsencode(PATHS_FROM)):
        folders.sort()
        paths += [os.path.join(folder, name) for name in files]
        if len(paths) >= MOST_PATHS:
            break
    return sorted(path for path in paths[:MOST_PATHS] if b"\n" not in path)


def lines_of(name: str) -> list[bytes] | None:
    """The lines of a set that isn't generated, each once, or nothing if it isn't there."""
    if name == "paths":
        return lines_of_paths()
    path = WORDS if name == "words" else Path(name)
    if not path.exists():
        missing = "install Debian's wamerican" if name == "words" else "there is no such file"
        note(f"{name}: left out, {missing}")
        return None
    lines = path.read_bytes().split(b"\n")
    if lines[-1] == b"":
        lines.pop()
    return list(dict.fromkeys(lines))


def fitting_keys(name: str, algorithm: str, keys: Path) -> int | None:
    """Keys that seed 1 serves, and how many they are."""
    lines = None if name.isdigit() else lines_of(name)
    if not name.isdigit() and lines is None:
        return None
    for turn in range(1000):
        if lines is None:
            count = int(name)
            make_keys(keys, count, turn * count)
        else:
            count = len(lines) - turn
            keys.write_bytes(b"".join(line + b"\n" for line in lines[:count]))
        must(our_build(algorithm, keys))
        if our_seed(keys) == 1:
            return count
    sys.exit(f"{name}: seed 1 never serves")


# The measuring


def interleaved(commands: dict[str, list], rounds: int) -> dict[str, Used]:
    """The least time and the greatest memory of each."""
    best = {}
    for _ in range(rounds):
        for tool, words in commands.items():
            used = must(words)
            old = best.get(tool, used)
            best[tool] = Used(0, min(old.seconds, used.seconds), max(old.memory, used.memory))
    return best


def same_bytes(plain: Path, plain_keys: Path, keys: Path) -> None:
    """Stops if plain Rust writes another function file or other answers."""
    if not filecmp.cmp(f"{plain_keys}.mph", f"{keys}.mph", shallow=False):
        sys.exit(f"{plain.name}.rs: another function file than that of the program")
    answers = []
    for program, queried in [(plain, plain_keys), (OURS, keys)]:
        answers.append(f"{queried}.answers")
        with open(answers[-1], "wb") as file:
            subprocess.run([program, queried], stdout=file, check=True)
    if not filecmp.cmp(*answers, shallow=False):
        sys.exit(f"{plain.name}.rs: other answers than those of the program")
    for path in answers:
        os.remove(path)


def row(name: str, keys: int, algorithm: str, measure: str, values: dict[str, float]) -> dict:
    ratios = {f"to_{tool}": values["ours"] / values[tool] for tool in TOOLS[1:] if values.get(tool)}
    return {"set": name, "keys": keys, "algorithm": algorithm, "measure": measure, **values, **ratios}


def measure(name: str, algorithm: str, rounds: tuple[int, int], tool: str | None, scratch: Path) -> list[dict]:
    """The rows of a set by an algorithm. `rounds` has the runs of builds and of queries."""
    keys, c_function, plain_keys = scratch / "keys", scratch / "c.mph", scratch / "plain"
    count = fitting_keys(name, algorithm, keys)
    if count is None:
        return []
    note(f"measuring {name}, {algorithm}")
    builds = {"ours": our_build(algorithm, keys)}
    queries = {"ours": [OURS, keys]}
    functions = {"ours": Path(f"{keys}.mph")}
    plain = plain_rust(algorithm)
    if plain:
        shutil.copyfile(keys, plain_keys)
        builds["plain"] = [plain, "-g", plain_keys, our_seed(keys)]
        queries["plain"] = [plain, plain_keys]
        functions["plain"] = Path(f"{plain_keys}.mph")
        must(builds["plain"])
        same_bytes(plain, plain_keys, keys)
    if tool:
        seed = c_seed(tool, algorithm, c_function, keys)
        builds["c"] = c_build(tool, algorithm, seed, c_function, keys)
        queries["c"] = [tool, "-v", "-m", c_function, keys]
        functions["c"] = c_function
    built, queried = interleaved(builds, rounds[0]), interleaved(queries, rounds[1])
    bits = {tool: 8 * path.stat().st_size / count for tool, path in functions.items()}
    values = [
        {tool: used.seconds for tool, used in built.items()},
        {tool: used.seconds for tool, used in queried.items()},
        {tool: used.memory / count for tool, used in built.items()},
        {tool: used.memory / count for tool, used in queried.items()},
        bits,
    ]
    return [row(name, count, algorithm, each, of) for each, of in zip(MEASURES, values)]


# What is left


def ratio(each: dict, tool: str) -> str:
    return f"{each[f'to_{tool}']:.2f}" if f"to_{tool}" in each else "-"


def shown(each: dict) -> str:
    """What this program took, and in brackets its ratio to the C tool."""
    return f"{each['ours']:.{DIGITS.get(each['measure'], 0)}f} ({ratio(each, 'c')})"


def table(rows: list[dict]) -> str:
    """One row for each set and algorithm, and one column for each measure."""
    groups: dict[tuple, dict[str, dict]] = {}
    for each in rows:
        groups.setdefault((each["set"], each["keys"], each["algorithm"]), {})[each["measure"]] = each
    lines = ["| keys | algorithm | " + " | ".join(MEASURES) + " | to plain Rust: build | query |"]
    lines.append("|---" * (len(MEASURES) + 4) + "|")
    for (name, count, algorithm), group in groups.items():
        cells = [f"{count:,} {'generated' if name.isdigit() else Path(name).name}", algorithm, *map(shown, group.values())]
        lines.append("| " + " | ".join([*cells, *(ratio(group[of], "plain") for of in MEASURES[:2])]) + " |")
    return "\n".join(lines)


def machine() -> str:
    with open("/proc/cpuinfo") as file:
        models = [line.split(":", 1)[1].strip() for line in file if line.startswith("model name")]
    return f"{os.cpu_count()} processors ({models[0] if models else platform.machine()})"


def leave(name: str, rows: list[dict], facts: str) -> None:
    results = TOP / "bench" / "results"
    results.mkdir(exist_ok=True)
    with open(results / f"{name}.csv", "w", newline="") as file:
        writer = csv.DictWriter(file, COLUMNS, lineterminator="\n")
        writer.writeheader()
        for each in rows:
            writer.writerow({key: f"{value:.5g}" if isinstance(value, float) else value for key, value in each.items()})
    (results / f"{name}.md").write_text(f"{facts}\n\n{table(rows)}\n")


def facts_of(asked: argparse.Namespace, load: float) -> str:
    """What is said above the table: when, by which command, on which machine, and how busy it was."""
    day, command = date.today(), shlex.join(["python3", "bench/compare.py", *sys.argv[1:]])
    runs = "one run each, interleaved" if asked.rounds == 1 else f"{asked.rounds} interleaved runs"
    runs += f", of {asked.builds} for a build" if asked.builds else ""
    return (
        f"Measured on {day.day} {day:%B %Y} by `{command}` on {machine()}: the least processor time and the "
        f"greatest memory of {runs}. Load average {load:.1f} at the start, {os.getloadavg()[0]:.1f} at the end."
        "\n\nIn brackets: the ratio to the C tool."
    )


def main() -> None:
    parser = argparse.ArgumentParser(description=__doc__, formatter_class=argparse.RawDescriptionHelpFormatter)
    parser.add_argument("--name", default="latest", help="the name of the results (latest)")
    parser.add_argument("--rounds", type=int, default=3, help="how often each tool runs (3)")
    parser.add_argument("--builds", type=int, help="how often each tool builds, if not as often")
    parser.add_argument("sets", metavar="SET", nargs="*", default=SETS, help=f"the sets of keys ({' '.join(SETS)})")
    asked = parser.parse_args()
    if not OURS.exists():
        sys.exit("run make first")
    adopt()
    load = os.getloadavg()[0]
    with tempfile.TemporaryDirectory() as folder:
        scratch = Path(folder)
        tool = c_tool()
        taken = taken_algorithms(scratch)
        rows = []
        for name in asked.sets:
            for algorithm in taken:
                rows += measure(name, algorithm, (asked.builds or asked.rounds, asked.rounds), tool, scratch)
    facts = facts_of(asked, load)
    print(f"{facts}\n\n{table(rows)}")
    leave(asked.name, rows, facts)


if __name__ == "__main__":
    main()
