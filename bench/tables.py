#!/usr/bin/env python3
"""Writes the measured tables of README.md, bench/notebook.md and docs/ from the files in bench/results, those of crates from crates.txt,
and code from its file.

    bench/tables.py                            writes every block, and the drawings of results and of crates
    bench/tables.py --check                    writes nothing, and fails if a block or a drawing is not what it would write, if
                                               docs/believe/proofs.md has no row of a crate
    bench/tables.py --record NAME COMMAND ..   runs COMMAND, and first leaves what it prints in bench/results/NAME.md, with
                                               the machine, the date and the command

A block stands in a page between `<!-- begin: WHAT -->` and `<!-- end -->`. WHAT is one of

    bench NAME [TEXT]   all of bench/results/NAME.md, or of its tables those rows alone that begin with TEXT
    choice NAME KEYS    which algorithm to take, with the figures of NAME.csv for that many generated keys
    families            each family of crates with what it is for and what it promises, by crates.txt
    contents [all]      the headings of the page, with `all` those of the third level too
    reading CRATE MODULE NAME
                        the definitions that the clauses of a theorem reach (bench/reading.py)
    kit                 what the crates are proved with, by `rt version`
    source FILE [TEXT]  a file of the repository as code, or of it the lines between two empty ones of which one begins with TEXT

The drawings in docs/measured are made from bench/results (bench/plots.py), and docs/believe/crates.svg from crates.txt (bench/house.py).
"""

import csv
import os
import re
import shlex
import subprocess
import sys
from datetime import date
from pathlib import Path

import compare
import house
import plots
import reading

TOP = Path(__file__).resolve().parent.parent
RESULTS = TOP / "bench" / "results"
CRATES = TOP / "docs" / "believe" / "crates.svg"
BLOCK = re.compile(r"^<!-- begin: ([^\n]*) -->\n(.*?)^<!-- end -->$", re.MULTILINE | re.DOTALL)
MARKER = re.compile(r"^<!-- (begin: .*|end) -->$", re.MULTILINE)
FENCES = {".rt": "rust", ".rs": "rust", ".antt": "antt"}
NEEDS = {
    "chm": ("the numbers of the lines, in the order of the keys", "0 to m - 1, in order"),
    "bdz": ("a small function, and no number left out", "0 to m - 1, in no order that means anything"),
    "bdz_ph": ("the smallest function; numbers may be left out", "distinct, below about 1.23 m"),
    "brz": ("the least memory in a build, for sets of keys larger than memory", "0 to m - 1, in no order that means anything"),
}


class Refused(Exception):
    """Why a page can't be written."""


def written_on(day: date) -> str:
    return f"{day.day} {day:%B %Y}"


def figures(measure: str, value: float) -> str:
    """A value with as many digits as the table of bench/compare.py shows of it."""
    return f"{value:.{compare.DIGITS.get(measure, 0)}f}"


def choice(name: str, keys: str) -> str:
    """Which algorithm to take for which need."""
    with open(RESULTS / f"{name}.csv", newline="") as file:
        rows = [row for row in csv.DictReader(file) if row["set"] == keys]
    if not rows:
        raise Refused(f"bench/results/{name}.csv has nothing of {keys} generated keys")
    ours = {(row["algorithm"], row["measure"]): figures(row["measure"], float(row["ours"])) for row in rows}
    columns = ["function, bits a key", "build, s", "build, bytes a key", "query, s", "query, bytes a key"]
    lines = ["| You want | `-a` | Numbers of m keys | " + " | ".join(columns) + " |", "|---" * (len(columns) + 3) + "|"]
    for algorithm in dict.fromkeys(row["algorithm"] for row in rows):
        if algorithm not in NEEDS:
            raise Refused(f"bench/tables.py does not say who needs {algorithm}")
        need, numbers = NEEDS[algorithm]
        cells = [need, f"`{algorithm}`", numbers, *(ours[algorithm, column] for column in columns)]
        lines.append("| " + " | ".join(cells) + " |")
    facts = (RESULTS / f"{name}.md").read_text().split("\n\n")[0]
    return f"{int(keys):,} generated keys of 14 bytes. {facts}\n\n" + "\n".join(lines) + "\n" + summary(name)


def beside_c(name: str) -> list[dict]:
    """The rows of what was measured beside the C tool: none if it was not there."""
    with open(RESULTS / f"{name}.csv", newline="") as file:
        return [row for row in csv.DictReader(file) if row["to_c"]]


def summary(name: str) -> str:
    """The lowest and the greatest ratios of times to the C tool, over all sets of keys."""
    rows, said = beside_c(name), []
    if not rows:
        return ""
    for measure, what in (("build, s", "builds took"), ("query, s", "queries")):
        ratios = [float(row["to_c"]) for row in rows if row["measure"] == measure]
        said.append(f"{what} {min(ratios):.2f} to {max(ratios):.2f}")
    return f"\nOver all sets of keys that were measured, {' and '.join(said)} of the C tool's processor time.\n"


def results(name: str, text: str) -> str:
    """What was measured; with a text, of the tables' rows only those that begin with it."""
    lines = (RESULTS / f"{name}.md").read_text().splitlines()
    heads = {at + step for at, line in enumerate(lines) if line.startswith("|---") for step in (-1, 0)}
    rows = {at for at, line in enumerate(lines) if line.startswith("|")} - heads
    dropped = {at for at in rows if not lines[at].startswith(f"| {text}")} if text else set()
    if text and dropped == rows:
        raise Refused(f"bench/results/{name}.md has no row that begins with '{text}'")
    return "\n".join(line for at, line in enumerate(lines) if at not in dropped) + "\n"


def source(path: str, text: str) -> str:
    """A file as code, or of it the lines between two empty ones of which one begins with a text."""
    code = (TOP / path).read_text()
    if text:
        parts = [part for part in re.split(r"\n{2,}", code) if any(line.startswith(text) for line in part.split("\n"))]
        if len(parts) != 1:
            raise Refused(f"{path} has {len(parts)} parts in which a line begins with '{text}'")
        code = parts[0]
    return f"```{FENCES.get(Path(path).suffix, '')}\n{code.strip()}\n```\n"


def contents(text: str, depth: int) -> str:
    """A list of the headings of a page, to this level."""
    code = re.compile(r"^```.*?^```$", re.MULTILINE | re.DOTALL)
    lines, seen = [], {}
    for level, heading in re.findall(r"^(##+) (.*)$", code.sub("", text), re.MULTILINE):
        anchor = re.sub(r"[^\w\- ]", "", heading.lower()).replace(" ", "-")
        again = seen[anchor] = seen.get(anchor, -1) + 1
        if len(level) <= depth:
            lines.append(f"{'  ' * (len(level) - 2)}- [{heading}](#{anchor}{f'-{again}' if again else ''})")
    return "\n".join(lines) + "\n"


def content(what: str, text: str) -> str:
    """What stands in a block of a page."""
    match what.split():
        case ["contents"]:
            return contents(text, 2)
        case ["contents", "all"]:
            return contents(text, 3)
        case ["bench", name, *row]:
            return results(name, " ".join(row))
        case ["choice", name, keys]:
            return choice(name, keys)
        case ["families"]:
            return house.table_of_families()
        case ["reading", crate, module, name]:
            return reading.table(crate, module, name)
        case ["kit"]:
            return f"Proved with `{subprocess.run(['rt', 'version'], capture_output=True, text=True, check=True).stdout.strip()}`.\n"
        case ["source", path, *text]:
            return source(path, " ".join(text))
    raise Refused(f"there is no block '{what}'")


def page(text: str) -> str:
    """The page with its blocks as they should be."""
    markers = [found.startswith("begin") for found in MARKER.findall(text)]
    if markers != [True, False] * (len(markers) // 2):
        raise Refused("a block does not begin and end")
    return BLOCK.sub(lambda block: f"<!-- begin: {block[1]} -->\n{content(block[1], text)}<!-- end -->", text)


def wanted() -> dict[Path, str]:
    """Each page, and the drawings, as they should be."""
    pages = {}
    for path in [TOP / "README.md", TOP / "bench" / "notebook.md", *sorted((TOP / "docs").rglob("*.md"))]:
        try:
            pages[path] = page(path.read_text())
        except (Refused, house.Refused, OSError) as fault:
            sys.exit(f"{path.relative_to(TOP)}: {fault}")
    try:
        pages[CRATES] = house.drawn()
    except house.Refused as fault:
        sys.exit(f"{CRATES.relative_to(TOP)}: {fault}")
    return pages | plots.drawings()


def not_in_proofs() -> list[str]:
    """The crates of the program that have no row in docs/believe/proofs.md."""
    rows = re.findall(r"^\| (`[^|]*`) \|", (TOP / "docs" / "believe" / "proofs.md").read_text(), re.MULTILINE)
    named = {name for row in rows for name in re.findall(r"`(\w+)`", row)}
    crates = [crate.name for family in house.read() for crate in family.crates]
    return [name for name in crates if name not in named and not name.startswith(("test_", "bench_"))]


def record(name: str, command: list[str]) -> None:
    """Runs a command that measures, and leaves what it prints."""
    load = os.getloadavg()[0]
    printed = subprocess.run(command, stdout=subprocess.PIPE, text=True, check=True).stdout
    facts = (
        f"Measured on {written_on(date.today())} by `{shlex.join(command)}` on {compare.machine()}. "
        f"Load average {load:.1f} at the start, {os.getloadavg()[0]:.1f} at the end."
    )
    (RESULTS / f"{name}.md").write_text(f"{facts}\n\n{printed.strip()}\n")


def main() -> int:
    asked = sys.argv[1:]
    if asked[:1] == ["--record"] and len(asked) >= 3:
        record(asked[1], asked[2:])
    elif asked not in ([], ["--check"]):
        print(__doc__)
        return 2
    old = {path: text for path, text in wanted().items() if not path.exists() or path.read_text() != text}
    for path, text in old.items():
        if asked == ["--check"]:
            print(f"{path.relative_to(TOP)} differs from what its blocks are written from: run bench/tables.py", file=sys.stderr)
        else:
            path.write_text(text)
            print(f"{path.relative_to(TOP)}: written")
    faults = [f"docs/believe/proofs.md has no row of {name}" for name in not_in_proofs()]
    for fault in faults:
        print(fault, file=sys.stderr)
    return 1 if (old or faults) and asked == ["--check"] else 0


if __name__ == "__main__":
    sys.exit(main())
