#!/usr/bin/env python3
"""Measures what the gate costs: the prover's processor time by crate, while `rt ci` runs.

    bench/gate.py RECORD [ARGUMENT ..]     runs `rt ci ARGUMENT ..`, and leaves what it measured in RECORD
    bench/gate.py --table RECORD ..        prints a table of such records, added up
    bench/gate.py --latest RECORD ..       the same, but of each crate and column the last record counts

Twice a second it samples the provers below `rt ci`, so it misses up to half a second of each. What an earlier run on this machine has passed is
not proved again; `--anew` proves all. A table leaves out crates that crates.txt no longer has. Below it stand the sum, and the chain of crates, each of
which waits for the one before it, whose proofs take longest: that and the sum decide the time by the clock.
"""
import json
import os
import subprocess
import sys
import time
from pathlib import Path

sys.path.insert(0, str(Path(__file__).resolve().parent.parent / "tools"))

import prove  # noqa: E402

TICKS = os.sysconf("SC_CLK_TCK")
KINDS = ["proofs", "tests", "wrong bodies"]


def fields_of(process):
    """The fields of a process's stat file after its name."""
    with open(f"/proc/{process}/stat") as file:
        stat = file.read()
    return stat[stat.rindex(")") + 2:].split()


def is_below(process, top):
    while process > 1 and process != top:
        process = int(fields_of(process)[1])
    return process == top


def kind_of(process, words):
    if "rt-edit" in os.readlink(f"/proc/{process}/cwd"):
        return "wrong bodies"
    return "tests" if "--test" in words else "proofs"


def look(top, seen):
    """Notes the time that each prover below `top` has taken so far."""
    for process in filter(str.isdigit, os.listdir("/proc")):
        try:
            with open(f"/proc/{process}/cmdline") as file:
                words = file.read().split("\0")
            if os.path.basename(words[0]) != "rattle" or "--crate-name" not in words or not is_below(int(process), top):
                continue
            fields = fields_of(process)
            key = f"{process} {fields[19]}"
            name = words[words.index("--crate-name") + 1]
            seen.setdefault(key, [name, kind_of(process, words), 0.0])[2] = (int(fields[11]) + int(fields[12])) / TICKS
        except (OSError, ValueError, IndexError):
            pass  # the process has ended


def measure(record, arguments):
    gate = subprocess.Popen(["rt", "ci", *arguments])
    seen, start = {}, time.time()
    while gate.poll() is None:
        look(gate.pid, seen)
        time.sleep(0.5)
    by = {}
    for name, kind, seconds in seen.values():
        count, before = by.setdefault(name, {}).get(kind, (0, 0.0))
        by[name][kind] = (count + 1, before + seconds)
    with open(record, "w") as file:
        json.dump({"wall": time.time() - start, "by": by}, file, indent=1)
    return gate.returncode


def longest_chain(seconds):
    """The chain of crates whose proofs take longest, lowest first, and how long, by the seconds that each crate's proof takes."""
    found = {}

    def chain(name):
        if name not in found:
            below = [chain(it) for it in prove.named_by(name) if it in seconds]
            before = max(below, key=lambda it: it[0], default=(0, []))
            found[name] = before[0] + seconds[name], [*before[1], name]
        return found[name]

    return max(map(chain, seconds), key=lambda it: it[0])


def table(records, adds):
    by, crates = {}, prove.listed()
    for record in records:
        with open(record) as file:
            for name, kinds in json.load(file)["by"].items():
                if name not in crates:
                    continue
                for kind, (count, seconds) in kinds.items():
                    found = by.setdefault(name, {})
                    before = found.get(kind, (0, 0.0)) if adds else (0, 0.0)
                    found[kind] = (before[0] + count, before[1] + seconds)
    print("| crate | " + " | ".join(f"{kind}, min" for kind in KINDS) + " |")
    print("|---|" + "---|" * len(KINDS))
    cell = lambda seconds: f"{seconds / 60:.1f}" if seconds else ""
    for name in sorted(by):
        print(f"| `{name}` | " + " | ".join(cell(by[name].get(kind, (0, 0.0))[1]) for kind in KINDS) + " |")
    sums = [sum(kinds.get(kind, (0, 0.0))[1] for kinds in by.values()) for kind in KINDS]
    print("| all | " + " | ".join(cell(total) for total in sums) + " |")
    took, chain = longest_chain({name: kinds.get("proofs", (0, 0.0))[1] for name, kinds in by.items()})
    print(f"\nTogether {sum(sums) / 60:.0f} minutes. The longest chain of proofs takes {took / 60:.0f} minutes: {', '.join(f'`{name}`' for name in chain)}.")
    return 0


def main():
    arguments = sys.argv[1:]
    if not arguments or arguments[0] in ("-h", "--help"):
        print(__doc__)
        return 2
    if arguments[0] in ("--table", "--latest"):
        return table(arguments[1:], adds=arguments[0] == "--table")
    return measure(arguments[0], arguments[1:])


if __name__ == "__main__":
    sys.exit(main())
