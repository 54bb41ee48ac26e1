"""Memory that is refused."""

import os
import sys
from typing import Callable, NamedTuple

from . import model
from .model import Ends, said
from .runs import (GIB, MOST_C, NAMES, OLDER, PAGE, Left, Machine, Row, built, c_build, c_built, c_file, case, counts, equal_report, get, in_version_1,
                   numbered, numbers, put, spills)

# Refused memory


class Job(NamedTuple):
    words: list[str]
    end: Ends  # with memory
    older: bytes = OLDER  # what the function file `g` holds before


def test_job(machine: Machine) -> Job:
    """A test of all algorithms over generated keys. Its sums are those of all numbers below that of the keys."""
    count = 2000
    text = machine.ours("-T", str(count)).out
    lines = text.decode().split("\n")
    if [line.split(" ")[:2] for line in lines[:-1]] != [[name, str(count)] for name in NAMES] or lines[0].split(" ")[3] != str(count * (count - 1) // 2):
        sys.exit("a test prints other lines")
    return Job(["-T", str(count)], Ends(0, text))


def memory_jobs(machine: Machine) -> list[Job]:
    """Builds, queries, upgrades, a report and a test, over the files that they take."""
    count = 20_000
    put("keys", numbered(count))
    put("equal", b"\n" * 2000)
    jobs = []
    for name in NAMES:
        whole = built(machine, name)
        put(f"{name}.f", whole)
        text = machine.ours("-m", "f", "keys").out
        if name == "chm" and text != numbers(count):
            sys.exit("a query by chm gives other numbers")
        jobs.append(Job(["-g", "-a", name, "-m", "g", "keys"], Ends(0, b"", b"", whole)))
        jobs.append(Job(["-m", f"{name}.f", "keys"], Ends(0, text)))
        jobs.append(Job(["-u", "-m", "g"], Ends(0, b"", b"", whole), in_version_1(name, whole)))
    jobs.append(Job(["-g", "-s", "0", "-m", "g", "equal"], Ends(1, equal_report(2000), said(model.NO_SEED))))
    return [*jobs, test_job(machine)]


def state_of(found: bytes, job: Job) -> str:
    """What the function file holds."""
    if found == job.older:
        return "the older file whole"
    if found == job.end.dump:
        return "the new file whole"
    if found == b"":
        return "the older file emptied"
    return "a prefix of the new file" if (job.end.dump or b"").startswith(found) else "neither file"


def check_memory(row: Row, left: Left, job: Job) -> bool:
    """Whether a run of a job had enough memory. It ends as with memory, or with status 6."""
    found, is_build = get("g"), "-g" in job.words
    note = "" if found == job.older else f", {state_of(found, job)}"
    if left.status == job.end.status:
        row.same(left, job.end, {"the function file": found == (job.end.dump or job.older), "no spill file": not spills()})
        return True
    if left.status not in (None, 6):
        note = f", {state_of(found, job)}"
    may_be_empty = job.end.dump is not None and found == b""
    row.check(left, 6, {"standard error": left.err == said("out of memory"),
                        "standard output": left.out == b"" if is_build else job.end.out.startswith(left.out),
                        "the function file": found == job.older or may_be_empty, "no spill file": not spills()}, note)
    # The system removes no spill file of a program that it kills.
    for name in spills():
        os.remove(name)
    return False


def starts(machine: Machine, run: Callable[..., Left], words: tuple[str, ...], good: tuple[int, ...]) -> int:
    """The least address space, in bytes, in which a program gets as far as its own code."""
    low, high = 0, GIB
    while high - low > PAGE:
        middle = (low + high) // 2 // PAGE * PAGE
        low, high = (low, middle) if run(*words, limits=(f"--as={middle}",)).status in good else (middle, high)
    return high


@case("address space, in steps of 4 KiB, from where the program starts up to where it succeeds: builds, queries, upgrades, a report, a test")
def _(machine: Machine, row: Row) -> None:
    least = starts(machine, machine.ours, ("-V",), (0, 6))
    for job in memory_jobs(machine):
        for most in range(least, GIB, PAGE if machine.share >= 1 else 16 * PAGE):
            put("g", job.older)
            if check_memory(row, machine.ours(*job.words, limits=(f"--as={most}",)), job):
                break
    if machine.tool:
        address_space_of_c(machine, row)


def address_space_of_c(machine: Machine, row: Row) -> None:
    least, runs = starts(machine, machine.theirs, ("-V",), (0,)), 0
    for name in NAMES:
        whole = c_built(machine, name)
        for most in range(least, GIB, 2 * PAGE):
            put("g", OLDER)
            left = machine.theirs(*c_build(name, "g"), limits=(f"--as={most}",))
            found, runs = get("g"), runs + 1
            row.c_ends[left.ending() + c_file(left, found, whole)] += 1
            if (left.status == 0 and found == whole) or runs >= MOST_C:
                break


@case("each request for memory refused, alone and with all after it: builds, queries, upgrades, a report, a test", needs="library")
def _(machine: Machine, row: Row) -> None:
    for job in memory_jobs(machine):
        machine.ours(*job.words, bend={"HOSTILE_COUNTS": "counts"})
        for number in range(1, counts()[0] + 1):
            for once in ({}, {"HOSTILE_ONCE": "1"}):
                put("g", job.older)
                check_memory(row, machine.ours(*job.words, bend={"HOSTILE_REFUSE": str(number), **once}), job)
    if machine.tool:
        refused_c(machine, row)


def refused_c(machine: Machine, row: Row) -> None:
    for name in NAMES:
        whole = c_built(machine, name)
        machine.theirs(*c_build(name, "g"), bend={"HOSTILE_COUNTS": "counts"})
        total = counts()[0]
        for number in range(1, total + 1, -(-3 * total // MOST_C)):
            put("g", OLDER)
            left = machine.theirs(*c_build(name, "g"), bend={"HOSTILE_REFUSE": str(number)})
            row.c_ends[left.ending() + c_file(left, get("g"), whole)] += 1
