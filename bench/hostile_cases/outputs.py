"""Outputs that fail, come short or are interrupted."""

import fcntl
import os
import select
import time
from typing import Callable

from . import model
from .model import Ends, said
from .runs import (NAMES, OLDER, PAGE, Left, Machine, Row, built, c_build, c_built, case, counts, equal_report, get, gone, in_version_1, numbered,
                   numbers, put)

# A file system that fills


class Filling:
    """A file system with so many free pages, or else a limit of file size."""

    def __init__(self, machine: Machine):
        self.small = machine.small
        self.where = f"{self.small}/" if self.small else ""

    def leave(self, pages: int, older: str | None = None) -> tuple[str, ...]:
        """Leaves so many pages, one of them for the older function file. Gives the limits of the run."""
        if older:
            gone(self.where + older)
        if not self.small:
            if older and pages:
                put(older, OLDER)
            return (f"--fsize={pages * PAGE}",)
        for name in os.listdir(self.small):
            os.unlink(f"{self.small}/{name}")
        whole = os.statvfs(self.small).f_bavail
        with open(f"{self.small}/filler", "wb") as file:
            os.posix_fallocate(file.fileno(), 0, (whole - pages) * PAGE)
        if older and pages:
            put(self.where + older, OLDER)
        return ()


@case("a build into a file system that fills after each 4 KiB: 20,000 keys, each algorithm")
def _(machine: Machine, row: Row) -> None:
    put("keys", numbered(20_000))
    filling = Filling(machine)
    path = filling.where + "g"
    # A limit of file size would also end the spill file of brz.
    for name in NAMES if machine.small else NAMES[:3]:
        whole = built(machine, name)
        needed = -(-len(whole) // PAGE)
        for pages in range(0 if machine.small else 1, needed + 2):
            limits = filling.leave(pages, "g")
            left = machine.ours("-g", "-a", name, "-m", path, "keys", limits=limits)
            done, found = pages >= needed, get(path)
            wanted = Ends(0) if done else Ends(5, b"", said(f"{path}: cannot write"))
            row.same(left, wanted, {"the function file": found == whole[: pages * PAGE]})
        if machine.tool:
            whole = c_built(machine, name)
            for pages in range(0 if machine.small else 1, -(-len(whole) // PAGE)):
                limits = filling.leave(pages, "g")
                left = machine.theirs(*c_build(name, path), limits=limits)
                cut = ", the file cut off" if left.status == 0 and get(path) != whole else ""
                row.c_ends[left.ending() + cut] += 1


@case("an upgrade of a function file with a limit of file size after each 4 KiB: 20,000 keys, each algorithm")
def _(machine: Machine, row: Row) -> None:
    put("keys", numbered(20_000))
    for name in NAMES:
        whole = built(machine, name)
        older, needed = in_version_1(name, whole), -(-len(whole) // PAGE)
        for pages in range(1, needed + 2):
            put("g", older)
            left = machine.ours("-u", "-m", "g", limits=(f"--fsize={pages * PAGE}",))
            wanted = Ends(0) if pages >= needed else Ends(5, b"", said("g: cannot write"))
            row.same(left, wanted, {"the function file": get("g") == whole[: pages * PAGE]})


@case("a query and a report into a file system that fills after each 4 KiB: 5,000 keys")
def _(machine: Machine, row: Row) -> None:
    filling = Filling(machine)
    out = filling.where + "text"
    put("keys", numbered(5000))
    put("equal", b"\n" * 5000)
    built(machine, "chm")
    put("g", OLDER)
    jobs = [(["-m", "f", "keys"], numbers(5000), Ends(0)),
            (["-g", "-s", "0", "-m", "g", "equal"], equal_report(5000), Ends(1, b"", said(model.NO_SEED)))]
    for words, text, end in jobs:
        needed = -(-len(text) // PAGE)
        for pages in range(0 if machine.small else 1, needed + 2):
            limits = filling.leave(pages)
            left = machine.ours(*words, out=out, limits=limits)
            wanted = end if pages >= needed else Ends(5, b"", said("cannot write standard output"))
            row.same(left, wanted, {"what was written": get(out) == text[: pages * PAGE], "the function file": get("g") == OLDER})
    if machine.tool:
        c_built(machine, "chm")
        whole = machine.theirs("-v", "-m", "c", "keys").out
        for pages in range(0 if machine.small else 1, -(-len(whole) // PAGE)):
            limits = filling.leave(pages)
            left = machine.theirs("-v", "-m", "c", "keys", out=out, limits=limits)
            cut = ", text cut off" if left.status == 0 and get(out) != whole else ""
            row.c_ends[left.ending() + cut] += 1


# Pipes


def read_pipe(pipe: int, size: int) -> bytes:
    """So many bytes of a pipe, or all until it ends or nothing comes for some seconds."""
    got, poll = b"", select.poll()
    poll.register(pipe, select.POLLIN)
    while len(got) < size and poll.poll(5000):
        piece = os.read(pipe, size - len(got))
        if not piece:
            break
        got += piece
    return got


def narrow_pipe() -> tuple[int, int]:
    reading, writing = os.pipe()
    fcntl.fcntl(writing, fcntl.F_SETPIPE_SZ, PAGE)
    return reading, writing


def closed_early(run: Callable[..., Left], words: list[str], size: int) -> tuple[Left, bytes]:
    """A run whose reader takes so many bytes and closes the pipe."""
    reading, writing = narrow_pipe()
    got = []

    def take() -> None:
        got.append(read_pipe(reading, size))
        os.close(reading)

    return run(*words, out=writing, meanwhile=take), got[0]


@case("a reader that closes the pipe after each of the first 200 lines of a query and of a report")
def _(machine: Machine, row: Row) -> None:
    put("keys", numbered(5000))
    put("equal", b"\n" * 5000)
    built(machine, "chm")
    put("g", OLDER)
    jobs = [(["-m", "f", "keys"], numbers(5000)), (["-g", "-s", "0", "-m", "g", "equal"], equal_report(5000))]
    lines = range(machine.count(200) + 1)
    for words, text in jobs:
        pieces = text.splitlines(keepends=True)
        for line in lines:
            size = sum(map(len, pieces[:line]))
            left, got = closed_early(machine.ours, words, size)
            row.same(left, Ends(5, b"", said("cannot write standard output")),
                     {"what the reader got": got == text[:size], "the function file": get("g") == OLDER})
    if machine.tool:
        c_built(machine, "chm")
        pieces = machine.theirs("-v", "-m", "c", "keys").out.splitlines(keepends=True)
        for line in lines:
            left, _ = closed_early(machine.theirs, ["-v", "-m", "c", "keys"], sum(map(len, pieces[:line])))
            row.c_ends[left.ending()] += 1


# Signals


def slow_reader(pipe: int, ticks: float) -> bytes:
    """Everything of a pipe, in small pieces, with a rest after each."""
    got, poll = b"", select.poll()
    poll.register(pipe, select.POLLIN)
    while poll.poll(5000):
        piece = os.read(pipe, PAGE // 2)
        if not piece:
            break
        got += piece
        time.sleep(ticks)
    return got


def slowly_read(run: Callable[..., Left], words: list[str], bend: dict) -> tuple[Left, bytes]:
    """A run with signals, whose output is read slowly."""
    reading, writing = narrow_pipe()
    got = []
    left = run(*words, out=writing, bend=bend, meanwhile=lambda: got.append(slow_reader(reading, 0.0005)))
    os.close(reading)
    return left, got[0]


def slowly_fed(machine: Machine, content: bytes, bend: dict) -> Left:
    """A query with signals, whose function file is a named pipe that fills slowly."""
    gone("pipe")
    os.mkfifo("pipe")
    writing = os.open("pipe", os.O_RDWR)

    def feed() -> None:
        for at in range(0, len(content), PAGE // 2):
            time.sleep(0.0005)
            os.write(writing, content[at : at + PAGE // 2])
        os.close(writing)

    return machine.ours("-m", "pipe", "keys", bend=bend, meanwhile=feed)


def slowly_taken(machine: Machine, bend: dict) -> tuple[Left, bytes]:
    """A build with signals, whose function file is a named pipe that is read slowly."""
    gone("pipe")
    os.mkfifo("pipe")
    # Open for both until the program has opened it, so that the pipe doesn't seem to end before that.
    both = os.open("pipe", os.O_RDWR)
    fcntl.fcntl(both, fcntl.F_SETPIPE_SZ, PAGE)
    reading = os.open("pipe", os.O_RDONLY)
    got = []

    def take() -> None:
        poll = select.poll()
        poll.register(reading, select.POLLIN)
        poll.poll(5000)
        os.close(both)
        got.append(slow_reader(reading, 0.0005))

    left = machine.ours("-g", "-m", "pipe", "keys", bend=bend, meanwhile=take)
    os.close(reading)
    return left, got[0]


@case("a signal every 50 to 1,000 µs: a query into a pipe that is read slowly, function files that are slow pipes", needs="library")
def _(machine: Machine, row: Row) -> None:
    put("keys", numbered(3000))
    whole, text = built(machine, "chm", "-s", "1"), numbers(3000)
    interrupted = 0
    for tick in (50, 100, 200, 500, 1000):
        bend = {"HOSTILE_TICK": str(tick), "HOSTILE_COUNTS": "counts"}
        for _ in range(machine.count(10)):
            left, got = slowly_read(machine.ours, ["-m", "f", "keys"], bend)
            interrupted += counts()[2]
            row.same(left, Ends(0), {"what the reader got": got == text})
            left = slowly_fed(machine, whole, bend)
            interrupted += counts()[2]
            row.same(left, Ends(0, text))
            left, got = slowly_taken(machine, bend)
            interrupted += counts()[2]
            row.same(left, Ends(0), {"the function": got == whole})
    row.what += f"; {interrupted:,} calls were interrupted or cut short"
    if not interrupted:
        row.wrong.append((left, ["no call was interrupted"]))
    if machine.tool:
        c_built(machine, "chm")
        whole = machine.theirs("-v", "-m", "c", "keys").out
        for tick in (50, 100, 200, 500, 1000):
            for _ in range(machine.count(10)):
                left, got = slowly_read(machine.theirs, ["-v", "-m", "c", "keys"], {"HOSTILE_TICK": str(tick)})
                lost = ", text lost" if left.status == 0 and got != whole else ""
                row.c_ends[left.ending() + lost] += 1
