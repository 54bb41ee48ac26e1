"""The spill file of a build by BRZ: a directory that fails, a name that is taken, signals, and what stays after each end."""

import os
import shutil
import signal
import stat
import time
from pathlib import Path
from typing import Callable

from . import model
from .model import Ends, said
from .outputs import Filling
from .runs import GIB, MOST_C, OLDER, PAGE, Machine, Row, built, c_built, c_file, case, counts, get, numbered, put, spills

KEYS = 50_000  # their records have more bytes than the buffer, and fill two runs
FOLDER = "spilled"
BUILD = ("-g", "-a", "brz", "-M", "1", "-m", "g")


def fresh(folder: str = FOLDER) -> None:
    """An empty directory."""
    shutil.rmtree(folder, ignore_errors=True)
    os.mkdir(folder)


def cannot_spill(folder: str) -> Ends:
    return Ends(5, b"", said(f"{folder}: {model.NO_SPILL}"))


def is_kept(wanted: Ends, whole: bytes | None = None) -> bool:
    """Whether the function file is the new one, or the older one if the build is refused."""
    return get("g") == (whole or wanted.dump if wanted.status == 0 else OLDER)


# A disk that fills


@case("a build by BRZ whose spill file fills its file system after each 4 KiB: 50,000 keys in two runs")
def _(machine: Machine, row: Row) -> None:
    content = numbered(KEYS)
    put("keys", content)
    filling, needed = Filling(machine), -(-model.spilled_size(content) // PAGE)
    folder, whole = machine.small or ".", built(machine, "brz")
    steps = range(0 if machine.small else 1, needed + 2, 1 if machine.share >= 1 else 16)
    for pages in [*steps, needed - 1, needed]:
        limits = filling.leave(pages)
        put("g", OLDER)
        left = machine.ours(*BUILD, "-d", folder, "keys", limits=limits)
        wanted = Ends(0) if pages >= needed else cannot_spill(folder)
        row.same(left, wanted, {"the function file": is_kept(wanted, whole), "no spill file": not spills(folder)})
    if machine.tool:
        whole = c_built(machine, "brz")
        for pages in range(0 if machine.small else 1, needed, -(-needed // MOST_C)):
            limits = filling.leave(pages)
            put("g", OLDER)
            left = machine.theirs("-g", "-a", "brz", "-M", "1", "-d", folder, "-s", "1", "-m", "g", "keys", limits=limits)
            row.c_ends[left.ending() + c_file(left, get("g"), whole)] += 1


# A directory that takes no file


def bad_folders() -> list[str]:
    """Directories in which no file can be made."""
    for name in ("closed", "dark"):
        fresh(name)
    os.chmod("closed", 0o555)
    os.chmod("dark", 0o000)
    put("plain", b"a file")
    for name, target in (("dangling", "nowhere"), ("round", "round")):
        Path(name).unlink(missing_ok=True)
        os.symlink(target, name)
    return ["closed", "dark", "nowhere", "plain", "dangling", "round", "nowhere/deeper", "plain/deeper", "n" * 300, "./" * 3000]


@case("a build by BRZ whose spill directory isn't there, is a file, is a link to nothing or to itself, has too long a path, or can't be written or entered")
def _(machine: Machine, row: Row) -> None:
    some, folders = numbered(300), bad_folders()
    contents = [some, b"", b"a\na\n", b"\n" * 1100, b"x" * 65_536, b"fine\n" + b"x" * 65_536 + b"\n"]
    for folder in folders:
        for content in contents:
            put("keys", content)
            put("g", OLDER)
            wanted = model.build_over_spill("keys", content, None, folder, 1, 100)
            row.same(machine.ours(*BUILD, "-d", folder, "keys"), wanted, {"the function file": is_kept(wanted), "no spill file": not spills()})
    put("keys", some)
    # These make no spill file there: one fails earlier, and one is by another algorithm.
    for folder in folders:
        put("g", OLDER)
        row.same(machine.ours(*BUILD, "-d", folder, "no keys"), Ends(4, b"", said("no keys: cannot read")), {"the function file": get("g") == OLDER})
        wanted = model.build("bdz", "keys", some, 1, 100)
        row.same(machine.ours("-g", "-a", "bdz", "-m", "g", "-d", folder, "keys"), wanted._replace(dump=None), {"the function file": is_kept(wanted)})
    for name in ("closed", "dark"):
        os.chmod(name, 0o755)


@case("a build by BRZ whose spill directory has an empty path, one that ends with slashes, one through a link, or isn't named")
def _(machine: Machine, row: Row) -> None:
    some = numbered(300)
    put("keys", some)
    fresh()
    Path("link").unlink(missing_ok=True)
    os.symlink(FOLDER, "link")
    wanted = model.build("brz", "keys", some, 1, 100)
    for words in (["-d="], ["-d", FOLDER + "//"], ["-d", "link"], ["-d", os.path.abspath(FOLDER)], []):
        put("g", OLDER)
        row.same(machine.ours(*BUILD, *words, "keys"), wanted._replace(dump=None),
                 {"the function file": is_kept(wanted), "no spill file": not spills() and not os.listdir(FOLDER)})


# A name that is taken

# What stands under the name $s, made in the directory `spilled` by the shell, and whether the program can remove it.
TAKEN = {
    "a file": ('echo older > "$s"', True),
    "a file that can't be written": ('echo older > "$s"; chmod 400 "$s"', True),
    "a link to a file": ('ln -s ../victim "$s"', True),
    "a link to nothing": ('ln -s ../missing "$s"', True),
    "a link to itself": ('ln -s "${s##*/}" "$s"', True),
    "a link to a directory": ('ln -s .. "$s"', True),
    "a second name of a file": ('ln victim "$s"', True),
    "a named pipe": ('mkfifo "$s"', True),
    "a directory": ('mkdir "$s"', False),
    "a directory with a file": ('mkdir "$s"; cp victim "$s/inside"', False),
    "a link to a file, in a directory that can't be written": ('ln -s ../victim "$s"; chmod 555 spilled', False),
    "a file, in a directory that can't be written": ('cp victim "$s"; chmod 555 spilled', False),
}


@case("a build by BRZ where the name of the spill file is taken by one of these: " + "; ".join(TAKEN))
def _(machine: Machine, row: Row) -> None:
    victim, names = numbered(7), {"keys", "g", "victim", "out", "err", FOLDER}
    contents = [numbered(300), b"a\na\n", b"\n" * 1100, b""]
    for what, (script, goes) in TAKEN.items():
        for content in contents:
            fresh()
            put("keys", content)
            put("victim", victim)
            put("g", OLDER)
            before = set(os.listdir(".")) | names
            wanted = model.build_over_spill("keys", content, GIB if goes else None, FOLDER, 1, 100)
            left = machine.prepared(f's={FOLDER}/cmph-$$.spill; {script}', *BUILD, "-d", FOLDER, "keys")
            os.chmod(FOLDER, 0o755)
            inside = [str(path.relative_to(FOLDER)) for path in Path(FOLDER).rglob("*")]
            row.same(left, wanted._replace(dump=None), {
                f"the function file, {what}": is_kept(wanted),
                f"the file outside, {what}": get("victim") == victim,
                f"what the directory holds, {what}": len(inside) == (0 if goes else 2 if what == "a directory with a file" else 1),
                f"the files beside it, {what}": set(os.listdir(".")) == before,
            })
    fresh()


# A build that is stopped


class Stopped:
    """Stops a build as soon as its spill file is there, looks at it, and sends a signal."""

    def __init__(self, number: int, then: Callable[[], None] | None = None):
        self.number, self.then, self.mode, self.names = number, then, None, []

    def __call__(self, process: int) -> None:
        until = time.monotonic() + 5
        while time.monotonic() < until and not os.listdir(FOLDER):
            if self.state(process) == "Z":
                return
        os.kill(process, signal.SIGSTOP)
        while self.state(process) not in "TZ":
            time.sleep(0.0002)
        self.names = os.listdir(FOLDER)
        if self.names:
            found = os.lstat(f"{FOLDER}/{self.names[0]}")
            self.mode = stat.S_IMODE(found.st_mode) if stat.S_ISREG(found.st_mode) else None
            if self.then:
                self.then()
        self.named = self.names == [f"cmph-{process}.spill"]
        os.kill(process, self.number)
        os.kill(process, signal.SIGCONT)

    def state(self, process: int) -> str:
        with open(f"/proc/{process}/stat") as file:
            return file.read().rsplit(")", 1)[1].split()[0]


def stopped(machine: Machine, number: int, mask: str, then: Callable[[], None] | None = None):
    """A build that was stopped while its spill file was there. It may have ended before, and then it is tried again."""
    for _ in range(100):
        fresh()
        put("g", OLDER)
        seen = Stopped(number, then)
        left = machine.prepared(f"umask {mask}", *BUILD, "-d", FOLDER, "keys", watch=seen)
        if seen.names:
            break
    return left, seen


@case("a build by BRZ that is stopped while its spill file is there, and goes on or is ended by a signal: nobody else may read or write that file")
def _(machine: Machine, row: Row) -> None:
    put("keys", numbered(KEYS))
    whole = built(machine, "brz")
    for number in (signal.SIGCONT, signal.SIGTERM, signal.SIGINT, signal.SIGKILL):
        for mask in ("000", "022", "077"):
            for _ in range(machine.count(10)):
                left, seen = stopped(machine, number, mask)
                goes_on = number == signal.SIGCONT
                # A process that is ended can remove nothing; the next one of its number does.
                stays = [] if goes_on else seen.names
                row.check(left, 0 if goes_on else -number, {
                    "the name of the spill file": bool(seen.names) and seen.named,
                    f"the mode of the spill file is {seen.mode or 0:o}": seen.mode == 0o600,
                    "standard output": left.out == b"",
                    "standard error": left.err == b"",
                    "the function file": get("g") == (whole if goes_on else OLDER),
                    "what the directory holds": os.listdir(FOLDER) == stays,
                })
    fresh()


@case("a build by BRZ whose spill file is removed, or its directory renamed, while it runs")
def _(machine: Machine, row: Row) -> None:
    put("keys", numbered(KEYS))
    whole, moved = built(machine, "brz"), FOLDER + "-moved"

    def remove() -> None:
        for name in os.listdir(FOLDER):
            os.unlink(f"{FOLDER}/{name}")

    def rename() -> None:
        shutil.rmtree(moved, ignore_errors=True)
        os.rename(FOLDER, moved)

    # The file stays open, so the build goes on. It can't remove what stands under another path then, and that is no fault.
    for then in (remove, rename):
        for _ in range(machine.count(10)):
            left, seen = stopped(machine, signal.SIGCONT, "022", then)
            fresh()
            row.same(left, Ends(0), {"the spill file was there": bool(seen.names), "the function file": get("g") == whole})
    shutil.rmtree(moved, ignore_errors=True)


@case("a signal every 50 to 1,000 µs in a build by BRZ that spills 50,000 keys in two runs", needs="library")
def _(machine: Machine, row: Row) -> None:
    put("keys", numbered(KEYS))
    whole, signals = built(machine, "brz"), 0
    for tick in (50, 100, 200, 500, 1000):
        bend = {"HOSTILE_TICK": str(tick), "HOSTILE_COUNTS": "counts"}
        for _ in range(machine.count(10)):
            fresh()
            put("g", OLDER)
            left = machine.ours(*BUILD, "-d", FOLDER, "keys", bend=bend)
            signals += counts()[1]
            row.same(left, Ends(0), {"the function": get("g") == whole, "no spill file": not os.listdir(FOLDER)})
    row.what += f"; {signals:,} signals came"
    if not signals:
        row.wrong.append((left, ["no signal came"]))


# Full buckets


def keys_with(sizes: list[int], seed: int) -> bytes:
    """Keys, so many for each bucket under a seed."""
    missing, keys, number = list(sizes), [], 0
    while any(missing):
        key, number = b"key number %d" % number, number + 1
        at = model.bucket_of(key, seed, len(sizes))
        if missing[at]:
            missing[at] -= 1
            keys.append(key)
    return b"".join(key + b"\n" for key in keys)


@case("builds by BRZ with a bucket of 255, 256 and 1,021 to 1,025 keys under the first seed, and a query")
def _(machine: Machine, row: Row) -> None:
    for size in (255, 256, *range(1021, 1026)):
        for first in (True, False):
            content, b = keys_with([size, 230] if first else [230, size], 1), (size + 231) // 2
            put("keys", content)
            for seeds, ratio in ((1, 2), (2, 2), (50, 1.23)):
                put("g", OLDER)
                wanted = model.build("brz", "keys", content, 1, seeds, round(ratio * 1_000_000), b)
                left = machine.ours("-g", "-a", "brz", "-b", str(b), "-c", str(ratio), "-r", str(seeds), "-m", "g", "keys")
                row.same(left, wanted._replace(dump=None), {"the function file": is_kept(wanted), "no spill file": not spills()})
                if wanted.dump:
                    row.same(machine.ours("-m", "g", "keys"), model.query("g", wanted.dump, "keys", content))


# Other ends


@case("builds by BRZ with each other end: what stays in the spill directory")
def _(machine: Machine, row: Row) -> None:
    some, long = numbered(300), b"x" * 65_536
    jobs = [(content, "g", words) for content in (some, b"\n", b"a\na\n", some + some, b"\n" * 1100, b"", long, some + long) for words in ([], ["-M", "1024"])]
    jobs += [(some, "no folder/g", []), (some, ".", [])]
    for content, path, words in jobs:
        fresh()
        put("keys", content)
        put("g", OLDER)
        wanted = model.build("brz", "keys", content, 1, 5)
        if path != "g" and wanted.status == 0:
            wanted = Ends(5, b"", said(f"{path}: cannot write"))
        if words:
            wanted = Ends(6, b"", said("out of memory"))  # a buffer of 1 GiB is more than the address space has
        left = machine.ours("-g", "-a", "brz", "-r", "5", *words, "-d", FOLDER, "-m", path, "keys")
        row.same(left, wanted._replace(dump=None), {"the function file": is_kept(wanted), "no spill file": not os.listdir(FOLDER)})
    fresh()
