"""How the programs are run, and how a row of the table is kept."""

import os
import select
import signal
import sys
import time
from collections import Counter
from pathlib import Path
from typing import Callable, NamedTuple

from . import model
from .model import Ends

PAGE = 4096
SECOND = 1.0  # how long a run may take, without what it waits for a processor
MOST_C = 500  # runs of the C tool in a case
GIB = 1 << 30
OLDER = b"older"
NAMES = ["chm", "bdz", "bdz_ph", "brz"]  # of the algorithms that builds offer


class Left(NamedTuple):
    """What a run left."""

    status: int | None  # negative for a signal, none if it was still there after a second
    out: bytes
    err: bytes
    words: list[str]

    def ending(self) -> str:
        if self.status is None:
            return "longer than a second"
        return f"status {self.status}" if self.status >= 0 else signal.Signals(-self.status).name


# Running


class Machine:
    """The programs, and how they are run. All run in the folder of this process."""

    def __init__(self, program: str, tool: str | None, library: str | None, small: str | None, share: float):
        self.program, self.tool, self.library, self.small, self.share = program, tool, library, small, share
        self.processor, self.runs = 0.0, 0

    def count(self, whole: int) -> int:
        return max(1, round(whole * self.share))

    def ours(self, *words: str, **more) -> Left:
        return self.run([self.program, *words], True, **more)

    def theirs(self, *words: str, **more) -> Left:
        return self.run([self.tool, *words], False, **more)

    def prepared(self, script: str, *words: str, **more) -> Left:
        """Runs a script of the shell, in which $$ is the number of the process, and then the program in the same process."""
        return self.run(["sh", "-c", f'{script}; exec "$@"', "sh", self.program, *words], True, **more)

    def run(self, words: list[str], is_ours: bool, out: str | int = "out", limits: tuple[str, ...] = (), bend: dict | None = None,
            meanwhile: Callable[[], None] | None = None, watch: Callable[[int], None] | None = None) -> Left:
        """Runs a program to its end. Its output goes to a file, or to a descriptor that is closed here then. `watch` gets its number."""
        env = {**bend, "LD_PRELOAD": self.library} if bend else {}
        to_file = isinstance(out, str)
        first = (os.POSIX_SPAWN_OPEN, 1, out, os.O_WRONLY | os.O_CREAT | os.O_TRUNC, 0o644) if to_file else (os.POSIX_SPAWN_DUP2, out, 1)
        actions = [(os.POSIX_SPAWN_OPEN, 0, "/dev/null", os.O_RDONLY, 0), first,
                   (os.POSIX_SPAWN_OPEN, 2, "err", os.O_WRONLY | os.O_CREAT | os.O_TRUNC, 0o644)]
        whole = ["prlimit", *limits, *words] if limits else words
        begun = time.monotonic()
        process = os.posix_spawnp(whole[0], whole, {"PATH": os.environ["PATH"], **env}, file_actions=actions, setsigdef=[signal.SIGPIPE])
        if not to_file:
            os.close(out)
        if meanwhile:
            meanwhile()
        if watch:
            watch(process)
            begun = time.monotonic()
        hung = not self.ended(process, begun)
        _, status, used = os.wait4(process, 0)
        if is_ours:
            self.runs += 1
            self.processor += used.ru_utime + used.ru_stime
        return Left(None if hung else os.waitstatus_to_exitcode(status), get("out") if out == "out" else b"", get("err"),
                    [*(f"{name}={value}" for name, value in env.items()), *whole])

    def ended(self, process: int, begun: float) -> bool:
        """Waits for an end within a second, and kills a process that has none."""
        ending = os.pidfd_open(process)
        poll = select.poll()
        poll.register(ending, select.POLLIN)
        left = SECOND
        try:
            while True:
                ended = poll.poll(max(1, left * 1000))
                if ended and time.monotonic() - begun <= SECOND:
                    return True
                with open(f"/proc/{process}/schedstat") as file:
                    waited = int(file.read().split()[1]) / 1e9
                left = SECOND - (time.monotonic() - begun - waited)
                if ended or left <= 0:
                    os.kill(process, signal.SIGKILL)  # this does nothing to a process that has ended
                    return left > 0
        finally:
            os.close(ending)


def get(path: str) -> bytes | None:
    try:
        with open(path, "rb") as file:
            return file.read()
    except FileNotFoundError:
        return None


def put(path: str, content: bytes) -> None:
    with open(path, "wb") as file:
        file.write(content)


def gone(path: str) -> None:
    Path(path).unlink(missing_ok=True)


def spills(folder: str = ".") -> list[str]:
    """The spill files in a folder."""
    return [name for name in os.listdir(folder) if name.endswith(".spill")]


def counts() -> list[int]:
    """Requests for memory, signals and interrupted calls of the last run with the library."""
    return [int(word) for word in get("counts").split()]


# The table


class Row:
    """What was done, and how the runs ended."""

    def __init__(self, what: str):
        self.what, self.ends, self.c_ends, self.wrong = what, Counter(), Counter(), []

    def check(self, left: Left, status: int, more: dict[str, bool], note: str = "") -> None:
        """Counts a run, with a note, and keeps it if it isn't as stated."""
        self.ends[left.ending() + (note if left.status is not None else "")] += 1
        faults = [] if left.status == status else [f"{left.ending()}, not status {status}"]
        faults += [what for what, holds in more.items() if not holds]
        if faults:
            self.wrong.append((left, faults))

    def same(self, left: Left, wanted: Ends, more: dict[str, bool] | None = None, note: str = "") -> None:
        """Counts a run that must end just so."""
        texts = {"standard output": left.out == wanted.out, "standard error": left.err == wanted.err}
        self.check(left, wanted.status, {**texts, **(more or {})}, note)

    def ours(self) -> str:
        runs = sum(self.ends.values())
        if not runs:
            return "not tried"
        verdict = f"**{len(self.wrong):,} not as stated**" if self.wrong else "all as stated"
        return f"{runs:,} runs, {verdict}: {counted(self.ends)}"

    def theirs(self) -> str:
        return f"{sum(self.c_ends.values()):,} runs: {counted(self.c_ends)}" if self.c_ends else "not tried"


def counted(ends: Counter) -> str:
    return "; ".join(f"{count:,} × {what}" for what, count in sorted(ends.items(), key=lambda each: (-each[1], each[0])))


CASES = []


def case(what: str, needs: str = ""):
    """Lists a function as a case."""
    return lambda body: CASES.append((what, needs, body)) or body


# Keys


def numbered(count: int) -> bytes:
    return b"".join(b"key number %d\n" % number for number in range(count))


def numbers(count: int) -> bytes:
    """What a query writes of them by CHM."""
    return b"".join(b"key number %d -> %d\n" % (number, number) for number in range(count))


def equal_report(count: int) -> bytes:
    """The report of so many empty lines by CHM, under seed 0."""
    return model.build("chm", "keys", b"\n" * count, 0, 1).out


def built(machine: Machine, name: str, *words: str) -> bytes:
    """The function over the file `keys`, in the file `f`."""
    left = machine.ours("-g", "-a", name, "-m", "f", *words, "keys")
    if left.status != 0 or left.err:
        sys.exit(f"a build by {name} ended with status {left.status}: {left.err}")
    return get("f")


def in_version_1(name: str, whole: bytes) -> bytes:
    """The file of version 1 of a function. Except by BRZ only the place of the parameter differs."""
    if name == "brz":
        return model.dump_of(model.read_dump(whole), model.ONE)
    return model.ONE.magic + whole[8:9] + whole[10:11] + bytes(2) + whole[12:]


def c_build(name: str, to: str = "c", keys: str = "keys") -> list[str]:
    """The arguments for a build of the C tool. By brz it leaves files in its directory."""
    return ["-g", "-a", name, *(["-M", "1", "-d", "."] if name == "brz" else []), "-s", "1", "-m", to, keys]


def c_built(machine: Machine, name: str) -> bytes:
    """The function of the C tool. It comes out the same each time."""
    for _ in range(2):
        left = machine.theirs(*c_build(name))
        if left.status != 0:
            sys.exit(f"a build of the C tool by {name} ended with status {left.status}")
    return get("c")


def c_file(left: Left, found: bytes, whole: bytes) -> str:
    """What became of the older function file in a run of the C tool, as a note."""
    if found == OLDER:
        return ""
    if left.status == 0:
        return "" if found == whole else ", another file"
    return ", the older file lost"
