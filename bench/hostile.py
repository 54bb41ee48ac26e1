#!/usr/bin/env python3
"""Runs the program in hostile surroundings, checks every run, and prints a table of what came of it, beside the C tool.

    bench/hostile.py [--share PERCENT] [--only WORD] [--strict] [PROGRAM]

PROGRAM is bin/cmph if none is given. Each run must end within a second, with the status, the message, the output and the files that
bench/hostile_cases/model.py works out; the first runs of a case that don't are printed at length on standard error, and by --strict the script's
status is then 1. --share tries so many percent of the random cases, and --only the cases with a word in their names. Random cases
are the same in every run of the script.

The C tool (Debian's libcmph-tools) gets at most 500 runs a case, of a second each. What it does is counted, not judged. Every run of
both has 1 GiB of address space. Run as root, the script mounts file systems in memory for its files, and runs all programs as nobody;
else it sets limits of file size where a file system would fill. Signals and refused requests for memory need a C compiler.
"""

import argparse
import os
import resource
import shutil
import signal
import subprocess
import sys
import tempfile
import time
import traceback
from pathlib import Path

import compare
from hostile_cases import arguments, files, memory, outputs, spilling  # noqa: F401  they list their cases
from hostile_cases.runs import CASES, GIB, Machine, Row, get

HERE = Path(__file__).resolve().parent
NOBODY = 65534
SMALL = 2 << 20  # bytes of the file system that fills


def show_wrong(row: Row) -> None:
    """The first runs of a case that were not as stated."""
    for left, faults in row.wrong[:3]:
        print(f"NOT AS STATED, {row.what}", " ".join(left.words), "; ".join(faults), f"{left.ending()}, err {left.err[:300]!r}, out {left.out[:200]!r}",
              sep="\n  ", file=sys.stderr)
        for name in ("keys", "f", "g"):
            found = get(name)
            if found is not None and len(found) < 400:
                print(f"  the last {name}: {found.hex()}", file=sys.stderr)


def tried(machine: Machine, only: str) -> int:
    """Runs the cases, prints the table, and counts the runs that were not as stated."""
    lines, wrong = ["| What is done | This program | The C tool |", "|---|---|---|"], 0
    for what, needs, body in CASES:
        if only not in what:
            continue
        row = Row(what)
        if needs and machine.library is None:
            row.what += " (left out: there is no C compiler)"
        else:
            begun = time.monotonic()
            body(machine, row)
            compare.note(f"{time.monotonic() - begun:.1f} s, {row.what}: {row.ours()}")
        show_wrong(row)
        wrong += len(row.wrong)
        lines.append(f"| {row.what} | {row.ours()} | {row.theirs()} |")
    print("\n".join(lines))
    filled = "file systems in memory were filled" if machine.small else "limits of file size stood for full file systems"
    part = "" if machine.share == 1 else f"Only {100 * machine.share:g} % of the random cases were tried. "
    print(f"\n{part}This program's {machine.runs:,} runs took {machine.processor:.0f} s of processor time; {filled}.")
    return wrong


def made_library(folder: Path) -> str | None:
    for compiler in ("cc", "gcc", "clang"):
        if shutil.which(compiler):
            subprocess.run([compiler, "-shared", "-fPIC", "-O1", "-o", folder / "hostile.so", HERE / "hostile_cases" / "preload.c", "-ldl"], check=True)
            return str(folder / "hostile.so")
    return None


def is_mounted(where: Path, size: int) -> bool:
    """Mounts a file system in memory, if that is allowed."""
    where.mkdir()
    command = ["mount", "-t", "tmpfs", "-o", f"size={size},mode=1777", "none", where]
    done = os.geteuid() == 0 and subprocess.run(command, stderr=subprocess.DEVNULL).returncode == 0
    if not done:
        os.chmod(where, 0o777)
    return done


def limited() -> None:
    """Becomes nobody, and sets the limits that every run has."""
    resource.setrlimit(resource.RLIMIT_CORE, (0, 0))
    resource.setrlimit(resource.RLIMIT_AS, (GIB, GIB))
    if os.geteuid() == 0:
        os.setgroups([])
        os.setgid(NOBODY)
        os.setuid(NOBODY)


def inside(top: Path, asked: argparse.Namespace, small: str | None) -> int:
    """The cases, in a process of their own."""
    os.umask(0o022)
    program = top / "cmph"
    shutil.copyfile(asked.program, program)
    program.chmod(0o755)
    tool, library = compare.c_tool(), made_library(top)
    limited()
    os.chdir(top / "room")
    wrong = tried(Machine(str(program), tool, library, small, asked.share / 100), asked.only)
    return 1 if wrong and asked.strict else 0


def ended(child: int) -> int:
    """The status of the child. It ends with this process."""
    try:
        return os.waitstatus_to_exitcode(os.waitpid(child, 0)[1])
    except BaseException:
        os.kill(child, signal.SIGKILL)
        raise


def main() -> int:
    parser = argparse.ArgumentParser(description=__doc__, formatter_class=argparse.RawDescriptionHelpFormatter)
    parser.add_argument("program", nargs="?", default=str(compare.OURS), metavar="PROGRAM")
    parser.add_argument("--share", type=float, default=100, metavar="PERCENT")
    parser.add_argument("--strict", action="store_true")
    parser.add_argument("--only", default="", metavar="WORD")
    asked = parser.parse_args()
    signal.signal(signal.SIGTERM, lambda *_: sys.exit(1))
    # A shell that starts the script in the background has it ignore SIGINT, and then all that it starts does.
    signal.signal(signal.SIGINT, signal.default_int_handler)
    top, mounted = Path(tempfile.mkdtemp(prefix="cmph-hostile-")), []
    try:
        top.chmod(0o755)
        mounted = [place for place, size in ((top / "room", 1 << 26), (top / "small", SMALL)) if is_mounted(place, size)]
        small = str(top / "small") if top / "small" in mounted else None
        sys.stdout.flush()
        child = os.fork()
        if child == 0:
            status = 1
            try:
                status = inside(top, asked, small)
                sys.stdout.flush()
            except BaseException:
                traceback.print_exc()
            finally:
                os._exit(status)
        return ended(child)
    finally:
        for place in mounted:
            subprocess.run(["umount", "--lazy", place])
        shutil.rmtree(top, ignore_errors=True)


if __name__ == "__main__":
    sys.exit(main())
