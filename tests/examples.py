#!/usr/bin/env python3
"""Runs the examples of the man pages, of the README and of pages below docs/, and compares what they print with what stands there.

    tests/examples.py [CMPH [JUDGE [FILTER [STORE [SHARDS]]]]]   the programs are those below crates/ if they are left out

Each page's examples run one after another in one shell, in a folder of its own. Both outputs come together, as on a terminal.
"""
import re
import subprocess
import sys
import tempfile
from pathlib import Path

TOP = Path(__file__).resolve().parent.parent
PROGRAMS = ["cmph", "cmph_judge", "cmph_filter", "cmph_store", "cmph_shards"]
SECTIONS = [("README.md", "## A session", "## In a program"), ("docs/believe/algorithms.md", "## Buckets", "## A worked example"),
            ("docs/use/filters.md", "## A session", "## When to take which"), ("docs/use/stores.md", "## A session", "## When to take which"),
            ("docs/use/shards.md", "## A session", "## When to shard")]
PRELUDE = 'ended() { local status=$?; printf "\\0"; return $status; }\n'


def of_man(program):
    """The literal blocks of the section EXAMPLES, without the escapes of roff."""
    text = (TOP / "man" / f"{program}.1").read_text()
    section = text[text.index(".Sh EXAMPLES"):text.index(".Sh DIAGNOSTICS")]
    blocks = re.findall(r"^\.Bd -literal.*?\n(.*?)^\.Ed$", section, re.MULTILINE | re.DOTALL)
    return "".join(blocks).replace("\\e", "\\").replace("\\&", "").replace("\\-", "-").splitlines()


def of_section(page, begin, end):
    """The commands, and what they print, among the indented lines from one heading of a page to another."""
    text = (TOP / page).read_text()
    lines = [line[4:] for line in text[text.index(begin):text.index(end)].splitlines() if line.startswith("    ")]
    return lines[next(i for i, line in enumerate(lines) if line.startswith("$ ")):]


def commands_of(lines):
    """Each command with what it prints. A command goes on while a quote is open."""
    found = []
    for line in lines:
        if line.startswith("$ "):
            found.append([line[2:], ""])
        elif found[-1][0].count("'") % 2:
            found[-1][0] += f"\n{line}"
        else:
            found[-1][1] += f"{line}\n"
    return found


def differences(lines, programs, folder):
    """Runs the commands, and names those that print something else."""
    (folder / "bin").mkdir()
    for name, program in programs.items():
        (folder / "bin" / name).symlink_to(program)
    (folder / "examples").symlink_to(TOP / "examples")
    scratch = folder / "tmp"
    scratch.mkdir()
    commands = [(command.replace("/tmp/", f"{scratch}/"), printed.replace("/tmp/", f"{scratch}/"))
                for command, printed in commands_of(lines)]
    script = PRELUDE + "".join(f"{command}\nended\n" for command, _ in commands)
    ran = subprocess.run(["bash", "-c", script], cwd=folder, env={"PATH": f"{folder}/bin:/usr/bin:/bin", "LC_ALL": "C"},
                         stdin=subprocess.DEVNULL, stdout=subprocess.PIPE, stderr=subprocess.STDOUT, text=True, timeout=60)
    printed = ran.stdout.split("\0")
    if len(printed) != len(commands) + 1:
        return len(commands), [f"the shell ended after {len(printed) - 1} of {len(commands)} commands: {ran.stdout[-200:]}\n"]
    wrong = [f"$ {command}\nprints\n{was}and must print\n{wanted}"
             for (command, wanted), was in zip(commands, printed) if was != wanted]
    return len(commands), wrong


def main():
    programs = {name: Path(sys.argv[number] if len(sys.argv) > number else TOP / "crates" / name / "out" / name).resolve()
                for number, name in enumerate(PROGRAMS, 1)}
    count, wrong = 0, []
    for lines in [*map(of_man, PROGRAMS), *(of_section(*section) for section in SECTIONS)]:
        with tempfile.TemporaryDirectory() as folder:
            ran, differing = differences(lines, programs, Path(folder))
            count, wrong = count + ran, wrong + differing
    for difference in wrong:
        print(difference)
    print(f"{count - len(wrong)} passed, {len(wrong)} failed")
    return 1 if wrong or not count else 0


if __name__ == "__main__":
    sys.exit(main())
