"""What the tools that pack and those that test know of the sources: their version, their programs, their commit and their sum."""
import hashlib
import re
import subprocess
from pathlib import Path

TOP = Path(__file__).resolve().parent.parent
VERSION = (TOP / "VERSION").read_text().strip()
PROVED = ("crates", "crates.txt")  # what proofs read, and the wrong bodies and tests beside it


def said_by(*words, **how):
    """What a command prints. It is an error if the command fails."""
    return subprocess.run([str(word) for word in words], capture_output=True, text=True, check=True, **{"cwd": TOP, **how}).stdout.rstrip()


def programs():
    """The programs, as the Makefile lists them."""
    return re.search(r"^PROGRAMS := (.*)$", (TOP / "Makefile").read_text(), re.MULTILINE)[1].split()


def kit():
    """What identifies the kit, as `rt version` says it."""
    return said_by("rt", "version")


def sum_of_file(path):
    return hashlib.sha256(path.read_bytes()).hexdigest()


def sum_of(*places):
    """One SHA-256 over the files that git tracks below some places: over their paths in order, each with its bytes."""
    read = hashlib.sha256()
    for name in sorted(filter(None, said_by("git", "ls-files", "-z", "--", *places).split("\0"))):
        content = (TOP / name).read_bytes()
        read.update(f"{name}\0{len(content)}\0".encode() + content)
    return read.hexdigest()


def sources_sum():
    """The sum of all that is proved."""
    return sum_of(*PROVED)


def changed(*places):
    """The files below some places that differ from the commit, or that it lacks."""
    return [line[3:] for line in said_by("git", "status", "--porcelain", "--", *places).splitlines()]


def commit():
    """The last commit of all but release/, and when it was made."""
    name, when = said_by("git", "log", "-1", "--format=%H %ct", "--", ".", ":!release").split()
    return name, int(when)
