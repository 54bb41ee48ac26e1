"""What the comparisons of programs with those in plain Python share: runs, how differences are shown, and files that differ little from another."""
import subprocess
import sys
import tempfile
from pathlib import Path

import counting


def programs(*names):
    """The programs of the command line, or those below crates/ in place of the ones that are left out."""
    given = sys.argv[1:] + [f"crates/{name}/out/{name}" for name in names][len(sys.argv) - 1:]
    return [Path(path).resolve() for path in given[:len(names)]]


def words_of(options, letters):
    """The options of a command line that stand for those of a program in plain Python, each by its letter."""
    words = [word for name, letter in letters.items() if name in options for word in (letter, str(options[name]))]
    ratio = ["-c", "%d.%06d" % divmod(options["ratio"], 10**6)] if "ratio" in options else []
    return words + ratio + (["-z"] if options.get("end") == b"\0" else [])


def run(room, *words, **how):
    """What a run in a folder leaves: its status, out and err."""
    ran = subprocess.run(words, cwd=room, stdin=subprocess.DEVNULL, capture_output=True, timeout=60, **how)
    return ran.returncode, ran.stdout, ran.stderr


def put(path, content):
    """Writes a file that has none of its older bytes on the disk, which would be flushed first."""
    path.unlink(missing_ok=True)
    path.write_bytes(content)


def kept(path):
    return path.read_bytes() if path.exists() else None


def shown(values):
    return ", ".join(repr(value) if len(repr(value)) < 200 else f"{repr(value)[:90]} .. ({len(value)} bytes)" for value in values)


def difference(what, found, wanted):
    if found != wanted:
        yield f"{what}: {shown(found)}, and must be {shown(wanted)}"


def differing(file):
    """The files with one byte cut off, changed, removed or doubled, and with more after them."""
    for at in range(len(file)):
        yield file[:at]
        for byte in {file[at] ^ 1, file[at] ^ 128, 0, 255, (file[at] + 1) % 256} - {file[at]}:
            yield file[:at] + bytes([byte]) + file[at + 1:]
        yield file[:at] + file[at + 1:]
        yield file[:at + 1] + file[at:]
    yield from (file + b"\0", file * 2, file + bytes(70000))


def judge(cases):
    """Counts the cases, and prints the first failure of each. `cases` yields the failures of each case in a folder."""
    with tempfile.TemporaryDirectory() as scratch:
        for wrong in cases(Path(scratch)):
            counting.case("failed", next(iter(list(wrong)), None))
    sys.exit(counting.close())
