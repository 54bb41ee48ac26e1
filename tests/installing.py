#!/usr/bin/env python3
"""Installs a release with its install.sh, removes it again, and lets that fail in all ways: what was there before must be whole then, and nothing else be left. And does what
the README begins with, in a clone of this repository, without the kit and a network.

    tests/installing.py [FOLDER]     release/ if it is left out

Runs are as nobody if this runs as root. The last line is 'N passed, M failed', with what was skipped after it.
"""
import os
import shutil
import signal
import sys
import tempfile
import time
from pathlib import Path

from counting import case, close, run, skipped

TOP = Path(__file__).resolve().parent.parent
RELEASE = Path(sys.argv[1] if len(sys.argv) > 1 else TOP / "release").resolve()
OLDER = {"bin/cmph": b"older", "bin/cmph_store": b"other", "share/man/man1/cmph.1": b"page", "lib/libcmph_c.a": b"library", "bin/foreign": b"foreign"}
NEEDED = "sh sha256sum mkdir install mv ln rm rmdir mktemp dirname uname cat cp tar".split()
BY = {"user": 65534, "group": 65534, "extra_groups": []} if os.geteuid() == 0 else {}
SECONDS = 5  # from the first command of the README to the first answer
# What takes the place of `install`: at the call that COUNT counts down to, it does what Ctrl-C does.
INTERRUPTING = """#!/bin/sh
left=$(($(cat "$COUNT") - 1))
echo $left > "$COUNT"
[ $left != 0 ] || kill -INT 0
exec {install} "$@"
"""


def interruptible():
    """In the background of a shell Ctrl-C is ignored, and a script can't catch it then."""
    signal.signal(signal.SIGINT, signal.SIG_DFL)


def install(release, *words, path=os.environ["PATH"], cwd=None, **around):
    """What the install.sh of a folder does, as nobody."""
    return run("sh", release / "install.sh", *words, cwd=cwd, env={"PATH": str(path), "HOME": "/nonexistent", **around}, start_new_session=True,
               preexec_fn=interruptible, **BY)


def folder(room, name, older=()):
    """A new folder of nobody's with files in it."""
    made = room / name
    made.mkdir()
    for file in older:
        (made / file).parent.mkdir(parents=True, exist_ok=True)
        (made / file).write_bytes(OLDER[file])
    if BY:
        for path in [made, *made.rglob("*")]:
            os.chown(path, BY["user"], BY["group"])
    return made


def content(place):
    """The files below a folder, by their paths."""
    return {str(path.relative_to(place)): path.read_bytes() if path.is_file() else None for path in place.rglob("*")}


def refused(name, left, place, before, said=""):
    """A run that failed with one line, and left all as it was."""
    case(f"{name}: one line, and the status", (left.returncode == 0 or left.stderr.count("\n") != 1 or said not in left.stderr or left.stdout) and left)
    same_as(before, name, place)


def same_as(before, name, place):
    """A folder has what it had before."""
    case(f"{name}: what was there before", before != content(place) and f"now there are {sorted(content(place))}")


def linked(room, name, tools):
    """A folder for PATH that has some tools alone."""
    made = folder(room, name)
    for tool in filter(shutil.which, tools):
        (made / tool).symlink_to(shutil.which(tool))
    return made


def installs(room):
    """The usual way, into a folder that is made, twice, with only the tools that are needed; and back."""
    place, path = folder(room, "home"), linked(room, "tools", [*NEEDED, "xz"])
    for turn in ("first", "second"):
        left = install(room / "release", place / "a" / "b", path=path)
        case(f"the {turn} time", (left.returncode or left.stderr or not left.stdout.startswith(f"installed below {place}/a/b: 5 programs, the C library (5 files), 5 man pages and 10 c")) and left)
        case("it names the path", f'export PATH="{place}/a/b/bin:$PATH"' not in left.stdout and left)
    case("cmph starts", not run(place / "a/b/bin/cmph", "-V").stdout.startswith("cmph "))
    case("the file for pkg-config", not (place / "a/b/lib/pkgconfig/cmph_c.pc").read_text().startswith(f"prefix={place}/a/b\n"))
    case("the link of the library", os.readlink(place / "a/b/lib/libcmph_c.so") != "libcmph_c.so.1")
    left = install(room / "release", "a/b", path=f"{path}:{place}/a/b/bin", cwd=place)
    case("a folder by its relative name, which is on the path", ("export" in left.stdout or left.returncode) and left)
    copy = shutil.copytree(place / "a/b/share/lumpedris-cmph", room / "copy")
    case("what removes it stands beside the list", {path.name for path in copy.iterdir()} != {"PROOF", "install.sh", "installed"})
    left = install(place / "a/b/share/lumpedris-cmph", "--remove", path=path)
    case("it is removed", (left.returncode or left.stderr) and left)
    case("nothing is left", content(place))
    left = install(room / "release", "--remove", place / "a" / "b")
    refused("removed twice", left, place, {}, "nothing to remove")


def over_others(room):
    """Files that are not ours stay, and so do folders that were there."""
    place = folder(room, "others", ["bin/foreign"])
    before = content(place)
    left = [install(room / "release", place), install(room / "release", place), install(room / "release", "--remove", place)]
    case("others: each step", any(it.returncode for it in left) and left)
    same_as(before, "others", place)
    staged = folder(room, "stage")
    left = install(room / "release", "/usr", DESTDIR=str(staged))
    case("DESTDIR", (left.returncode or not (staged / "usr/lib/pkgconfig/cmph_c.pc").read_text().startswith("prefix=/usr\n")) and left)
    left = install(room / "release", "--remove", "/usr", DESTDIR=str(staged))
    case("DESTDIR: nothing is left", left.returncode and left or content(staged))


def tools_missing(room):
    """Python 3 in place of xz; and neither."""
    place, before = folder(room, "bare"), {}
    if os.access("/usr/bin/python3", os.X_OK):
        path = linked(room, "with_python", NEEDED)
        (path / "python3").symlink_to("/usr/bin/python3")
        left = [install(room / "release", place / "new", path=path), install(room / "release", "--remove", place / "new", path=path)]
        case("python3 in place of xz", any(it.returncode for it in left) and left)
    else:
        skipped("python3 in place of xz", "there is no /usr/bin/python3")
    refused("neither xz nor python3", install(room / "release", place, path=linked(room, "without", NEEDED)), place, before, "there is no xz on the path")


def damaged(room):
    """A release with one changed byte, without its archive, and without its sums."""
    place = folder(room, "of_damaged", OLDER)
    before, copy = content(place), shutil.copytree(room / "release", room / "damaged")
    for archive in copy.glob("*.tar.xz"):
        whole = archive.read_bytes()
        for at in (0, len(whole) // 2, len(whole) - 1):
            archive.write_bytes(whole[:at] + bytes([whole[at] ^ 1]) + whole[at + 1:])
            refused(f"byte {at} of the archive is changed", install(copy, place), place, before, f"{archive.name} was changed")
        archive.unlink()
        refused("no archive", install(copy, place), place, before, f"{archive.name} is missing")
    (copy / "SHA256SUMS").unlink()
    refused("no sums", install(copy, place), place, before, "there is no ")


def sums_again(folder):
    """Sums of all files of a folder, as if they had been packed so."""
    (folder / "SHA256SUMS").unlink()
    left = run("sh", "-c", "find * -type f -exec sha256sum {} + > ../SUMS && mv ../SUMS SHA256SUMS", cwd=folder)
    case("sums are made again", left.returncode and left)


def not_starting(room):
    """A release whose programs can't be started here."""
    place, copy = folder(room, "of_foreign", OLDER), shutil.copytree(room / "release", room / "foreign")
    before = content(place)
    [archive] = copy.glob("*.tar.xz")
    run("tar", "-xf", archive, "-C", room, check=True)
    tree = room / archive.name.removesuffix(".tar.xz")
    (tree / "bin" / "cmph").write_text("#!/nonexistent\n")
    sums_again(tree)
    run("tar", "-cJf", archive, "-C", room, tree.name, check=True)
    (copy / "install.sh").rename(room / "foreign.sh")
    sums_again(copy)
    (room / "foreign.sh").rename(copy / "install.sh")
    refused("programs that do not start", install(copy, place), place, before, "the programs do not start here")


def unwritable(room):
    """Folders that nobody may write to, and a folder in the place of a file."""
    for name, closed in (("closed", "."), ("closed_page", "share/man/man1")):
        place = folder(room, name, OLDER)
        before = content(place)
        (place / closed).chmod(0o555)
        refused(f"{name}", install(room / "release", place), place, before, "Permission denied")
        (place / closed).chmod(0o755)
    place = folder(room, "in_the_way", OLDER)
    (place / "bin" / "cmph_judge").mkdir()
    before = content(place)
    refused("a folder in the way", install(room / "release", place), place, before, "is a folder")


def interrupted(room):
    """Ctrl-C at any file."""
    for number in (1, 9, 20):
        place, tools = folder(room, f"interrupted{number}", OLDER), folder(room, f"tools{number}")
        before, count = content(place), folder(room, f"count{number}") / "left"
        (tools / "install").write_text(INTERRUPTING.replace("{install}", shutil.which("install")))
        (tools / "install").chmod(0o755)
        count.write_text(str(number))
        count.chmod(0o666)
        left = install(room / "release", place, path=f"{tools}:{os.environ['PATH']}", COUNT=str(count))
        case(f"interrupted at file {number}: the status", left.returncode not in (130, -signal.SIGINT) and left)
        same_as(before, f"interrupted at file {number}", place)


def small_disks(room):
    """A disk that fills at the first file, in the middle, and at one of the last."""
    place, script = folder(room, "small"), room / "small.sh"
    archived = sum(path.stat().st_size for path in (room / "release").glob("*.tar.xz"))
    script.write_text(f"mount -t tmpfs -o size=$1,mode=777 none {place} || exit 99\ncd {place} && mkdir bin && echo older > bin/cmph && chmod -R a+rwX . || exit 98\n"
                      f"setpriv --reuid=65534 --regid=65534 --clear-groups sh {room}/release/install.sh {place}; echo $?; head -c 6 bin/cmph; find . -type f\n")
    if BY == {} or run("unshare", "-m", "sh", script, "1m", errors="replace").returncode in (1, 99):
        skipped("a disk that fills", "no disk can be mounted here")
        return
    for size in (16 << 10, archived, 2 * archived):
        left = run("unshare", "-m", "sh", script, str(size))
        case(f"a disk of {size} bytes", ("No space left on device" not in left.stderr or left.stderr.count("\n") != 1 or left.stdout != "1\nolder\n./bin/cmph\n") and left)


def without_kit(room):
    """A PATH that does not have the kit's command: folders without it, and links in place of one that has it."""
    folders = ["/usr/bin", "/bin"]
    if not any(os.access(f"{it}/rt", os.X_OK) for it in folders):
        return ":".join(folders)
    return str(linked(room, "no_kit", [name for name in os.listdir("/usr/bin") if name != "rt"]))


def first_command():
    """The first command of the README."""
    return next(line.strip() for line in (TOP / "README.md").read_text().splitlines() if line.startswith("    "))


def newcomer(room):
    """Clones the repository, runs the first command of the README, which has to install below ~/.local, and asks for a number."""
    home, clone = folder(room, "newcomer"), room / "newcomer" / "cmph"
    around = {"PATH": without_kit(room), "HOME": str(home)}
    alone = ["unshare", "-n"] if BY and run("unshare", "-n", "true").returncode == 0 else []
    if not alone:
        skipped("a newcomer without a network", "the network can't be taken away here")
    left = run("git", "clone", "-q", TOP, clone, env={**os.environ, **around})
    case("a clone", left.returncode and left)
    shutil.copytree(RELEASE, clone / "release", dirs_exist_ok=True)
    script = f'set -e\n{first_command()}\nPATH="$HOME/.local/bin:$PATH"\ncp examples/words "$HOME/words"\ncd\ncmph -g words\ncmph words | head -n 3\n'
    start = time.monotonic()
    left = run(*alone, "sh", "-c", script, cwd=clone, env=around)
    seconds = time.monotonic() - start
    case("the first answer", (left.returncode or left.stderr or not left.stdout.endswith("\nHydrogen -> 0\nHelium -> 1\nLithium -> 2\n")) and left)
    print(f"the first answer came {seconds:.1f} seconds after the first command")
    case(f"the first answer within {SECONDS} seconds", seconds > SECONDS and seconds)


def main():
    if not list(RELEASE.glob("*.tar.xz")):
        skipped("the release", f"{RELEASE} has no archive yet; `make release` makes it")
        return close()
    with tempfile.TemporaryDirectory() as scratch:
        room = Path(scratch)
        room.chmod(0o755)
        shutil.copytree(RELEASE, room / "release")
        for body in (installs, over_others, tools_missing, damaged, not_starting, unwritable, interrupted, small_disks, newcomer):
            body(room)
    return close()


if __name__ == "__main__":
    sys.exit(main())
