"""Cases of upgrades, -u: a function file of version 1 is rewritten in place in version 2. edge.py runs them."""

import fcntl
import os
import resource
import stat
import termios
import time

from dumps import BDZ_ONE, BRZ_TWO, CHM_TWO, FUNCTIONS, OLDER, TWO, changed, in_version_1
from room import Wrong, case, closed_once, ends, finished, limited, lines, said, same

UPGRADE = ["-u", "keys"]
CANNOT_READ = said("keys.mph: cannot read")
CANNOT_WRITE = said("keys.mph: cannot write")
LONG_AGO = 10**18  # a time of change, in nanoseconds


def put_function(room, content, name="keys.mph", mode=0o644):
    """A function file that was last changed long ago."""
    room.put(name, content, mode)
    os.utime(room.path(name), ns=(LONG_AGO, LONG_AGO))


def is_kept(room, content, name="keys.mph"):
    """The file has this content, and was not written since it was put."""
    same(f"the file {name}", room.get(name), content)
    same(f"when {name} was last changed", os.stat(room.path(name)).st_mtime_ns, LONG_AGO)


@case("an upgrade of a file of version 1 leaves what a build writes, with the mode of the file; a second one writes nothing")
def _(room):
    for _, content, new, answers in FUNCTIONS:
        put_function(room, OLDER[new], mode=0o640)
        before = os.stat(room.path("keys.mph"))
        ends(room.run(*UPGRADE), 0)
        after = os.stat(room.path("keys.mph"))
        same("the function file", room.get("keys.mph"), new)
        same("the number and the mode of the file", (after.st_ino, stat.S_IMODE(after.st_mode)), (before.st_ino, 0o640))
        put_function(room, new)
        ends(room.run(*UPGRADE), 0)
        is_kept(room, new)
        same("all files", os.listdir(room.folder), ["keys.mph"])
        room.put("keys", content)
        ends(room.run("keys"), 0, answers)
        os.remove(room.path("keys"))
    room.put("keys", lines(3000))
    for name, _, _, _ in FUNCTIONS:
        ends(room.run("-g", "-a", name, "keys"), 0)
        new = room.get("keys.mph")
        room.put("keys.mph", in_version_1(new))
        ends(room.run(*UPGRADE), 0)
        same(f"the function file by {name}", room.get("keys.mph"), new)


@case("an upgrade takes the file that -m names, and else that of the keys file, which need not be there")
def _(room):
    for words, name in [(["-u", "-m", "f"], "f"), (["-m", "f", "-u", "keys"], "f"), (["-um", "f"], "f"), (["keys", "-u"], "keys.mph")]:
        for each in ["f", "keys.mph"]:
            put_function(room, OLDER[BDZ_ONE], each)
        ends(room.run(*words), 0)
        same("the file that is named", room.get(name), BDZ_ONE)
        is_kept(room, OLDER[BDZ_ONE], "keys.mph" if name == "f" else "f")
    same("all files", sorted(os.listdir(room.folder)), ["f", "keys.mph"])


@case("-u beside other options: a test comes before it, and it before a build; without a file there is no keys file")
def _(room):
    room.put("keys", TWO)
    for words in [["-g"], ["-z"], ["-v"], ["-k", "1"], ["-g", "-a", "brz", "-b", "3"], ["-a", "bdz", "-b", "4294967295"]]:
        put_function(room, OLDER[BDZ_ONE])
        ends(room.run("-u", *words, "keys"), 0)
        same(f"the function file after {words}", room.get("keys.mph"), BDZ_ONE)
    put_function(room, OLDER[BDZ_ONE])
    tested = room.run("-T", "3").out
    for words, end in [
        (["-u", "-T", "3", "keys"], (0, tested)), (["-u"], (2, b"", said("no keys file"))), (["-u", "-g"], (2, b"", said("no keys file"))),
        (["-u", "-s", "x", "keys"], (2, b"", said("bad value of -s"))), (["-u", "-b", "4294967296", "keys"], (2, b"", said("bad value of -b"))),
        (["-u", "-u", "keys"], (2, b"", said("bad arguments; cmph -h shows the usage"))),
    ]:
        ends(room.run(*words), *end)
        is_kept(room, OLDER[BDZ_ONE])


@case("status 3: an upgrade refuses a damaged file, and leaves it as it was")
def _(room):
    room.put("keys", TWO)
    damaged = [(whole[:size], f"truncated at {size}") for new in [BDZ_ONE, BRZ_TWO] for whole in [new, OLDER[new]] for size in range(len(whole))]
    damaged += [
        # Of version 2: a bad zero comes before a bad b, and a field before a count.
        (changed(BDZ_ONE, 7, "33"), "bad magic"), (changed(BDZ_ONE, 8, "05"), "bad algorithm"), (changed(BDZ_ONE, 9, "01"), "bad field at 9"),
        (changed(BRZ_TWO, 9, "01bd02"), "bad field at 9"), (changed(BRZ_TWO, 10, "bd02"), "bad field at 10"), (changed(BRZ_TWO, 10, "3f00"), "bad field at 10"),
        (changed(BDZ_ONE, 10, "0701"), "bad field at 10"), (changed(CHM_TWO, 12, "01000004"), "bad field at 12"), (changed(CHM_TWO, 12, "00000000"), "bad field at 12"),
        (changed(CHM_TWO, 16, "3f420f00"), "bad field at 16"), (changed(BRZ_TWO, 24, "0004"), "bad field at 24"), (changed(BRZ_TWO, 24, "0300"), "bad count at 24"),
        (changed(BRZ_TWO, 24, "0100"), "bad count at 24"), (BRZ_TWO + b"\0", "trailing bytes"),
        # Of version 1, with its own limits; and its bytes under the magic of version 2.
        (changed(OLDER[CHM_TWO], 12, "01000001"), "bad field at 12"), (changed(OLDER[BRZ_TWO], 9, "b0"), "bad field at 9"),
        (changed(OLDER[BRZ_TWO], 10, "01"), "bad field at 10"), (changed(OLDER[BRZ_TWO], 11, "01"), "bad field at 11"),
        (changed(OLDER[BRZ_TWO], 24, "03"), "bad count at 24"), (OLDER[BRZ_TWO] + b"\0", "trailing bytes"), (changed(OLDER[BRZ_TWO], 7, "32"), "bad field at 9"),
        (changed(BRZ_TWO, 7, "31"), "bad field at 9"),
    ]
    for dump, fault in damaged:
        put_function(room, dump)
        for words in [UPGRADE, ["keys"]]:
            ends(room.run(*words), 3, b"", said(f"keys.mph: bad dump: {fault}"))
            is_kept(room, dump)
    ends(room.run("-u", "-m", "/dev/null"), 3, b"", said("/dev/null: bad dump: truncated at 0"))


@case("status 4: an upgrade of a file that is missing, a directory, a link to nothing or unreadable makes and changes nothing")
def _(room):
    room.put_folder("folder")
    os.symlink("missing", room.path("dangling"))
    os.symlink("round", room.path("round"))
    put_function(room, OLDER[BDZ_ONE], "secret", mode=0o000)
    before = sorted(os.listdir(room.folder))
    for name in ["missing", "none/f", "folder", "dangling", "round", "secret", ""]:
        ends(room.run("-u", f"-m={name}"), 4, b"", said(f"{name}: cannot read"))
    ends(room.run(*UPGRADE), 4, b"", CANNOT_READ)
    same("all files", sorted(os.listdir(room.folder)), before)
    os.chmod(room.path("secret"), 0o600)
    is_kept(room, OLDER[BDZ_ONE], "secret")


@case("status 5: an upgrade of a read-only file leaves it as it was; one of version 2 is left with status 0")
def _(room):
    for _, _, new, _ in FUNCTIONS:
        put_function(room, OLDER[new], mode=0o444)
        ends(room.run(*UPGRADE), 5, b"", CANNOT_WRITE)
        is_kept(room, OLDER[new])
        os.remove(room.path("keys.mph"))
        put_function(room, new, mode=0o444)
        ends(room.run(*UPGRADE), 0)
        is_kept(room, new)
        os.remove(room.path("keys.mph"))


@case("status 5: an upgrade on a full disk leaves a prefix of the new file: the older one is lost")
def _(room):
    room.put("keys", lines(24000))
    ends(room.run("-g", "-s", "0", "keys"), 0)
    large = room.get("keys.mph")
    rooms = [(BRZ_TWO, most) for most in range(len(BRZ_TWO))] + [(large, len(large) * place // 10 + place) for place in range(10)]
    for new, most in rooms:
        put_function(room, in_version_1(new))
        full = limited(resource.RLIMIT_FSIZE, most)
        ends(room.run(*UPGRADE, before=full), 5, b"", CANNOT_WRITE)
        same("the function file", room.get("keys.mph"), new[:most])
        ends(room.run(*UPGRADE), 3, b"", said(f"keys.mph: bad dump: truncated at {most}"))
        # A file of version 2 needs no room.
        put_function(room, new)
        ends(room.run(*UPGRADE, before=full), 0)
        is_kept(room, new)
    put_function(room, OLDER[BRZ_TWO])
    ends(room.run(*UPGRADE, before=limited(resource.RLIMIT_FSIZE, len(BRZ_TWO))), 0)
    same("the function file", room.get("keys.mph"), BRZ_TWO)


@case("an upgrade through a symbolic link and of a second name rewrites the file, also in a directory that cannot be written")
def _(room):
    room.put_folder("closed")
    for name in ["closed/target", "first"]:
        put_function(room, OLDER[BRZ_TWO], name)
    os.symlink("closed/target", room.path("link"))
    os.link(room.path("first"), room.path("second"))
    os.chmod(room.path("closed"), 0o555)
    for name, other in [("link", "closed/target"), ("second", "first")]:
        ends(room.run("-u", "-m", name), 0)
        same(f"the file {other}", room.get(other), BRZ_TWO)
    os.chmod(room.path("closed"), 0o755)
    same("the link", os.readlink(room.path("link")), "closed/target")
    same("the names of the second file", os.stat(room.path("second")).st_nlink, 2)
    same("all files", sorted(os.listdir(room.folder)), ["closed", "first", "link", "second"])
    same("the files of the directory", os.listdir(room.path("closed")), ["target"])


def soon(what, attempt):
    """What an attempt gives as soon as it gives something, within some seconds."""
    until = time.monotonic() + 5
    while time.monotonic() < until:
        found = attempt()
        if found is not None:
            return found
        time.sleep(0.001)
    raise Wrong(f"{what} did not happen")


def opened_to_write(path):
    """The side of a named pipe to write to, once the program has opened the other."""
    try:
        return os.open(path, os.O_WRONLY | os.O_NONBLOCK)
    except OSError:
        return None


def left_in(pipe):
    """None while bytes wait in a pipe."""
    waiting = fcntl.ioctl(pipe, termios.FIONREAD, bytes(4))
    return None if any(waiting) else 0


@case("an upgrade of a named pipe reads the function from it, and writes to it only if that was of version 1")
def _(room):
    os.mkfifo(room.path("pipe"))
    os.chmod(room.path("pipe"), 0o666)
    for content, end, wanted in [
        (OLDER[BRZ_TWO], (0,), BRZ_TWO), (BRZ_TWO, (0,), b""), (OLDER[BRZ_TWO][:31], (3, b"", said("pipe: bad dump: truncated at 31")), b""),
    ]:
        process = room.start("-u", "-m", "pipe")
        writing = soon("the opening of the pipe", lambda: opened_to_write(room.path("pipe")))
        os.write(writing, content)
        soon("the reading of the pipe", lambda: left_in(writing))
        # The other side is open for the new file before the function comes to its end, so that nothing waits.
        reading = os.open(room.path("pipe"), os.O_RDONLY | os.O_NONBLOCK)
        os.close(writing)
        ends(finished(process), *end)
        same("what was written into the pipe", os.read(reading, 100), wanted)
        os.close(reading)
    same("whether it is a pipe still", stat.S_ISFIFO(os.stat(room.path("pipe")).st_mode), True)


@case("each call of an upgrade that fails: its status, its message, and what the function file holds")
def _(room):
    old, new = OLDER[BRZ_TWO], BRZ_TWO
    read, write = (4, b"", CANNOT_READ), (5, b"", CANNOT_WRITE)
    # The ends of the calls, the last one also of all calls after it, and what the function file holds then.
    for call, on, wanted, file in [
        ("open", None, [read, write], old), ("read", "file", [read], old), ("write", "file", [write], b""), ("fsync", None, [write], new),
        ("close", None, [(0,)], new),
    ]:
        room.put("keys.mph", old)
        for number, left in room.bent_runs(UPGRADE, call, "fail", on):
            ends(left, *wanted[min(number, len(wanted)) - 1])
            same(f"the function file after {call} {number} failed", room.get("keys.mph"), file)
            if call == "close":
                closed_once(room)
            room.put("keys.mph", old)


@case("status 6: memory that runs out anywhere in an upgrade leaves the older file, or an empty one")
def _(room):
    room.put("keys.mph", OLDER[BRZ_TWO])
    for number, left in room.bent_runs(UPGRADE, "alloc", "fail"):
        ends(left, 6, b"", said("out of memory"))
        same("whether the function file is the older one or empty", room.get("keys.mph") in [OLDER[BRZ_TWO], b""], True)
        room.put("keys.mph", OLDER[BRZ_TWO])
    same("the function file", room.get("keys.mph"), BRZ_TWO)


@case("calls of an upgrade that are interrupted or come short change nothing")
def _(room):
    room.put("keys", lines(12000))
    ends(room.run("-g", "-a", "brz", "keys"), 0)
    new = room.get("keys.mph")
    old = in_version_1(new)
    for call, how in [("open", "interrupt"), ("read", "interrupt"), ("read", "short"), ("write", "interrupt"), ("write", "short"), ("fsync", "interrupt"),
                      ("close", "interrupt")]:
        room.put("keys.mph", old)
        for number, left in room.bent_runs(UPGRADE, call, how):
            ends(left, 0)
            same(f"the function file after {call} {number} {how}", room.get("keys.mph"), new)
            room.put("keys.mph", old)


@case("an upgrade closes the function file before it creates it, and opens no other; one of version 2 is opened once")
def _(room):
    room.put("keys", TWO)
    room.put("keys.mph", OLDER[BRZ_TWO])
    for wanted in [["open", "close", "open", "write", "fsync", "close"], ["open", "close"]]:
        ends(room.run(*UPGRADE, bend={}), 0)
        same("the calls on files", [(call, path) for call, path in room.calls() if path], [(call, "keys.mph") for call in wanted])
        same("the function file", room.get("keys.mph"), BRZ_TWO)
