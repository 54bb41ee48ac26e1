"""Cases of membership filters."""
import os
import resource
import select
import subprocess

import filter as plain
from dumps import TWO
from reports import own_pipe
from room import Wrong, case, closed, closed_once, ends, finished, limited, lines, said, same

FILTER, JUDGE = "cmph_filter", "cmph_judge"
NO_SEED = "no seed of the list gives an empty core"
TWO_FILTER = plain.built(TWO, seed=0)[3]
# Many keys, more bytes than a buffer has, and their filter.
MANY = lines(12000)
MANY_FILTER = plain.built(MANY)[3]


def noted(text):
    return said(text, FILTER)


def run(room, *words, **how):
    return room.run(*words, program=FILTER, **how)


def bent(room, words, call, how, on=None):
    return room.bent_runs(words, call, how, on, program=FILTER)


def next_line(pipe):
    """The line that comes out of a pipe within some seconds."""
    line = b""
    while not line.endswith(b"\n"):
        if not select.select([pipe], [], [], 20)[0]:
            raise Wrong(f"nothing comes after {line!r}")
        line += os.read(pipe, 1)
    return line


@case("a filter is built, and the keys that hold in it are written: status 0 if all do, else 1")
def _(room):
    room.put("keys", TWO)
    ends(run(room, "-g", "-s", "0", "keys"), 0)
    same("the filter file", room.get("keys.flt"), TWO_FILTER)
    for content, status, out in [(TWO, 0, TWO), (b"a\n\n", 0, b"a\n\n"), (b"b\n\nc", 1, b"\n"), (b"", 0, b""), (b"c", 1, b"")]:
        room.put("keys", content)
        ends(run(room, "keys"), status, out)
    room.put("more", MANY)
    ends(run(room, "-g", "-m", "set", "more"), 0)
    same("the filter file", room.get("set"), MANY_FILTER)
    room.put("more", MANY + b"another key\n" + MANY)
    ends(run(room, "-m", "set", "more"), 1, MANY + MANY)


@case("keys come out of a pipe one by one, and each has its line before the next comes")
def _(room):
    room.put("set", TWO_FILTER)
    given, into = own_pipe()
    test = room.start("-m", "set", "/dev/stdin", program=FILTER, given=given)
    os.close(given)
    for key, holds in [(b"a\n", True), (b"\n", True), (b"b\n", False), (b"a\n", True), (b"\n\nb\na\n", True)]:
        os.write(into, key)
        for line in key.replace(b"b\n", b"").splitlines(keepends=True) if holds else []:
            same("the line", next_line(test.stdout.fileno()), line)
    os.close(into)
    ends(finished(test), 1)


@case("a build over keys from a pipe: status 4, since it cannot be rewound")
def _(room):
    given, into = own_pipe()
    os.write(into, TWO)
    os.close(into)
    left = run(room, "-g", "-m", "set", "/dev/stdin", given=given)
    os.close(given)
    ends(left, 4, b"", noted("/dev/stdin: cannot read"))
    same("the filter file", room.has("set"), False)


@case("equal keys: the report of BDZ, which is true; after sort -u there is a filter")
def _(room):
    content = b"pear\napple\npear\nfig\napple\npear\n"
    room.put("keys", content)
    room.put("keys.flt", b"older")
    wanted = plain.built(content)
    for words in [(), ("-r", "1", "-w", "16")]:
        ends(run(room, "-g", *words, "keys"), 1, *wanted[1:3])
    same("the filter file", room.get("keys.flt"), b"older")
    same("the report of cmph", room.run("-g", "-a", "bdz", "keys").out, wanted[1])
    with open(room.path("report"), "wb") as report:
        ends(run(room, "-g", "keys", out=report), 1, b"", noted(NO_SEED))
    ends(room.run("report", "keys", program=JUDGE), 0, b"true\n")
    room.put("unique", subprocess.run(["sort", "-u", "keys"], cwd=room.folder, env={"LC_ALL": "C"}, stdout=subprocess.PIPE, check=True).stdout)
    ends(run(room, "-g", "unique"), 0)
    same("the filter file", room.get("unique.flt"), plain.built(b"apple\nfig\npear\n")[3])
    ends(run(room, "-m", "unique.flt", "keys"), 0, content)


@case("a filter by -w 1 and -w 16 of many keys: each key holds, and so do some of the others")
def _(room):
    strange = b"".join(b"strange key %d\n" % number for number in range(4000))
    for width, least, most in [(1, 1800, 2200), (16, 0, 3)]:
        room.put("keys", MANY)
        ends(run(room, "-g", "-w", str(width), "keys"), 0)
        ends(run(room, "keys"), 0, MANY)
        room.put("others", strange)
        left = run(room, "-m", "keys.flt", "others")
        same("the status", left.status, 1)
        same(f"whether {left.out.count(10)} keys are as many as must be", least <= left.out.count(b"\n") <= most, True)


@case("filter files that are none, and headers that claim more than there is memory for: status 3")
def _(room):
    room.put("keys", TWO)
    most = (2**26).to_bytes(4, "little") + (10**7).to_bytes(4, "little") + bytes(4)
    for file, text in [(b"", "truncated at 0"), (TWO_FILTER[:30], "truncated at 30"), (TWO_FILTER + b"x", "trailing bytes"), (b"x" * 33, "bad magic"),
                       (TWO_FILTER * 20000, "trailing bytes"), (TWO_FILTER[:12] + most, "truncated at 24")]:
        room.put("keys.flt", file)
        ends(run(room, "keys", before=limited(resource.RLIMIT_AS, 24 << 20)), 3, b"", noted(f"keys.flt: bad dump: {text}"))
        same("the filter file", room.get("keys.flt"), file)
    ends(room.run("-g", "keys"), 0)
    ends(run(room, "-m", "keys.mph", "keys"), 3, b"", noted("keys.mph: bad dump: bad magic"))


@case("a filter file that was longer, a link to it, and a device")
def _(room):
    room.put("keys", TWO)
    room.put("target", b"x" * 100000)
    os.symlink("target", room.path("keys.flt"))
    ends(run(room, "-g", "-s", "0", "keys"), 0)
    same("the link", os.readlink(room.path("keys.flt")), "target")
    same("the filter file", room.get("target"), TWO_FILTER)
    ends(run(room, "-g", "-m", "/dev/null", "keys"), 0)


@case("keys and filter files that cannot be read or written: status 4 and 5")
def _(room):
    ends(run(room, "-g", "keys"), 4, b"", noted("keys: cannot read"))
    ends(run(room, "keys"), 4, b"", noted("keys.flt: cannot read"))
    room.put("keys", TWO)
    room.put("closed", TWO, mode=0)
    room.put_folder("folder")
    room.put("folder/keys", TWO)
    for keys in ["closed", "folder"]:
        ends(run(room, "-g", keys), 4, b"", noted(f"{keys}: cannot read"))
    os.chmod(room.path("folder"), 0o555)
    ends(run(room, "-g", "folder/keys"), 5, b"", noted("folder/keys.flt: cannot write"))
    os.chmod(room.path("folder"), 0o755)
    same("the folder", os.listdir(room.path("folder")), ["keys"])
    room.put("set", b"older", mode=0o444)
    ends(run(room, "-g", "-m", "set", "keys"), 5, b"", noted("set: cannot write"))
    same("the filter file", room.get("set"), b"older")


@case("keys that hold and a report into a full disk and a closed output: status 5")
def _(room):
    full = noted("cannot write standard output")
    room.put("keys", MANY)
    room.put("keys.flt", MANY_FILTER)
    room.put("equal", b"\n\n")
    room.put("equal.flt", b"older")
    for words in [("keys",), ("-g", "equal")]:
        with open("/dev/full", "wb") as out:
            ends(run(room, *words, out=out), 5, b"", full)
        ends(run(room, *words, before=closed(1)), 5, b"", full)
    same("the filter file", room.get("equal.flt"), b"older")
    # No key holds, so nothing is written.
    room.put("keys", b"another key\n")
    with open("/dev/full", "wb") as out:
        ends(run(room, "keys", out=out), 1)


@case("status 6: memory that runs out anywhere in a build leaves the older filter file, or an empty one; in a test of keys nothing is written")
def _(room):
    room.put("keys", MANY)
    for words, file, others in [(("-g", "keys"), b"older", [b""]), (("keys",), MANY_FILTER, [])]:
        room.put("keys.flt", file)
        for _, left in bent(room, words, "alloc", "fail"):
            ends(left, 6, b"", noted("out of memory"))
            same("whether the filter file is as it must be", room.get("keys.flt") in [file, *others], True)
            room.put("keys.flt", file)


@case("status 6: a limit of memory that is too low for a build leaves no filter")
def _(room):
    room.put("keys", lines(200000))
    refused = 0
    for most in range(4 << 20, 64 << 20, 1 << 19):
        left = run(room, "-g", "-m", "set", "keys", before=limited(resource.RLIMIT_AS, most))
        if left.status != 6:
            ends(left, 0)
            same("some limits", refused > 5, True)
            ends(run(room, "-m", "set", "keys"), 0, lines(200000))
            return
        ends(left, 6, b"", noted("out of memory"))
        same("whether there is a filter", room.has("set") and room.get("set") != b"", False)
        refused += 1
    raise Wrong("no limit of memory gives status 0")


@case("status 7 and 8: keys that grow between two passes, no keys, and a line that is too long")
def _(room):
    room.put("keys", TWO)
    room.put("pass-2", TWO + b"one more\n")
    ends(run(room, "-g", "keys", bend={}), 7, b"", noted("keys: keys changed: 2, then 3"))
    same("the filter file", room.has("keys.flt"), False)
    room.put("keys", b"")
    ends(run(room, "-g", "keys"), 8, b"", noted("keys: no keys"))
    room.put("keys", b"a\n" + b"b" * 65536 + b"\n")
    room.put("keys.flt", TWO_FILTER)
    ends(run(room, "-g", "keys"), 8, b"", noted("keys: line 2 is too long"))
    ends(run(room, "keys"), 8, b"a\n", noted("keys: line 2 is too long"))


@case("reads and writes of filters that come short or are interrupted change nothing")
def _(room):
    room.put("keys", MANY)
    for call in ["read", "write"]:
        for how in ["short", "interrupt"]:
            for number, left in bent(room, ["-g", "keys"], call, how):
                ends(left, 0)
                same(f"the filter file after {call} {number} {how}", room.get("keys.flt"), MANY_FILTER)
            for _, left in bent(room, ["keys"], call, how):
                ends(left, 0, MANY)


@case("a read or a write of a filter's build that fails: the older filter file, or a prefix of the new one")
def _(room):
    room.put("keys", MANY)
    for _, left in bent(room, ["-g", "-m", "set", "keys"], "read", "fail"):
        ends(left, 4, b"", noted("keys: cannot read"))
        same("the filter file", room.has("set"), False)
    for number, left in bent(room, ["-g", "keys"], "write", "fail", "file"):
        ends(left, 5, b"", noted("keys.flt: cannot write"))
        found = room.get("keys.flt")
        same(f"the filter file after write {number} failed", found, MANY_FILTER[:len(found)])
        same("whether it is whole", len(found) < len(MANY_FILTER), True)


@case("a read of the tested keys that fails: the lines of all keys before it are out")
def _(room):
    keys = lines(30000)
    room.put("keys", keys)
    ends(run(room, "-g", "-m", "set", "keys"), 0)
    first = None
    for number, left in bent(room, ["-m", "set", "keys"], "read", "fail"):
        same("the status", left.status, 4)
        if left.err == noted("set: cannot read"):
            same("standard output", left.out, b"")
            continue
        first = first or number
        got = keys[:65536 * (number - first)]
        ends(left, 4, got[:got.rfind(b"\n") + 1], noted("keys: cannot read"))
    same("reads of the keys file", first is not None, True)


@case("a filter file is synced after its last byte, and each file is closed once")
def _(room):
    room.put("keys", MANY)
    ends(run(room, "-g", "keys", bend={}), 0)
    mine = [call for call, path in room.calls() if path == "keys.flt"]
    same("the calls on the filter file", mine, ["open", *["write"] * (len(mine) - 3), "fsync", "close"])
    closed_once(room)
    ends(run(room, "keys", bend={}), 0, MANY)
    closed_once(room)


@case("arguments of the filter's program that are not UTF-8, and options that it does not have")
def _(room):
    for words in [(b"\xff",), (b"-h",), (b"-g",), (b"-v", b"-g", b"keys"), (b"-V",), (b"keys", b"more")]:
        ends(run(room, *words), 2, b"", noted("bad arguments"))
    for words, letter in [(("-w", "0"), "w"), (("-g", "-w", "17"), "w"), (("-k", "0"), "k"), (("-c", "0.9", "-w", "0"), "c")]:
        ends(run(room, *words, "keys"), 2, b"", noted(f"bad value of -{letter}"))
    for words in [["-w", "17", "keys"], [b"\xff"]]:
        for _, left in bent(room, words, "alloc", "fail"):
            ends(left, 6, b"", noted("out of memory"))
