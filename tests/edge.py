#!/usr/bin/env python3
"""Runs the built programs on real files, pipes and devices, and compares status, outputs and files with what they must be.

    tests/edge.py [CMPH [JUDGE [FILTER [STORE [SHARDS]]]]]   the programs are those below crates/ if they are left out
    tests/edge.py --list                    lists the cases

Each case runs in a folder of its own, as nobody if this runs as root. Those that bend calls need a C compiler, and are skipped without one. The last line is
'N passed, M failed', with the cases that were skipped.
"""
import os
import resource
import shutil
import subprocess
import sys
import tempfile

import counting
from dumps import BDZ_ONE, BDZ_PH_TWO, CHM_ONE, CHM_TWO, FUNCTIONS, OLDER, TWO, TWO_ANSWERS, TWO_EQUAL
from room import CASES, HERE, Skipped, Wrong, case, closed, closed_once, ends, limited, lines, made_shim, run_case, said, same

HELP = b"""usage: cmph [-v] [-h] [-V] [-z] [-k nkeys] [-f hash] [-g [-c c] [-s seed] [-r seeds]] [-a algorithm] [-M MB] [-b b] [-d dir] [-m file.mph] keysfile
       cmph -T nkeys [-s seed] [-r seeds] [-M MB] [-d dir]
       cmph -u [-m file.mph] [keysfile]
algorithms: chm bdz bdz_ph brz
hash functions: jenkins
"""


def answered(count):
    """What a query by the CHM function of these keys writes."""
    return b"".join(b"key number %d -> %d\n" % (number, number) for number in range(count))


def claiming(dump, keys):
    """The header of a function file with so many keys and the greatest ratio."""
    return dump[:12] + keys.to_bytes(4, "little") + (10000000).to_bytes(4, "little") + bytes(4)


# Statuses


@case("status 0: a build and a query by each algorithm")
def _(room):
    for name, content, dump, answers in FUNCTIONS:
        room.put("keys", content)
        ends(room.run("-g", "-a", name, "-s", "0", "keys"), 0)
        same("the function file", room.get("keys.mph"), dump)
        ends(room.run("keys"), 0, answers)


@case("status 0: a query with a function file of version 1")
def _(room):
    for _, content, dump, answers in FUNCTIONS:
        room.put("keys", content)
        room.put("keys.mph", OLDER[dump])
        ends(room.run("keys"), 0, answers)
        same("the function file", room.get("keys.mph"), OLDER[dump])


@case("status 0: a note of a function that was built, and another function file")
def _(room):
    room.put("keys", TWO)
    ends(room.run("-v", "-g", "-f", "jenkins", "-s", "0", "-m", "f", "keys"), 0, b"", said("chm keys 2 cells 5 seed 0"))
    same("the function file", room.get("f"), CHM_TWO)
    same("another function file", room.has("keys.mph"), False)


@case("status 1: equal keys are reported, and the older function file stays as it was")
def _(room):
    room.put("keys", b"\n\n")
    room.put("keys.mph", b"older")
    for words in [("-r", "1"), ()]:
        ends(room.run("-g", "-s", "0", *words, "keys"), 1, TWO_EQUAL, said("no seed of the list gives an empty core"))
    same("the function file", room.get("keys.mph"), b"older")


@case("status 1: a report of many keys into a pipe and a file, before the message")
def _(room):
    count = 3000
    room.put("keys", b"\n" * count)
    report = b"core chm seed 0 edges %d\n" % count
    report += b"".join(b"edge %d 2629 1366\n" % line for line in range(1, count + 1))
    report += b"".join(b"equal 1 %d\n" % line for line in range(2, count + 1))
    ends(room.run("-g", "-s", "0", "keys"), 1, report, said("no seed of the list gives an empty core"))
    with open(room.path("both"), "wb") as file:
        left = room.run("-g", "-s", "0", "keys", out=file, err=file)
    same("the status", left.status, 1)
    same("the file", room.get("both"), report + said("no seed of the list gives an empty core"))


@case("a report into a full disk and a closed pipe: status 5, and the message of standard output")
def _(room):
    room.put("keys", b"\n\n")
    room.put("keys.mph", b"older")
    wanted = said("cannot write standard output")
    with open("/dev/full", "wb") as file:
        ends(room.run("-g", "-s", "0", "keys", out=file), 5, b"", wanted)
    reading, writing = os.pipe()
    os.close(reading)
    ends(room.run("-g", "-s", "0", "keys", out=writing), 5, b"", wanted)
    os.close(writing)
    ends(room.run("-g", "-s", "0", "keys", before=closed(1)), 5, b"", wanted)
    same("the function file", room.get("keys.mph"), b"older")


@case("status 1: a query notes a repeated number and an unknown key")
def _(room):
    room.put("keys", b"\n\n")
    room.put("keys.mph", BDZ_ONE)
    ends(room.run("keys"), 1, b" -> 0\n -> 0\n", said("line 2: value 0 is repeated"))
    room.put("keys", b"a\n")
    ends(room.run("keys"), 1, b"", said("line 1: key is unknown"))


@case("status 2: arguments")
def _(room):
    bad = said("bad arguments; cmph -h shows the usage")
    for words, message in [([], said("no keys file")), (["-t", "2", "keys"], bad), ([b"\xff"], bad), (["-f", "md5", "keys"], said("bad value of -f"))]:
        ends(room.run(*words), 2, b"", message)


@case("status 3: a damaged function file")
def _(room):
    room.put("keys", b"\n")
    faults = [(b"", "truncated at 0"), (b"x" * 24, "bad magic")]
    for whole in [BDZ_ONE, OLDER[BDZ_ONE]]:
        faults += [(whole[:30], "truncated at 30"), (whole + b"x", "trailing bytes")]
    for dump, text in faults:
        room.put("keys.mph", dump)
        ends(room.run("keys"), 3, b"", said(f"keys.mph: bad dump: {text}"))


@case("status 4: files that cannot be read")
def _(room):
    ends(room.run("-g", "keys"), 4, b"", said("keys: cannot read"))
    ends(room.run("keys"), 4, b"", said("keys.mph: cannot read"))
    room.put("keys.mph", CHM_TWO)
    ends(room.run("keys"), 4, b"", said("keys: cannot read"))
    os.mkdir(room.path("folder"))
    ends(room.run("-g", "folder"), 4, b"", said("folder: cannot read"))
    ends(room.run(""), 4, b"", said(".mph: cannot read"))
    same("other files", sorted(os.listdir(room.folder)), ["folder", "keys.mph"])


@case("status 4: a keys file without permission to read")
def _(room):
    room.put("keys", TWO, mode=0)
    ends(room.run("-g", "keys"), 4, b"", said("keys: cannot read"))


@case("status 4: a pipe cannot be rewound")
def _(room):
    os.mkfifo(room.path("keys"))
    os.chmod(room.path("keys"), 0o666)
    # Open for both, so that neither side waits for the other.
    pipe = os.open(room.path("keys"), os.O_RDWR)
    os.write(pipe, TWO)
    left = room.run("-g", "keys")
    os.close(pipe)
    ends(left, 4, b"", said("keys: cannot read"))


@case("status 5: a function file that cannot be created")
def _(room):
    room.put("keys", TWO)
    ends(room.run("-g", "-m", "none/f", "keys"), 5, b"", said("none/f: cannot write"))
    room.put("f", b"older", mode=0o444)
    ends(room.run("-g", "-m", "f", "keys"), 5, b"", said("f: cannot write"))
    same("the function file", room.get("f"), b"older")


@case("status 6: little memory")
def _(room):
    room.put("keys", lines(1000000))
    ends(room.run("-g", "keys", before=limited(resource.RLIMIT_AS, 16 << 20)), 6, b"", said("out of memory"))
    same("the function file", room.has("keys.mph"), False)


@case("status 6: memory that runs out anywhere before a report writes none of it")
def _(room):
    room.put("keys", b"\n" * 100000)
    room.put("keys.mph", b"older")
    refused = 0
    for most in range(4 << 20, 32 << 20, 1 << 18):
        left = room.run("-g", "keys", before=limited(resource.RLIMIT_AS, most))
        same("the function file", room.get("keys.mph"), b"older")
        if left.status != 6:
            same("the status", left.status, 1)
            same("the first line", left.out.split(b"\n")[0], b"core chm seed 1 edges 100000")
            same("some limits", refused > 5, True)
            return
        ends(left, 6, b"", said("out of memory"))
        refused += 1
    raise Wrong("no limit of memory gives status 1")


@case("status 3: a header that claims more than there is memory for")
def _(room):
    room.put("keys", TWO)
    for dump, most in [(CHM_TWO, 67108864), (OLDER[CHM_TWO], 16777216)]:
        room.put("keys.mph", claiming(dump, most))
        ends(room.run("keys", before=limited(resource.RLIMIT_AS, 24 << 20)), 3, b"", said("keys.mph: bad dump: truncated at 24"))


@case("status 6: arguments that there is no memory for")
def _(room):
    many = ["-m" + "x" * 120000] * 15
    for most in range(3 << 20, 12 << 20, 1 << 18):
        left = room.run(*many, before=limited(resource.RLIMIT_AS, most))
        if left.status == 6:
            ends(left, 6, b"", said("out of memory"))
            return
    raise Wrong("no limit of memory gives status 6")


@case("status 7: a keys file that grows between two passes")
def _(room):
    room.put("keys", TWO)
    room.put("pass-2", TWO + b"one more\n")
    ends(room.run("-g", "keys", bend={}), 7, b"", said("keys: keys changed: 2, then 3"))
    same("the function file", room.has("keys.mph"), False)


@case("status 8: no keys, and a line that is too long")
def _(room):
    room.put("keys", b"")
    ends(room.run("-g", "keys"), 8, b"", said("keys: no keys"))
    room.put("keys", b"a\n" + b"b" * 65536 + b"\n")
    ends(room.run("-g", "keys"), 8, b"", said("keys: line 2 is too long"))


# Ends of ranges


@case("the first and the last seed, b, c and count of keys")
def _(room):
    room.put("keys", TWO)
    for words in [["-s", "0"], ["-s", "1"], ["-s", "4294967295"], ["-c", "1.5"], ["-c", "10"], ["-k", "4294967295"], ["-r", "1000"]]:
        ends(room.run("-g", *words, "keys"), 0)
        ends(room.run("keys"), 0, TWO_ANSWERS)
    for name, ends_of_b in [("bdz", ["3", "10"]), ("brz", ["64", "700"])]:
        for b in ends_of_b:
            ends(room.run("-g", "-a", name, "-b", b, "-s", "0", "keys"), 0)
            ends(room.run("keys"), 0, TWO_ANSWERS)
    ends(room.run("-g", "-k", "1", "-s", "0", "keys"), 0)
    same("the function file", room.get("keys.mph"), CHM_ONE)


@case("a function with more cells than there may be keys")
def _(room):
    # By BDZ_PH over the most keys with the greatest ratio, all cells 0: the first end of a key is chosen, its first hash value modulo
    # a third of the vertices. That of the empty key under seed 0 is 9b2ec03d.
    room.put("keys", b"\n")
    for dump, most, third in [(BDZ_PH_TWO, 67108864, 223696215), (OLDER[BDZ_PH_TWO], 16777216, 55924055)]:
        room.put("keys.mph", claiming(dump, most) + bytes((3 * third + 4) // 5))
        ends(room.run("keys"), 0, b" -> %d\n" % (0x9B2EC03D % third))


# Outputs


@case("help and version into a pipe, a file, a closed pipe, a full disk, and nothing")
def _(room):
    full = said("cannot write standard output")
    for word, text in [("-h", HELP), ("-V", b"cmph 2\n")]:
        ends(room.run(word), 0, text)
        with open(room.path("out"), "wb") as file:
            ends(room.run(word, out=file), 0)
        same("the file", room.get("out"), text)
        with open("/dev/full", "wb") as file:
            ends(room.run(word, out=file), 5, b"", full)
        ends(room.run(word, before=closed(1)), 5, b"", full)
        reading, writing = os.pipe()
        os.close(reading)
        ends(room.run(word, out=writing), 5, b"", full)
        os.close(writing)


@case("a query into a full disk and a closed pipe says so, and err is whole")
def _(room):
    room.put("keys", lines(5000))
    ends(room.run("-g", "keys"), 0)
    for words in [["-k", "3", "keys"], ["keys"]]:
        with open("/dev/full", "wb") as file:
            ends(room.run(*words, out=file), 5, b"", said("cannot write standard output"))
        reading, writing = os.pipe()
        os.close(reading)
        ends(room.run(*words, out=writing), 5, b"", said("cannot write standard output"))
        os.close(writing)


@case("a failing standard error changes no status and no answer")
def _(room):
    room.put("keys", b"\n\n")
    room.put("keys.mph", BDZ_ONE)
    ends(room.run("keys", before=closed(2)), 1, b" -> 0\n -> 0\n")
    with open("/dev/full", "wb") as file:
        ends(room.run("keys", err=file), 1, b" -> 0\n -> 0\n")
        ends(room.run("-f", "md5", "keys", err=file), 2)


@case("each message has reached err when the program ends, into a file too")
def _(room):
    with open(room.path("err"), "wb") as file:
        ends(room.run("-g", "keys", err=file), 4)
    same("the file", room.get("err"), said("keys: cannot read"))


# Files


@case("a build over a longer file, through a symbolic link")
def _(room):
    room.put("keys", TWO)
    room.put("target", b"x" * 100000)
    os.symlink("target", room.path("keys.mph"))
    ends(room.run("-g", "-s", "0", "keys"), 0)
    same("the link", os.readlink(room.path("keys.mph")), "target")
    same("the function file", room.get("target"), CHM_TWO)


@case("a keys file that is read-only, and one byte larger than a buffer")
def _(room):
    room.put("keys", b"a" * 65535 + b"\n" + b"b", mode=0o444)
    ends(room.run("-g", "keys"), 0)
    ends(room.run("keys"), 0, b"a" * 65535 + b" -> 0\nb -> 1\n")
    same("the keys file", room.get("keys"), b"a" * 65535 + b"\n" + b"b")


@case("a device takes the function: it knows no sync")
def _(room):
    room.put("keys", TWO)
    ends(room.run("-g", "-m", "/dev/null", "keys"), 0)


@case("long paths and many flags")
def _(room):
    room.put("keys", TWO)
    ends(room.run("-g", "-s", "0", *["-v"] * 40, "keys"), 0, b"", said("chm keys 2 cells 5 seed 0"))
    long = "p" * 5000
    ends(room.run("-m", long, "keys"), 4, b"", said(f"{long}: cannot read"))


@case("a limit of file size at ten places of a dump leaves a prefix of it")
def _(room):
    room.put("keys", lines(24000))
    ends(room.run("-g", "-s", "0", "keys"), 0)
    whole = room.get("keys.mph")
    for place in range(10):
        most = len(whole) * place // 10 + place
        os.remove(room.path("keys.mph"))
        ends(room.run("-g", "-s", "0", "keys", before=limited(resource.RLIMIT_FSIZE, most)), 5, b"", said("keys.mph: cannot write"))
        same("the function file", room.get("keys.mph"), whole[:most])


# Calls of the system that are bent, one after another


@case("reads and writes that come short or are interrupted change nothing")
def _(room):
    room.put("keys", lines(12000))
    ends(room.run("-g", "-s", "3", "keys"), 0)
    whole = room.get("keys.mph")
    for call in ["read", "write"]:
        for how in ["short", "interrupt"]:
            for number, left in room.bent_runs(["-g", "-s", "3", "keys"], call, how):
                ends(left, 0)
                same(f"the function file after {call} {number} {how}", room.get("keys.mph"), whole)
            for number, left in room.bent_runs(["keys"], call, how):
                ends(left, 0, answered(12000))


@case("a read of a build that fails: status 4, and the older function file")
def _(room):
    room.put("keys", lines(12000))
    room.put("keys.mph", b"older")
    for number, left in room.bent_runs(["-g", "-s", "3", "keys"], "read", "fail"):
        ends(left, 4, b"", said("keys: cannot read"))
        same("the function file", room.get("keys.mph"), b"older")


@case("a write of a function file that fails: status 5, and a prefix of the dump")
def _(room):
    room.put("keys", lines(24000))
    ends(room.run("-g", "-s", "0", "keys"), 0)
    whole, before = room.get("keys.mph"), -1
    for number, left in room.bent_runs(["-g", "-s", "0", "keys"], "write", "fail", "file"):
        ends(left, 5, b"", said("keys.mph: cannot write"))
        found = room.get("keys.mph")
        same(f"the function file after write {number} failed", found, whole[:len(found)])
        same("whether each write before it reached the file", before < len(found) < len(whole), True)
        before = len(found)


@case("a short write and then a failing one leave a prefix of the dump")
def _(room):
    room.put("keys", lines(24000))
    ends(room.run("-g", "-s", "0", "keys"), 0)
    whole = room.get("keys.mph")
    most = 20000
    ends(room.run("-g", "-s", "0", "keys", before=limited(resource.RLIMIT_FSIZE, most)), 5, b"", said("keys.mph: cannot write"))
    same("the function file", room.get("keys.mph"), whole[:most])


@case("a read of the keys in a query that fails: the text of all keys before it is out")
def _(room):
    keys = lines(30000)
    room.put("keys", keys)
    ends(room.run("-g", "keys"), 0)
    room.put("function", room.get("keys.mph"))
    first = None
    for number, left in room.bent_runs(["-m", "function", "keys"], "read", "fail"):
        same("the status", left.status, 4)
        if left.err == said("function: cannot read"):
            same("standard output", left.out, b"")
            continue
        first = first or number
        got = keys[:65536 * (number - first)]
        ends(left, 4, answered(got.count(b"\n")), said("keys: cannot read"))
    same("reads of the keys file", first is not None, True)


@case("a write of a query that fails: status 5, a prefix of the text, and a whole message")
def _(room):
    room.put("keys", lines(12000))
    ends(room.run("-g", "keys"), 0)
    text = answered(12000)
    for number, left in room.bent_runs(["keys"], "write", "fail", "1"):
        same("the status", left.status, 5)
        same("standard error", left.err, said("cannot write standard output"))
        same("what out begins with", left.out, text[:len(left.out)])


@case("a write to standard error that fails changes nothing else")
def _(room):
    room.put("keys", b"\n\n")
    room.put("keys.mph", BDZ_ONE)
    for number, left in room.bent_runs(["keys"], "write", "fail", "2"):
        same("the status", left.status, 1)
        same("standard output", left.out, b" -> 0\n -> 0\n")


@case("how often a build and a query call the system")
def _(room):
    keys = lines(100000)
    room.put("keys", keys)
    ends(room.run("-g", "-s", "1", "-v", "keys", bend={}, err=subprocess.DEVNULL), 0)
    reads, writes, seeks, opens, _ = room.counts()
    passes = seeks
    dump = room.get("keys.mph")
    pieces = len(keys) // 65536 + 2
    if passes < 2 or reads > passes * pieces or writes > len(dump) // 16384 + 4 or opens != 2:
        raise Wrong(f"a build of {len(keys)} bytes: {reads} reads, {writes} writes, {seeks} seeks, {opens} opens")
    left = room.run("keys", bend={})
    same("the status", left.status, 0)
    reads, writes, seeks, opens, _ = room.counts()
    # The header of the function file is at most eight reads.
    if reads > pieces + len(dump) // 65536 + 8 + 4 or writes > len(left.out) // 16384 + pieces + 4 or opens != 2 or seeks != 0:
        raise Wrong(f"a query of {len(keys)} bytes: {reads} reads, {writes} writes, {seeks} seeks, {opens} opens")


@case("status 6: memory that runs out anywhere while the command line is read")
def _(room):
    for words, message in [(["-f", "md5", "keys"], "bad value of -f"), ([b"\xff"], "bad arguments; cmph -h shows the usage")]:
        for number, left in room.bent_runs(words, "alloc", "fail"):
            ends(left, 6, b"", said("out of memory"))
        ends(room.run(*words), 2, b"", said(message))


@case("the function file is synced after its last byte, and each file is closed once")
def _(room):
    room.put("keys", lines(12000))
    for name in ["chm", "bdz", "bdz_ph", "brz"]:
        ends(room.run("-g", "-a", name, "keys", bend={}), 0)
        mine = [call for call, path in room.calls() if path == "keys.mph"]
        same("the calls on the function file", mine, ["open", *["write"] * (len(mine) - 3), "fsync", "close"])
        closed_once(room)


import upgrading  # noqa: E402, F401  these have their cases last, in this order
import zero_ended  # noqa: E402, F401
import spilling  # noqa: E402, F401
import reports  # noqa: E402, F401
import filters  # noqa: E402, F401
import stores  # noqa: E402, F401
import splits  # noqa: E402, F401
import endless  # noqa: E402, F401


def main():
    if sys.argv[1:] == ["--list"]:
        for name, _ in CASES:
            print(f"- {name}")
        return 0
    with tempfile.TemporaryDirectory(prefix="cmph-edge-") as top:
        os.chmod(top, 0o755)
        for number, name in enumerate(["cmph", "cmph_judge", "cmph_filter", "cmph_store", "cmph_shards"], 1):
            given = sys.argv[number] if len(sys.argv) > number else os.path.join(HERE, "..", "crates", name, "out", name)
            shutil.copyfile(given, os.path.join(top, name))
            os.chmod(os.path.join(top, name), 0o755)
        shim = made_shim(top)
        for number, (name, body) in enumerate(CASES):
            try:
                counting.case(name, run_case(body, os.path.join(top, str(number)), top, shim))
            except Skipped:
                counting.skipped(name.replace(",", ";"), "there is no C compiler")
    return counting.close()


if __name__ == "__main__":
    sys.exit(main())
