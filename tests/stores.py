"""Cases of record stores."""
import contextlib
import itertools
import os
import resource
import subprocess

import store as plain
from dumps import BDZ_ONE, BRZ_TWO, CHM_TWO, TWO
from filters import TWO_FILTER, next_line
from reports import own_pipe
from room import Wrong, case, closed, closed_once, ends, finished, limited, lines, said, same

STORE, JUDGE = "cmph_store", "cmph_judge"
NO_SEED = "no seed of the list gives an empty core"
TWO_LINES = b"\tx\na\tyz\n"
TWO_STORE = plain.built(TWO_LINES, seed=0)[3]
MEGABYTE = 1 << 20


def records(count):
    """Numbered lines, each with a value."""
    return b"".join(b"key number %d\tvalue %d\n" % (number, number) for number in range(count))


# Many lines, more bytes than a buffer has, and their keys and store.
MANY, MANY_KEYS = records(12000), lines(12000)
MANY_STORE = plain.built(MANY)[3]


def noted(text):
    return said(text, STORE)


def unknown(*numbers):
    return b"".join(noted(f"line {number}: key is unknown") for number in numbers)


def run(room, *words, **how):
    return room.run(*words, program=STORE, **how)


def bent(room, words, call, how, on=None):
    return room.bent_runs(words, call, how, on, program=STORE)


def through_a_pipe(room, pieces, *words):
    """Runs the program while these pieces come through a pipe, which is its standard input. It may end before the last of them."""
    given, into = own_pipe()
    process = room.start(*words, program=STORE, given=given)
    os.close(given)
    with contextlib.suppress(BrokenPipeError), open(into, "wb") as pipe:
        for piece in pieces:
            pipe.write(piece)
            pipe.flush()
    return finished(process)


@case("a store is built, and the values of keys are written: status 0 if all are known, else 1")
def _(room):
    room.put("keys", TWO_LINES)
    ends(run(room, "-g", "-s", "0", "keys"), 0)
    same("the store file", room.get("keys.rec"), TWO_STORE)
    for content, status, out, err in [(TWO, 0, TWO_LINES, b""), (b"a\n\na", 0, b"a\tyz\n\tx\na\tyz\n", b""), (b"", 0, b"", b""),
                                      (b"b\na\na\tyz\n", 1, b"a\tyz\n", unknown(1, 3))]:
        room.put("keys", content)
        ends(run(room, "keys"), status, out, err)
    room.put("keys", b"a\0b\0")
    ends(run(room, "-z", "keys"), 1, b"a\tyz\0", unknown(2))
    ends(run(room, "-z", "-k", "1", "keys"), 0, b"a\tyz\0")
    room.put("more", MANY)
    ends(run(room, "-g", "-m", "store", "more"), 0)
    same("the store file", room.get("store"), MANY_STORE)
    room.put("more", MANY_KEYS + b"another key\n" + MANY_KEYS)
    ends(run(room, "-m", "store", "more"), 1, MANY + MANY, unknown(12001))


@case("lines of a build come out of a pipe, since they are read once")
def _(room):
    ends(through_a_pipe(room, [TWO_LINES[:4], TWO_LINES[4:]], "-g", "-s", "0", "-m", "store", "/dev/stdin"), 0)
    same("the store file", room.get("store"), TWO_STORE)
    ends(through_a_pipe(room, [MANY[at:at + 5000] for at in range(0, len(MANY), 5000)], "-g", "-m", "store", "/dev/stdin"), 0)
    same("the store file", room.get("store"), MANY_STORE)
    ends(through_a_pipe(room, [b"a\na\t1\n"], "-g", "-m", "store", "/dev/stdin"), *plain.built(b"a\na\t1\n")[:3])
    same("the store file", room.get("store"), MANY_STORE)


@case("looked-up keys come out of a pipe one by one, and each has its line or its note before the next comes")
def _(room):
    room.put("store", TWO_STORE)
    given, into = own_pipe()
    run_of_keys = room.start("-m", "store", "/dev/stdin", program=STORE, given=given)
    os.close(given)
    for key, out, err in [(b"a\n", [b"a\tyz\n"], b""), (b"\n", [b"\tx\n"], b""), (b"b\n", [], unknown(3)), (b"a\n\na\n", [b"a\tyz\n", b"\tx\n", b"a\tyz\n"], b"")]:
        os.write(into, key)
        for line in out:
            same("the line", next_line(run_of_keys.stdout.fileno()), line)
        if err:
            same("the note", next_line(run_of_keys.stderr.fileno()), err)
    os.close(into)
    ends(finished(run_of_keys), 1)


@case("a store file comes out of a pipe")
def _(room):
    room.put("keys", MANY_KEYS)
    ends(through_a_pipe(room, [MANY_STORE], "-m", "/dev/stdin", "keys"), 0, MANY)


@case("a store that is replaced by mv while keys are looked up: they have the values of the older, and the next look-up those of the newer")
def _(room):
    room.put("lines", b"a\told\nb\told\n")
    ends(run(room, "-g", "-m", "store", "lines"), 0)
    room.put("lines", b"a\tnew\nb\tnew\n")
    ends(run(room, "-g", "-m", "newer", "lines"), 0)
    given, into = own_pipe()
    older = room.start("-m", "store", "/dev/stdin", program=STORE, given=given)
    os.close(given)
    os.write(into, b"a\n")
    same("the line", next_line(older.stdout.fileno()), b"a\told\n")
    os.rename(room.path("newer"), room.path("store"))
    room.put("keys", b"a\nb\n")
    ends(run(room, "-m", "store", "keys"), 0, b"a\tnew\nb\tnew\n")
    os.write(into, b"b\n")
    os.close(into)
    ends(finished(older), 0, b"b\told\n")


@case("equal keys, one without a value: the report of BDZ, which is true of the keys; the older store file stays")
def _(room):
    content = b"pear\t1\napple\npear\nfig\t\napple\t2\npear\t3\n"
    keys = b"pear\napple\npear\nfig\napple\npear\n"
    room.put("lines", content)
    room.put("keys", keys)
    room.put("lines.rec", b"older")
    wanted = plain.built(content)
    for words in [(), ("-r", "1", "-b", "10")]:
        ends(run(room, "-g", *words, "lines"), 1, *wanted[1:3])
    same("the store file", room.get("lines.rec"), b"older")
    same("the report of cmph", room.run("-g", "-a", "bdz", "keys").out, wanted[1])
    with open(room.path("report"), "wb") as report:
        ends(run(room, "-g", "lines", out=report), 1, b"", noted(NO_SEED))
    ends(room.run("report", "keys", program=JUDGE), 0, b"true\n")
    first = subprocess.run(["sort", "-u", "-t", "\t", "-k", "1,1", "lines"], cwd=room.folder, env={"LC_ALL": "C"}, stdout=subprocess.PIPE, check=True).stdout
    room.put("once", first)
    ends(run(room, "-g", "once"), 0)
    same("the store file", room.get("once.rec"), plain.built(first)[3])


@case("a store is written back as its lines, by the keys that cut gives")
def _(room):
    room.put("lines", MANY)
    ends(run(room, "-g", "lines"), 0)
    with subprocess.Popen(["cut", "-f1", "lines"], cwd=room.folder, stdout=subprocess.PIPE) as cut:
        room.put("keys", cut.stdout.read())
    ends(run(room, "-m", "lines.rec", "keys"), 0, MANY)


@case("store files that are none, and lengths that claim more than there is memory for: status 3")
def _(room):
    room.put("keys", TWO)
    most = (2**32 - 1).to_bytes(4, "little")
    records_at = len(TWO_STORE) - 12
    of_lengths = [TWO_STORE[:8] + most + TWO_STORE[12:], *(TWO_STORE[:12] + length + TWO_STORE[16:] for length in (most, (2**30).to_bytes(4, "little")))]
    of_other_programs = [CHM_TWO, BDZ_ONE, BRZ_TWO, TWO_FILTER, MANY]
    for file in [b"", TWO_STORE[:15], TWO_STORE[:-1], TWO_STORE + b"x", TWO_STORE * 20000, b"x" * 67, *of_other_programs, *of_lengths,
                 TWO_STORE[:records_at - 4] + bytes(4) + TWO_STORE[records_at:]]:
        room.put("keys.rec", file)
        ends(run(room, "keys", before=limited(resource.RLIMIT_AS, 24 * MEGABYTE)), 3, b"", noted("keys.rec: bad store"))
        same("the store file", room.get("keys.rec"), file)
    # The keys file is not looked at.
    ends(run(room, "-m", "keys.rec", "none"), 3, b"", noted("keys.rec: bad store"))


@case("status 3: a whole store whose records are too large is refused by their length, before they are read")
def _(room):
    count = 16383
    room.put("lines", b"".join(b"%06d\n" % number for number in range(count)))
    ends(run(room, "-g", "lines"), 0)
    small = room.get("lines.rec")
    index = small[plain.HEADER_LEN:-14 * count]
    # The same keys with the longest values: a record has 65,545 bytes in place of 10.
    places = b"".join(plain.four(int.from_bytes(small[at:at + 4], "little") // 10 * 65545) for at in range(len(small) - 14 * count, len(small) - 10 * count, 4))
    start = plain.MAGIC + plain.four(len(index)) + plain.four(65545 * count) + index + places
    values = (b"\6\0\xff\xff%06d" % number + bytes(65535) for number in range(count))
    room.put("keys", b"000001\n")
    ends(through_a_pipe(room, itertools.chain([start], values), "-m", "/dev/stdin", "keys"), 3, b"", noted("/dev/stdin: bad store"))


@case("a store file is none for the other programs")
def _(room):
    room.put("keys", TWO)
    room.put("store", TWO_STORE)
    ends(room.run("-m", "store", "keys"), 3, b"", said("store: bad dump: bad magic"))
    ends(room.run("-m", "store", "keys", program="cmph_filter"), 3, b"", said("store: bad dump: bad magic", "cmph_filter"))


@case("a store file that was longer, a link to it, and a device")
def _(room):
    room.put("keys", TWO_LINES)
    room.put("target", b"x" * 100000)
    os.symlink("target", room.path("keys.rec"))
    ends(run(room, "-g", "-s", "0", "keys"), 0)
    same("the link", os.readlink(room.path("keys.rec")), "target")
    same("the store file", room.get("target"), TWO_STORE)
    ends(run(room, "-g", "-m", "/dev/null", "keys"), 0)


@case("lines, keys and store files that cannot be read or written: status 4 and 5")
def _(room):
    ends(run(room, "-g", "lines"), 4, b"", noted("lines: cannot read"))
    # The store file comes first.
    ends(run(room, "-m", "store", "keys"), 4, b"", noted("store: cannot read"))
    room.put("store", TWO_STORE)
    ends(run(room, "-m", "store", "keys"), 4, b"", noted("keys: cannot read"))
    room.put("lines", TWO_LINES)
    room.put("closed", TWO_LINES, mode=0)
    room.put_folder("folder")
    room.put("folder/lines", TWO_LINES)
    for name in ["closed", "folder"]:
        ends(run(room, "-g", name), 4, b"", noted(f"{name}: cannot read"))
        ends(run(room, "-m", name, "lines"), 4, b"", noted(f"{name}: cannot read"))
        ends(run(room, "-m", "store", name), 4, b"", noted(f"{name}: cannot read"))
    os.chmod(room.path("folder"), 0o555)
    ends(run(room, "-g", "folder/lines"), 5, b"", noted("folder/lines.rec: cannot write"))
    os.chmod(room.path("folder"), 0o755)
    same("the folder", os.listdir(room.path("folder")), ["lines"])
    room.put("kept", b"older", mode=0o444)
    ends(run(room, "-g", "-m", "kept", "lines"), 5, b"", noted("kept: cannot write"))
    same("the store file", room.get("kept"), b"older")


@case("values and a report into a full disk and a closed output: status 5")
def _(room):
    full = noted("cannot write standard output")
    room.put("keys", MANY_KEYS)
    room.put("keys.rec", MANY_STORE)
    room.put("equal", b"\n\tx\n")
    room.put("equal.rec", b"older")
    for words in [("keys",), ("-g", "equal")]:
        with open("/dev/full", "wb") as out:
            ends(run(room, *words, out=out), 5, b"", full)
        ends(run(room, *words, before=closed(1)), 5, b"", full)
    same("the store file", room.get("equal.rec"), b"older")
    # No key is known, so nothing is written.
    room.put("keys", b"another key\n")
    with open("/dev/full", "wb") as out:
        ends(run(room, "keys", out=out), 1, b"", unknown(1))


@case("notes of unknown keys that err does not take change no status and no value")
def _(room):
    room.put("keys", b"b\n\nb\na\n")
    room.put("keys.rec", TWO_STORE)
    ends(run(room, "keys", before=closed(2)), 1, b"\tx\na\tyz\n")
    with open("/dev/full", "wb") as err:
        ends(run(room, "keys", err=err), 1, b"\tx\na\tyz\n")
    for _, left in bent(room, ["keys"], "write", "fail", "2"):
        same("the status", left.status, 1)
        same("standard output", left.out, b"\tx\na\tyz\n")


@case("a store file on a full disk: status 5, and a prefix of it")
def _(room):
    room.put("lines", MANY)
    for most in range(0, len(MANY_STORE), len(MANY_STORE) // 9):
        ends(run(room, "-g", "lines", before=limited(resource.RLIMIT_FSIZE, most)), 5, b"", noted("lines.rec: cannot write"))
        same("the store file", room.get("lines.rec"), MANY_STORE[:most])
        os.remove(room.path("lines.rec"))


@case("status 6: memory that runs out anywhere in a build leaves the older store file, or an empty one; in a look-up nothing is written")
def _(room):
    room.put("keys", MANY)
    for words, file, others in [(("-g", "keys"), b"older", [b""]), (("keys",), MANY_STORE, [])]:
        room.put("keys.rec", file)
        for _, left in bent(room, words, "alloc", "fail"):
            ends(left, 6, b"", noted("out of memory"))
            same("whether the store file is as it must be", room.get("keys.rec") in [file, *others], True)
            room.put("keys.rec", file)
        room.put("keys", MANY_KEYS)


@case("status 6: a limit of memory that is too low for a build leaves no store")
def _(room):
    room.put("lines", records(100000))
    room.put("keys", lines(100000))
    refused = 0
    for most in range(4 * MEGABYTE, 64 * MEGABYTE, MEGABYTE // 2):
        left = run(room, "-g", "-m", "store", "lines", before=limited(resource.RLIMIT_AS, most))
        if left.status != 6:
            ends(left, 0)
            same("some limits", refused > 5, True)
            ends(run(room, "-m", "store", "keys"), 0, records(100000))
            return
        ends(left, 6, b"", noted("out of memory"))
        same("whether there is a store", room.has("store") and room.get("store") != b"", False)
        refused += 1
    raise Wrong("no limit of memory gives status 0")


@case("status 8: no lines, and a line or a key that is too long")
def _(room):
    room.put("keys", b"")
    ends(run(room, "-g", "keys"), 8, b"", noted("keys: no keys"))
    room.put("keys", b"a\n\t" + b"v" * 65535 + b"\n")
    room.put("keys.rec", TWO_STORE)
    ends(run(room, "-g", "keys"), 8, b"", noted("keys: line 2 is too long"))
    same("the store file", room.get("keys.rec"), TWO_STORE)
    ends(run(room, "-k", "1", "keys"), 0, b"a\tyz\n")
    ends(run(room, "keys"), 8, b"a\tyz\n", noted("keys: line 2 is too long"))
    room.put("keys", b"b\na\n" + b"k" * 65536)
    ends(run(room, "keys"), 8, b"a\tyz\n", unknown(1) + noted("keys: line 3 is too long"))


@case("status 8: more lines than there may be, and records that are too large, before the faults of later lines")
def _(room):
    # A file of zeros, of which nothing is on the disk.
    room.put("zeros", b"")
    os.truncate(room.path("zeros"), 2**26 + 1)
    ends(run(room, "-g", "-z", "zeros"), 8, b"", noted("zeros: more than 67108864 keys"))
    # 16,383 lines of 65,535 bytes and their lengths take 1,073,725,437 bytes, 16,387 less than there may be: the next line may have 16,383.
    longest = [b"k" * 65535 + b"\n"] * 16383
    for length, text in [(16384, "records are too large at line 16384"), (16383, "line 16385 is too long")]:
        end = through_a_pipe(room, [*longest, b"k" * length + b"\n" + b"k" * 70000], "-g", "-m", "store", "/dev/stdin")
        ends(end, 8, b"", noted(f"/dev/stdin: {text}"))
        same("whether there is a store", room.has("store"), False)


@case("reads and writes of stores that come short or are interrupted change nothing")
def _(room):
    room.put("lines", MANY)
    room.put("keys", MANY_KEYS)
    for call in ["read", "write"]:
        for how in ["short", "interrupt"]:
            for number, left in bent(room, ["-g", "lines"], call, how):
                ends(left, 0)
                same(f"the store file after {call} {number} {how}", room.get("lines.rec"), MANY_STORE)
            for _, left in bent(room, ["-m", "lines.rec", "keys"], call, how):
                ends(left, 0, MANY)


@case("a read or a write of a store's build that fails: the older store file, or a prefix of the new one")
def _(room):
    room.put("lines", MANY)
    for _, left in bent(room, ["-g", "-m", "store", "lines"], "read", "fail"):
        ends(left, 4, b"", noted("lines: cannot read"))
        same("whether there is a store", room.has("store"), False)
    # A file that was read or synced is closed whatever the system says of it.
    for call, end in [("write", (5, b"", noted("lines.rec: cannot write"))), ("fsync", (5, b"", noted("lines.rec: cannot write"))), ("close", (0,))]:
        for number, left in bent(room, ["-g", "lines"], call, "fail", "file"):
            ends(left, *end)
            found = room.get("lines.rec")
            same(f"the store file after {call} {number} failed", found, MANY_STORE[:len(found)])
            same("whether it is whole", len(found) == len(MANY_STORE), call != "write")
            room.put("lines.rec", b"older")


@case("a read of the store file that fails: status 4, and no line")
def _(room):
    room.put("store", MANY_STORE)
    room.put("keys", b"")
    seen = set()
    for _, left in bent(room, ["-m", "store", "keys"], "read", "fail"):
        ends(left, 4, b"", left.err)
        seen.add(left.err)
    same("what is said", seen, {noted("store: cannot read"), noted("keys: cannot read")})


@case("a read of the looked-up keys that fails: the lines of all keys before it are out")
def _(room):
    room.put("lines", records(30000))
    room.put("keys", lines(30000))
    ends(run(room, "-g", "-m", "store", "lines"), 0)
    first = None
    for number, left in bent(room, ["-m", "store", "keys"], "read", "fail"):
        if left.err == noted("store: cannot read"):
            ends(left, 4, b"", left.err)
            continue
        first = first or number
        got = lines(30000)[:65536 * (number - first)].count(b"\n")
        ends(left, 4, records(got), noted("keys: cannot read"))
    same("reads of the keys file", first is not None, True)


@case("a write of looked-up values that fails: status 5, a prefix of the lines, and a whole message")
def _(room):
    room.put("keys", MANY_KEYS)
    room.put("keys.rec", MANY_STORE)
    for _, left in bent(room, ["keys"], "write", "fail", "1"):
        same("the status", left.status, 5)
        same("standard error", left.err, noted("cannot write standard output"))
        same("what out begins with", left.out, MANY[:len(left.out)])


@case("a store file is opened after the lines were read, and closed before the keys are opened; it is synced after its last byte")
def _(room):
    room.put("lines", MANY)
    ends(run(room, "-g", "-m", "store", "lines", bend={}), 0)
    calls = room.calls()
    same("the first call", calls[0], ("open", "lines"))
    mine = [call for call, path in calls if path == "store"]
    same("the calls on the store file", mine, ["open", *["write"] * (len(mine) - 3), "fsync", "close"])
    closed_once(room)
    _, _, seeks, _, _ = room.counts()
    same("how often the lines are rewound", seeks, 0)
    room.put("keys", MANY_KEYS)
    ends(run(room, "-m", "store", "keys", bend={}), 0, MANY)
    files = [call for call in room.calls() if call[0] in ("open", "close")]
    same("the calls of a look-up", files, [("open", "store"), ("close", "store"), ("open", "keys"), ("close", "keys")])


@case("arguments of the store's program that are not UTF-8, and options that it does not have")
def _(room):
    for words in [(b"\xff",), (b"-h",), (b"-g",), (b"-v", b"-g", b"lines"), (b"-V",), (b"lines", b"more"), (b"-g", b"-a", b"bdz", b"lines"),
                  (b"-w", b"8", b"-g", b"lines"), (b"-g", b"-g", b"lines")]:
        ends(run(room, *words), 2, b"", noted("bad arguments"))
    for words, letter in [(("-b", "2"), "b"), (("-g", "-b", "11"), "b"), (("-k", "0"), "k"), (("-c", "0.9", "-b", "0"), "b"), (("-c", "0.9", "-k", "0"), "c"),
                          (("-g", "-r", "0", "-s", "x"), "r")]:
        ends(run(room, *words, "lines"), 2, b"", noted(f"bad value of -{letter}"))
    for words in [["-b", "11", "lines"], [b"\xff"]]:
        for _, left in bent(room, words, "alloc", "fail"):
            ends(left, 6, b"", noted("out of memory"))
