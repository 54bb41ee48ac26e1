"""Cases of shards: splits, joins, queries and tests. Functions are by CHM, so the number of a key is that of its line in its shard, and where the shard begins."""
import contextlib
import hashlib
import os
import resource
import stat
import time

import shards as plain
from filters import next_line
from reports import own_pipe
from room import Wrong, case, closed, closed_once, ends, finished, limited, lines, said, same

SHARDS = "cmph_shards"
MEGABYTE = 1 << 20
COUNT = 2
SPLIT = ["-n", str(COUNT), "-d", "d", "keys"]
SMALL = b"ant\nbee\n\ncow\ndog\neel\nfox"
# More bytes for each shard than wait for its file.
MANY = lines(12000)


def until(holds):
    """Waits until this holds, for some seconds at most."""
    for _ in range(5000):
        if holds():
            return
        time.sleep(0.001)
    raise Wrong("what is waited for does not come")


def noted(text):
    return said(text, SHARDS)


CANNOT_MAKE = noted("d: cannot write")


def run(room, *words, **how):
    return room.run(*words, program=SHARDS, **how)


def bent(room, words, call, how, on=None):
    return room.bent_runs(words, call, how, on, program=SHARDS)


# What the steps must leave


def keys_of(content):
    return content.removesuffix(b"\n").split(b"\n")


def files_of(content, count=COUNT):
    """What a split of these lines makes, by its name."""
    parts = [[] for _ in range(count)]
    for key in keys_of(content):
        parts[plain.shard_of(key, plain.ROUTE_SEED, count)].append(key + b"\n")
    made = {plain.shard_name(shard): b"".join(part) for shard, part in enumerate(parts)}
    return {**made, "counts": plain.counts_text(map(len, parts))}


def numbers_of(content, count=COUNT):
    """The number of each key by functions of CHM over the shards of these lines."""
    made, numbers, total = files_of(content, count), {}, 0
    for shard in range(count):
        for key in keys_of(made[plain.shard_name(shard)]):
            numbers[key] = total
            total += 1
    return numbers


SMALL_FILES, MANY_FILES = files_of(SMALL), files_of(MANY)
SMALL_NUMBERS, MANY_NUMBERS = numbers_of(SMALL), numbers_of(MANY)
LONGEST = max(map(len, MANY_FILES.values()))


def answered(content, numbers):
    return b"".join(b"%b -> %d\n" % (key, numbers[key]) for key in keys_of(content)) if content else b""


def manifest_of(room, names):
    """The manifest of function files by CHM in the folder d."""
    entries, total = [], 0
    for name in names:
        text = room.get(f"d/{name}")
        keys = int.from_bytes(text[12:16], "little")
        entries.append(plain.Entry(name.encode(), keys, keys, total, len(text), hashlib.sha256(text).digest()))
        total += keys
    return plain.manifest_bytes(plain.Manifest(1, plain.ROUTE_SEED, entries))


# Files of a case


def in_folder(room, folder="d"):
    return {name: room.get(f"{folder}/{name}") for name in os.listdir(room.path(folder))}


def to_split(room, content, older=None):
    """A keys file, and a new folder for its shards, in which each file of a split may have older bytes."""
    room.put("keys", content)
    if room.has("d"):
        for name in os.listdir(room.path("d")):
            os.remove(room.path(f"d/{name}"))
    else:
        room.put_folder("d")
    for name in files_of(b"", COUNT) if older is not None else []:
        room.put(f"d/{name}", older)


def built(room, content):
    """Splits lines, and builds the functions of their shards. Gives the words of their join."""
    to_split(room, content)
    ends(run(room, *SPLIT), 0)
    names = [f"d/{shard}.mph" for shard in range(COUNT)]
    for shard, name in enumerate(names):
        ends(room.run("-g", "-a", "chm", "-m", name, f"d/{plain.shard_name(shard)}"), 0)
    return ["-j", "-m", "d/all", "-d", "d", *names]


def joined(room, content):
    ends(run(room, *built(room, content)), 0)
    same("the manifest", room.get("d/all"), manifest_of(room, ["0.mph", "1.mph"]))


def stopped(room, wanted, is_whole=False):
    """What a split leaves that stopped: files that hold prefixes of their shards, and empty counts."""
    for name, content in in_folder(room).items():
        if name != "counts":
            same(f"the file {name}", content, wanted[name][:len(content)])
    same("the counts", room.get("d/counts"), wanted["counts"] if is_whole else b"")


# Files and their permissions


@case("a split, a join, a query and a test of shards: status 0, and 1 if a key is unknown or the test fails")
def _(room):
    for content, wanted, numbers in [(SMALL, SMALL_FILES, SMALL_NUMBERS), (MANY, MANY_FILES, MANY_NUMBERS)]:
        to_split(room, content)
        ends(run(room, *SPLIT), 0)
        same("the files of a split", in_folder(room), wanted)
        joined(room, content)
        ends(run(room, "-m", "d/all", "keys"), 0, answered(content, numbers))
        ends(run(room, "-t", "-m", "d/all", "keys"), 0, b"true\n")
        room.put("fewer", content[:content.rindex(b"\n", 0, -1) + 1])
        ends(run(room, "-t", "-m", "d/all", "fewer"), 1, b"false: %d keys, not %d\n" % (len(numbers) - 1, len(numbers)))
    room.put("keys", b"fox\nant\nfox\n")
    joined(room, SMALL)
    room.put("keys", b"fox\nant\nfox\n")
    ends(run(room, "-t", "-m", "d/all", "keys"), 1, b"false: line 3: value %d is repeated\n" % SMALL_NUMBERS[b"fox"])


@case("the files of a split and a manifest are for all to read and write but for what the umask takes away, and files that are there keep their modes")
def _(room):
    for mask in [0o000, 0o022, 0o077, 0o137]:
        words = built(room, SMALL)
        for name in [*SMALL_FILES, "all"]:
            with contextlib.suppress(FileNotFoundError):
                os.remove(room.path(f"d/{name}"))
        for step, names in [(SPLIT, list(SMALL_FILES)), (words, ["all"])]:
            ends(run(room, *step, before=lambda mask=mask: os.umask(mask)), 0)
            modes = {name: oct(stat.S_IMODE(os.stat(room.path(f"d/{name}")).st_mode)) for name in names}
            same(f"the modes with the umask {mask:o}", modes, dict.fromkeys(names, oct(0o666 & ~mask)))
    to_split(room, SMALL)
    for name, mode in [("shard-0000", 0o600), ("shard-0001", 0o640), ("counts", 0o666)]:
        room.put(f"d/{name}", b"older" * 100, mode)
    ends(run(room, *SPLIT, before=lambda: os.umask(0o022)), 0)
    same("the files", in_folder(room), SMALL_FILES)
    modes = [stat.S_IMODE(os.stat(room.path(f"d/{name}")).st_mode) for name in ("shard-0000", "shard-0001", "counts")]
    same("the modes", modes, [0o600, 0o640, 0o666])


@case("a split writes through links, and leaves other files as they are")
def _(room):
    to_split(room, SMALL)
    room.put("target", b"x" * 100000)
    os.symlink("../target", room.path("d/shard-0001"))
    for name in ["shard-0002", "other"]:
        room.put(f"d/{name}", b"older")
    ends(run(room, *SPLIT), 0)
    same("the link", os.readlink(room.path("d/shard-0001")), "../target")
    same("the files", in_folder(room), {**SMALL_FILES, "shard-0002": b"older", "other": b"older"})
    same("the file that it leads to", room.get("target"), SMALL_FILES["shard-0001"])


@case("a split that is refused makes no file and changes none")
def _(room):
    room.put("closed", SMALL, mode=0)
    room.put_folder("folder")
    for older in [None, b"older"]:
        to_split(room, SMALL, older)
        before = in_folder(room)
        for words, status, text in [
            (["-n", "2", "-d", "d", "none"], 4, "none: cannot read"), (["-n", "2", "-d", "d", "closed"], 4, "closed: cannot read"),
            (["-n", "2", "-d", "d", ""], 4, ": cannot read"),
            (["-n", "0", "-d", "d", "keys"], 2, "bad value of -n"), (["-n", "2", "-k", "0", "-d", "d", "keys"], 2, "bad value of -k"),
            (["-n", "2", "-d", "d", "keys", "keys"], 2, "bad arguments"), (["-n", "2", "keys"], 2, "bad arguments"), (["-n", "2", "-d", "none", "keys"], 5, "none: cannot write"),
            (["-n", "2", "-d", "keys", "keys"], 5, "keys: cannot write"),
        ]:
            ends(run(room, *words), status, b"", noted(text))
            same(f"the files after {words}", in_folder(room), before)
        os.chmod(room.path("d"), 0o555)
        if older is None:
            ends(run(room, *SPLIT), 5, b"", CANNOT_MAKE)
        os.chmod(room.path("d"), 0o755)
        same("the files", in_folder(room), before)
    same("all files", sorted(os.listdir(room.folder)), ["closed", "d", "folder", "keys"])
    # A folder is opened, and cannot be read: that stops a split which has begun.
    to_split(room, SMALL, b"older")
    ends(run(room, "-n", "2", "-d", "d", "folder"), 4, b"", noted("folder: cannot read"))
    same("the files", in_folder(room), dict.fromkeys(SMALL_FILES, b""))


@case("a file of a split that cannot be created: status 5, and the counts are empty")
def _(room):
    for name in ["shard-0000", "shard-0001"]:
        to_split(room, SMALL, b"older")
        os.chmod(room.path(f"d/{name}"), 0o444)
        ends(run(room, *SPLIT), 5, b"", CANNOT_MAKE)
        same(f"the file {name}", room.get(f"d/{name}"), b"older")
        same("the counts", room.get("d/counts"), b"")
    to_split(room, SMALL, b"older")
    os.chmod(room.path("d/counts"), 0o444)
    ends(run(room, *SPLIT), 5, b"", CANNOT_MAKE)
    same("the files", in_folder(room), dict.fromkeys(SMALL_FILES, b"older"))


@case("a join that is refused makes no manifest and changes none, and one that cannot be created is status 5")
def _(room):
    words = built(room, SMALL)
    for older in [None, b"older"]:
        if older is not None:
            room.put("d/all", older)
        for other, status, text in [
            (["-j", "-m", "d/all", "d/0.mph", "d/none"], 4, "d/none: cannot read"), (["-j", "-m", "d/all", "d/0.mph", "d/counts"], 3, "d/counts: bad dump: truncated at 4"),
            (["-j", "-m", "d/all", "-d", "none", "d/0.mph"], 4, "none/counts: cannot read"), (["-j", "-m", "d/all", "-d", "d", "d/0.mph"], 3, "d/counts: another count at line 2"),
        ]:
            ends(run(room, *other), status, b"", noted(text))
            same("the manifest", room.get("d/all") if room.has("d/all") else None, older)
    os.chmod(room.path("d/all"), 0o444)
    ends(run(room, *words), 5, b"", noted("d/all: cannot write"))
    same("the manifest", room.get("d/all"), b"older")
    ends(run(room, "-j", "-m", "none/all", room.path("d/0.mph")), 5, b"", noted("none/all: cannot write"))
    ends(run(room, "-j", "-m", "/dev/null", room.path("d/0.mph")), 0)


# Calls that are bent


@case("calls of a split, a join, a query and a test that come short or are interrupted change nothing")
def _(room):
    words, bends = built(room, MANY), [("open", "interrupt"), ("read", "interrupt"), ("read", "short"), ("write", "interrupt"), ("write", "short"), ("fsync", "interrupt"), ("close", "interrupt")]
    whole = manifest_of(room, ["0.mph", "1.mph"])
    for call, how in bends:
        for number, left in bent(room, words, call, how):
            ends(left, 0)
            same(f"the manifest after {call} {number} {how}", room.get("d/all"), whole)
    for call, how in bends:
        # A query neither syncs nor writes a file.
        for more, out in [([], answered(MANY, MANY_NUMBERS)), (["-t"], b"true\n")] if call != "fsync" else []:
            for _, left in bent(room, [*more, "-m", "d/all", "keys"], call, how):
                ends(left, 0, out)
    for call, how in bends:
        to_split(room, MANY)
        for number, left in bent(room, SPLIT, call, how):
            ends(left, 0)
            same(f"the files after {call} {number} {how}", in_folder(room), MANY_FILES)
            to_split(room, MANY, b"older")


@case("each call of a split that fails: its status, its message, prefixes of the shards, and empty counts")
def _(room):
    read, write, files = (4, b"", noted("keys: cannot read")), (5, b"", CANNOT_MAKE), COUNT + 1
    for call, wanted in [("open", [read, write]), ("read", [read]), ("write", [write]), ("fsync", [write]), ("close", [(0,)])]:
        to_split(room, MANY, b"older")
        bends = 0
        for number, left in bent(room, SPLIT, call, "fail"):
            bends = number
            ends(left, *wanted[min(number, len(wanted)) - 1])
            found = in_folder(room)
            if call == "open" and number <= 1 + files:
                # Files that were not made yet are the older ones.
                made = ["counts", "shard-0000", "shard-0001"][:max(0, number - 2)]
                same(f"the files after open {number} failed", found, {name: b"" if name in made else b"older" for name in MANY_FILES})
            elif call == "close":
                same(f"the files after close {number} failed", found, MANY_FILES)
                closed_once(room)
            else:
                # The counts are written last, so their sync is the last one.
                stopped(room, MANY_FILES, is_whole=call == "fsync" and number == files)
            to_split(room, MANY, b"older")
        if call == "fsync":
            same("how many syncs can fail", bends, files)


@case("a sync of a split that fails is not passed over: status 5, the shard is whole, and the counts are empty")
def _(room):
    for content, wanted in [(SMALL, SMALL_FILES), (MANY, MANY_FILES), (b"ant\n", files_of(b"ant\n"))]:
        to_split(room, content)
        for number, left in bent(room, SPLIT, "fsync", "fail"):
            ends(left, 5, b"", CANNOT_MAKE)
            last = f"shard-{number - 1:04}" if number <= COUNT else "counts"
            same(f"the file {last}, which was not synced", room.get(f"d/{last}"), wanted[last])
            same("whether the counts are empty", room.get("d/counts") == b"", number <= COUNT)


@case("each call of a join that fails: its status, its message, and what the manifest holds")
def _(room):
    words = built(room, SMALL)
    whole = manifest_of(room, ["0.mph", "1.mph"])
    reads = [(4, b"", noted(f"d/{name}: cannot read")) for name in ("0.mph", "1.mph", "counts")]
    write = (5, b"", noted("d/all: cannot write"))
    for call, wanted, file in [("open", [*reads, write], b"older"), ("write", [write], b""), ("fsync", [write], whole), ("close", [(0,)], whole)]:
        room.put("d/all", b"older")
        for number, left in bent(room, words, call, "fail"):
            ends(left, *wanted[min(number, len(wanted)) - 1])
            same(f"the manifest after {call} {number} failed", room.get("d/all"), file)
            if call == "close":
                closed_once(room)
            room.put("d/all", b"older")
    seen = []
    room.put("d/all", b"older")
    for _, left in bent(room, words, "read", "fail"):
        ends(left, 4, b"", left.err)
        same("the manifest", room.get("d/all"), b"older")
        seen.append(left.err)
    same("what is said", list(dict.fromkeys(seen)), [end[2] for end in reads])


@case("each call of a query and a test that fails: the first file that it is a call on")
def _(room):
    joined(room, SMALL)
    said_of = [noted(f"{name}: cannot read") for name in ("d/all", "d/0.mph", "d/1.mph", "keys")]
    for more in [[], ["-t"]]:
        words = [*more, "-m", "d/all", "keys"]
        for number, left in bent(room, words, "open", "fail"):
            ends(left, 4, b"", said_of[number - 1])
        seen = []
        for _, left in bent(room, words, "read", "fail"):
            same("the status", left.status, 4)
            seen.append(left.err)
        same("what is said", list(dict.fromkeys(seen)), said_of)
        for _, left in bent(room, words, "close", "fail"):
            ends(left, 0, b"true\n" if more else answered(SMALL, SMALL_NUMBERS))
            closed_once(room)


@case("a read of the keys in a query of shards that fails: the lines of all keys before it are out; in a test nothing is")
def _(room):
    joined(room, MANY)
    for more in [[], ["-t"]]:
        first = None
        for number, left in bent(room, [*more, "-m", "d/all", "keys"], "read", "fail"):
            same("the status", left.status, 4)
            if left.err != noted("keys: cannot read"):
                same("standard output", left.out, b"")
                continue
            first = first or number
            got = MANY[:65536 * (number - first)]
            ends(left, 4, b"" if more else answered(got[:got.rfind(b"\n") + 1], MANY_NUMBERS), noted("keys: cannot read"))
        same("reads of the keys file", first is not None, True)


@case("a write of a query of shards that fails: status 5, a prefix of the text, and a whole message")
def _(room):
    joined(room, MANY)
    text = answered(MANY, MANY_NUMBERS)
    for _, left in bent(room, ["-m", "d/all", "keys"], "write", "fail", "1"):
        same("the status", left.status, 5)
        same("standard error", left.err, noted("cannot write standard output"))
        same("what out begins with", left.out, text[:len(left.out)])
    for _, left in bent(room, ["-t", "-m", "d/all", "keys"], "write", "fail", "1"):
        ends(left, 5, b"", noted("cannot write standard output"))


@case("notes of unknown keys of shards that err does not take change no status and no number")
def _(room):
    joined(room, SMALL)
    # By CHM other keys have a number, too. By BDZ this one has none.
    for shard in range(COUNT):
        ends(room.run("-g", "-a", "bdz", "-m", f"d/{shard}.mph", f"d/{plain.shard_name(shard)}"), 0)
    ends(run(room, "-j", "-m", "d/all", "d/0.mph", "d/1.mph"), 0)
    unknown = next(b"%d" % key for key in range(1000) if run(room, "-m", "d/all", "/dev/stdin", given=piped(b"%d\n" % key)).status == 1)
    room.put("keys", b"ant\n" + unknown + b"\nfox\n")
    left = run(room, "-m", "d/all", "keys")
    same("the keys", [line.split(b" -> ")[0] for line in left.out.splitlines()], [b"ant", b"fox"])
    ends(left, 1, left.out, noted("line 2: key is unknown"))
    ends(run(room, "-m", "d/all", "keys", before=closed(2)), 1, left.out)
    with open("/dev/full", "wb") as err:
        ends(run(room, "-m", "d/all", "keys", err=err), 1, left.out)
    for _, other in bent(room, ["-m", "d/all", "keys"], "write", "fail", "2"):
        ends(other, 1, left.out, other.err)


@case("the files of a split are synced after their last byte; functions are read before a manifest is made, and a manifest before the keys are opened")
def _(room):
    words = built(room, MANY)
    to_split(room, MANY)
    ends(run(room, *SPLIT, bend={}), 0)
    calls = room.calls()
    same("the first calls", calls[:3], [("open", "keys"), ("open", "d/counts"), ("close", "d/counts")])
    for name in MANY_FILES:
        mine = [call for call, path in calls if path == f"d/{name}"]
        same(f"the last calls on {name}", mine[-4:], ["open", "write", "fsync", "close"])
        same(f"how often {name} is synced", mine.count("fsync"), 1)
    closed_once(room)
    same("how often the lines are rewound", room.counts()[2], 0)
    built(room, MANY)
    ends(run(room, *words, bend={}), 0)
    files = [call for call in room.calls() if call[0] in ("open", "close")]
    same("the calls of a join", files, [(call, f"d/{name}") for name in ("0.mph", "1.mph", "counts", "all") for call in ("open", "close")])
    mine = [call for call, path in room.calls() if path == "d/all"]
    same("the calls on the manifest", mine, ["open", *["write"] * (len(mine) - 3), "fsync", "close"])
    ends(run(room, "-t", "-m", "d/all", "keys", bend={}), 0, b"true\n")
    files = [call for call in room.calls() if call[0] in ("open", "close")]
    same("the calls of a test", files, [(call, name) for name in ("d/all", "d/0.mph", "d/1.mph", "keys") for call in ("open", "close")])


# Disks and pipes


@case("a split onto a full disk, at any file and of any size: status 5, prefixes, and empty counts")
def _(room):
    for most in [0, 1, 1000, 65535, 65536, LONGEST - 1]:
        to_split(room, MANY)
        ends(run(room, *SPLIT, before=limited(resource.RLIMIT_FSIZE, most)), 5, b"", CANNOT_MAKE)
        stopped(room, MANY_FILES)
    for name in SMALL_FILES:
        to_split(room, SMALL)
        os.symlink("/dev/full", room.path(f"d/{name}"))
        ends(run(room, *SPLIT), 5, b"", CANNOT_MAKE)
        os.remove(room.path(f"d/{name}"))
        if name != "counts":
            same("the counts", room.get("d/counts"), b"")
        for other, content in in_folder(room).items():
            same(f"the file {other}", content, SMALL_FILES[other][:len(content)])


@case("a join onto a full disk: status 5, and a prefix of the manifest")
def _(room):
    words = built(room, SMALL)
    whole = manifest_of(room, ["0.mph", "1.mph"])
    for most in range(0, len(whole), 13):
        ends(run(room, *words, before=limited(resource.RLIMIT_FSIZE, most)), 5, b"", noted("d/all: cannot write"))
        same("the manifest", room.get("d/all"), whole[:most])
    os.remove(room.path("d/all"))
    os.symlink("/dev/full", room.path("d/all"))
    ends(run(room, *words), 5, b"", noted("d/all: cannot write"))


@case("numbers and verdicts of shards into a full disk, a closed output and a pipe that no one reads: status 5")
def _(room):
    joined(room, MANY)
    full = noted("cannot write standard output")
    for words in [("-m", "d/all", "keys"), ("-t", "-m", "d/all", "keys")]:
        with open("/dev/full", "wb") as out:
            ends(run(room, *words, out=out), 5, b"", full)
        ends(run(room, *words, before=closed(1)), 5, b"", full)
        reading, writing = os.pipe()
        os.close(reading)
        ends(run(room, *words, out=writing), 5, b"", full)
        os.close(writing)


@case("a split and a join without standard streams, and with an err that takes nothing, make the same files and end with the same status")
def _(room):
    words = built(room, SMALL)
    whole = manifest_of(room, ["0.mph", "1.mph"])
    functions = {name: room.get(f"d/{name}") for name in ("0.mph", "1.mph")}
    for closing in [(0,), (1,), (2,), (0, 1, 2)]:
        def without(closing=closing):
            for number in closing:
                os.close(number)

        to_split(room, SMALL, b"older")
        ends(run(room, *SPLIT, before=without), 0)
        same(f"the files without {closing}", in_folder(room), SMALL_FILES)
        for name, content in functions.items():
            room.put(f"d/{name}", content)
        ends(run(room, *words, before=without), 0)
        same(f"the manifest without {closing}", room.get("d/all"), whole)
    room.put("long", b"ant\n" + b"k" * 65536 + b"\n")
    with open("/dev/full", "wb") as err:
        for how in [{"before": closed(2)}, {"err": err}]:
            ends(run(room, "-n", "2", "-d", "d", "long", **how), 8)
            same("the files", {name: room.get(f"d/{name}") for name in SMALL_FILES}, {**files_of(b"ant\n"), "counts": b""})
            ends(run(room, "-n", "2", "-d", "none", "keys", **how), 5)
            ends(run(room, *words, **how), 3)
            same("the manifest", room.get("d/all"), whole)


@case("devices take the files of a split and a manifest: they know no sync")
def _(room):
    words = built(room, SMALL)
    for name in [*SMALL_FILES, "all"]:
        with contextlib.suppress(FileNotFoundError):
            os.remove(room.path(f"d/{name}"))
        os.symlink("/dev/null", room.path(f"d/{name}"))
    ends(run(room, *SPLIT), 0)
    ends(run(room, *words[:3], *words[-2:]), 0)
    same("what the manifest leads to", os.readlink(room.path("d/all")), "/dev/null")


def piped(content):
    """A pipe out of which these bytes come."""
    given, into = own_pipe()
    os.write(into, content)
    os.close(into)
    return given


def through_a_pipe(room, content, *words, piece=5000):
    """Runs the program while these bytes come through a pipe, piece by piece. It may end before the last of them."""
    given, into = own_pipe()
    process = room.start(*words, program=SHARDS, given=given)
    os.close(given)
    with contextlib.suppress(BrokenPipeError), open(into, "wb") as pipe:
        for at in range(0, len(content), piece):
            pipe.write(content[at:at + piece])
            pipe.flush()
    return finished(process)


@case("lines of a split, and function files of a join, come out of pipes, since they are read once")
def _(room):
    for content, wanted in [(SMALL, SMALL_FILES), (MANY, MANY_FILES)]:
        to_split(room, content)
        ends(through_a_pipe(room, content, "-n", "2", "-d", "d", "/dev/stdin"), 0)
        same("the files", in_folder(room), wanted)
    built(room, SMALL)
    ends(through_a_pipe(room, room.get("d/0.mph"), "-j", "-m", "d/all", "/dev/stdin", room.path("d/1.mph")), 0)
    entries = plain.manifest_in(room.get("d/all")).shards
    same("the functions", [(entry.name, entry.digest) for entry in entries],
         [(name, hashlib.sha256(room.get(file)).digest()) for name, file in ((b"/dev/stdin", "d/0.mph"), (os.fsencode(room.path("d/1.mph")), "d/1.mph"))])
    to_split(room, MANY)
    ends(through_a_pipe(room, MANY + b"k" * 65536 + b"\n" + MANY, "-n", "2", "-d", "d", "/dev/stdin"), 8, b"", noted("/dev/stdin: line 12001 is too long"))
    same("the files", in_folder(room), {**MANY_FILES, "counts": b""})


@case("a file of a split that is removed while lines come is not made again: status 5, and the counts are empty")
def _(room):
    for name, more in [("shard-0000", b""), ("shard-0001", b""), ("shard-0000", MANY)]:
        to_split(room, MANY)
        given, into = own_pipe()
        split = room.start("-n", "2", "-d", "d", "/dev/stdin", program=SHARDS, given=given)
        os.close(given)
        with contextlib.suppress(BrokenPipeError), open(into, "wb", buffering=0) as pipe:
            pipe.write(MANY)
            until(lambda name=name: os.path.getsize(room.path(f"d/{name}")) > 0)
            os.remove(room.path(f"d/{name}"))
            pipe.write(more)
        ends(finished(split), 5, b"", CANNOT_MAKE)
        same("whether the file is there", room.has(f"d/{name}"), False)
        same("the counts", room.get("d/counts"), b"")


@case("keys of shards come out of a pipe one by one, and each has its line before the next comes")
def _(room):
    joined(room, SMALL)
    given, into = own_pipe()
    query = room.start("-m", "d/all", "/dev/stdin", program=SHARDS, given=given)
    os.close(given)
    for keys in [b"ant\n", b"\n", b"fox\nbee\ncow\n", b"ant\n"]:
        os.write(into, keys)
        for key in keys_of(keys):
            same("the line", next_line(query.stdout.fileno()), answered(key + b"\n", SMALL_NUMBERS))
    os.close(into)
    ends(finished(query), 0)


@case("shards that are joined again and renamed while keys are asked: they have the older numbers, and the next query has the newer")
def _(room):
    joined(room, SMALL)
    given, into = own_pipe()
    older = room.start("-m", "d/all", "/dev/stdin", program=SHARDS, given=given)
    os.close(given)
    os.write(into, b"ant\n")
    same("the line", next_line(older.stdout.fileno()), answered(b"ant\n", SMALL_NUMBERS))
    # The same functions, of which the second comes first.
    ends(run(room, "-j", "-m", "d/newer", "d/1.mph", "d/0.mph"), 0)
    turned = room.get("d/newer")
    same("whether it is another", turned != room.get("d/all"), True)
    os.rename(room.path("d/newer"), room.path("d/all"))
    left = run(room, "-t", "-m", "d/all", "keys")
    same("the status of a test of the newer", left.status, 1)
    for shard in range(COUNT):
        os.remove(room.path(f"d/{shard}.mph"))
    os.write(into, b"fox\n\n")
    os.close(into)
    ends(finished(older), 0, answered(b"fox\n\n", SMALL_NUMBERS))


# Memory


@case("status 6: memory that runs out anywhere in a split leaves prefixes and empty counts, or no file")
def _(room):
    for content, wanted in [(SMALL, SMALL_FILES), (MANY, MANY_FILES)]:
        to_split(room, content)
        for _, left in bent(room, SPLIT, "alloc", "fail"):
            ends(left, 6, b"", noted("out of memory"))
            if in_folder(room):
                stopped(room, wanted)
            to_split(room, content)


@case("status 6: memory that runs out anywhere in a join leaves the older manifest, or an empty one; in a query and a test nothing is written")
def _(room):
    words = built(room, SMALL)
    room.put("d/all", b"older")
    for _, left in bent(room, words, "alloc", "fail"):
        ends(left, 6, b"", noted("out of memory"))
        same("whether the manifest is as it must be", room.get("d/all") in [b"older", b""], True)
        room.put("d/all", b"older")
    joined(room, SMALL)
    for more in [[], ["-t"]]:
        for _, left in bent(room, [*more, "-m", "d/all", "keys"], "alloc", "fail"):
            ends(left, 6, b"", noted("out of memory"))


def least_limit(room, words, end, least, most, step):
    """Runs under rising limits of memory: each has status 6 until one ends as it must."""
    refused = 0
    for limit in range(least, most, step):
        left = run(room, *words, before=limited(resource.RLIMIT_AS, limit))
        if left.status != 6:
            ends(left, *end)
            same("some limits", refused > 5, True)
            return
        ends(left, 6, b"", noted("out of memory"))
        refused += 1
        yield limit
    raise Wrong(f"no limit of memory gives status {end[0]}")


@case("status 6: a limit of memory that is too low for a split into many shards leaves no file, or empty counts")
def _(room):
    to_split(room, MANY)
    words, wanted = ["-n", "1024", "-d", "d", "keys"], files_of(MANY, 1024)
    for _ in least_limit(room, words, (0,), 4 * MEGABYTE, 256 * MEGABYTE, 4 * MEGABYTE):
        found = in_folder(room)
        same("the counts", found.pop("counts", b""), b"")
        for name, content in found.items():
            same(f"the file {name}", content, wanted[name][:len(content)])
    same("the files", in_folder(room), wanted)


@case("status 6: a limit of memory that is too low for a query or a test of shards writes nothing, and one that is too low for a join leaves no manifest")
def _(room):
    content = lines(300000)
    words = built(room, content)
    for _ in least_limit(room, words, (0,), 4 * MEGABYTE, 64 * MEGABYTE, MEGABYTE // 32):
        same("whether there is a manifest", room.has("d/all") and room.get("d/all") != b"", False)
    for more in [[], ["-t"]]:
        query = run(room, *more, "-m", "d/all", "keys")
        same("the status", query.status, 0)
        for _ in least_limit(room, [*more, "-m", "d/all", "keys"], (0, query.out), 4 * MEGABYTE, 64 * MEGABYTE, MEGABYTE // 32):
            pass


@case("status 3: manifests and functions of shards that claim more than there is memory for")
def _(room):
    words = built(room, SMALL)
    ends(run(room, *words), 0)
    manifest, function = room.get("d/all"), room.get("d/1.mph")
    small = limited(resource.RLIMIT_AS, 24 * MEGABYTE)
    room.put("d/other", manifest[:16] + (4096).to_bytes(4, "little"))
    ends(run(room, "-m", "d/other", "keys", before=small), 3, b"", noted("d/other: bad manifest: truncated at 20"))
    room.put("d/1.mph", function[:12] + (2**26).to_bytes(4, "little") + (10**7).to_bytes(4, "little") + bytes(4))
    for step in (words, ["-m", "d/all", "keys"], ["-t", "-m", "d/all", "keys"]):
        ends(run(room, *step, before=small), 3, b"", noted("d/1.mph: bad dump: truncated at 24"))
    same("the manifest", room.get("d/all"), manifest)
    # A manifest that claims a function of the most keys, whose file is short.
    first = plain.manifest_in(manifest).shards[0]
    claim = plain.Manifest(1, plain.ROUTE_SEED, [first._replace(keys=2**26, span=2**26)])
    room.put("d/other", plain.manifest_bytes(claim))
    for more in [[], ["-t"]]:
        ends(run(room, *more, "-m", "d/other", "keys", before=small), 3, b"", noted("d/0.mph: not the function of the manifest"))


@case("arguments of the program of shards that are not UTF-8, and options that it does not have")
def _(room):
    for words in [(b"\xff",), (b"-h",), (b"-V",), (b"-g", b"-m", b"d", b"keys"), (b"-n", b"2", b"-d", b"\xff", b"keys"), (b"-m", b"all", b"k\xc3"), (b"-jj", b"-m", b"all", b"f")]:
        ends(run(room, *words), 2, b"", noted("bad arguments"))
    for words, letter in [(("-n", "4097"), "n"), (("-n", "x", "-k", "0"), "k"), (("-k", "4294967296"), "k"), (("-j", "-n", "0"), "n")]:
        ends(run(room, *words, "keys"), 2, b"", noted(f"bad value of -{letter}"))
    for words in [["-n", "4097", "keys"], [b"\xff"], ["-n", "2", "-d", "d"]]:
        for _, left in bent(room, words, "alloc", "fail"):
            ends(left, 6, b"", noted("out of memory"))


# What is checked, and in which order (docs/use/shards.md)


@case("the command line of shards: its form comes first, then values, of which -k is the first, and then options and files that are missing")
def _(room):
    room.put("keys", SMALL)
    for words, text in [
        (["-n", "0", "-d", "d"], "bad arguments"), (["-n", "0", "-n", "0", "keys"], "bad arguments"), (["-n", "0", "-a", "keys"], "bad arguments"), (["-k", "0", "-j"], "bad arguments"),
        (["-n", "0", "keys"], "bad value of -n"), (["-n", "0", "-k", "x", "keys"], "bad value of -k"), (["-k", "0", "keys"], "bad value of -k"), (["-j", "-k", "0", "f"], "bad value of -k"),
        (["-t", "-n", "4097", "keys", "keys"], "bad value of -n"), (["-m", "all", "-k", "0", "keys", "keys"], "bad value of -k"),
        (["-n", "2", "keys"], "bad arguments"), (["-k", "1", "keys"], "bad arguments"), (["-j", "f"], "bad arguments"), (["-m", "all", "keys", "keys"], "bad arguments"),
    ]:
        ends(run(room, *words), 2, b"", noted(text))


@case("-d of shards: with a slash at its end it is the same folder, and empty the current one; messages have it as it was given")
def _(room):
    words = built(room, SMALL)
    functions = {name: room.get(f"d/{name}") for name in ("0.mph", "1.mph")}
    for name in SMALL_FILES:
        os.remove(room.path(f"d/{name}"))
    ends(run(room, "-n", "2", "-d", "d/", "keys"), 0)
    same("the files", in_folder(room), {**SMALL_FILES, **functions})
    ends(run(room, "-n", "2", "-d", "", "keys"), 0)
    same("the files of the current folder", {name: room.get(name) for name in SMALL_FILES}, SMALL_FILES)
    for name in ("d/", ""):
        ends(run(room, "-j", "-m", "d/all", "-d", name, *words[-2:]), 0)
        ends(run(room, "-j", "-m", "d/all", "-d", name, *words[:-3:-1]), 3, b"", noted(f"{name}counts: another count at line 1"))
    for name in SMALL_FILES:
        os.remove(room.path(name))
    ends(run(room, "-j", "-m", "d/all", "-d", "", *words[-2:]), 4, b"", noted("counts: cannot read"))
    ends(run(room, "-n", "2", "-d", "none/", "keys"), 5, b"", noted("none/: cannot write"))
    os.chmod(room.folder, 0o555)
    left = run(room, "-n", "2", "-d", "", "keys")
    os.chmod(room.folder, 0o755)
    ends(left, 5, b"", noted(": cannot write"))


@case("a join checks of each function its name, whether it can be read, its bytes and its algorithm, and then the counts; messages have the path from the folder of the manifest")
def _(room):
    words = built(room, SMALL)
    same("the counts", room.get("d/counts"), b"3\n4\n")
    ends(room.run("-g", "-a", "bdz", "-m", "d/other", "d/shard-0001"), 0)
    absolute = room.path("d/none")
    for files, status, text in [
        (["d/"], 3, "d/: bad name"), (["d/", "d/counts"], 3, "d/: bad name"), (["d/counts", "d/"], 3, "d/counts: bad dump: truncated at 4"), (["d/none", "d/counts"], 4, "d/none: cannot read"),
        (["d/counts", "d/none"], 3, "d/counts: bad dump: truncated at 4"), (["d/0.mph", "d/other"], 3, "d/other: another algorithm"), (["d/0.mph", "d/other", "d/none"], 3, "d/other: another algorithm"),
        (["d/other", "d/0.mph"], 3, "d/0.mph: another algorithm"), (["d/none"], 4, "d/none: cannot read"), (["none"], 4, "d/none: cannot read"), (["./d/none"], 4, "d/none: cannot read"),
        ([absolute], 4, f"{absolute}: cannot read"),
    ]:
        ends(run(room, "-j", "-m", "d/all", "-d", "none", *files), status, b"", noted(text))
    for counts, line in [(b"03\n4\n", 1), (b"3\r\n4\r\n", 1), (b"3\n4", 2), (b"3\n4\n0\n", 3), (b"3\n4\n\n", 3), (b"3 \n4\n", 1), (b"3\n\n4\n", 2), (b"", 1), (b"+3\n4\n", 1)]:
        room.put("d/counts", counts)
        ends(run(room, *words), 3, b"", noted(f"d/counts: another count at line {line}"))
    same("whether there is a manifest", room.has("d/all"), False)


@case("a query of shards checks the manifest, then each function file, of which a damaged one is no other one, and then the keys")
def _(room):
    joined(room, SMALL)
    manifest, function = plain.manifest_in(room.get("d/all")), room.get("d/0.mph")
    first, second = manifest.shards
    for more in [[], ["-t"]]:
        def asks(text, status=3, keys="keys"):
            ends(run(room, *more, "-m", "d/other", keys), status, b"", noted(text))

        for entry in [first._replace(span=first.span + 1), first._replace(span=671088645), first._replace(keys=first.keys + 1), first._replace(length=0), first._replace(digest=bytes(32))]:
            after = second._replace(offset=entry.span)
            room.put("d/other", plain.manifest_bytes(manifest._replace(shards=[entry, after])))
            asks("d/0.mph: not the function of the manifest")
            asks("d/0.mph: not the function of the manifest", keys="none")
            room.put("d/0.mph", function[:-1])
            asks(f"d/0.mph: bad dump: truncated at {len(function) - 1}")
            room.put("d/0.mph", function)
        room.put("d/other", plain.manifest_bytes(manifest._replace(shards=[first._replace(span=first.span + 1), second])))
        asks(f"d/other: bad manifest: bad field at {20 + 2 + 5 + 4 + 4 + 8 + 8 + 32 + 2 + 5 + 4 + 4}")
        room.put("d/other", room.get("d/all"))
        os.rename(room.path("d/1.mph"), room.path("d/away"))
        asks("d/1.mph: cannot read", 4, keys="none")
        room.put("d/0.mph", room.get("d/away"))
        asks("d/0.mph: not the function of the manifest", keys="none")
        room.put("d/0.mph", function)
        os.rename(room.path("d/away"), room.path("d/1.mph"))
        asks("none: cannot read", 4, keys="none")


@case("a test of shards reads no further than the first wrong line; a query writes what comes before a line that is too long")
def _(room):
    joined(room, SMALL)
    long = b"k" * 65536 + b"\n"
    number = SMALL_NUMBERS[b"ant"]
    room.put("keys", b"ant\nant\n" + long)
    ends(run(room, "-t", "-m", "d/all", "keys"), 1, b"false: line 2: value %d is repeated\n" % number)
    ends(run(room, "-m", "d/all", "keys"), 8, b"ant -> %d\n" % number * 2, noted("keys: line 3 is too long"))
    room.put("keys", b"ant\n" + long + b"ant\n")
    ends(run(room, "-t", "-m", "d/all", "keys"), 8, b"", noted("keys: line 2 is too long"))
    room.put("keys", b"ant\nant\n" + b"bee\n" * 100000)
    seen = []
    for _, left in bent(room, ["-t", "-m", "d/all", "keys"], "read", "fail"):
        same("the status", left.status, 4)
        seen.append(left.err)
    same("how many reads of the keys can fail", seen.count(noted("keys: cannot read")), 1)
