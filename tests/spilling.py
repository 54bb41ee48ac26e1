"""Cases of builds by BRZ: the spill file, and keys that change between two passes. edge.py runs them."""

import collections
import itertools
import os
import resource
import stat
import sys
import time

from room import HERE, case, closed_once, ends, finished, limited, lines, said, same

sys.path.append(os.path.join(HERE, "..", "bench"))
from draw import words as lookup2  # noqa: E402

BUILD = ["-g", "-a", "brz", "keys"]
NO_SEED = "bucket 0 has no seed with an empty core"
NO_SPLIT = "every split has a bucket with more than 1023 keys"
NO_SPILL = "cannot use the spill file"


def is_spill(path):
    return path.endswith(".spill")


def spills(room, folder="."):
    """The spill files in a folder."""
    return [name for name in os.listdir(room.path(folder)) if is_spill(name)]


def opened(room):
    """The spill files that the last run under the shim opened, each once."""
    return list({os.path.normpath(path): None for call, path in room.calls() if call == "open" and is_spill(path)})


def spill_of(process):
    """The name of the spill file of the process with this number."""
    return f"cmph-{process}.spill"


def built(room, content, *more):
    """The function file of these keys, which stay in the keys file."""
    room.put("keys", content)
    ends(room.run(*BUILD, *more), 0)
    return room.get("keys.mph")


def runs_in(spilled):
    """How many sorted runs the bytes of a spill file are, each of which has records of all buckets."""
    at, buckets = 0, []
    while at < len(spilled):
        buckets.append(int.from_bytes(spilled[at:at + 4], "little"))
        at += 10 + int.from_bytes(spilled[at + 8:at + 10], "little")
    same("the end of the last record", at, len(spilled))
    return 1 + sum(bucket < before for before, bucket in zip(buckets, buckets[1:]))


def runs_of(keys, megabytes):
    """How many runs keys must take: a record that doesn't fit beside those in the buffer begins one."""
    count, held = 1, 0
    for key in keys:
        size = 10 + len(key)
        count, held = (count + 1, size) if held + size > megabytes << 20 else (count, held + size)
    return count


def tested(room):
    """What a test of 300 keys prints. By all algorithms but bdz_ph the numbers are those below 300."""
    left = room.run("-T", "300")
    rows = [row.split() for row in left.out.decode().splitlines()]
    same("the algorithms", [row[0] for row in rows], ["chm", "bdz", "bdz_ph", "brz"])
    same("the sums", {int(rows[at][3]) for at in [0, 1, 3]}, {300 * 299 // 2})
    ends(left, 0, left.out)
    return left.out


# The spill file


@case("a spill file has the number of the process in its name and is its owner's alone, whatever the umask")
def _(room):
    room.put("keys", lines(300))
    for mask in [0o000, 0o022, 0o077]:
        left = room.run(*BUILD, before=lambda: os.umask(mask), bend={})
        ends(left, 0)
        same("the spill files", opened(room), [spill_of(left.number)])
        same("the mode of the spill file", oct(stat.S_IMODE(os.stat(room.path("spilled")).st_mode)), oct(0o600))


@case("what stands under the name of the spill file is removed, and a file that it leads to stays whole")
def _(room):
    whole = built(room, lines(300))
    room.put("precious", b"precious")
    for stand in [lambda name: os.symlink("precious", name), lambda name: os.symlink("missing", name), lambda name: os.link("precious", name), os.mkfifo]:
        os.remove(room.path("keys.mph"))
        ends(room.run(*BUILD, before=lambda: stand(spill_of(os.getpid()))), 0)
        same("the function file", room.get("keys.mph"), whole)
        same("the file that it leads to", room.get("precious"), b"precious")
        same("all files", sorted(os.listdir(room.folder)), ["keys", "keys.mph", "precious"])


@case("what stands under the name of the spill file and cannot be removed: status 5, and it stays as it was")
def _(room):
    room.put("keys", lines(300))
    room.put("precious", b"precious")
    room.put_folder("closed")

    def close_over(stand):
        stand(f"closed/{spill_of(os.getpid())}")
        os.chmod("closed", 0o555)

    for stand in [os.mkdir, lambda name: os.link("precious", name), lambda name: os.symlink("../precious", name)]:
        left = room.run(*BUILD, "-d", "closed", before=lambda: close_over(stand))
        os.chmod(room.path("closed"), 0o755)
        ends(left, 5, b"", said(f"closed: {NO_SPILL}"))
        same("the file that it leads to", room.get("precious"), b"precious")
        same("whether the name is there", spill_of(left.number) in spills(room, "closed"), True)
    same("the function file", room.has("keys.mph"), False)


def gone(room, what):
    """A spill file was made, and is there no more."""
    same(f"how many spill files were opened, {what}", len(opened(room)), 1)
    same(f"the spill files, {what}", spills(room), [])


@case("no spill file is left, with whatever status a build ends")
def _(room):
    equal = b"core brz split 1 bucket 0 seed 1 edges 2\nedge 1 1 5 7\nedge 2 1 5 7\nequal 1 2\n"
    overfull = b"overfull brz seed 1 bucket %d keys 1024\n" % bucket_of(b"a", 1, 2)
    overfull += b"".join(b"equal 1 %d\n" % line for line in range(2, 1025))
    for content, more, end in [
        (lines(300), [], (0,)),
        (b"a\na\n", [], (1, equal, said(NO_SEED))),
        (b"a\n" * 1024, ["-b", "700"], (1, overfull, said(NO_SPLIT))),
        (lines(300), ["-m", "none/f"], (5, b"", said("none/f: cannot write"))),
        (b"", [], (8, b"", said("keys: no keys"))),
        (b"a\n" + b"b" * 65536 + b"\n", [], (8, b"", said("keys: line 2 is too long"))),
        (b"\n" * 67108865, [], (8, b"", said("keys: more than 67108864 keys"))),
    ]:
        room.put("keys", content)
        ends(room.run(*BUILD, *more, bend={}), *end)
        gone(room, f"after {end}")
    room.put("keys", lines(3000))
    ends(room.run(*BUILD, before=limited(resource.RLIMIT_FSIZE, 20000), bend={}), 5, b"", said(f".: {NO_SPILL}"))
    gone(room, "after a full disk")
    ends(room.run("-T", "300", bend={}), 0, tested(room))
    gone(room, "after a test")


@case("status 7: a spill file whose bytes change or end is damaged, and removed")
def _(room):
    room.put("keys", lines(300))
    room.put("keys.mph", b"older")
    size = sum(10 + len(key) for key in lines(300).split(b"\n")[:-1])
    for how, text in [("zeros", "expected 1, found 0"), ("end", f"expected {size}, found 0")]:
        bend = {"EDGE_CALL": "read", "EDGE_FD": "spill", "EDGE_NUMBER": "1", "EDGE_DO": how}
        ends(room.run(*BUILD, bend=bend), 7, b"", said(f".: spill damaged at 0: {text}"))
        gone(room, how)
        same("the function file", room.get("keys.mph"), b"older")


@case("status 6: memory that runs out anywhere in a build by brz leaves no spill file")
def _(room):
    room.put("keys", lines(300))
    room.put("keys.mph", b"older")
    made = 0
    for number, left in room.bent_runs(BUILD, "alloc", "fail"):
        ends(left, 6, b"", said("out of memory"))
        same("the spill files", spills(room), [])
        same("whether the function file is the older one or empty", room.get("keys.mph") in [b"older", b""], True)
        made += len(opened(room))
    same("whether some runs made a spill file", made > 5, True)


@case("each call of a build by brz that fails: its status, its message, the function file, and no spill file")
def _(room):
    whole = built(room, lines(300))
    keys, spill, function = (4, b"", said("keys: cannot read")), (5, b"", said(f".: {NO_SPILL}")), (5, b"", said("keys.mph: cannot write"))
    # The ends of the calls, the last one also of all calls after it, and what the function file holds then.
    for call, on, wanted, file in [
        ("open", None, [keys, spill, function], b"older"), ("seek", "file", [keys], b"older"), ("read", "file", [keys], b"older"),
        ("seek", "spill", [spill], b"older"), ("read", "spill", [spill], b"older"), ("write", "spill", [spill], b"older"),
        ("write", "file", [function], b""), ("fsync", None, [function], whole), ("close", None, [(0,)], whole), ("unlink", None, [(0,)], whole),
    ]:
        room.put("keys.mph", b"older")
        for number, left in room.bent_runs(BUILD, call, "fail", on):
            ends(left, *wanted[min(number, len(wanted)) - 1])
            same(f"the function file after {call} {number} failed", room.get("keys.mph"), file)
            if call == "close":
                closed_once(room)
            if call == "unlink":
                for name in spills(room):
                    os.remove(room.path(name))
            same(f"the spill files after {call} {number} failed", spills(room), [])
            room.put("keys.mph", b"older")


@case("calls of a build by brz that are interrupted or come short change nothing")
def _(room):
    whole = built(room, lines(3000))
    for call, how in [("open", "interrupt"), ("read", "interrupt"), ("read", "short"), ("write", "interrupt"), ("write", "short"), ("fsync", "interrupt"),
                      ("close", "interrupt")]:
        for number, left in room.bent_runs(BUILD, call, how):
            ends(left, 0)
            same(f"the function file after {call} {number} {how}", room.get("keys.mph"), whole)
            gone(room, f"after {call} {number} {how}")
            if call == "close":
                closed_once(room)


@case("the spill file lies in the directory that -d names, in a build and in a test")
def _(room):
    room.put("keys", lines(300))
    room.put_folder("there")
    for arguments, out in [(BUILD, b""), (["-T", "300"], tested(room))]:
        ends(room.run(*arguments, "-d", "none"), 5, out[:out.find(b"brz")], said(f"none: {NO_SPILL}"))
        for more, folder in [([], "."), (["-d", "there"], "there")]:
            left = room.run(*arguments, *more, bend={})
            ends(left, 0, out)
            same("the spill files", opened(room), [os.path.normpath(f"{folder}/{spill_of(left.number)}")])
            same("the spill files that are left", spills(room, folder), [])


@case("the spill file has as many runs as keys need by -M, in a build and in a test")
def _(room):
    keys = [b"%01000d" % number for number in range(2200)]
    room.put("keys", b"\n".join(keys) + b"\n")
    generated = [b"key-0000000000"] * 60000
    for arguments, spilled in [(BUILD, keys), (["-T", "60000"], generated)]:
        for megabytes in [1, 2, 3]:
            same("the status", room.run(*arguments, "-M", str(megabytes), bend={}).status, 0)
            same(f"the runs by -M {megabytes}", runs_in(room.get("spilled")), runs_of(spilled, megabytes))
        same("whether -M changes the runs", runs_of(spilled, 1) > runs_of(spilled, 3), True)


@case("three builds by brz side by side, with their spill files in one directory, write what each writes alone")
def _(room):
    names, alone = ["one", "two", "three"], []
    for number, name in enumerate(names):
        room.put(name, b"".join(b"%s %d\n" % (name.encode(), key) for key in range(2000 + 500 * number)))
        ends(room.run("-g", "-a", "brz", "-m", "f", name), 0)
        alone.append(room.get("f"))
    gate = {"EDGE_GATE": room.path("gate")}
    started = [room.start("-g", "-a", "brz", "-m", f"{name}.f", name, bend=gate) for name in names]
    until = time.monotonic() + 5
    while time.monotonic() < until and len(spills(room)) < 3:
        time.sleep(0.001)
    together = sorted(spills(room))
    room.put("gate", b"")
    for process, name, function in zip(started, names, alone):
        ends(finished(process), 0)
        same(f"the function of {name}", room.get(f"{name}.f"), function)
    same("the spill files that were there at once", together, sorted(spill_of(process.pid) for process in started))
    same("the spill files", spills(room), [])


# Keys by their buckets


def bucket_of(key, seed, count):
    """The bucket of a key under a seed of the split."""
    return lookup2(key, seed ^ 0xFFFFFFFF)[2] % count


def places(buckets, first=0):
    """Keys without end, each with its buckets under the seeds 1 and 2."""
    for number in itertools.count(first):
        key = b"key number %d" % number
        yield key, (bucket_of(key, 1, buckets), bucket_of(key, 2, buckets))


def chosen(buckets, wanted):
    """Keys, so many for each pair of buckets under the seeds 1 and 2."""
    missing, keys = collections.Counter(wanted), []
    for key, place in places(buckets):
        if missing[place] > 0:
            missing[place] -= 1
            keys.append(key)
            if not missing.total():
                return keys


def swapped(keys, buckets, old, new):
    """The keys, but one of a pair of buckets is replaced by a key of another pair."""
    at = next(at for at, key in enumerate(keys) if (bucket_of(key, 1, buckets), bucket_of(key, 2, buckets)) == old)
    return [*keys[:at], next(key for key, place in places(buckets, 1000000) if place == new), *keys[at + 1:]]


def text_of(keys):
    return b"".join(key + b"\n" for key in keys)


@case("a bucket of 1,023 keys is built, and one of 1,024 is overfull")
def _(room):
    keys = chosen(2, {(0, 0): 1023, (0, 1): 1, (1, 1): 1})
    room.put("keys", text_of(keys))
    ends(room.run("-g", "-a", "brz", "-b", "700", "-r", "1", "keys"), 1, b"overfull brz seed 1 bucket 0 keys 1024\n", said(NO_SPLIT))
    keys.remove(next(key for key in keys if (bucket_of(key, 1, 2), bucket_of(key, 2, 2)) == (0, 1)))
    dump = built(room, text_of(keys), "-b", "700")
    same("b, the seed of the split and the first bucket", (dump[10:12], dump[20:24], dump[24:26]), (b"\xbc\2", b"\1\0\0\0", b"\xff\3"))
    numbers = sorted(int(line.rsplit(b" ", 1)[1]) for line in room.run("keys").out.splitlines())
    same("the numbers", numbers, list(range(1024)))


# Keys that change


def changes(room, arguments, keys, at, later, first, now):
    """A build whose keys are others in one pass, counted from 1: status 7, with these numbers."""
    room.put("keys", text_of(keys))
    room.put("keys.mph", b"older")
    room.put(f"pass-{at}", text_of(later))
    room.put(f"pass-{at + 1}", text_of(keys))
    left = room.run(*BUILD, *arguments, bend={})
    os.remove(room.path(f"pass-{at}"))
    os.remove(room.path(f"pass-{at + 1}"))
    ends(left, 7, b"", said(f"keys: keys changed: {first}, then {now}"))
    gone(room, f"after pass {at}")
    same("the function file", room.get("keys.mph"), b"older")


# 1,200 keys of three buckets: by seed 1 bucket 0 has 1,040, and by seed 2 they have 388, 428 and 384.
SPLIT = {(0, 0): 348, (0, 1): 348, (0, 2): 344, (1, 0): 40, (2, 1): 80, (1, 2): 40}


@case("status 7: more or fewer keys in the pass of the first seed of a split and of the second")
def _(room):
    keys = chosen(3, SPLIT)
    for at in [2, 3]:
        for later, now in [(keys[:1193], 1193), ([], 0), (keys + keys[:1], 1201), (keys + keys[:5], 1201)]:
            changes(room, ["-b", "400"], keys, at, later, 1200, now)
    for counted, now in [(keys[:1190], 1191), (keys + keys[:10], 1200)]:
        room.put("pass-1", text_of(counted))
        changes(room, ["-b", "400"], keys, 2, keys, len(counted), now)


@case("status 7: more, fewer or other keys in the pass that puts them into the spill file")
def _(room):
    keys = chosen(3, SPLIT)
    for later, first, now in [
        (keys[:1199], 1200, 1199), ([], 1200, 0), (keys + keys[:1], 1200, 1201), (keys + keys[:5], 1200, 1201),
        (swapped(keys, 3, (0, 2), (0, 0)), 388, 389), (swapped(keys, 3, (0, 0), (0, 1)), 388, 387), (swapped(keys, 3, (2, 1), (0, 2)), 428, 427),
        # The pass ends at the 1,024th key of a bucket.
        (chosen(3, {(0, 0): 400, (1, 0): 800}), 388, 1024),
    ]:
        changes(room, ["-b", "400"], keys, 4, later, first, now)


@case("status 7: more, fewer or other keys in the pass that gathers those of an overfull bucket")
def _(room):
    # Of two buckets, the first has 1,040 keys by seed 1, and 1,080 by seed 2.
    keys = chosen(2, {(0, 0): 1032, (0, 1): 8, (1, 0): 48, (1, 1): 112})
    for seeds, at in [("1", 3), ("2", 4)]:
        for later, first, now in [
            (keys[:1199], 1200, 1199), ([], 1200, 0), (keys + keys[:1], 1200, 1201), (keys + keys[:5], 1200, 1201),
            (swapped(keys, 2, (1, 1), (0, 1)), 1040, 1041), (swapped(keys, 2, (0, 1), (1, 1)), 1040, 1039),
        ]:
            changes(room, ["-b", "600", "-r", seeds], keys, at, later, first, now)
