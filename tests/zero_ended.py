"""Cases of -z: keys end at byte 0, and so do the lines of a query. edge.py runs them."""

import os
import subprocess

from dumps import BDZ_ONE, CHM_ONE, CHM_TWO, FUNCTIONS, OLDER, TWO, TWO_EQUAL
from room import case, ends, lines, said, same


def with_zeros(text):
    """A text whose lines end at byte 0."""
    return text.replace(b"\n", b"\0")


def key_count(room, name):
    """How many keys the function of a file has."""
    return int.from_bytes(room.get(name)[12:16], "little")


@case("-z: keys end at byte 0 in a build and a query by each algorithm, and so do the lines of the query")
def _(room):
    for name, content, dump, answers in FUNCTIONS:
        room.put("keys", with_zeros(content))
        ends(room.run("-z", "-g", "-a", name, "-s", "0", "keys"), 0)
        same("the function file", room.get("keys.mph"), dump)
        ends(room.run("-z", "keys"), 0, with_zeros(answers))
    for words in [["-zg", "-s", "0", "keys"], ["-gzs0", "keys"], ["keys", "-s", "0", "-g", "-z"]]:
        room.put("keys", with_zeros(TWO))
        ends(room.run(*words), 0)
        same("the function file", room.get("keys.mph"), CHM_TWO)
    ends(room.run("-z", "-z", "keys"), 2, b"", said("bad arguments; cmph -h shows the usage"))


@case("-z: a line end is a byte of a key; without -z byte 0 is, and the same bytes are other keys")
def _(room):
    # The file, and its keys with -z and without.
    for content, with_z, without in [
        (b"\n", [b"\n"], [b""]), (b"\0a\0", [b"", b"a"], [b"\0a\0"]), (b"a\nb\0c\n\0", [b"a\nb", b"c\n"], [b"a", b"b\0c", b"\0"]),
        (b"a\0b", [b"a", b"b"], [b"a\0b"]), (b"a\r\0", [b"a\r"], [b"a\r\0"]), (b"a\0\0", [b"a", b""], [b"a\0\0"]),
    ]:
        room.put("keys", content)
        for words, end, keys in [(["-z"], b"\0", with_z), ([], b"\n", without)]:
            ends(room.run(*words, "-g", "-m", "f", "keys"), 0)
            same("the number of keys", key_count(room, "f"), len(keys))
            ends(room.run(*words, "-m", "f", "keys"), 0, b"".join(key + b" -> %d" % number + end for number, key in enumerate(keys)))
    # One key, byte 10: all cells of its function are 0, as those of the empty key.
    room.put("keys", b"\n")
    ends(room.run("-z", "-g", "-s", "0", "keys"), 0)
    same("the function file", room.get("keys.mph"), CHM_ONE)


@case("-z: the names of files, which find -print0 writes, with line ends in them")
def _(room):
    names = [b"plain", b"with blank", b"two\nlines", b"\n", b"tail\n", b"-dash", b"a -> 1", b"\xff\xfe", b"tab\t", b"\r\n"]
    os.mkdir(room.path("files"))
    for name in names:
        room.put(os.path.join("files", os.fsdecode(name)), b"")
    found = subprocess.run(["find", "files", "-type", "f", "-print0"], cwd=room.folder, stdout=subprocess.PIPE, check=True).stdout
    keys = found.split(b"\0")[:-1]
    same("the names", sorted(keys), sorted(b"files/" + name for name in names))
    room.put("keys", found)
    ends(room.run("-z", "-g", "keys"), 0)
    ends(room.run("-z", "keys"), 0, b"".join(key + b" -> %d\0" % number for number, key in enumerate(keys)))
    # By the first names alone, and without -z by the lines, which are more: each line end is in a name.
    ends(room.run("-z", "-g", "-k", "3", "-m", "three", "keys"), 0)
    ends(room.run("-z", "-k", "3", "-m", "three", "keys"), 0, b"".join(key + b" -> %d\0" % number for number, key in enumerate(keys[:3])))
    ends(room.run("-g", "-m", "lines", "keys"), 0)
    same("the number of lines", key_count(room, "lines"), found.count(b"\n") + 1)


@case("-z: reports, notes and messages end at byte 10 all the same, and name keys by their number from 1")
def _(room):
    room.put("keys", b"\0\0")
    ends(room.run("-z", "-g", "-s", "0", "keys"), 1, TWO_EQUAL, said("no seed of the list gives an empty core"))
    for dump in [BDZ_ONE, OLDER[BDZ_ONE]]:
        room.put("keys", b"\0\0")
        room.put("keys.mph", dump)
        ends(room.run("-z", "keys"), 1, b" -> 0\0 -> 0\0", said("line 2: value 0 is repeated"))
        room.put("keys", b"\0a\0")
        ends(room.run("-z", "keys"), 1, b" -> 0\0", said("line 2: key is unknown"))
    room.put("keys", b"")
    ends(room.run("-z", "-g", "keys"), 8, b"", said("keys: no keys"))
    # The second key has lines of its own, and 65,536 bytes in all.
    room.put("keys", b"a\0" + b"b\n" * 32768 + b"\0")
    ends(room.run("-z", "-g", "keys"), 8, b"", said("keys: line 2 is too long"))
    ends(room.run("-z", "-g", "-k", "1", "keys"), 0)


@case("-z changes nothing in a test, the help and the version")
def _(room):
    for words in [["-T", "300"], ["-h"], ["-V"]]:
        wanted = room.run(*words)
        same("the status", wanted.status, 0)
        ends(room.run("-z", *words), 0, wanted.out)


@case("-z: a query of many keys that cross buffers")
def _(room):
    keys = lines(30000)
    room.put("keys", with_zeros(keys))
    ends(room.run("-z", "-g", "keys"), 0)
    dump = room.get("keys.mph")
    ends(room.run("-z", "keys"), 0, b"".join(b"key number %d -> %d\0" % (number, number) for number in range(30000)))
    room.put("keys", keys)
    ends(room.run("-g", "keys"), 0)
    same("the function file", room.get("keys.mph"), dump)
