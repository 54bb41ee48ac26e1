"""Cases of shards: files that are longer than they can be, and devices that have no end. Each is refused in little memory, by its first bytes."""
import os
import resource

import shards as plain
from room import case, ends, limited, same
from splits import COUNT, MEGABYTE, SMALL, built, noted, run

LENGTH = 1500 * MEGABYTE
MEMORY, SECONDS = 64 * MEGABYTE, 5
DEVICES = ["/dev/zero", "/dev/full"]


def scarce():
    """Sets limits of memory and of processor time."""
    limited(resource.RLIMIT_AS, MEMORY)()
    resource.setrlimit(resource.RLIMIT_CPU, (SECONDS, SECONDS))


def refuses(room, words, text):
    ends(run(room, *words, before=scarce), 3, b"", noted(text))


def lengthen(room, name, begin=b""):
    """Makes a file of these bytes and then zeros, which take no room."""
    room.put(name, begin)
    os.truncate(room.path(name), LENGTH)


def manifest_naming(room, name):
    """The manifest of the functions of a case, of which the second has another path."""
    manifest = plain.manifest_in(room.get("d/all"))
    first, second = manifest.shards
    return plain.manifest_bytes(manifest._replace(shards=[first, second._replace(name=name.encode())]))


@case("status 3: a manifest that is far too long, or has no end, in little memory")
def _(room):
    ends(run(room, *built(room, SMALL)), 0)
    whole = room.get("d/all")
    for begin, text in [(b"", "bad magic"), (whole, "trailing bytes"), (whole[:16] + (4096).to_bytes(4, "little"), "bad field at 20"), (whole[:20], "bad field at 20")]:
        lengthen(room, "d/long", begin)
        for more in [[], ["-t"]]:
            refuses(room, [*more, "-m", "d/long", "keys"], f"d/long: bad manifest: {text}")
    for device in DEVICES:
        for more in [[], ["-t"]]:
            refuses(room, [*more, "-m", device, "keys"], f"{device}: bad manifest: bad magic")


@case("status 3: a function of a shard that is far too long, or has no end, in little memory")
def _(room):
    words = built(room, SMALL)
    ends(run(room, *words), 0)
    manifest, whole = room.get("d/all"), room.get("d/1.mph")
    for begin, text in [(b"", "bad magic"), (whole, "trailing bytes"), (whole[:16], "bad field at 16")]:
        lengthen(room, "d/1.mph", begin)
        for step in [words, ["-m", "d/all", "keys"], ["-t", "-m", "d/all", "keys"]]:
            refuses(room, step, f"d/1.mph: bad dump: {text}")
    same("the manifest", room.get("d/all"), manifest)
    for device in DEVICES:
        refuses(room, ["-j", "-m", "d/new", "d/0.mph", device], f"{device}: bad dump: bad magic")
        same("the manifest of the join", room.has("d/new"), False)
        room.put("d/other", manifest_naming(room, device))
        for more in [[], ["-t"]]:
            refuses(room, [*more, "-m", "d/other", "keys"], f"{device}: bad dump: bad magic")


@case("status 3: counts that are far too long, or have no end, in little memory")
def _(room):
    words = built(room, SMALL)
    whole = room.get("d/counts")
    for begin, line in [(b"", 1), (whole, COUNT + 1)]:
        lengthen(room, "d/counts", begin)
        refuses(room, words, f"d/counts: another count at line {line}")
    for device in DEVICES:
        os.remove(room.path("d/counts"))
        os.symlink(device, room.path("d/counts"))
        refuses(room, words, "d/counts: another count at line 1")
    same("the manifest", room.has("d/all"), False)
