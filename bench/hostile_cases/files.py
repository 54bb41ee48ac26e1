"""Damaged and random files."""

import functools
import random
import re
import sys

from . import model
from .model import ONE, TWO
from .runs import MOST_C, NAMES, OLDER, Machine, Row, built, c_build, c_built, case, get, put, spills

# Damage


def special(rng: random.Random) -> int:
    """A number of four bytes, often one at an end of a range."""
    ends = [0, 1, 2, 3, 10, 255, 256, 999_999, 1_000_000, 1_230_000, 2_090_000, 10_000_000, 10_000_001, 16_777_215, 16_777_216, 16_777_217,
            67_108_863, 67_108_864, 67_108_865, 2**31, 2**32 - 1]
    return rng.choice(ends) if rng.random() < 0.7 else rng.getrandbits(32)


def special_pair(rng: random.Random) -> int:
    """A number of two bytes, often one at an end of a range of b or of a bucket's keys."""
    ends = [0, 1, 2, 3, 10, 11, 63, 64, 128, 175, 176, 255, 256, 700, 701, 1022, 1023, 1024, 2**15, 2**16 - 1]
    return rng.choice(ends) if rng.random() < 0.7 else rng.getrandbits(16)


def damaged(rng: random.Random, data: bytes, others: list[bytes]) -> bytes:
    """A file that differs from a dump: bits, bytes, parts and fields."""
    while True:
        new = bytearray(data)
        at, to = sorted(rng.randrange(len(data) + 1) for _ in range(2))
        match rng.randrange(12):
            case 0 | 1:
                new[rng.randrange(len(new))] ^= 1 << rng.randrange(8)
            case 2:
                for _ in range(rng.randint(1, 4)):
                    new[rng.randrange(len(new))] = rng.randrange(256)
            case 3:
                del new[at:]
            case 4:
                new += rng.randbytes(rng.randint(1, 9))
            case 5:
                del new[at:to]
            case 6:
                new[at:at] = new[at:to]
            case 7:
                new[at:to] = bytes([rng.choice([0, 1, 254, 255])]) * (to - at)
            case 8:
                field = rng.choice([8, 12, 16, 20])
                new[field : field + 4] = special(rng).to_bytes(4, "little")
            case 9:
                new[24:] = rng.choice(others)[24:]
            case 10:
                # b of one of the versions, or the number of keys of the first bucket.
                field = rng.choice([9, 10, 24])
                new[field : field + 2] = special_pair(rng).to_bytes(2, "little")
            case 11:
                other = rng.choice(others)
                new[:8], new[8:12] = rng.choice([(TWO.magic, new[8:12]), (ONE.magic, new[8:12]), (other[:8], other[8:12])])
        if bytes(new) != data:
            return bytes(new)


def sample_keys(rng: random.Random, count: int) -> bytes:
    return b"".join(b"%x-%d\n" % (rng.getrandbits(20), number) for number in range(count))


def checked_query(machine: Machine, row: Row, dump: bytes, content: bytes) -> None:
    put("f", dump)
    wanted = model.query("f", dump, "keys", content)
    note = "" if wanted.status == 3 else ", another function"
    row.same(machine.ours("-m", "f", "keys"), wanted, {"the function file": get("f") == dump}, note)


def checked_upgrade(machine: Machine, row: Row, dump: bytes) -> None:
    put("f", dump)
    wanted = model.upgrade("f", dump)
    note = "" if wanted.status == 3 else ", upgraded" if wanted.dump else ", of version 2"
    row.same(machine.ours("-u", "-m", "f"), wanted, {"the function file": get("f") == (wanted.dump or dump)}, note)


def both_versions(dump: bytes) -> list[bytes]:
    """The file of a function, and that of version 1, if the function has one."""
    f = model.read_dump(dump)
    return [dump, model.dump_of(f, ONE)] if model.is_of_one(f) else [dump]


def dump_over(machine: Machine, name: str, keys: bytes, b: int) -> bytes:
    """The function over these keys, which stay in the file `keys`."""
    put("keys", keys)
    wanted = model.build(name, "keys", keys, 1, 100, b=b)
    dump = built(machine, name, "-b", str(b))
    if dump != wanted.dump:
        sys.exit(f"the function over {len(keys.splitlines())} keys by {name} differs from the model's")
    return dump


def damaged_dumps(name: str, machine: Machine, row: Row) -> None:
    rng = random.Random(f"damaged dumps of {name}")
    bases, dumps = [], []
    for count in (1, 2, 3, 5, 8, 13, 21, 34, 55, 89, 144, 233, *((64, 65, 128, 129, 300, 400, 701, 1100) if name == "brz" else ())):
        keys, b = sample_keys(rng, count), 700 if count > 400 else 64 + count % 112 if name == "brz" else 3 + count % 8
        dump = dump_over(machine, name, keys, b)
        bases.append((keys, dump))
        dumps += both_versions(dump)
    # A few keys of theirs, and others.
    asked = b"".join(rng.choice(keys.splitlines(keepends=True)) for keys, _ in bases[:6]) + b"\nstranger\nlonger than twelve bytes\n"
    put("keys", asked)
    for _ in range(machine.count(5000)):
        dump = damaged(rng, rng.choice(dumps), dumps)
        checked_query(machine, row, dump, asked)
        checked_upgrade(machine, row, dump)
    if machine.tool:
        damaged_c_dumps(name, machine, row, rng)


def damaged_c_dumps(name: str, machine: Machine, row: Row, rng: random.Random) -> None:
    bases = []
    for count in (5, 34, 233):
        put("keys", sample_keys(rng, count))
        dump = c_built(machine, name)
        bases.append((dump, get("keys"), machine.theirs("-v", "-m", "c", "keys").out))
    dumps = [dump for dump, _, _ in bases]
    for _ in range(machine.count(MOST_C)):
        dump, keys, text = rng.choice(bases)
        put("keys", keys)
        put("c", damaged(rng, dump, dumps))
        left = machine.theirs("-v", "-m", "c", "keys")
        same = (", the same numbers" if left.out == text else ", other numbers") if left.status in (0, 1) else ""
        row.c_ends[left.ending() + same] += 1


for each in NAMES:
    case(f"5,000 damaged function files of {each.upper()} of both versions, each asked for some keys and upgraded")(functools.partial(damaged_dumps, each))


# Prefixes and fields


def changed_fields(dump: bytes) -> list[bytes]:
    """A dump with another heading: each byte of the first 12 with some values, and each number with the ends of its ranges."""
    changes = [(at, bytes([value])) for at in range(12) for value in (0, 1, 2, 3, 4, 5, 10, 11, 49, 50, 51, 63, 64, 128, 175, 176, 255)]
    changes += [(at, value.to_bytes(2, "little")) for at in (9, 10, 24) for value in (2, 3, 10, 11, 63, 64, 175, 176, 255, 256, 700, 701, 1023, 1024)]
    changes += [(at, value.to_bytes(4, "little")) for at in (12, 16, 20)
                for value in (0, 1, 2, 999_999, 1_000_000, 10_000_000, 10_000_001, 16_777_216, 16_777_217, 67_108_864, 67_108_865, 2**32 - 1)]
    # A bad number after a bad one: the first of them is named.
    changes += [(9, bytes([1, 1, 4])), (10, bytes([1, 4]) + bytes(4)), (12, bytes(8))]
    return [dump[:at] + new + dump[at + len(new) :] for at, new in changes]


@case("each prefix of function files of both versions by each algorithm, and each of their fields changed: asked for some keys and upgraded")
def _(machine: Machine, row: Row) -> None:
    rng = random.Random("prefixes and fields")
    for name in NAMES:
        for count, b in ((1, 64), (70, 64), (90, 700)) if name == "brz" else ((1, 3), (9, 4)):
            keys = sample_keys(rng, count)
            dumps, asked = both_versions(dump_over(machine, name, keys, b)), keys + b"stranger\n"
            put("keys", asked)
            for dump in dumps:
                whole = [dump, dump + b"\0", dump + b"more"]
                changed = [*whole, *(dump[:length] for length in range(len(dump))), *changed_fields(dump)]
                for each in rng.sample(changed, machine.count(len(changed))):
                    checked_query(machine, row, each, asked)
                    checked_upgrade(machine, row, each)


# Random files


def random_file(rng: random.Random) -> bytes:
    kind = rng.randrange(100)
    if kind < 20:
        return rng.randbytes(rng.randrange(300))
    if kind < 40:
        return bytes(rng.choice(b"ab\n") for _ in range(rng.randrange(40)))
    if kind < 60:
        return b"".join(rng.randbytes(rng.randint(1, 14)) + b"\n" for _ in range(rng.randrange(60)))
    if kind < 75:
        return b"\r\n".join(b"%d" % rng.getrandbits(30) for _ in range(rng.randrange(50)))
    if kind < 85:
        return bytes(rng.choice(b"\0\n") for _ in range(rng.randrange(12)))
    if kind < 86:
        return b"\n" * rng.choice([255, 256, 1022, 1023, 1024, 1025])
    if kind < 99:
        return sample_keys(rng, rng.randrange(1, 120)) + rng.randbytes(rng.randrange(20))
    lengths = [rng.choice([65_534, 65_535, 65_536, 65_537, 3]) for _ in range(rng.randint(1, 3))]
    return b"".join(b"x" * length + b"\n" for length in lengths)[: None if rng.random() < 0.5 else -1]


@case("10,000 random files as keys that end with byte 10 or 0: a build of each, and a query if that has status 0")
def _(machine: Machine, row: Row) -> None:
    rng = random.Random("random files as keys")
    for _ in range(machine.count(10_000)):
        content, name = random_file(rng), rng.choice(NAMES)
        b = rng.choice([64, 175, 176, 700, rng.randint(64, 700)]) if name == "brz" else rng.randint(3, 10)
        end = rng.choice([10, 10, 0])
        seed, seeds = rng.choice([0, 1, rng.getrandbits(32), 2**32 - 1]), rng.randint(1, 4)
        ratio = rng.choice([None, None, 1_000_000, 1_500_000, 2_000_001, 10_000_000])
        wanted = model.build(name, "keys", content, seed, seeds, ratio, b, end)
        put("keys", content)
        put("g", OLDER)
        words = ["-g", "-a", name, "-s", str(seed), "-r", str(seeds), "-m", "g"]
        words += ["-c", f"{ratio // 10**6}.{ratio % 10**6:06}"] if ratio else []
        words += ["-b", str(b)] if name in model.WIDTHS else []
        words += [] if end else ["-z"]
        left = machine.ours(*words, "keys")
        row.same(left, wanted, {"the function file": get("g") == (wanted.dump or OLDER), "the keys": get("keys") == content, "no spill file": not spills()})
        if wanted.dump:
            more = [] if end else ["-z"]
            row.same(machine.ours(*more, "-m", "g", "keys"), model.query("g", wanted.dump, "keys", content, end))
    if machine.tool:
        random_c_keys(machine, row, rng)


def random_c_keys(machine: Machine, row: Row, rng: random.Random) -> None:
    """A build and a query are two runs. What comes of a build is counted. This tool takes no line without an end."""
    for _ in range(machine.count(MOST_C // 2)):
        content = random_file(rng)
        put("keys", content)
        put("c", OLDER)
        left = machine.theirs(*c_build(rng.choice(NAMES)))
        ending = left.ending()
        if left.status == 0:
            asked = machine.theirs("-v", "-m", "c", "keys")
            found = re.findall(rb" -> (\d+)\n", asked.out)
            good = asked.status == 0 and content.count(b"\n") == len(found) == len(set(found))
            ending += ", no keys" if b"\n" not in content else ", a function" if good else ", not a number of its own for each line"
        elif get("c") != OLDER:
            ending += ", the older file lost"
        row.c_ends[ending] += 1


@case("10,000 random files as function files, each asked for some keys and upgraded")
def _(machine: Machine, row: Row) -> None:
    rng = random.Random("random files as function files")
    keys = b"a\n\nanother key\na\n"
    put("keys", keys)
    for _ in range(machine.count(10_000)):
        dump = random_dump(rng)
        checked_query(machine, row, dump, keys)
        checked_upgrade(machine, row, dump)
    if machine.tool:
        for _ in range(machine.count(MOST_C)):
            # Half of them begin as its own files do.
            begin = rng.choice(NAMES).encode() + b"\0" if rng.random() < 0.5 else b""
            put("c", begin + random_file(rng))
            row.c_ends[machine.theirs("-v", "-m", "c", "keys").ending()] += 1


def random_dump(rng: random.Random) -> bytes:
    """Any file, or one that begins as a dump of a few keys does."""
    if rng.random() < 0.4:
        return random_file(rng)
    name, keys = rng.choice(NAMES), rng.randint(1, 6)
    version = rng.choice([ONE, TWO])
    b, ratio = rng.randint(*version.ranges(name)), rng.choice([1_000_000, 1_230_000, 2_090_000])
    head = model.head_of(version, name, b, keys, ratio, rng.getrandbits(32))
    n = model.size_of(name, keys, ratio)
    size = {"chm": (n * model.width_of(keys) + 7) // 8, "bdz_ph": -(-n // 5)}.get(name, -(-n // 4))
    head = head[: rng.choice([8, 9, 12, 16, 20, 24, 24, 24, 24, 24])]
    body = bytes(rng.randrange(rng.choice([2, 256])) for _ in range(size)) if name in ("chm", "bdz_ph") else rng.choice([b"\xff", b"\0", b"\xf3"]) * size
    body = keys.to_bytes(version.size_bytes, "little") + rng.randbytes(4) + body if name == "brz" else body  # the one bucket
    ranks = bytes(4 * -(-n // 2**b)) if name == "bdz" else b""
    return head + (body + ranks if rng.random() < 0.7 else rng.randbytes(rng.randrange(2 * size + 2)))
