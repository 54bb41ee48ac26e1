#!/usr/bin/env python3
"""Compares what the program of shards does with what tests/shards.py says: splits, joins, queries and tests, over the function files that `cmph -g` builds of the
shards, with files that are missing, damaged, changed, doubled or in another order, through pipes, onto full disks and into closed outputs. After each run all
files must be as they were, but for those that the run makes.

    tests/sharding.py [CMPH [SHARDS]]        the programs below crates/ if they are left out

The engine contrib/shards/cmph-shards is run too, if /usr/bin/python3 has dask, and the Snakefile beside it, if snakemake is there. The last line is 'N passed, M failed', where each set of keys and each list of runs is
one case, with the cases that were skipped.
"""
import functools
import itertools
import os
import random
import resource
import shutil
import signal
import subprocess
import sys
from pathlib import Path

import comparing
import counting
import dumps
import functions
import judge
import shards as plain
from comparing import difference, put
from room import Room, has_compiler, made_shim

judge.hashes = functools.cache(judge.hashes)  # of the same keys, for thousands of runs
functions.read = functools.cache(functions.read)

CMPH, SHARDS = comparing.programs("cmph", "cmph_shards")
ENGINE = Path(__file__).resolve().parent.parent / "contrib" / "shards" / "cmph-shards"
PYTHON = "/usr/bin/python3"  # that of the system, which has Debian's dask
ALGORITHMS = ["chm", "bdz", "bdz_ph", "brz"]
LONGEST = 65535  # bytes of a line
BUFFER = 65536  # bytes that wait for a shard's file at most
MANY = 200_000
MOST_SETS = 40


# Runs


def files_in(room):
    """The bytes of all files below a folder, by their paths."""
    return {str(path.relative_to(room)): path.read_bytes() for path in room.rglob("*") if path.is_file()}


def started(room, words, pipe=b"", **how):
    """What a run of the program of shards in a folder leaves."""
    how = {"stdout": subprocess.PIPE, "stderr": subprocess.PIPE, **how}
    ran = subprocess.run([SHARDS, *words], cwd=room, input=pipe, timeout=600, **how)
    return ran.returncode, ran.stdout, ran.stderr


def other_files(room, before, made):
    """The files that are not as they must be."""
    after, wanted = files_in(room), {**before, **{os.path.relpath(os.path.realpath(room / path), os.path.realpath(room)): content for path, content in made.items()}}
    for name in sorted(after.keys() | wanted.keys()):
        yield from difference(f"the file {name}", (after.get(name),), (wanted.get(name),))


def ran(room, *words, pipe=b""):
    """What goes wrong with a run: its status, its outputs, or a file."""
    words, before = [str(word) for word in words], files_in(room)
    wanted = plain.ended(words, room, pipe)
    found = started(room, words, pipe)
    yield from (f"{' '.join(words)[:200]}: {wrong}" for wrong in itertools.chain(
        difference("the end", found, wanted[:3]), other_files(room, before, wanted.made)))


def said(status, room, *words, out=None, err=None, pipe=b""):
    """The same of a run whose status, output or message are known."""
    yield from ran(room, *words, pipe=pipe)
    left = plain.ended([str(word) for word in words], room, pipe)
    wanted = (status, left.out if out is None else out, left.err if err is None else plain.said(err))
    yield from difference(f"tests/shards.py over {words}", left[:3], wanted)


def build(room, algorithm, keys, function, end=b"\n"):
    """Builds a function by cmph, and gives the status and the message."""
    zero = ["-z"] if end == b"\0" else []
    made = subprocess.run([CMPH, "-g", "-a", algorithm, *zero, "-m", function, keys], cwd=room, capture_output=True, timeout=60)
    return made.returncode, made.stderr


def text_of(keys, end=b"\n"):
    return b"".join(key + end for key in keys)


def new_room(room, name):
    (room / name).mkdir()
    return room / name


def built_shards(room, keys, count, algorithm="bdz", end=b"\n"):
    """Splits keys into the folder d, and builds the function of each shard beside its keys. Gives the names of the functions, or None."""
    (room / "d").mkdir(exist_ok=True)
    put(room / "keys", text_of(keys, end))
    zero = ["-z"] if end == b"\0" else []
    status = started(room, ["-n", str(count), "-d", "d", *zero, "keys"])[0]
    names = [f"d/shard-{shard:04}" for shard in range(count)]
    if status or any(build(room, algorithm, name, f"{name}.mph", end)[0] for name in names):
        return None
    return [f"{name}.mph" for name in names]


# Many keys


def many_keys(count):
    return [b"key-%010d" % (2654435761 * i % 2**32) if i % 3 else b"%d:%s" % (i, b"x" * (i % 40)) for i in range(count)]


def of_many(room, count):
    """What goes wrong with a split of many keys; and with all that follows, by each algorithm."""
    keys = many_keys(MANY)
    put(room / "keys", text_of(keys))
    (room / "d").mkdir()
    yield ran(room, "-n", count, "-d", "d", "keys")
    (room / "piped").mkdir()
    yield piped_split(room, count)
    shuffled = random.Random(1).sample(keys, MANY)
    put(room / "shuffled", text_of(shuffled)[:-1])
    for algorithm in ALGORITHMS:
        yield of_algorithm(room, algorithm, count)


def piped_split(room, count):
    yield from ran(room, "-n", count, "-d", "piped", "/dev/stdin", pipe=(room / "keys").read_bytes()[:-1])
    yield from difference("a split of a pipe", ({name: content for name, content in files_in(room / "piped").items()},), (files_in(room / "d"),))


def of_algorithm(room, algorithm, count):
    """Builds a function of each shard, joins them, and asks for all keys: their numbers are distinct and below the total, and none is left out unless the
    functions leave some out."""
    (room / algorithm).mkdir()
    names = [f"{algorithm}/shard-{shard:04}.mph" for shard in range(count)]
    for shard, name in enumerate(names):
        yield from difference(f"cmph -a {algorithm}", build(room, algorithm, f"d/shard-{shard:04}", name), (0, b""))
    manifest = f"{algorithm}/all"
    yield from said(0, room, "-j", "-m", manifest, "-d", "d", *names, out=b"")
    yield from said(0, room, "-t", "-m", manifest, "shuffled", out=b"true\n")
    yield from said(0, room, "-m", manifest, "shuffled", err=None)
    left = started(room, ["-m", manifest, "keys"])[1]
    numbers = [int(line.rsplit(b" ", 1)[1]) for line in left.splitlines()]
    total = sum(entry.span for entry in plain.manifest_in((room / manifest).read_bytes()).shards)
    yield from difference("distinct numbers below the total", (len(set(numbers)), max(numbers) < total), (MANY, True))
    yield from difference("a total without gaps", (total == MANY,), (algorithm != "bdz_ph",))


# Random keys


def random_keys(dice, end):
    count = dice.choice([1, 2, 3, 7, 20, 60, 200])

    def key():
        return bytes(byte for byte in dice.choices([*range(256), 9, 10, 13, 0], k=dice.choice([0, 1, 4, 8, 11, 12, 13, 24, 30])) if bytes([byte]) != end)

    return list(dict.fromkeys(key() for _ in range(count)))


def of_set(room, turn, dice):
    """What goes wrong with random keys: their split, and, if each shard has keys, the join, queries and tests of these keys and of others."""
    end, algorithm = dice.choice([b"\n", b"\n", b"\0"]), ALGORITHMS[turn % 4]
    keys, count = random_keys(dice, end), dice.choice([1, 2, 2, 3, 5])
    zero = ["-z"] if end == b"\0" else []
    (room / "e").mkdir()
    put(room / "lines", text_of(keys, end)[:-1 if keys[-1] and dice.random() < 0.5 else None])
    yield from ran(room, "-n", count, "-d", "e", *zero, "lines")
    yield from ran(room, f"-n{dice.choice([1, 4, 9])}", *zero, "-d=e/", "-k", dice.choice([1, 2, len(keys), 2**32 - 1]), "lines")
    put(room / "lines", end.join([*keys, b"x" * (LONGEST + 1), *keys]) + end)
    yield from ran(room, "-n", count, "-d", "e", *zero, "lines")
    names = built_shards(room, keys, count, algorithm, end)
    if names:
        yield from ran(room, "-j", "-m", "d/all", "-d", "d", *names)
        yield from asked(room, keys, end, dice)


def asked(room, keys, end, dice):
    zero = ["-z"] if end == b"\0" else []
    others = [key[:-1] + b"?" for key in keys] + [b"", b"\r"]
    orders = [keys, dice.sample(keys, len(keys)), keys[1:], [*keys, keys[0]], [*keys, *others], [*others, *keys], [], [*keys[:2], b"y" * (LONGEST + 1), *keys]]
    for order in orders:
        put(room / "asked", text_of(order, end))
        yield from ran(room, "-m", "d/all", *zero, "asked")
        yield from ran(room, "-t", "-m", "d/all", *zero, "asked")
    yield from ran(room, "-t", "-m", "d/all", "-k", len(keys), *zero, "asked")
    yield from ran(room, "-m", "d/all", "-k", dice.randint(1, len(keys) + 1), *zero, "/dev/stdin", pipe=text_of(keys, end)[:-1])


# Command lines

COMMANDS = [
    "", "keys", "-n 3 keys", "-d d keys", "-n 3 -d d", "-n 3 -d d keys keys", "-m all", "-t keys", "-m all keys keys", "-j keys", "-j -m all", "-jm all", "-h", "-V", "-g -m all keys",
    "-n 0 -d d keys", "-n 4097 -d d keys", "-n 4096 keys", "-n -d d keys", "-n 3x -d d keys", "-n= -d d keys", "-n 00000000003 -d d keys", "-n 0000000003 -d d keys",
    "-n 3 -k 0 -d d keys", "-k 4294967296 -n 0 keys", "-k x", "-n x", "-k x keys", "-n 4294967298 -d d keys", "-n 3 -n 3 -d d keys", "-jj -m all f", "-tt -m all keys", "-zz -m all keys",
    "-n 3 -d d -m all -t keys", "-n3 -dd -zk2 keys", "-zn3 -d=d keys", "keys -n 3 -d d", "-n 3 -d d -- keys", "-n 3 -d d -- -keys", "-n 3 -d -- keys", "-n 3 -d -x keys", "-n 3 -d - keys",
    "-j -m all -n 0 f", "-j -m all -k 0 f", "-j -m all -n 4 -z -k 3 -t one.mph", "-jtzm all one.mph", "-m all -d d keys", "-tm all keys", "-m all -j one.mph one.mph", "---", "--help", "-=", "-m==all keys",
    "-n 1 -d= keys", "-m= keys", "-j=1 -m all f", "-n 3 -d d/ keys", "-n 3 -d ./d keys", "-n 3 -d none keys", "-n 3 -d keys keys", "-n 3 -d d none", "-n 3 -d none none", "-m none keys", "-m all none",
]


def of_commands(room):
    for line in COMMANDS:
        yield from ran(room, *line.split())
    yield from said(2, room, "-j", "-m", "all", *["one.mph"] * 4097, out=b"", err="bad arguments")
    yield from ran(room, "-n", "2", "-d", "d", "")
    for name in ("", "n" * 4095, "n" * 4096, "none/" + "n" * 4095):
        yield from ran(room, "-j", "-m", "all", "one.mph", name)
        yield from ran(room, "-j", "-m", "none/all", name)
    for words in ([b"-n2", b"-d", b"d", b"\xff"], [b"-n2", b"-d\xff", b"keys"], [b"-m", b"all", b"--", b"k\xc3"]):
        yield from ran(room, *map(os.fsdecode, words))


def of_small(room):
    """Splits with the least and the most shards, of no keys and of one."""
    for name, text in (("none", b""), ("one", b"\n"), ("long", b"k" * LONGEST + b"\n" + b"l" * LONGEST), ("longer", b"a\n" + b"k" * (LONGEST + 1)), ("longest", b"k" * 200000)):
        put(room / name, text)
        for count in (1, 2, 4096):
            folder = f"{name}-{count}"
            (room / folder).mkdir()
            yield from ran(room, "-n", count, "-d", folder, name)
    # Fewer shards into the same folder: files of the others stay.
    yield from ran(room, "-n", 1, "-d", "one-2", "long")


# Manifests and function files


def with_files(room):
    """A small manifest of two shards, and the keys of both."""
    keys = [b"", b"a", b"b", b"c", b"d", b"e"]
    names = built_shards(room, keys, 2)
    started(room, ["-j", "-m", "d/all", "-d", "d", *names])
    return keys, names, (room / "d/all").read_bytes()


def of_manifests(room):
    """Manifests with each byte cut off, changed, removed or doubled; also if their digest fits."""
    _, _, text = with_files(room)
    body = text[:-plain.DIGEST_LEN]
    changed = [plain.sealed(body[:at] + bytes([byte]) + body[at + 1:]) for at in range(len(body)) for byte in {body[at] ^ 1, body[at] ^ 128, 0, 255} - {body[at]}]
    cut = [plain.sealed(body[:at]) for at in range(len(body))]
    whole = plain.manifest_in(text)
    for other in [*comparing.differing(text), *changed, *cut, *map(plain.manifest_bytes, other_manifests(whole))]:
        put(room / "d/other", other)
        yield from ran(room, "-m", "d/other", "keys")
    yield from ran(room, "-t", "-m", "d/other", "keys")


def other_manifests(whole):
    """Manifests that no join writes: of other seeds, counts, names and sums."""
    first, second = whole.shards
    yield whole._replace(seed=0)
    yield whole._replace(algorithm=4)
    yield whole._replace(shards=[])
    yield whole._replace(shards=[first] * 4097)
    # Sums past 2^32.
    yield whole._replace(shards=[first._replace(span=plain.MOST_VERTICES, offset=number * plain.MOST_VERTICES) for number in range(9)])
    yield whole._replace(shards=[first._replace(span=plain.MOST_VERTICES, offset=number * plain.MOST_VERTICES % 2**32) for number in range(9)])
    for entry in (second._replace(offset=0), second._replace(offset=second.offset + 2**32), second._replace(keys=0), second._replace(keys=2**26 + 1), second._replace(span=0),
                  second._replace(span=671088646), second._replace(keys=second.keys + 1), second._replace(span=second.span + 1), second._replace(length=second.length + 1),
                  second._replace(digest=bytes(32)), second._replace(name=b""), second._replace(name=b"none"), second._replace(name=b"n" * 4096), second._replace(name=b"\xff"),
                  second._replace(name=b"./" * 20 + second.name), second._replace(name=b"\xed\xa0\x80"), second._replace(name=b"../d/" + second.name)):
        yield whole._replace(shards=[first, entry])


def of_functions(room):
    """Function files that are missing, changed, of another algorithm, doubled and in another order."""
    keys, (first, second), text = with_files(room)
    one, two = (room / first).read_bytes(), (room / second).read_bytes()
    join = ["-j", "-m", "d/other"]
    for other in [*comparing.differing(two), *dumps.OLDER, *dumps.OLDER.values(), b"", one, text, b"x" * 70000]:
        put(room / second, other)
        yield from ran(room, "-m", "d/all", "keys")
        yield from ran(room, *join, first, second)
    (room / second).unlink()
    for words in (["-m", "d/all", "keys"], ["-t", "-m", "d/all", "keys"], [*join, first, second], [*join, second, first]):
        yield from said(4, room, *words, out=b"", err=f"{second}: cannot read")
    put(room / second, two)
    for order in ([second, first], [first, first], [second, second], [first], [first, second, first]):
        yield from said(0, room, "-j", "-m", "d/other", *order, out=b"", err=None)
        yield from said(1, room, "-t", "-m", "d/other", "keys")
        yield from ran(room, "-m", "d/other", "keys")
    numbers = [started(room, ["-m", name, "keys"])[1] for name in ("d/all", "d/other")]
    yield from difference("whether a query differs", (numbers[0] != numbers[1],), (True,))


def of_other_algorithms(room):
    """Functions of two algorithms, and counts of another split."""
    keys, names, _ = with_files(room)
    for number, dump in enumerate([*dumps.OLDER, *dumps.OLDER.values()]):
        put(room / f"{number}.mph", dump)
        yield from ran(room, "-j", "-m", "all", names[0], f"{number}.mph")
        yield from ran(room, "-j", "-m", "all", f"{number}.mph", f"{number}.mph")
        yield from ran(room, "-t", "-m", "all", "keys")
    counts = (room / "d/counts").read_bytes()
    for other in [*comparing.differing(counts), counts + b"1\n", b"1\n" + counts, b"".join(reversed(counts.splitlines(True)))]:
        put(room / "d/counts", other)
        yield from ran(room, "-j", "-m", "all", "-d", "d", *names)
    (room / "d/counts").unlink()
    yield from said(4, room, "-j", "-m", "all", "-d", "d", *names, out=b"", err="d/counts: cannot read")
    yield from ran(room, "-j", "-m", "all", "-d", "none", *names)


def of_names(room):
    """Names of function files, seen from the folder of the manifest."""
    _, (first, second), _ = with_files(room)
    (room / "d/e").mkdir()
    shutil.copy(room / first, room / "d/e/f")
    shutil.copy(room / second, room / "d/e/g")
    whole = room / "d/e/g"
    for manifest, names in (("d/all", ("e/f", "e/g")), ("d/all", ("d/e/f", "d/e/g")), ("d/e/all", ("f", "d/e/g")), ("all", ("d/e/f", "./d/e/g")), ("./all", ("./d/e/f", "d/e/g")),
                            ("d/../all", ("d/../d/e/f", "d/e/g")), (room / "all", (room / "d/e/f", "d/e/g")), ("all", ("d/e/f", whole)), ("d//all", ("d//e/f", "d/e/g")), ("d/all", ("d/", "d/e/f")),
                            ("d/all", ("e/f", "./e/g")), ("none/all", (room / "d/e/f", whole)), ("d", ("d/e/f", whole)), ("d/", ("e/f", "e/g")), ("d/all", ("d/d/e/f", "d/e/g"))):
        yield from ran(room, "-j", "-m", manifest, *names)
        yield from ran(room, "-m", manifest, "keys")
    for manifest, names in (("d/all", ("d//e/f", "d///e/g")), ("./d/all", ("d/e/f", "d//e/g")), ("d/all", ("./d/e/f", ".//d//e/g")), (".//d/all", ("d/e/f", "./d/e/g")), (room / "d/all", (f"{room}/d//e/f", "e/g"))):
        yield from said(0, room, "-j", "-m", manifest, *names, out=b"")
        yield from difference(f"the names of {names} from {manifest}", ([shard.name for shard in plain.manifest_in((room / "d/all").read_bytes()).shards],), ([b"e/f", b"e/g"],))
        yield from said(0, room, "-t", "-m", manifest, "keys", out=b"true\n")


def of_own_files(room):
    """Splits of a file that they would make, and joins onto a file that they read, are refused, and every file is kept. Others are done."""
    _, (first, second), _ = with_files(room)
    for folder, shards, name in (("d", 1, "d/shard-0000"), ("d", 2, "d/shard-0001"), ("d", 4096, "d/shard-0001"), ("d/", 3, "d/counts"), ("./d", 3, "./d/counts"), (room / "d", 9, room / "d/shard-0001")):
        yield from said(5, room, "-n", shards, "-d", folder, name, out=b"", err=f"{name}: would be overwritten")
    yield from said(5, room, "-n", 2, "-d", "none", "none/shard-0001", out=b"", err="none/shard-0001: would be overwritten")
    for manifest, functions in ((first, [first, second]), (second, [first, second]), (second, [first[2:], second[2:]]), ("d/counts", ["-d", "d", first, second]), ("d/counts", ["-d", "d", "d/none"])):
        yield from said(5, room, "-j", "-m", manifest, *functions, out=b"", err=f"{manifest}: would be overwritten")
    yield from said(0, room, "-j", "-m", "d/counts", first, second, out=b"")
    yield from said(0, room, "-j", "-m", first, second, out=b"")
    yield from said(0, room, "-n", 1, "-d", "d", "d/shard-0001", out=b"")


def with_links(room):
    """The same, with links to the files in d, and a folder e with a link to the keys."""
    _, (first, second), _ = with_files(room)
    (room / "e").mkdir()
    for link, file in (("soft", "d/shard-0001"), ("counted", "d/counts"), ("to", "d"), ("e/shard-0003", "../keys"), ("all", first), ("d/own", "counts"), ("twice", "soft")):
        (room / link).symlink_to(file)
    os.link(room / "d/shard-0000", room / "hard")
    os.link(room / second, room / "d/hard.mph")
    return first, second


def of_linked_keys(room):
    """Splits of a file to which a link, or another way to write its path, leads from one that they would make: every file is kept, and none is made."""
    with_links(room)
    for shards, folder, name in ((1, "d", "hard"), (1, "d", "d/../d/shard-0000"), (1, "d", "./d/shard-0000"), (1, "d", "d//shard-0000"), (1, "d", room / "d/shard-0000"), (1, room / "d", "d/shard-0000"),
                                 (2, "d", "soft"), (2, "d", "twice"), (4096, "d", "soft"), (3, "d", "counted"), (3, "d", "d/own"), (1, "to", "d/shard-0000"), (1, "d", "to/shard-0000"), (2, "to/", "to/../soft"),
                                 (4, "e", "keys"), (9, room / "e", "to/../keys"), (4, "e", "e/../e/shard-0003")):
        yield from said(5, room, "-n", shards, "-d", folder, name, out=b"", err=f"{folder}: cannot write")
    for folder, name in ((".", "shard-0000"), ("../to", "counts")):
        yield from said(5, room / "d", "-n", 1, "-d", folder, name, out=b"", err=f"{folder}: cannot write")
    yield from redirected(room, "d/shard-0000", 5)


def redirected(room, keys, status):
    """A split of what is redirected to standard input."""
    before, words = files_in(room), ["-n", "2", "-d", "d", "/dev/stdin"]
    with open(room / keys, "rb") as file:
        left = started(room, words, None, stdin=file)
    made = {} if status else plain.ended(words, room, before[keys]).made
    yield from difference(f"a split of {keys} by /dev/stdin", left, (status, b"", plain.said("d: cannot write") if status else b""))
    yield from other_files(room, before, made)


def of_linked_functions(room):
    """Joins onto a function file, or the counts that they read, to which links lead."""
    first, second = with_links(room)
    whole = room / first, room / second
    for manifest, names in (("all", (first, second)), ("d/hard.mph", (first, second)), ("d/hard.mph", (second,)), ("d/hard.mph", whole), ("d/../d/shard-0001.mph", whole), ("to/shard-0000.mph", whole),
                            ("to/hard.mph", whole), (first, (room / "to/shard-0000.mph",)), ("d/own", ("-d", "d", *whole)), ("counted", ("-d", "d", first, second)), ("d/counts", ("-d", "to", first, second))):
        yield from said(5, room, "-j", "-m", manifest, *names, out=b"", err=f"{manifest}: cannot write")
    yield from said(3, room, "-j", "-m", "counted", "-d", "d", second, out=b"", err="d/counts: another count at line 1")
    yield from said(4, room, "-j", "-m", "all", first, "none", out=b"", err="none: cannot read")


def of_other_links(room):
    """Links that lead to no file that is read, or from none that is made, stop nothing; nor do earlier files, a pipe and what is redirected."""
    _, (first, second), _ = with_files(room)
    (room / "e").mkdir()
    for link, file in (("soft", "keys"), ("to", "d"), ("e/shard-0003", "../keys")):
        (room / link).symlink_to(file)
    os.link(room / "keys", room / "hard")
    for manifest, names in (("d/all", ("-d", "to", first, second)), ("to/all", ("-d", "d", room / first, room / second)), ("all", (f"to/{first[2:]}", second)), ("all", (first, second))):
        yield from said(0, room, "-j", "-m", manifest, *names, out=b"")
    for shards, folder, name in ((2, "d", "keys"), (2, "d", "soft"), (2, "to", "hard"), (2, "d/../to/", "d/../keys"), (3, "e", "keys")):
        yield from said(0, room, "-n", shards, "-d", folder, name, out=b"")
    yield from redirected(room, "keys", 0)
    yield from said(0, room, "-n", 2, "-d", "d", "/dev/stdin", out=b"", pipe=b"f\ng\n")
    yield from said(0, room, "-n", 1, "-d", "to", "d/shard-0001", out=b"")


def of_equal_keys(room):
    """A shard without keys, and one with equal keys, of which all lines are in it: no function is built."""
    (room / "d").mkdir()
    put(room / "keys", b"a\n" * 3)
    yield from ran(room, "-n", 2, "-d", "d", "keys")
    sizes = sorted((room / "d" / name).stat().st_size for name in ("shard-0000", "shard-0001"))
    yield from difference("the sizes of the shards", (sizes,), ([0, 6],))
    statuses = {0: 8, 6: 1}
    for name in ("shard-0000", "shard-0001"):
        size = (room / "d" / name).stat().st_size
        status, _ = build(room, "bdz", f"d/{name}", f"d/{name}.mph")
        yield from difference(f"cmph over {size} bytes", (status, (room / f"d/{name}.mph").exists()), (statuses[size], False))


# Disks and outputs


def limited(most):
    def set_limit():
        resource.setrlimit(resource.RLIMIT_FSIZE, (most, most))
        signal.signal(signal.SIGXFSZ, signal.SIG_IGN)
    return set_limit


def prefixes(room, before, made):
    """The files that are no prefix of what they must be; and counts that a split left without coming to its end."""
    after = files_in(room)
    for name, content in after.items():
        wanted = made.get(name, before.get(name, b""))
        yield from difference(f"the start of {name}", (content,), (wanted[:len(content)],))
    if any(len(after.get(name, b"")) < len(content) for name, content in made.items()):
        yield from difference("the counts", (after.get("d/counts", b""),), (b"",))


def of_full_disks(room):
    """Splits and joins that are stopped by a limit of sizes: status 5, and prefixes."""
    keys = many_keys(15000)
    put(room / "keys", text_of(keys))
    (room / "d").mkdir()
    words = ["-n", "3", "-d", "d", "keys"]
    made = plain.ended(words, room).made
    for most in (0, 1, 4096, 30000, 65536, max(map(len, made.values())) - 1):
        before = files_in(room)
        left = started(room, words, preexec_fn=limited(most))
        yield from difference(f"a split with files of {most} bytes", left, (5, b"", plain.said("d: cannot write")))
        yield from prefixes(room, before, made)
    names = built_shards(room, keys[:500], 3)
    words = ["-j", "-m", "d/all", *names]
    whole, = plain.ended(words, room).made.values()
    for most in range(0, len(whole), 37):
        left = started(room, words, preexec_fn=limited(most))
        yield from difference(f"a join with files of {most} bytes", (*left, (room / "d/all").read_bytes()), (5, b"", plain.said("d/all: cannot write"), whole[:most]))


# Runs a command over a file system of 64 kilobytes in the folder d, and copies the files in it into the folder left.
MOUNT = ["unshare", "-m", "sh", "-c", 'mount -t tmpfs -o size=64k none d && { "$@"; status=$?; cp d/* left; exit $status; }', "sh"]


def with_disk(room):
    (room / "d").mkdir()
    (room / "left").mkdir()
    return room


def can_mount(room):
    """Whether a small file system can be mounted, and none of its files stays in the folder."""
    if shutil.which("unshare") is None:
        return False
    tried = subprocess.run([*MOUNT, "touch", "d/there"], cwd=with_disk(room), capture_output=True)
    return tried.returncode == 0 and (room / "left/there").exists() and not (room / "d/there").exists()


def of_small_disk(room):
    """The same on a file system of 64 kilobytes."""
    put(with_disk(room) / "keys", text_of(many_keys(20000)))
    words = ["-n", "5", "-d", "d", "keys"]
    made = {path.replace("d/", "left/"): content for path, content in plain.ended(words, room).made.items()}
    ended = subprocess.run([*MOUNT, SHARDS, *words], cwd=room, capture_output=True)
    yield from difference("a split onto a full disk", (ended.returncode, ended.stdout, ended.stderr), (5, b"", plain.said("d: cannot write")))
    yield from prefixes(room, files_in(room), made)
    yield from difference("the counts", ((room / "left/counts").read_bytes(),), (b"",))


def of_outputs(room):
    """Outputs that are closed or full."""
    keys, names, _ = with_files(room)
    full = plain.said("cannot write standard output")
    for words in (["-m", "d/all", "keys"], ["-t", "-m", "d/all", "keys"]):
        with open("/dev/full", "wb") as out:
            yield from difference(f"{words} into a full disk", started(room, words, stdout=out), (5, None, full))
        yield from difference(f"{words} into a closed output", started(room, words, preexec_fn=lambda: os.close(1)), (5, b"", full))
    put(room / "others", b"?\n??\n???\n")
    for words in (["-m", "d/all", "others"], ["-n", "2", "-d", "d", "keys"], ["-j", "-m", "d/other", *names], ["-j", "-m", "d/all", "none"]):
        wanted = plain.ended(words, room)
        if not wanted.out:
            yield from difference(f"{words} with a closed output", started(room, words, preexec_fn=lambda: os.close(1)), wanted[:3])
        yield from difference(f"{words} with a closed error output", started(room, words, preexec_fn=lambda: os.close(2)), (*wanted[:2], b""))
        with open("/dev/full", "wb") as err:
            yield from difference(f"{words} with a full error output", started(room, words, stderr=err), (*wanted[:2], None))


# Calls on the files


def calls_on(room, shim, *words):
    """The calls of a run on each path, in order."""
    bend = {**os.environ, "LD_PRELOAD": shim, "EDGE_CALLS": str(room / "calls")}
    yield from difference(f"{' '.join(words)}: the end", started(room, words, env=bend), (0, b"", b""))
    calls = {}
    for call, path in Room(room, SHARDS.parent, shim).calls():
        calls.setdefault(path, []).append(call)
    return calls


def of_calls(room):
    """A file that gets more bytes than a buffer has is opened and closed for each piece, and synced after its last byte; so is one that gets none."""
    shim = made_shim(room)
    put(room / "keys", text_of(many_keys(20000)))
    (room / "d").mkdir()
    calls = yield from calls_on(room, shim, "-n", "1", "-d", "d", "keys")
    piece, made = ["open", "write", "close"], ["open", "close"]
    many = (room / "d/shard-0000").stat().st_size // BUFFER
    yield from difference("pieces before the last", (many > 2,), (True,))
    yield from difference("the calls on a shard's file", (calls["d/shard-0000"],), (made + piece * many + ["open", "write", "fsync", "close"],))
    yield from difference("the calls on the counts", (calls["d/counts"],), (made + ["open", "write", "fsync", "close"],))
    yield from difference("the calls on the keys file", (calls["keys"],), (made,))
    put(room / "one", b"key\n")
    calls = yield from calls_on(room, shim, "-n", "9", "-d", "d", "one")
    ends = sorted(calls[f"d/shard-{shard:04}"][2:] for shard in range(9))
    yield from difference("the calls on the files of 9 shards after they are made", (ends,), ([["open", "fsync", "close"]] * 8 + [["open", "write", "fsync", "close"]],))


# The engine


def engine(room, *words, **how):
    """A run of contrib/shards/cmph-shards: its status, and what it prints."""
    programs = ["--cmph", how.get("cmph", CMPH), "--cmph-shards", SHARDS]
    left = subprocess.run([PYTHON, ENGINE, *programs, "--quiet", *words], cwd=room, stdin=subprocess.DEVNULL, capture_output=True, timeout=300, text=True)
    return left.returncode, left.stdout, left.stderr


def engine_ends(room, what, words, status, out="", err="", **how):
    left = engine(room, *words, **how)
    yield from difference(f"{what}: the status and output", left[:2], (status, out))
    if err:
        yield from difference(f"{what}: {left[2][-500:]!r} has {err!r}", (err in left[2],), (True,))


def results(room, folder):
    return {name: content for name, content in files_in(room / folder).items() if name != "run.json"}


def with_parts(room):
    """Files of keys in the folder parts, of which one has a last line without an end, and what comes of one split over all of them."""
    keys = many_keys(60000)
    parts = [keys[:25000], keys[25000:25001], [], keys[25001:]]
    (room / "parts").mkdir()
    for number, part in enumerate(parts):
        put(room / "parts" / str(number), text_of(part)[:-1 if number == 0 else None])
    names = built_shards(room, keys, 4)
    (room / "wanted").mkdir()
    for name in names:
        shutil.copy(room / name, room / "wanted")
    shutil.copy(room / "d/counts", room / "wanted")
    subprocess.run([SHARDS, "-j", "-m", "manifest", "-d", ".", *(Path(name).name for name in names)], cwd=room / "wanted", check=True)
    return [f"parts/{number}" for number in range(len(parts))], results(room, "wanted")


def of_engine(room):
    """The function files and the manifest are those of one split, for any number of workers and blocks; what is there is taken up; a worker may be lost."""
    files, wanted = with_parts(room)
    usual = ["--shards", "4", "--out", "out"]
    yield from engine_ends(room, "one worker", [*usual, "--workers", "1", "--check", *files], 0, "true\n")
    yield from difference("what one worker leaves", (results(room, "out"),), (wanted,))
    (room / "out/shard-0002.mph").unlink()
    (room / "out/manifest").unlink()
    put(room / "out/shard-0001.mph.part", b"half")
    kept = {name: (room / "out" / name).stat().st_mtime_ns for name in ("shard-0000.mph", "shard-0001.mph", "shard-0003.mph")}
    yield from engine_ends(room, "a run that is taken up", [*usual, "--workers", "2", *files], 0)
    (room / "out/shard-0001.mph.part").unlink()
    yield from difference("what it leaves", (results(room, "out"),), (wanted,))
    yield from difference("whether it builds no function again", ({name: (room / "out" / name).stat().st_mtime_ns for name in kept},), (kept,))
    yield from engine_ends(room, "other files", [*usual, "--workers", "1", *files[1:]], 1, "", "holds function files of other keys")
    yield from engine_ends(room, "another number of shards", ["--shards", "3", "--out", "out", "--workers", "1", *files], 1, "", "holds function files of other keys")
    yield from difference("what they leave", (results(room, "out"),), (wanted,))
    yield from of_lost_worker(room, files, wanted)


def of_lost_worker(room, files, wanted):
    """The first build kills its worker."""
    put(room / "killing", f'#!/bin/sh\nif mkdir {room}/once 2> /dev/null; then kill -9 $PPID; sleep 1; fi\nexec {CMPH} "$@"\n'.encode())
    (room / "killing").chmod(0o755)
    yield from engine_ends(room, "a lost worker", ["--shards", "4", "--out", "lost", "--workers", "2", "--check", *files], 0, "true\n", cmph=room / "killing")
    yield from difference("whether a worker was lost", ((room / "once").is_dir(),), (True,))
    yield from difference("what the others leave", (results(room, "lost"),), (wanted,))


def of_engine_refusals(room):
    """Equal keys end a run with their key and files; so do a shard without keys and a line that is too long."""
    put(room / "one", b"pear\napple\nfig\n")
    put(room / "two", b"plum\napple\ncherry")
    put(room / "long", b"plum\n" + b"x" * 70000)
    for algorithm in ("bdz", "brz"):
        yield from engine_ends(room, f"equal keys by {algorithm}", ["--shards", "1", "--algorithm", algorithm, "--workers", "1", "--out", algorithm, "one", "two"], 1, "",
                               "equal keys: 'apple' in one and in two")
    yield from engine_ends(room, "a shard without keys", ["--shards", "40", "--workers", "1", "--out", "many", "one"], 1, "", "it has no keys, take fewer shards")
    yield from engine_ends(room, "a long line", ["--shards", "2", "--workers", "1", "--out", "long-out", "long"], 1, "", "line 2 is too long")
    yield from difference("manifests", ([path for path in room.rglob("manifest*")],), ([],))


def of_snakefile(room):
    """The same files come of the rules for snakemake."""
    _, wanted = with_parts(room)
    (room / "bin").mkdir()
    (room / "bin/cmph").symlink_to(CMPH)
    (room / "bin/cmph_shards").symlink_to(SHARDS)
    words = ["snakemake", "-q", "-s", ENGINE.with_name("Snakefile"), "--cores", "2", "--config", "keys=parts", "out=out", "shards=4", "--"]
    path = {**os.environ, "PATH": f"{room}/bin:{os.environ['PATH']}", "HOME": str(room)}
    left = subprocess.run([*words, "all", "check"], cwd=room, env=path, stdin=subprocess.DEVNULL, capture_output=True, timeout=300)
    yield from difference(f"snakemake: {left.stderr[-500:]!r}", (left.returncode, b"true" in left.stdout), (0, True))
    found = results(room, "out")
    yield from difference("what snakemake leaves", ({name: found.get(name) for name in wanted},), (wanted,))


def has_dask():
    return Path(PYTHON).exists() and not subprocess.run([PYTHON, "-c", "import dask.distributed"], capture_output=True).returncode


# The cases


def in_rooms(room):
    """Each case in a folder of its own."""
    numbers = itertools.count()

    def case(body, *more):
        return body(new_room(room, f"case-{next(numbers)}"), *more)

    return case


def cases(room):
    """The failures of each case."""
    case, dice = in_rooms(room), random.Random(1)
    yield from of_many(new_room(room, "many"), 8)
    judge.hashes.cache_clear()
    for turn in range(MOST_SETS):
        yield case(of_set, turn, dice)
    commands = new_room(room, "commands")
    put(commands / "keys", b"a\nb\n")
    put(commands / "one.mph", dumps.BDZ_ONE)
    (commands / "d").mkdir()
    yield of_commands(commands)
    for body in (of_small, of_manifests, of_functions, of_other_algorithms, of_names, of_own_files, of_linked_keys, of_linked_functions, of_other_links, of_equal_keys, of_full_disks, of_outputs):
        yield case(body)
    for body, is_there, why in (
        (of_small_disk, can_mount(new_room(room, "mount")), "no file system can be mounted"), (of_calls, has_compiler(), "there is no C compiler"),
        (of_engine, has_dask(), "there is no dask"), (of_engine_refusals, has_dask(), "there is no dask"), (of_snakefile, shutil.which("snakemake"), "there is no snakemake"),
    ):
        if is_there:
            yield case(body)
        else:
            counting.skipped(body.__name__.removeprefix("of_").replace("_", " "), why)


if __name__ == "__main__":
    sys.dont_write_bytecode = True
    comparing.judge(cases)
