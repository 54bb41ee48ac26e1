#!/usr/bin/env python3
"""Compares what the program of record stores does with what tests/store.py says: builds over random lines with each option, look-ups of their keys and of
others, and look-ups in store files with each byte cut off, changed, removed or doubled. The index of a store, and what a refused build reports, is also what
`cmph -g -a bdz` makes of the keys.

    tests/storing.py [CMPH [STORE]]        the programs below crates/ if they are left out

The last line is 'N passed, M failed', where each set of lines and each file is one case.
"""
import functools
import random
import resource

import bdz
import comparing
import dumps
import filter as filters
import judge
import store as plain
from comparing import difference, kept, put, run

judge.hashes = functools.cache(judge.hashes)  # of the same keys, for thousands of runs

CMPH, STORE = comparing.programs("cmph", "cmph_store")
LETTERS = {"b": "-b", "seed": "-s", "count": "-r", "first": "-k"}
LONGEST = 65535  # bytes of a line
MOST_SETS = 72
WORKED_LINES = b"\tx\na\tyz\n"
WORKED = bytes.fromhex("434d504852454331 1f000000 0c000000" "434d5048444d503202000700 02000000 b0c41200 00000000 c3ff03 00000000"
                       "00000000 05000000" "00000100 78 01000200 61797a")
MEMORY = 24 << 20  # bytes, of look-ups in files that claim more
NAMES = b"".join(b"key %d\tvalue %d\n" % (number, number) for number in range(60))

# Bytes of files of lines, and the options of builds over them.
BUILDS = [
    (WORKED_LINES, {"seed": 0}), (b"\n", {"seed": 0}), (b"\t", {}), (b"\t\t\t\n", {}), (b"a\r\nb\t\r\n\r\n", {}), (b"a\n\n\xff\t\xfe\n", {"b": 3}),
    (b"a\tb\nc\0d\te\nf\0", {"end": b"\0"}), (b"a\n" * 2, {"first": 1}), (NAMES, {"ratio": 10**7, "b": 4}),
    (b"k" * LONGEST + b"\n\t" + b"v" * (LONGEST - 1) + b"\nk\t\n", {}), (b"k" * (LONGEST - 1) + b"\t\n" + b"\t" * LONGEST, {"b": 10}),
]

# The same of builds that are refused.
REFUSED = [
    (b"", {}), (b"", {"end": b"\0"}), (b"a\na\t1\n", {"seed": 0}), (b"a\t1\nb\na\nb\t\nc\na\t2", {"seed": 7}), (b"\n\t\n", {"seed": 2**32 - 1}),
    (b"a\tx\0b\0a\ty\0", {"end": b"\0"}), (NAMES, {"ratio": 10**6, "count": 1}), (NAMES * 2, {"seed": 5}), (b"a\na\n" + b"k" * 70000 + b"\n", {"first": 2}),
    (b"a\nb\tc\n" + b"k" * (LONGEST + 1), {}), (b"a\nb\n\t" + b"v" * LONGEST + b"\n", {}),
]


words_of = functools.partial(comparing.words_of, letters=LETTERS)


def of_cmph(room, text, options, file):
    """What goes wrong if cmph builds over the keys of the lines: its function file is the index of the store, and its report the same."""
    end = options.get("end", b"\n")
    put(room / "bare", b"".join(line.partition(b"\t")[0] + end for line in filters.keys_in(text, end, options.get("first"))[0].values()))
    (room / "bare.mph").unlink(missing_ok=True)
    left = run(room, CMPH, "-g", "-a", "bdz", *words_of(options), "bare")
    index = file[plain.HEADER_LEN:][:int.from_bytes(file[8:12], "little")] if file else None
    yield from difference(f"cmph -a bdz with {words_of(options)}", (*left[:2], kept(room / "bare.mph")), (*plain.built(text, **options)[:2], index))


def built(room, text, options):
    """What goes wrong with a build, in place of an older file and without one."""
    wanted = plain.built(text, **options)
    put(room / "lines", text)
    for older in (None, b"older" * 5000):
        (room / "lines.rec").unlink(missing_ok=True)
        if older:
            put(room / "lines.rec", older)
        found = (*run(room, STORE, "-g", *words_of(options), "lines"), kept(room / "lines.rec"), kept(room / "lines"))
        yield from difference(f"a build with {words_of(options)}", found, (*wanted[:3], wanted[3] or older, text))
    if wanted[0] < 2:
        yield from of_cmph(room, text, options, wanted[3])


def looked_up(room, file, keys, options, beside=(), **how):
    """What goes wrong with a look-up, with further options that change nothing."""
    put(room / "keys", keys)
    put(room / "lines.rec", file)
    found = (*run(room, STORE, *words_of(options), *beside, "-m", "lines.rec", "keys", **how), kept(room / "lines.rec"), kept(room / "keys"))
    yield from difference(f"a look-up with {words_of(options)} in {file[:99].hex()}", found, (*plain.looked_up(file, keys, **options), file, keys))


def asked_of(text, end, dice):
    """Keys to look up in a store of lines: their keys, the lines themselves, and keys that differ little."""
    keys = []
    for line in filters.keys_in(text, end)[0].values():
        key = line.partition(b"\t")[0]
        keys += [key, *dice.sample([line, key + b"\t", key[:-1], key + b"\r", key + b"\0", key[::-1], b"\t" + key, b"", key], 2)]
    dice.shuffle(keys)
    return [key.replace(end, b"")[:LONGEST] for key in keys]


def of_lines(room, text, options, dice):
    """What goes wrong with a build over lines, and with look-ups of their keys and of others."""
    yield from built(room, text, options)
    file = plain.built(text, **options)[3]
    if file:
        end = options.get("end", b"\n")
        keys = asked_of(text, end, dice)
        yield from looked_up(room, file, end.join(keys), {"end": end})
        yield from looked_up(room, file, end.join(keys) + end, {"end": end, "first": dice.randint(1, len(keys))})
        yield from looked_up(room, file, end.join([*keys[:3], b"k" * (LONGEST + 1), *keys]), {"end": end}, ["-b", "3", "-s", "9", "-c", "2", "-r", "1"])


def random_lines(turn, dice):
    """Lines with distinct random keys, and options: each b, and each other option in some sets."""
    end = b"\0" if dice.random() < 0.3 else b"\n"
    count = dice.choice([1, 2, 3, 5, 12, 13, 40, 100, 250])

    def piece(length, without):
        return bytes(byte for byte in dice.choices([*range(256), 9, 10, 13, 13, 0], k=length) if bytes([byte]) not in without)

    keys = list(dict.fromkeys(piece(dice.choice([0, 1, 4, 8, 11, 12, 13, 24, 30]), [end, b"\t"]) for _ in range(count)))
    lines = [key + dice.choice([b"", b"\t", b"\t" + piece(dice.choice([1, 2, 9, 70, 300]), [end])]) for key in keys]
    if turn % 8 == 0:
        lines.append((b"long\t" + piece(LONGEST, [end])).ljust(LONGEST, b"v")[:LONGEST])
    options = {"b": 3 + turn % 8, "end": end}
    for name, value in {"seed": dice.choice([0, 2**32 - 1, dice.getrandbits(32)]), "ratio": dice.choice([10**6, 1500000, 10**7, dice.randint(10**6, 10**7)]),
                        "count": dice.choice([1, 2, 5]), "first": dice.choice([1, count // 2 + 1, count, 2**32 - 1])}.items():
        if dice.random() < 0.4:
            options[name] = value
    return end.join(lines) + end * (lines[-1] == b"" or dice.random() < 0.7), options


def store_with(first, lines, **changed):
    """A store file by an index file, of which parts may be others."""
    function = bdz.read(first)
    file = plain.file_of(function, lines)
    middle = plain.HEADER_LEN + len(bdz.file_of(function))
    parts = {"index": first, "places": file[middle:middle + 4 * function.keys], "records": file[middle + 4 * function.keys:], **changed}
    return plain.MAGIC + plain.four(len(parts["index"])) + plain.four(len(parts["records"])) + parts["index"] + parts["places"] + parts["records"]


def made_files():
    """Store files that no build writes: of both versions of the index, of other indexes, with records in another order, with places and records that don't fit."""
    lines = [(b"", b"x"), (b"a", b"yz")]
    index = bdz.file_of(bdz.function_under({1: b"", 2: b"a"}, 1230000, 0, 7))
    yield store_with(index, lines)
    yield store_with(bdz.file_of(bdz.read(index), b"CMPHDMP1"), lines)
    yield store_with(index, lines[::-1])
    for other in (dumps.CHM_TWO, dumps.BDZ_PH_TWO, dumps.BRZ_TWO, dumps.BDZ_ONE, dumps.OLDER[dumps.BDZ_ONE], b"", index + b"\0", index[:-1]):
        yield store_with(index, lines, index=other)
    for places in ([5, 0], [0, 0], [5, 5], [0, 4], [0, 12], [12, 12], [0, 2**32 - 1]):
        yield store_with(index, lines, places=b"".join(map(plain.four, places)))
    whole = store_with(index, lines)[-12:]
    others = [whole[:5] + other for other in (b"", b"\1\0\2\0byz", b"\0\0\3\0xyz", b"\3\0\0\0ayz")]
    for records in (*others, whole[:-1], whole + b"\0", whole + bytes(4), whole * 2, b"", bytes(3)):
        yield store_with(index, lines, records=records)
    # A key with byte 9, which no build writes.
    tabs = {1: b"a\tb", 2: b"c"}
    yield store_with(bdz.file_of(next(filter(None, (bdz.function_under(tabs, 1230000, seed, 7) for seed in range(99))))), [(key, b"d\te") for key in tabs.values()])


def claiming():
    """Short files whose lengths claim up to four gigabytes."""
    most = 2**32 - 1
    for index_len, records_len in ((most, 12), (most, 2**30), (most, most), (31, most), (31, 2**30), (31, 2**30 + 1), (31, 0), (0, 12), (2**31, 12), (32, 12), (30, 12)):
        yield WORKED[:8] + plain.four(index_len) + plain.four(records_len) + WORKED[16:]
        yield WORKED[:8] + plain.four(index_len) + plain.four(records_len)
    # An index that claims the most keys, and the greatest ratio.
    for ratio in (10**6, 10**7):
        yield WORKED[:28] + plain.four(2**26) + plain.four(ratio) + WORKED[36:]


def of_files(room, files, keys, **how):
    """What goes wrong with look-ups in these files."""
    for file in files:
        yield from looked_up(room, file, keys, {}, **how)


def limit_memory():
    resource.setrlimit(resource.RLIMIT_AS, (MEMORY, MEMORY))


def cases(room):
    """The failures of each case."""
    dice = random.Random(1)
    yield difference("tests/store.py", plain.built(WORKED_LINES, seed=0)[3:], (WORKED,))
    yield difference("tests/store.py", plain.looked_up(WORKED, b"a\nb\n"), (1, b"a\tyz\n", b"cmph_store: line 2: key is unknown\n"))
    yield difference("tests/store.py", plain.looked_up(WORKED[:51] + bytes(4) + WORKED[55:], b"a\nb\n")[:1], (3,))
    yield difference("tests/store.py", (b"equal 1 2\n" in plain.built(b"a\na\t1\n")[1],), (True,))
    for text, options in BUILDS + REFUSED:
        yield of_lines(room, text, options, dice)
    for turn in range(MOST_SETS):
        yield of_lines(room, *random_lines(turn, dice), dice)
    yield of_files(room, made_files(), b"a\n\nb\na\tb\nc\n")
    yield of_files(room, claiming(), b"a\n", preexec_fn=limit_memory)
    yield of_files(room, comparing.differing(WORKED), b"a\nb\n\n")
    larger = plain.built(b"pear\t\ttwo tabs\napple\n\t" + b"v" * 12 + b"\nfig\r\t\r\na longer key of two blocks\t1\n", b=3, seed=0)[3]
    yield of_files(room, comparing.differing(larger), b"apple\n\nfig\r\npear\nplum\na longer key of two blocks\n")


if __name__ == "__main__":
    comparing.judge(cases)
