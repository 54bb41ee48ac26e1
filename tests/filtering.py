#!/usr/bin/env python3
"""Compares what the program of membership filters does with what tests/filter.py says: builds over random keys with each option, tests of their keys and of
others, and tests by filter files with each byte cut off, changed, removed or doubled. What a refused build reports is also what `cmph -a bdz` reports.

    tests/filtering.py [CMPH [FILTER]]        the programs below crates/ if they are left out

The last line is 'N passed, M failed', where each set of keys and each file is one case.
"""
import functools
import random

import comparing
import filter as plain
import judge
from comparing import difference, kept, put, run

judge.hashes = functools.cache(judge.hashes)  # of the same keys, for thousands of runs

CMPH, FILTER = comparing.programs("cmph", "cmph_filter")
LONGEST = b"x" * 65535
WIDTHS = range(1, 17)
MOST_SETS = 64

# Bytes of keys files, the options of a build over them, and the file that it writes.
WORKED = [
    (b"\na\n", {"seed": 0}, "434d5048464c5431 08 000000 02000000 b0c41200 00000000 00fd0a000000000000"),
    (b"\n", {"seed": 0}, "434d5048464c5431 08 000000 01000000 b0c41200 00000000 00fd00000000000000"),
    (b"\n", {"seed": 0, "width": 1}, "434d5048464c5431 01 000000 01000000 b0c41200 00000000 0200"),
]

# Bytes of keys files, and the options of builds over them, of which most are refused.
REFUSED = [
    (b"", {}), (b"\n\n", {"seed": 0}), (b"a\nb\na\nb\nc\na", {"seed": 7}), (b"\0\0x\0", {"end": b"\0"}), (b"".join(b"key %d\n" % number for number in range(60)), {"ratio": 1000000, "count": 1}),
    (b"".join(b"key %d\n" % number for number in range(60)) * 2, {"seed": 2**32 - 1}), (b"a\nb\n" + LONGEST + b"x\n", {}), (b"a\na\n" + LONGEST + b"x\n", {"first": 2}), (b"", {"end": b"\0"}),
]


words_of = functools.partial(comparing.words_of, letters={"width": "-w", "seed": "-s", "count": "-r", "first": "-k"})


def built(room, text, options):
    """What goes wrong with a build."""
    put(room / "keys", text)
    (room / "keys.flt").unlink(missing_ok=True)
    wanted = plain.built(text, **options)
    yield from difference(f"a build with {words_of(options)}", (*run(room, FILTER, "-g", *words_of(options), "keys"), kept(room / "keys.flt")), wanted)
    if wanted[0] == 1:
        words = words_of({name: value for name, value in options.items() if name != "width"})
        yield from difference(f"cmph -a bdz with {words}", run(room, CMPH, "-g", "-a", "bdz", *words, "keys")[:2], wanted[:2])


def tested(room, file, text, options):
    """What goes wrong with a test of keys."""
    put(room / "keys", text)
    put(room / "keys.flt", file)
    found = (*run(room, FILTER, *words_of(options), "keys"), kept(room / "keys.flt"))
    yield from difference(f"a test with {words_of(options)} by {file[:60].hex()}", found, (*plain.tested(file, text, **options), file))


def of_keys(room, text, strange, options):
    """What goes wrong with a build over keys, and with tests of these and of strange keys."""
    yield from built(room, text, options)
    file = plain.built(text, **options)[3]
    if file:
        end = {"end": options.get("end", b"\n")}
        first = {"first": options["first"]} if "first" in options else {}
        yield from tested(room, file, text, end | first)
        yield from tested(room, file, strange, end)


def differing(file):
    """The files that differ little from another, and headers with the most keys and the greatest ratio, and no cells."""
    yield from comparing.differing(file)
    yield from (file[:12] + (2**26).to_bytes(4, "little") + ratio.to_bytes(4, "little") + bytes(4) for ratio in (10**6, 10**7))


def of_file(room, width):
    """What goes wrong with tests by files that differ little from a filter's."""
    text = b"\na\nword\na longer key than those, of two blocks\n\xff\xfe\n"
    file = plain.built(text, width=width, seed=0)[3]
    for other in (file, *differing(file)):
        yield from tested(room, other, text + b"other\n", {})


def random_set(turn, dice):
    """Distinct random keys as the bytes of a file, others, and options: each width, and each other option in some sets."""
    end = b"\0" if dice.random() < 0.25 else b"\n"
    count = dice.choice([1, 2, 3, 5, 12, 13, 40, 100, 250])
    made = [dice.randbytes(dice.choice([0, 1, 4, 8, 11, 12, 13, 24, 30])).replace(end, b"") for _ in range(2 * count)]
    distinct = list(dict.fromkeys(made + ([LONGEST] if turn % 16 == 0 else [])))
    dice.shuffle(distinct)
    keys, strange = distinct[:count], distinct[count // 2:] + made[:3]
    options = {"width": WIDTHS[turn % len(WIDTHS)], "end": end}
    for name, value in {"seed": dice.choice([0, 2**32 - 1, dice.getrandbits(32)]), "ratio": dice.choice([10**6, 1500000, 10**7, dice.randint(10**6, 10**7)]),
                        "count": dice.choice([1, 2, 5]), "first": dice.choice([1, count // 2 + 1, count, 2**32 - 1])}.items():
        if dice.random() < 0.4:
            options[name] = value
    return end.join(keys) + end * (keys[-1] == b"" or dice.random() < 0.7), end.join(strange) + end, options


def cases(room):
    """The failures of each case."""
    for text, options, digits in WORKED:
        yield difference("tests/filter.py", plain.built(text, **options)[3:], (bytes.fromhex(digits),))
        yield of_keys(room, text, b"a\n\nb\n", options)
    for text, options in REFUSED:
        yield of_keys(room, text, b"", options)
    dice = random.Random(1)
    for turn in range(MOST_SETS):
        yield of_keys(room, *random_set(turn, dice))
    for width in (1, 8, 16):
        yield of_file(room, width)


if __name__ == "__main__":
    comparing.judge(cases)
