#!/usr/bin/env python3
"""Membership filters in plain Python, written from docs/use/formats.md and docs/believe/algorithms.md alone: it shares no line with the program. tests/filtering.py compares
both. Hash values, edges and the 2-core are those of tests/judge.py.

    tests/filter.py KEYS        builds a filter over the lines of a file, with fingerprints of 8 bits, and prints its file in hexadecimal digits, or why
                                there is none
"""
import sys
from collections import Counter
from typing import NamedTuple

import judge

MAGIC = b"CMPHFLT1"
# The fields after the magic: offset, bytes, least and greatest value.
FIELDS = [(8, 1, 1, 16), (9, 1, 0, 0), (10, 1, 0, 0), (11, 1, 0, 0), (12, 4, 1, 2**26), (16, 4, 10**6, 10**7), (20, 4, 0, 2**32 - 1)]
HEADER_LEN = 24
MOST_KEY = 65535


class Filter(NamedTuple):
    keys: int
    ratio: int  # in millionths
    seed: int
    width: int  # bits of a fingerprint
    cells: list


# What a filter is


def cell_count(keys, ratio):
    return 3 * max(3, -(-keys * ratio // (3 * 10**6)) | 1)


def edge(key, seed, keys, ratio):
    return judge.edge("bdz", key, seed, keys, ratio)


def fingerprint(key, seed, width):
    first, second, third = judge.hashes(key, seed)
    return (first ^ second ^ third) >> 32 - width


def holds(found, key):
    ends = edge(key, found.seed, found.keys, found.ratio)
    return sum(found.cells[end] for end in ends) % 2**found.width == fingerprint(key, found.seed, found.width)


# A build


def rounds_of(graph):
    """The rounds of peeling, each with its lines and their pivots; and the lines of the edges that are left."""
    left, rounds = set(graph), []
    while True:
        degrees = Counter(end for line in left for end in graph[line])
        pivots = {line: next((end for end in graph[line] if degrees[end] == 1), None) for line in left}
        taken = {line: pivot for line, pivot in pivots.items() if pivot is not None}
        if not taken:
            return rounds, left
        rounds.append(taken)
        left -= set(taken)


def cells_of(graph, rounds, targets, count, modulus):
    """The cells by which the ends of each edge add up to its target."""
    cells = [0] * count
    for taken in reversed(rounds):
        for line, pivot in taken.items():
            cells[pivot] = (targets[line] - sum(cells[end] for end in graph[line] if end != pivot)) % modulus
    return cells


def filter_under(keys, ratio, seed, width):
    """The filter of numbered keys under a seed, if that works."""
    graph = {line: edge(key, seed, len(keys), ratio) for line, key in keys.items()}
    rounds, left = rounds_of(graph)
    if left:
        return None
    targets = {line: fingerprint(key, seed, width) for line, key in keys.items()}
    return Filter(len(keys), ratio, seed, width, cells_of(graph, rounds, targets, cell_count(len(keys), ratio), 2**width))


def report(keys, ratio, seed):
    """The report of a build that is refused: that of BDZ."""
    core = judge.core_of({line: edge(key, seed, len(keys), ratio) for line, key in keys.items()})
    first, text = {}, [f"core bdz seed {seed} edges {len(core)}"]
    text += [f"edge {line} {' '.join(map(str, core[line]))}" for line in sorted(core)]
    text += [f"equal {first[keys[line]]} {line}" for line in sorted(core) if first.setdefault(keys[line], line) != line]
    return "".join(f"{line}\n" for line in text).encode()


# The file


def file_of(found):
    image = sum(cell << found.width * i for i, cell in enumerate(found.cells))
    numbers = [number.to_bytes(4, "little") for number in (found.keys, found.ratio, found.seed)]
    return MAGIC + bytes([found.width, 0, 0, 0]) + b"".join(numbers) + image.to_bytes(-(-found.width * len(found.cells) // 8), "little")


def read(text):
    """The filter that the bytes of a file spell, or their first fault."""
    if len(text) < len(MAGIC) or text[:len(MAGIC)] != MAGIC:
        return "bad magic" if len(text) >= len(MAGIC) else f"truncated at {len(text)}"
    values = []
    for at, size, least, most in FIELDS:
        values.append(int.from_bytes(text[at:at + size], "little"))
        if len(text) < at + size:
            return f"truncated at {len(text)}"
        if not least <= values[-1] <= most:
            return f"bad field at {at}"
    width, _, _, _, keys, ratio, seed = values
    count = cell_count(keys, ratio)
    end = HEADER_LEN + -(-width * count // 8)
    if len(text) < end:
        return f"truncated at {len(text)}"
    image = int.from_bytes(text[HEADER_LEN:end], "little")
    if image >> width * count:
        return f"bad padding at {end - 1}"
    return "trailing bytes" if len(text) > end else Filter(keys, ratio, seed, width, [image >> width * i & 2**width - 1 for i in range(count)])


# The program


def keys_in(text, end=b"\n", first=None):
    """The numbered keys up to a line that is too long, and the number of that line, if there is one."""
    lines = text.split(end)
    lines = (lines if lines[-1] else lines[:-1])[:first]
    long = next((number for number, line in enumerate(lines, 1) if len(line) > MOST_KEY), None)
    return {number: line for number, line in enumerate(lines, 1) if not long or number < long}, long


def said(status, text):
    """A run that ends with this message."""
    return status, b"", f"cmph_filter: {text}\n".encode(), None


def built(text, width=8, ratio=1230000, seed=1, count=100, end=b"\n", first=None):
    """What a build over the file `keys` with these bytes ends with: status, out, err, and the filter file, if one is written."""
    keys, long = keys_in(text, end, first)
    if long or not keys:
        return said(8, f"keys: line {long} is too long" if long else "keys: no keys")
    equal = len(set(keys.values())) < len(keys)
    for number in range(1 if equal else count):
        found = filter_under(keys, ratio, (seed + number) % 2**32, width)
        if found:
            return 0, b"", b"", file_of(found)
    return 1, report(keys, ratio, seed), b"cmph_filter: no seed of the list gives an empty core\n", None


def tested(file, text, end=b"\n", first=None):
    """What a test of the file `keys` with these bytes ends with, beside a filter file `keys.flt` with those: status, out and err."""
    found = read(file)
    if isinstance(found, str):
        return said(3, f"keys.flt: bad dump: {found}")[:3]
    keys, long = keys_in(text, end, first)
    members = [key for key in keys.values() if holds(found, key)]
    err = f"cmph_filter: keys: line {long} is too long\n".encode() if long else b""
    return 8 if long else int(len(members) < len(keys)), b"".join(key + end for key in members), err


if __name__ == "__main__":
    with open(sys.argv[1], "rb") as keys_file:
        _, out, err, file = built(keys_file.read())
    print(file.hex() if file else (out + err).decode())
