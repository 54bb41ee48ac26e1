"""Function files of all four algorithms and both versions in plain Python, written from docs/use/formats.md and docs/believe/algorithms.md alone: it shares no line with
the program. Functions are read and asked, not built. Hash values and edges are those of tests/judge.py, answers by BDZ those of tests/bdz.py."""
from typing import NamedTuple

import bdz
import filter as filters
import judge

NAMES = {1: "chm", 2: "bdz", 3: "bdz_ph", 4: "brz"}
# What the parameter may be, by the algorithm: b from least to greatest.
RANGES = {b"CMPHDMP1": {1: (0, 0), 2: (3, 10), 3: (0, 0), 4: (64, 175)}, b"CMPHDMP2": {1: (0, 0), 2: (3, 10), 3: (0, 0), 4: (64, 700)}}
MOST_KEYS = {b"CMPHDMP1": 2**24, b"CMPHDMP2": 2**26}
MOST_IN_BUCKET = {b"CMPHDMP1": 255, b"CMPHDMP2": 1023}
BODY = 24  # where the cells begin


class Function(NamedTuple):
    algorithm: int
    keys: int
    span: int  # all numbers are below it
    ratio: int  # in millionths
    seed: int
    body: object  # cells; a function of tests/bdz.py; or for each bucket the keys before it and its function


class Bad(Exception):
    """The first fault of a file."""


class Items:
    """The bytes of a file, taken item by item."""

    def __init__(self, text):
        self.text, self.at = text, 0

    def take(self, count):
        if len(self.text) < self.at + count:
            raise Bad(f"truncated at {len(self.text)}")
        self.at += count
        return self.text[self.at - count:self.at]

    def number(self, count, least=0, most=2**32 - 1, fault="bad field at {}"):
        value = int.from_bytes(self.take(count), "little")
        if not least <= value <= most:
            raise Bad(fault.format(self.at - count))
        return value


def refuse(wrong, fault):
    if wrong:
        raise Bad(fault)


# Cells


def vertices(algorithm, keys, ratio):
    return max(2, -(-ratio * keys // 10**6)) if algorithm == 1 else filters.cell_count(keys, ratio)


def chm_cells(items, keys, count):
    width = max(1, (keys - 1).bit_length())
    image = int.from_bytes(items.take(-(-count * width // 8)), "little")
    bits = f"{image:0{count * width}b}"
    cells = [int(bits[max(0, len(bits) - width * (i + 1)):len(bits) - width * i], 2) for i in range(count)]
    bad = next((i for i, cell in enumerate(cells) if cell >= keys), None)
    refuse(bad is not None, f"bad cell at {BODY + (bad or 0) * width // 8}")
    refuse(image >> count * width, f"bad padding at {items.at - 1}")
    return cells


def digits(image, base, each, count):
    """The cells of an image, so many in each byte, and whether the digits past the last are 0."""
    cells = [byte // base**i % base for byte in image for i in range(each)]
    return cells[:count], not any(cells[count:])


def bdz_cells(items, count):
    cells, padded = digits(items.take(-(-count // 4)), 4, 4, count)
    refuse(not padded, f"bad padding at {items.at - 1}")
    return cells


def bdz_ph_cells(items, count):
    image = items.take(-(-count // 5))
    bad = next((i for i, byte in enumerate(image) if byte > 242), None)
    refuse(bad is not None, f"bad cell at {BODY + (bad or 0)}")
    cells, padded = digits(image, 3, 5, count)
    refuse(not padded, f"bad padding at {items.at - 1}")
    return cells


def used(cells):
    return sum(cell != bdz.IDLE for cell in cells)


def bdz_body(items, keys, ratio, seed, b):
    function = bdz.function_of(keys, ratio, seed, b, bdz_cells(items, filters.cell_count(keys, ratio)))
    refuse(used(function.cells) != keys, f"bad count at {BODY}")
    for at in range(0, len(function.cells), 2**b):
        items.number(4, function.before[at], function.before[at], "bad rank at {}")
    return function


def brz_body(items, keys, ratio, b, magic):
    buckets, so_far, size = [], 0, 1 if magic == b"CMPHDMP1" else 2
    for left in reversed(range(-(-keys // b))):
        count = items.number(size, 0, MOST_IN_BUCKET[magic])
        refuse(so_far + count > keys or (not left and so_far + count < keys), f"bad count at {items.at - size}")
        seed = items.number(4, 0, 2**32 - 1 if count else 0)
        begin = items.at
        cells = bdz_cells(items, filters.cell_count(count, ratio)) if count else []
        refuse(used(cells) != count, f"bad count at {begin}")
        buckets.append((so_far, bdz.function_of(count, ratio, seed, 7, cells)))
        so_far += count
    return buckets


# Files


def function_in(text):
    items = Items(text)
    magic = items.take(8)
    refuse(magic not in MOST_KEYS, "bad magic")
    algorithm = items.number(1, 1, 4, "bad algorithm")
    least, most = RANGES[magic][algorithm]
    if magic == b"CMPHDMP1":
        b = items.number(1, least, most) + items.number(1, 0, 0) + items.number(1, 0, 0)
    else:
        b = items.number(1, 0, 0) + items.number(2, least, most)
    keys, ratio, seed = items.number(4, 1, MOST_KEYS[magic]), items.number(4, 10**6, 10**7), items.number(4)
    count = vertices(algorithm, keys, ratio)
    if algorithm == 2:
        body = bdz_body(items, keys, ratio, seed, b)
    elif algorithm == 4:
        body = brz_body(items, keys, ratio, b, magic)
    else:
        body = chm_cells(items, keys, count) if algorithm == 1 else bdz_ph_cells(items, count)
    refuse(items.at < len(text), "trailing bytes")
    return Function(algorithm, keys, count if algorithm == 3 else keys, ratio, seed, body)


def read(text):
    """The function that the bytes of a file spell, or their first fault."""
    try:
        return function_in(text)
    except Bad as bad:
        return str(bad)


def answer(function, key):
    """The number of a key, or None."""
    if function.algorithm == 1:
        first, second = judge.edge("chm", key, function.seed, function.keys, function.ratio)
        return (function.body[first] + function.body[second]) % function.keys
    if function.algorithm == 2:
        return bdz.answer(function.body, key)
    if function.algorithm == 3:
        ends = filters.edge(key, function.seed, function.keys, function.ratio)
        return ends[sum(function.body[end] for end in ends) % 3]
    before, own = function.body[judge.hashes(key, function.seed ^ 0xFFFFFFFF)[2] % len(function.body)]
    number = bdz.answer(own, key) if own.keys else None
    return None if number is None else before + number
