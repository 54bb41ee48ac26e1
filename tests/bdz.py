"""Functions by BDZ in plain Python, written from docs/use/formats.md and docs/believe/algorithms.md alone: it shares no line with the program. They are the indexes of
tests/store.py. Edges are those of tests/judge.py, rounds and cells those of tests/filter.py."""
from itertools import accumulate
from typing import NamedTuple

import filter as plain

HEADER_LEN = 24
IDLE = 3
# The most keys of each version, by its text.
MOST_KEYS = {b"CMPHDMP1": 2**24, b"CMPHDMP2": 2**26}
LAST = b"CMPHDMP2"


class Function(NamedTuple):
    keys: int
    ratio: int  # in millionths
    seed: int
    b: int
    cells: list
    before: list  # for each cell, how many before it are not idle


def function_of(keys, ratio, seed, b, cells):
    return Function(keys, ratio, seed, b, cells, list(accumulate((cell != IDLE for cell in cells), initial=0)))


def function_under(keys, ratio, seed, b):
    """The function of numbered keys under a seed, if that works."""
    graph = {line: plain.edge(key, seed, len(keys), ratio) for line, key in keys.items()}
    rounds, left = plain.rounds_of(graph)
    if left:
        return None
    pivots = {line: pivot for taken in rounds for line, pivot in taken.items()}
    positions = {line: graph[line].index(pivot) for line, pivot in pivots.items()}
    cells, chosen = plain.cells_of(graph, rounds, positions, plain.cell_count(len(keys), ratio), 3), set(pivots.values())
    return function_of(len(keys), ratio, seed, b, [cell if i in chosen else IDLE for i, cell in enumerate(cells)])


def answer(function, key):
    """The number of a key, or None."""
    ends = plain.edge(key, function.seed, function.keys, function.ratio)
    chosen = ends[sum(function.cells[end] for end in ends) % 3]
    return None if function.cells[chosen] == IDLE else function.before[chosen]


def fields_of(function, magic):
    """The bytes from the algorithm to the seed."""
    b = function.b.to_bytes(1, "little") + bytes(2) if magic != LAST else bytes(1) + function.b.to_bytes(2, "little")
    return b"\2" + b + b"".join(number.to_bytes(4, "little") for number in (function.keys, function.ratio, function.seed))


def file_of(function, magic=LAST):
    image = sum(cell << 2 * i for i, cell in enumerate(function.cells)).to_bytes(-(-len(function.cells) // 4), "little")
    ranks = (function.before[at].to_bytes(4, "little") for at in range(0, len(function.cells), 2**function.b))
    return magic + fields_of(function, magic) + image + b"".join(ranks)


def read(text):
    """The function that the bytes of a file of either version spell, or None."""
    magic, parameter = text[:8], text[10:12] if text[:8] == LAST else text[9:10]
    b, (keys, ratio, seed) = int.from_bytes(parameter, "little"), (int.from_bytes(text[at:at + 4], "little") for at in (12, 16, 20))
    if not 1 <= keys <= MOST_KEYS.get(magic, 0) or not 3 <= b <= 10 or not 10**6 <= ratio <= 10**7:
        return None
    count = plain.cell_count(keys, ratio)
    end = HEADER_LEN + -(-count // 4)
    if len(text) != end + 4 * -(-count // 2**b):
        return None
    function = function_of(keys, ratio, seed, b, [text[HEADER_LEN + i // 4] >> i % 4 * 2 & 3 for i in range(count)])
    # The other bytes follow from these.
    return function if function.before[-1] == keys and file_of(function, magic) == text else None
