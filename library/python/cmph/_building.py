"""Builds in memory, and shards of keys."""
from __future__ import annotations

import operator
from ctypes import byref, c_uint64
from typing import TYPE_CHECKING, Iterable

from . import _buffers as buffers
from . import _errors as errors
from ._library import ALGORITHMS, NO_ROOM, OK, CPlace, CPlan, c_build, c_build_brz, c_room, c_route

if TYPE_CHECKING:
    from typing_extensions import Buffer

NUMBERS = {name: number for number, name in ALGORITHMS.items()}
RATIOS = {"chm": 2.09, "bdz": 1.23, "bdz_ph": 1.23, "brz": 1.23}
BUCKETS = 128  # keys a bucket by brz
RANKS = 7  # by bdz the rank of every 128th cell
MOST = 2**32 - 1


def _uint32(value: int, name: str) -> int:
    number = operator.index(value)
    if not 0 <= number <= MOST:
        raise ValueError(f"{name} is from 0 to {MOST}, not {number}")
    return number


def _plan(algorithm: str, ratio: float | None, b: int | None, seed: int, tries: int) -> CPlan:
    if algorithm not in NUMBERS:
        raise ValueError(f"algorithm is one of {', '.join(NUMBERS)}, not {algorithm!r}")
    ratio = RATIOS[algorithm] if ratio is None else ratio
    if not 1 <= ratio <= 10:
        raise ValueError(f"ratio is from 1 to 10, not {ratio}")
    b = (BUCKETS if algorithm == "brz" else RANKS) if b is None else b
    return CPlan(NUMBERS[algorithm], round(ratio * 1_000_000), _uint32(b, "b"), _uint32(seed, "seed"), _uint32(tries, "tries"))


def build(keys: Iterable[bytes], algorithm: str = "bdz", ratio: float | None = None, b: int | None = None, seed: int = 1, tries: int = 100) -> bytes:
    """
    The function file of keys: the bytes that `cmph -g` writes for them by the same algorithm and numbers. Nothing is written.

    algorithm: 'chm' (the number of a key is its index), 'bdz' (all numbers are below the number of keys), 'bdz_ph' (numbers with gaps, in
    the fewest bytes) or 'brz' (all numbers are below the number of keys, which are split into buckets). ratio: cells a key, from 1 to 10; 2.09
    for 'chm' and 1.23 for the others if it is left out. b: by 'bdz', a rank for every 2**b cells, from 3 to 10, and 7 if it is left out; by
    'brz', the keys of a bucket on average, from 64 to 700, and 128 if it is left out. seed: the first seed. tries: how many seeds are tried,
    from 1 to 1000.

    Raises EqualKeys if two keys are equal; BuildError if there are no keys, or more than 67,108,864, or no seed works; ValueError for a number
    that is not in its range, and for a key of more than 65,535 bytes. By 'brz', it takes memory for the keys once more, and ten bytes for each.
    """
    return build_arrays(*buffers.join_keys(keys), algorithm, ratio, b, seed, tries)


def build_arrays(
    data: Buffer, ends: Buffer, algorithm: str = "bdz", ratio: float | None = None, b: int | None = None, seed: int = 1, tries: int = 100
) -> bytes:
    """The same of keys that stand one after another, as in `Function.arrays`: data is uint8, shape (bytes,), and ends uint64, shape (keys,)."""
    keys, cuts, plan = buffers.bytes_view(data, "data"), buffers.ends_view(ends), _plan(algorithm, ratio, b, seed, tries)
    code, place, dump = (_build_brz if algorithm == "brz" else _build)(keys, cuts, plan)
    if code != OK:
        raise errors.build_error(code, place.at, place.again)
    return bytes(dump)


def _build(keys: memoryview, cuts: memoryview, plan: CPlan) -> tuple[int, CPlace, bytearray]:
    """The code, the place and the file."""
    # 0 if the plan or the number of keys is wrong, and the build then says so
    room = bytearray(c_room(byref(plan), min(len(cuts), MOST)))
    written, place, at = c_uint64(), CPlace(), buffers.address
    with memoryview(room) as view:
        code = c_build(
            at(keys), keys.nbytes, at(cuts), len(cuts), byref(plan), at(view), len(view), byref(written), byref(place)
        )
    del room[written.value :]
    return code, place, room


def _build_brz(keys: memoryview, cuts: memoryview, plan: CPlan) -> tuple[int, CPlace, bytearray]:
    """The same by brz, with the keys in a spill. If the file is longer than the longest that is known, it is built once more."""
    spill = bytearray(keys.nbytes + 10 * len(cuts))
    place, at = CPlace(), buffers.address
    place.at = 25 + 9 * (len(cuts) // max(plan.b, 1) + 1) + plan.ratio * len(cuts) // 4_000_000
    for _ in range(2):
        room, written = bytearray(place.at), c_uint64()
        with memoryview(spill) as spilled, memoryview(room) as view:
            code = c_build_brz(
                at(keys), keys.nbytes, at(cuts), len(cuts), byref(plan), at(spilled), len(spilled), at(view), len(view), byref(written), byref(place)
            )
        if code != NO_ROOM:
            break
    del room[written.value :]
    return code, place, room


def route(keys: Iterable[bytes], seed: int, shards: int) -> buffers.Numbers:
    """
    The shard of each key, below `shards`: the third hash value of lookup2 under a seed, modulo their number. An array of uint32, shape (keys,), of
    numpy where that is there, else an array.array('I').
    """
    return route_arrays(*buffers.join_keys(keys), seed, shards)


def route_arrays(data: Buffer, ends: Buffer, seed: int, shards: int, out: Buffer | None = None) -> buffers.Numbers:
    """The same of keys that stand one after another, with data, ends and out as in `Function.arrays`."""
    keys, cuts = buffers.bytes_view(data, "data"), buffers.ends_view(ends)
    numbers = buffers.new_numbers(len(cuts)) if out is None else out
    room = buffers.numbers_view(numbers, len(cuts), keys, cuts)
    place, at = CPlace(), buffers.address
    code = c_route(
        at(keys), keys.nbytes, at(cuts), len(cuts), _uint32(seed, "seed"), _uint32(shards, "shards"), at(room), len(room), byref(place)
    )
    if code != OK:
        raise errors.error(code, place.at)
    return numbers
