#!/usr/bin/env python3
"""Record stores in plain Python, written from docs/use/formats.md alone: it shares no line with the program. tests/storing.py compares both. The index is a
function of tests/bdz.py.

    tests/store.py [-g] [-z] [-k N] [-c C] [-s S] [-r R] [-b B] [-m FILE] LINES     builds or looks up, as the program does
"""
import argparse
import sys
from pathlib import Path
from typing import NamedTuple

import bdz
import filter as plain

MAGIC = b"CMPHREC1"
HEADER_LEN = 16
MOST_RECORDS = 2**30  # bytes
MOST_LINES = 2**26
NO_SEED = b"cmph_store: no seed of the list gives an empty core\n"


class Store(NamedTuple):
    index: bdz.Function
    places: list
    records: bytes


# What a store is


def record_at(records, place):
    """The key and the value of the record at a place, and where the next one begins; or None."""
    middle = place + 4 + int.from_bytes(records[place:place + 2], "little")
    end = middle + int.from_bytes(records[place + 2:place + 4], "little")
    return None if end > len(records) or place + 4 > len(records) else (records[place + 4:middle], records[middle:end], end)


def value_of(store, key):
    """The value of a key, or None."""
    number = bdz.answer(store.index, key)
    own, value, _ = record_at(store.records, store.places[number]) if number is not None else (None, None, None)
    return value if own == key else None


# The file


def four(number):
    return number.to_bytes(4, "little")


def file_of(index, lines):
    """The store file of lines, each as its key and its value."""
    places, records = {}, bytearray()
    for key, value in lines:
        places[bdz.answer(index, key)] = len(records)
        records += len(key).to_bytes(2, "little") + len(value).to_bytes(2, "little") + key + value
    first = bdz.file_of(index)
    return MAGIC + four(len(first)) + four(len(records)) + first + b"".join(four(places[number]) for number in range(len(places))) + bytes(records)


def bad_record(store):
    """Where the first record is that is none of the store's, if there is one."""
    place = 0
    for _ in range(store.index.keys):
        found = record_at(store.records, place)
        number = bdz.answer(store.index, found[0]) if found else None
        if number is None or store.places[number] != place:
            return place
        place = found[2]
    return place if place < len(store.records) else None


def read(text):
    """The store that the bytes of a file spell, or their first fault."""
    index_len, records_len = (int.from_bytes(text[at:at + 4], "little") for at in (8, 12))
    middle = HEADER_LEN + index_len
    cut = f"truncated at {len(text)}"
    if len(text) < len(MAGIC) or text[:8] != MAGIC:
        return cut if len(text) < len(MAGIC) else "bad magic"
    if len(text) < HEADER_LEN or not 1 <= records_len <= MOST_RECORDS:
        return cut if len(text) < HEADER_LEN else "bad field at 12"
    index = bdz.read(text[HEADER_LEN:middle])
    if len(text) < middle or not index:
        return cut if len(text) < middle else "bad index"
    end = middle + 4 * index.keys + records_len
    places = [int.from_bytes(text[at:at + 4], "little") for at in range(middle, end - records_len, 4)]
    bad = next((number for number, place in enumerate(places) if place >= records_len), None)
    if len(text) < end - records_len or bad is not None:
        return cut if len(text) < end - records_len else f"bad place {bad}"
    store = Store(index, places, text[end - records_len:end])
    bad = bad_record(store) if len(text) >= end else None
    if len(text) < end or bad is not None:
        return cut if len(text) < end else f"bad record at {bad}"
    return "trailing bytes" if len(text) > end else store


# The program


def fault_of(keys, long):
    """Why nothing is built over these lines, if there is a reason: the first that a reader of the lines meets."""
    total = 0
    for line, text in keys.items():
        total += 4 + len(text) - (b"\t" in text)
        if line > MOST_LINES or total > MOST_RECORDS:
            return f"more than {MOST_LINES} keys" if line > MOST_LINES else f"records are too large at line {line}"
    return f"line {long} is too long" if long else None if keys else "no keys"


def built(text, name="lines", b=7, ratio=1230000, seed=1, count=100, end=b"\n", first=None):
    """What a build over a file with these bytes ends with: status, out, err, and the store file, if one is written."""
    lines, long = plain.keys_in(text, end, first)
    fault = fault_of(lines, long)
    if fault:
        return 8, b"", f"cmph_store: {name}: {fault}\n".encode(), None
    records = {line: (key, value) for line, (key, _, value) in ((line, whole.partition(b"\t")) for line, whole in lines.items())}
    keys = {line: key for line, (key, _) in records.items()}
    for number in range(1 if len(set(keys.values())) < len(keys) else count):
        index = bdz.function_under(keys, ratio, (seed + number) % 2**32, b)
        if index:
            return 0, b"", b"", file_of(index, records.values())
    return 1, plain.report(keys, ratio, seed), NO_SEED, None


def looked_up(file, text, name="keys", store_name="lines.rec", end=b"\n", first=None):
    """What a look-up of the keys in a file with these bytes ends with, in a store file with those: status, out and err."""
    store = read(file)
    if isinstance(store, str):
        return 3, b"", f"cmph_store: {store_name}: bad store\n".encode()
    keys, long = plain.keys_in(text, end, first)
    found = {line: value_of(store, key) for line, key in keys.items()}
    err = b"".join(b"cmph_store: line %d: key is unknown\n" % line for line, value in found.items() if value is None)
    err += f"cmph_store: {name}: line {long} is too long\n".encode() if long else b""
    out = b"".join(key + b"\t" + found[line] + end for line, key in keys.items() if found[line] is not None)
    return 8 if long else int(None in found.values()), out, err


def main():
    parser = argparse.ArgumentParser()
    for letter, kind in {"k": int, "s": int, "r": int, "b": int, "m": str, "c": lambda text: round(float(text) * 10**6)}.items():
        parser.add_argument(f"-{letter}", type=kind)
    parser.add_argument("-g", action="store_true")
    parser.add_argument("-z", dest="end", action="store_const", const=b"\0")
    parser.add_argument("name")
    asked = vars(parser.parse_args())
    name, store = asked["name"], Path(asked["m"] or asked["name"] + ".rec")
    options = {"b": asked["b"], "ratio": asked["c"], "seed": asked["s"], "count": asked["r"], "end": asked["end"], "first": asked["k"]}
    options = {option: value for option, value in options.items() if value is not None and (asked["g"] or option in ("end", "first"))}
    if asked["g"]:
        status, out, err, file = built(Path(name).read_bytes(), name, **options)
        if file:
            store.write_bytes(file)
    else:
        status, out, err = looked_up(store.read_bytes(), Path(name).read_bytes(), name, str(store), **options)
    sys.stdout.buffer.write(out)
    sys.stderr.buffer.write(err)
    sys.exit(status)


if __name__ == "__main__":
    main()
