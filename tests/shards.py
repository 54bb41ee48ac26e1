#!/usr/bin/env python3
"""Shards in plain Python, written from docs/use/formats.md and docs/use/shards.md alone: it shares no line with the program. tests/sharding.py compares both. Hash
values are those of tests/judge.py, and functions are read and asked by tests/functions.py.

    tests/shards.py -n SHARDS -d DIR [-z] [-k N] KEYS         says what a split, a join, a query or a test by the program ends with: its status, the message,
    tests/shards.py -j -m MANIFEST [-d DIR] FUNCTION ..       and the files that it makes, with their lengths. It writes none of them
    tests/shards.py [-t] -m MANIFEST [-z] [-k N] KEYS
"""
import hashlib
import os
import re
import sys
from pathlib import Path
from typing import NamedTuple

import filter as filters
import functions
import judge
from functions import Bad, Items

PROGRAM = "cmph_shards"
MAGIC = b"CMPHSHD1"
ROUTE_SEED = int.from_bytes(b"SHAR", "big")
MOST_SHARDS = 4096
MOST_KEYS, MOST_VERTICES, MOST_NAME = 2**26, 671088645, 4095
DIGEST_LEN = 32


class Entry(NamedTuple):
    """What a manifest says of a shard."""
    name: bytes
    keys: int
    span: int
    offset: int
    length: int
    digest: bytes


class Manifest(NamedTuple):
    algorithm: int
    seed: int
    shards: list


class Ended(NamedTuple):
    """What a run leaves."""
    status: int
    out: bytes = b""
    err: bytes = b""
    made: dict = {}  # the bytes of each file that it writes, by its path


class Stop(Exception):
    """A run that ends with this status and this message, and the files that it has made by then."""

    def __init__(self, status, text, made=None):
        self.ended = Ended(status, b"", said(text), made or {})


def said(text):
    return f"{PROGRAM}: {text}\n".encode("utf-8", "surrogateescape")


# The arguments

FLAGS, VALUED = "jtz", "dkmn"
RANGES = {"k": (1, 2**32 - 1), "n": (1, MOST_SHARDS)}


def bad_arguments(wrong):
    if wrong:
        raise Stop(2, "bad arguments")


def arguments(words):
    """The options by their letters, and the files."""
    options, files, waiting, over = {}, [], list(words), False
    while waiting:
        word = waiting.pop(0)
        bad_arguments(any(0xD800 <= ord(letter) < 0xE000 for letter in word))
        if word == "--" and not over:
            over = True
        elif over or word[:1] != "-" or word == "-":
            files.append(word)
        else:
            bundle(word[1:], waiting, options)
    bad_arguments(not files)
    return options, files


def bundle(letters, waiting, options):
    while letters:
        letter, letters = letters[0], letters[1:]
        bad_arguments(letter not in FLAGS + VALUED or letter in options)
        options[letter] = True
        if letter in VALUED:
            bad_arguments(not letters and (not waiting or (waiting[0][:1] == "-" and waiting[0] != "-")))
            options[letter] = letters.removeprefix("=") if letters else waiting.pop(0)
            bad_arguments(any(0xD800 <= ord(byte) < 0xE000 for byte in options[letter]))
            return


def job_of(words):
    """The kind of a job, its options and its files."""
    options, files = arguments(words)
    for letter, (least, most) in RANGES.items():
        if letter in options:
            if not re.fullmatch(r"\d{1,10}", options[letter], re.ASCII) or not least <= int(options[letter]) <= most:
                raise Stop(2, f"bad value of -{letter}")
            options[letter] = int(options[letter])
    if "j" in options:
        bad_arguments("m" not in options or len(files) > MOST_SHARDS)
        return "join", options, files
    bad_arguments(len(files) > 1 or ("d" if "n" in options else "m") not in options)
    return "split" if "n" in options else "ask", options, files


# Files


class Folder:
    """The folder in which a run is, with what comes through the pipe /dev/stdin."""

    def __init__(self, path, pipe=b""):
        self.path, self.pipe = Path(path), pipe

    def read(self, path):
        """The bytes of a file. Stops the run if it can't be read."""
        try:
            return self.pipe if path == "/dev/stdin" else (self.path / path if path else self.path / "no file").read_bytes()
        except (OSError, ValueError) as failed:  # a name with byte 0 is a ValueError
            raise Stop(4, f"{path}: cannot read") from failed

    def lead_to_one(self, path, other):
        """Whether two paths lead to one file, which neither a pipe nor a device is."""
        one, two = self.path / path, self.path / other
        return path != "/dev/stdin" and os.path.isfile(one) and os.path.isfile(two) and os.path.samefile(one, two)

    def takes(self, path):
        """Whether a file may be written there."""
        at = self.path / path
        return bool(path) and not at.is_dir() and at.parent.is_dir()


def folder_of(manifest):
    """The part of a path up to its last slash."""
    return manifest[:manifest.rfind("/") + 1]


def path_of(manifest, name):
    return os.path.join(folder_of(manifest), name)


def plain(path):
    """A path without `./` at its start."""
    return path[2:].lstrip("/") if path.startswith("./") else path


def behind(folder, path):
    """What follows a folder in a path, or None."""
    return path[len(folder):].lstrip("/") if folder and path.startswith(folder) else None


def name_of(manifest, function):
    folder = folder_of(manifest)
    names = [behind(folder, function), behind(plain(folder), plain(function)), function]
    return next(name for name in names if name is not None)


# A split


def shard_of(key, seed, shards):
    return judge.hashes(key, seed)[2] % shards


def counts_text(counts):
    return b"".join(b"%d\n" % count for count in counts)


def shard_name(shard):
    return f"shard-{shard:04}"


def keep(path, others):
    """Stops the run if it would make a file that it reads."""
    if path in others:
        raise Stop(5, f"{path}: would be overwritten")


def split(options, files, folder):
    where, (name,) = options["d"], files
    paths = [os.path.join(where, made) for made in ["counts", *map(shard_name, range(options["n"]))]]
    keep(name, paths)
    end = b"\0" if "z" in options else b"\n"
    keys, long = filters.keys_in(folder.read(name), end, options.get("k"))
    if any(folder.lead_to_one(name, path) for path in paths) or not folder.takes(paths[0]):
        raise Stop(5, f"{where}: cannot write")
    pieces, counts = [[] for _ in range(options["n"])], [0] * options["n"]
    for key in keys.values():
        shard = shard_of(key, ROUTE_SEED, options["n"])
        pieces[shard].append(key + end)
        counts[shard] += 1
    made = {os.path.join(where, shard_name(shard)): b"".join(piece) for shard, piece in enumerate(pieces)}
    made[os.path.join(where, "counts")] = b"" if long else counts_text(counts)
    return Ended(8, b"", said(f"{name}: line {long} is too long"), made) if long else Ended(0, made=made)


# The manifest


def number(value, size):
    return value.to_bytes(size, "little")


def sealed(text):
    return text + hashlib.sha256(text).digest()


def manifest_bytes(manifest):
    text = MAGIC + number(manifest.algorithm, 4) + number(manifest.seed, 4) + number(len(manifest.shards), 4)
    for shard in manifest.shards:
        text += number(len(shard.name), 2) + shard.name + number(shard.keys, 4) + number(shard.span, 4) + number(shard.offset, 8)
        text += number(shard.length, 8) + shard.digest
    return sealed(text)


def manifest_in(text):
    """The manifest that these bytes spell. Refuses them with their first fault."""
    items = Items(text)
    if items.take(8) != MAGIC:
        raise Bad("bad magic")
    algorithm = items.number(1, 1, 4)
    for _ in range(3):
        items.number(1, 0, 0)
    seed, count = items.number(4), items.number(4, 1, MOST_SHARDS)
    shards, total = [], 0
    for _ in range(count):
        shards.append(entry_in(items, total))
        total += shards[-1].span
    if items.take(DIGEST_LEN) != hashlib.sha256(text[:items.at - DIGEST_LEN]).digest():
        raise Bad(f"bad digest at {items.at - DIGEST_LEN}")
    if items.at < len(text):
        raise Bad("trailing bytes")
    return Manifest(algorithm, seed, shards)


def entry_in(items, total):
    name = items.take(items.number(2, 1, MOST_NAME))
    try:
        name.decode()
    except UnicodeDecodeError as wrong:
        raise Bad(f"bad field at {items.at - len(name)}") from wrong
    keys, span, offset = items.number(4, 1, MOST_KEYS), items.number(4, 1, MOST_VERTICES), items.number(8, total, total)
    return Entry(name, keys, span, offset, items.number(8, 0, 2**64 - 1), items.take(DIGEST_LEN))


# Functions


def function_at(path, folder):
    """The bytes of a function file, and the function that they spell."""
    text = folder.read(path)
    function = functions.read(text)
    if isinstance(function, str):
        raise Stop(3, f"{path}: bad dump: {function}")
    return text, function


def entry_of(name, text, function, offset):
    return Entry(name.encode(), function.keys, function.span, offset, len(text), hashlib.sha256(text).digest())


def join(options, files, folder):
    path, entries, algorithm, offset = options["m"], [], None, 0
    paths = [path_of(path, name_of(path, file)) for file in files] + [os.path.join(options["d"], "counts") for letter in "d" if letter in options]
    keep(path, paths)
    for file in files:
        name = name_of(path, file)
        at = path_of(path, name)
        if not 1 <= len(name.encode()) <= MOST_NAME:
            raise Stop(3, f"{at}: bad name")
        text, function = function_at(at, folder)
        algorithm = algorithm or function.algorithm
        if function.algorithm != algorithm:
            raise Stop(3, f"{at}: another algorithm")
        entries.append(entry_of(name, text, function, offset))
        offset += function.span
    if "d" in options:
        counts = os.path.join(options["d"], "counts")
        there, wanted = folder.read(counts), counts_text(entry.keys for entry in entries)
        if there != wanted:
            raise Stop(3, f"{counts}: another count at line {1 + os.path.commonprefix([there, wanted]).count(10)}")
    if any(folder.lead_to_one(read, path) for read in paths) or not folder.takes(path):
        raise Stop(5, f"{path}: cannot write")
    return Ended(0, made={path: manifest_bytes(Manifest(algorithm, ROUTE_SEED, entries))})


class Shards:
    """The functions of a manifest."""

    def __init__(self, path, folder):
        text = folder.read(path)
        try:
            self.manifest = manifest_in(text)
        except Bad as fault:
            raise Stop(3, f"{path}: bad manifest: {fault}") from fault
        self.functions = []
        for entry in self.manifest.shards:
            at = path_of(path, entry.name.decode())
            content, function = function_at(at, folder)
            if function.algorithm != self.manifest.algorithm or entry_of(entry.name.decode(), content, function, entry.offset) != entry:
                raise Stop(3, f"{at}: not the function of the manifest")
            self.functions.append(function)

    def keys(self):
        return sum(entry.keys for entry in self.manifest.shards)

    def number(self, key):
        """The number of a key, or None."""
        shard = shard_of(key, self.manifest.seed, len(self.functions))
        own = functions.answer(self.functions[shard], key)
        return None if own is None else self.manifest.shards[shard].offset + own


# Queries and tests


def ask(options, files, folder):
    end, (name,) = b"\0" if "z" in options else b"\n", files
    shards = Shards(options["m"], folder)
    keys, long = filters.keys_in(folder.read(name), end, options.get("k"))
    numbers = {line: shards.number(key) for line, key in keys.items()}
    message = said(f"{name}: line {long} is too long") if long else b""
    if "t" in options:
        fault = first_fault(numbers)
        if long and not fault:
            return Ended(8, b"", message)
        fault = fault or (f"{len(numbers)} keys, not {shards.keys()}" if len(numbers) != shards.keys() else None)
        return Ended(1, f"false: {fault}\n".encode()) if fault else Ended(0, b"true\n")
    out = b"".join(b"%b -> %d%b" % (key, numbers[line], end) for line, key in keys.items() if numbers[line] is not None)
    notes = b"".join(said(f"line {line}: key is unknown") for line, value in numbers.items() if value is None)
    return Ended(8 if long else int(bool(notes)), out, notes + message)


def first_fault(numbers):
    seen = set()
    for line, value in numbers.items():
        if value is None or value in seen:
            return f"line {line}: " + ("key is unknown" if value is None else f"value {value} is repeated")
        seen.add(value)
    return None


def ended(words, path=".", pipe=b""):
    """What a run in a folder ends with, with what comes through the pipe /dev/stdin."""
    try:
        kind, options, files = job_of(words)
        return {"split": split, "join": join, "ask": ask}[kind](options, files, Folder(path, pipe))
    except Stop as stop:
        return stop.ended


def main():
    left = ended(sys.argv[1:], pipe=sys.stdin.buffer.read() if "/dev/stdin" in sys.argv else b"")
    sys.stdout.buffer.write(left.out)
    for path, content in sorted(left.made.items()):
        print(f"{path}: {len(content)} bytes", file=sys.stderr)
    sys.stderr.buffer.write(left.err)
    sys.exit(left.status)


if __name__ == "__main__":
    main()
