"""What the program must do with small files: docs/use/formats.md and docs/believe/algorithms.md once more, in plain Python.

hostile.py compares the program with it. It is written for clarity, and is fast enough for some hundred keys.
"""

import sys
from collections import Counter
from pathlib import Path
from typing import NamedTuple

sys.path.append(str(Path(__file__).resolve().parents[2] / "docs"))
from draw import words  # noqa: E402  the hash lookup2

MOST_KEYS, LONGEST = 67_108_864, 65_535
NUMBERS = {"chm": 1, "bdz": 2, "bdz_ph": 3, "brz": 4}
NAMES = {number: name for name, number in NUMBERS.items()}
RATIOS = {"chm": 2_090_000, "bdz": 1_230_000, "bdz_ph": 1_230_000, "brz": 1_230_000}
WIDTHS = {"bdz": 7, "brz": 128}  # what -b is if it isn't given
NO_SEED = "no seed of the list gives an empty core"
NO_SPLIT = "every split has a bucket with more than 1023 keys"
NO_SPILL = "cannot use the spill file"


class Fault(Exception):
    """Why a function file is refused."""


class Version(NamedTuple):
    """What the versions of a function file differ in."""

    magic: bytes
    b_at: int  # where b stands, in so many bytes
    b_bytes: int
    zeros: tuple[int, ...]  # bytes that are zero
    size_bytes: int  # of the number of keys of a bucket
    most_keys: int
    most_b: int  # by brz
    most_in_bucket: int

    def ranges(self, name: str) -> tuple[int, int]:
        """The range of b."""
        return {"bdz": (3, 10), "brz": (64, self.most_b)}.get(name, (0, 0))


ONE = Version(b"CMPHDMP1", 9, 1, (10, 11), 1, 16_777_216, 175, 255)
TWO = Version(b"CMPHDMP2", 10, 2, (9,), 2, MOST_KEYS, 700, 1023)


class Ends(NamedTuple):
    """How a run ends, and the function file that it leaves, if it replaces it."""

    status: int
    out: bytes = b""
    err: bytes = b""
    dump: bytes | None = None


def said(text: str) -> bytes:
    return f"cmph: {text}\n".encode()


# Keys


def lines_of(content: bytes, end: int = 10, first: int | None = None) -> tuple[list[bytes], str | None]:
    """The keys of a file, or of so many lines of it, before the first line at fault; and that fault."""
    lines = content.split(bytes([end]))
    if not lines[-1]:
        lines.pop()
    lines = lines[:first]
    for number, line in enumerate(lines, 1):
        if number > MOST_KEYS:
            return lines[: number - 1], f"more than {MOST_KEYS} keys"
        if len(line) > LONGEST:
            return lines[: number - 1], f"line {number} is too long"
    return lines, None


# Functions


class Function(NamedTuple):
    name: str
    keys: int  # how many
    ratio: int  # in millionths
    seed: int
    b: int
    cells: list[int]


class Split(NamedTuple):
    """A function by BRZ: in each bucket a function by BDZ, or none if no key lies there."""

    keys: int  # how many
    ratio: int  # in millionths
    seed: int
    b: int
    buckets: list[Function | None]


def bucket_of(key: bytes, seed: int, buckets: int) -> int:
    return words(key, seed ^ 0xFFFFFFFF)[2] % buckets


def size_of(name: str, keys: int, ratio: int) -> int:
    """The number of vertices."""
    if name == "chm":
        return max(2, -(-ratio * keys // 1_000_000))
    third = -(-ratio * keys // 3_000_000)
    third += third % 2 == 0
    return 3 * (3 if third == 1 else third)


def edge_of(name: str, key: bytes, seed: int, n: int) -> list[int]:
    first, second, third = words(key, seed)
    if name == "chm":
        ends = [first % n, second % n]
        return ends if ends[0] != ends[1] else [ends[0], (ends[1] + 1) % n]
    r = n // 3
    return [first % r, r + second % r, 2 * r + third % r]


def answer_of(f: Function | Split, key: bytes) -> int | None:
    if isinstance(f, Split):
        at = bucket_of(key, f.seed, len(f.buckets))
        value = answer_of(f.buckets[at], key) if f.buckets[at] else None
        return None if value is None else sum(each.keys for each in f.buckets[:at] if each) + value
    ends = edge_of(f.name, key, f.seed, len(f.cells))
    total = sum(f.cells[end] for end in ends)
    if f.name == "chm":
        return total % f.keys
    chosen = ends[total % 3]
    if f.name == "bdz_ph":
        return chosen
    return None if f.cells[chosen] == 3 else sum(cell != 3 for cell in f.cells[:chosen])


def width_of(keys: int) -> int:
    return max(1, (keys - 1).bit_length())


def samples_of(cells: list[int], b: int) -> list[int]:
    """How many cells before every 2^b-th one are not 3."""
    return [sum(cell != 3 for cell in cells[:at]) for at in range(0, len(cells), 2**b)]


def image_of(cells: list[int], base: int, each: int) -> bytes:
    groups = [cells[at : at + each] for at in range(0, len(cells), each)]
    return bytes(sum(cell * base**at for at, cell in enumerate(group)) for group in groups)


def head_of(version: Version, name: str, b: int, keys: int, ratio: int, seed: int) -> bytes:
    parameter = bytes([b, 0, 0]) if version is ONE else bytes([0]) + b.to_bytes(2, "little")
    return version.magic + bytes([NUMBERS[name]]) + parameter + b"".join(number.to_bytes(4, "little") for number in (keys, ratio, seed))


def bucket_bytes(version: Version, f: Function | None) -> bytes:
    if f is None:
        return bytes(version.size_bytes + 4)
    return f.keys.to_bytes(version.size_bytes, "little") + f.seed.to_bytes(4, "little") + image_of(f.cells, 4, 4)


def is_of_one(f: Function | Split) -> bool:
    """Whether version 1 has a file of this function."""
    sizes = [each.keys for each in f.buckets if each] if isinstance(f, Split) else []
    return f.keys <= ONE.most_keys and f.b <= ONE.most_b and all(size <= ONE.most_in_bucket for size in sizes)


def dump_of(f: Function | Split, version: Version = TWO) -> bytes:
    name = "brz" if isinstance(f, Split) else f.name
    head = head_of(version, name, f.b, f.keys, f.ratio, f.seed)
    if isinstance(f, Split):
        return head + b"".join(bucket_bytes(version, each) for each in f.buckets)
    if f.name == "chm":
        width = width_of(f.keys)
        image = sum(cell << width * at for at, cell in enumerate(f.cells))
        return head + image.to_bytes((len(f.cells) * width + 7) // 8, "little")
    image = image_of(f.cells, *((4, 4) if f.name == "bdz" else (3, 5)))
    ranks = samples_of(f.cells, f.b) if f.name == "bdz" else []
    return head + image + b"".join(rank.to_bytes(4, "little") for rank in ranks)


# Reading a dump


def item(data: bytes, at: int, size: int) -> bytes:
    if len(data) < at + size:
        raise Fault(f"truncated at {len(data)}")
    return data[at : at + size]


def number(data: bytes, at: int, size: int, low: int, high: int) -> int:
    value = int.from_bytes(item(data, at, size), "little")
    if not low <= value <= high:
        raise Fault(f"bad field at {at}")
    return value


def fields(image: bytes, n: int, keys: int) -> list[int]:
    """The cells of CHM: numbers of as many bits as a number of keys needs."""
    width, whole = width_of(keys), int.from_bytes(image, "little")
    cells = [whole >> width * at & (1 << width) - 1 for at in range(n)]
    for at, cell in enumerate(cells):
        if cell >= keys:
            raise Fault(f"bad cell at {24 + at * width // 8}")
    if whole >> width * n:
        raise Fault(f"bad padding at {23 + len(image)}")
    return cells


def digits(image: bytes, n: int, base: int, each: int, begin: int = 24) -> list[int]:
    """The cells of BDZ and BDZ_PH: digits, so many in a byte."""
    for at, byte in enumerate(image):
        if byte >= base**each:
            raise Fault(f"bad cell at {begin + at}")
    cells = [byte // base**at % base for byte in image for at in range(each)]
    if any(cells[n:]):
        raise Fault(f"bad padding at {begin - 1 + len(image)}")
    return cells[:n]


def read_buckets(data: bytes, version: Version, b: int, keys: int, ratio: int, seed: int) -> Split:
    """The buckets of a function by BRZ."""
    buckets, at, held, count = [], 24, 0, -(-keys // b)
    for left in reversed(range(count)):
        size = number(data, at, version.size_bytes, 0, version.most_in_bucket)
        held += size
        if held > keys or (left == 0 and held < keys):
            raise Fault(f"bad count at {at}")
        at += version.size_bytes
        own = number(data, at, 4, 0, 2**32 - 1 if size else 0)
        at += 4
        if not size:
            buckets.append(None)
            continue
        n = size_of("bdz", size, ratio)
        image = item(data, at, -(-n // 4))
        cells = digits(image, n, 4, 4, at)
        if sum(cell != 3 for cell in cells) != size:
            raise Fault(f"bad count at {at}")
        buckets.append(Function("bdz", size, ratio, own, 0, cells))
        at += len(image)
    if len(data) > at:
        raise Fault("trailing bytes")
    return Split(keys, ratio, seed, b, buckets)


def read_parameter(data: bytes, version: Version, name: str) -> int:
    """The parameter b. It and the zeros beside it are read in the order in which they stand."""
    low, high = version.ranges(name)
    for at in sorted((version.b_at, *version.zeros)):
        if at == version.b_at:
            b = number(data, at, version.b_bytes, low, high)
        else:
            number(data, at, 1, 0, 0)
    return b


def version_of(data: bytes) -> Version:
    """The version that the magic names."""
    magic = item(data, 0, 8)
    if magic not in (ONE.magic, TWO.magic):
        raise Fault("bad magic")
    return ONE if magic == ONE.magic else TWO


def read_dump(data: bytes) -> Function | Split:
    """The function that bytes spell, or their first fault."""
    version = version_of(data)
    name = NAMES.get(item(data, 8, 1)[0])
    if name is None:
        raise Fault("bad algorithm")
    b = read_parameter(data, version, name)
    keys = number(data, 12, 4, 1, version.most_keys)
    ratio = number(data, 16, 4, 1_000_000, 10_000_000)
    seed = number(data, 20, 4, 0, 2**32 - 1)
    if name == "brz":
        return read_buckets(data, version, b, keys, ratio, seed)
    n = size_of(name, keys, ratio)
    each = {"bdz": 4, "bdz_ph": 5}.get(name)
    image = item(data, 24, -(-n // each) if each else (n * width_of(keys) + 7) // 8)
    cells = fields(image, n, keys) if not each else digits(image, n, 4 if name == "bdz" else 3, each)
    end = 24 + len(image)
    if name == "bdz":
        if sum(cell != 3 for cell in cells) != keys:
            raise Fault("bad count at 24")
        for rank in samples_of(cells, b):
            if int.from_bytes(item(data, end, 4), "little") != rank:
                raise Fault(f"bad rank at {end}")
            end += 4
    if len(data) > end:
        raise Fault("trailing bytes")
    return Function(name, keys, ratio, seed, b, cells)


# Jobs


def upgrade(path: str, dump: bytes) -> Ends:
    """What comes of `-u`. A file of version 2 stays as it is."""
    try:
        f = read_dump(dump)
    except Fault as fault:
        return Ends(3, b"", said(f"{path}: bad dump: {fault}"))
    return Ends(0, dump=dump_of(f) if version_of(dump) is ONE else None)


def query(path: str, dump: bytes, keys_path: str, content: bytes, end: int = 10, first: int | None = None) -> Ends:
    try:
        f = read_dump(dump)
    except Fault as fault:
        return Ends(3, b"", said(f"{path}: bad dump: {fault}"))
    seen, out, err = set(), b"", b""
    keys, fault = lines_of(content, end, first)
    for line, key in enumerate(keys, 1):
        value = answer_of(f, key)
        if value is None:
            err += said(f"line {line}: key is unknown")
            continue
        out += key + b" -> %d" % value + bytes([end])
        if value in seen:
            err += said(f"line {line}: value {value} is repeated")
        seen.add(value)
    if fault:
        return Ends(8, out, err + said(f"{keys_path}: {fault}"))
    return Ends(1 if err else 0, out, err)


def peel(edges: list[list[int]]) -> tuple[list[list[tuple[int, int]]], list[int]]:
    """The rounds, each a list of edges with the positions of their pivots, and the edges that are left."""
    degree, left, rounds = Counter(end for ends in edges for end in ends), list(range(len(edges))), []
    while True:
        alone = [(e, [at for at, end in enumerate(edges[e]) if degree[end] == 1]) for e in left]
        gone = [(e, places[0]) for e, places in alone if places]
        if not gone:
            return rounds, left
        rounds.append(gone)
        degree.subtract(end for e, _ in gone for end in edges[e])
        removed = {e for e, _ in gone}
        left = [e for e in left if e not in removed]


def cells_of(name: str, edges: list[list[int]], rounds: list[list[tuple[int, int]]], n: int) -> list[int]:
    """The cells, set from the last round to the first."""
    cells = [3 if name == "bdz" else 0] * n
    for e, at in (each for gone in reversed(rounds) for each in gone):
        others = sum(cells[end] for place, end in enumerate(edges[e]) if place != at)
        cells[edges[e][at]] = (e - others) % len(edges) if name == "chm" else (at - others) % 3
    return cells


def equal_pairs(lines: list[int], keys: list[bytes]) -> list[str]:
    """Each of these lines whose key an earlier one has, with the first that has it."""
    first = {}
    for line, key in zip(lines, keys):
        first.setdefault(key, line)
    return [f"equal {first[key]} {line}" for line, key in zip(lines, keys) if first[key] != line]


def report(what: str, seed: int, lines: list[int], keys: list[bytes], edges: list[list[int]], left: list[int]) -> bytes:
    """The 2-core of the keys in these lines."""
    text = [f"core {what} seed {seed} edges {len(left)}"]
    text += [f"edge {lines[e]} {' '.join(map(str, edges[e]))}" for e in left]
    text += equal_pairs([lines[e] for e in left], [keys[e] for e in left])
    return "".join(f"{line}\n" for line in text).encode()


def function_over(name: str, what: str, lines: list[int], keys: list[bytes], seeds: list[int], ratio: int, b: int) -> Function | bytes:
    """The function with the first seed that works, or the report of the first seed."""
    n, first = size_of(name, len(keys), ratio), None
    for seed in seeds:
        edges = [edge_of(name, key, seed, n) for key in keys]
        rounds, left = peel(edges)
        if not left:
            return Function(name, len(keys), ratio, seed, b, cells_of(name, edges, rounds, n))
        first = first or report(what, seed, lines, keys, edges, left)
    return first


def build(name: str, keys_path: str, content: bytes, seed: int, seeds: int, ratio: int | None = None, b: int | None = None, end: int = 10,
          first: int | None = None) -> Ends:
    keys, fault = lines_of(content, end, first)
    if fault or not keys:
        return Ends(8, b"", said(f"{keys_path}: {fault or 'no keys'}"))
    ratio, b, tried = ratio or RATIOS[name], b or WIDTHS.get(name), [each % 2**32 for each in range(seed, seed + seeds)]
    if name == "brz":
        return build_by_brz(keys, tried, ratio, b)
    f = function_over(name, name, list(range(1, len(keys) + 1)), keys, tried, ratio, b if name == "bdz" else 0)
    return Ends(0, b"", b"", dump_of(f)) if isinstance(f, Function) else Ends(1, f, said(NO_SEED))


def lines_by_bucket(keys: list[bytes], seed: int, count: int) -> list[list[int]]:
    buckets = [[] for _ in range(count)]
    for line, key in enumerate(keys, 1):
        buckets[bucket_of(key, seed, count)].append(line)
    return buckets


def build_by_brz(keys: list[bytes], seeds: list[int], ratio: int, b: int) -> Ends:
    first = None
    for seed in seeds:
        lines = lines_by_bucket(keys, seed, -(-len(keys) // b))
        over = next((at for at, mine in enumerate(lines) if len(mine) > TWO.most_in_bucket), None)
        if over is None:
            return build_buckets(keys, seed, lines, seeds, ratio, b)
        first = first or (over, lines[over])
    over, mine = first
    text = [f"overfull brz seed {seeds[0]} bucket {over} keys {len(mine)}", *equal_pairs(mine, [keys[line - 1] for line in mine])]
    return Ends(1, "".join(f"{line}\n" for line in text).encode(), said(NO_SPLIT))


def build_buckets(keys: list[bytes], seed: int, lines: list[list[int]], seeds: list[int], ratio: int, b: int) -> Ends:
    """The function of keys whose lines were split under a seed."""
    buckets = []
    for at, mine in enumerate(lines):
        if not mine:
            buckets.append(None)
            continue
        f = function_over("bdz", f"brz split {seed} bucket {at}", mine, [keys[line - 1] for line in mine], seeds, ratio, 0)
        if not isinstance(f, Function):
            return Ends(1, f, said(f"bucket {at} has no seed with an empty core"))
        buckets.append(f)
    return Ends(0, b"", b"", dump_of(Split(len(keys), ratio, seed, b, buckets)))


def build_over_spill(keys_path: str, content: bytes, room: int | None, folder: str, *more, **named) -> Ends:
    """A build by BRZ whose spill file has room for so many bytes, or whose directory takes none."""
    if room is None:
        return Ends(5, b"", said(f"{folder}: {NO_SPILL}"))
    end = build("brz", keys_path, content, *more, **named)
    # The keys are split before the first of them is spilled.
    if end.status == 8 or end.err == said(NO_SPLIT) or spilled_size(content) <= room:
        return end
    return Ends(5, b"", said(f"{folder}: {NO_SPILL}"))


def spilled_size(content: bytes) -> int:
    """How many bytes the spill file of these keys has at its end."""
    return sum(10 + len(key) for key in lines_of(content)[0])
