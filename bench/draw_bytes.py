#!/usr/bin/env python3
"""Draws the bytes of a store file into docs/use/store.svg, and those of a manifest of shards into docs/use/manifest.svg.

    bench/draw_bytes.py [CMPH STORE SHARDS]

The programs are bin/cmph, bin/cmph_store and bin/cmph_shards if none are given. They make a store of three lines, and a manifest of two shards of
eight words. This script reads both files field by field, works out what each field must be, and stops if a byte differs or is left.
"""

import hashlib
import subprocess
import sys
import tempfile
from pathlib import Path
from typing import NamedTuple

import draw
import svg
from draw import must
from svg import said, text

TOP = Path(__file__).resolve().parent.parent
STORE_DRAWING, MANIFEST_DRAWING = TOP / "docs" / "use" / "store.svg", TOP / "docs" / "use" / "manifest.svg"
RECORDS = [(b"Gold", b"79"), (b"Iron", b"26"), (b"Tin", b"50")]
RATIO, B, IDLE = 1_230_000, 7, 3  # of a function by BDZ
ROUTE_SEED = 1397244242
SHARDS = 2


class Field(NamedTuple):
    offset: int
    data: bytes
    means: str
    part: str  # what it belongs to


class Items:
    """A file that is read field by field, and must be what is said of it."""

    def __init__(self, data: bytes) -> None:
        self.data, self.fields, self.part = data, [], ""

    @property
    def at(self) -> int:
        return sum(len(field.data) for field in self.fields)

    def take(self, wanted: bytes, means: str) -> None:
        found = self.data[self.at : self.at + len(wanted)]
        must(found == wanted, f"byte {self.at}, {means}:")
        self.fields.append(Field(self.at, found, means, self.part))

    def number(self, size: int, value: int, means: str) -> None:
        self.take(value.to_bytes(size, "little"), means.format(f"{value:,}" if value != ROUTE_SEED else value))

    def ended(self) -> list[Field]:
        must(self.at == len(self.data), "the length of the file")
        return self.fields


# Functions by BDZ


def third_of(m: int) -> int:
    """A third of the number of vertices."""
    r = -(-RATIO * m // 3_000_000)
    return max(3, r + 1 - r % 2)


def number_of(key: bytes, cells: list[int], seed: int) -> int:
    """The number of a key of a function by BDZ with these cells."""
    r = len(cells) // 3
    ends = [at * r + word % r for at, word in enumerate(draw.words(key, seed))]
    chosen = ends[sum(cells[end] for end in ends) % 3]
    must(cells[chosen] != IDLE, "a chosen cell")
    return sum(cell != IDLE for cell in cells[:chosen])


def cells_in(function: bytes, m: int) -> list[int]:
    n = 3 * third_of(m)
    return [function[24 + v // 4] >> v % 4 * 2 & 3 for v in range(n)]


def index_fields(items: Items, index: bytes, m: int) -> dict[bytes, int]:
    """The fields of the index, and the number of each key."""
    seed, cells = draw.three(index[12:24])[2], cells_in(index, m)
    items.take(b"CMPHDMP2", "the text CMPHDMP2")
    items.take(b"\2\0", "the algorithm, BDZ, and a zero")
    items.number(2, B, "b: a rank for each 2^{} cells")
    items.number(4, m, "m: {} keys")
    items.number(4, RATIO, "c: {} millionths of a vertex for each key")
    items.number(4, seed, "the seed: {}")
    image = sum(cell << 2 * v for v, cell in enumerate(cells)).to_bytes(-(-len(cells) // 4), "little")
    items.take(image, f"{len(cells)} cells of 2 bits: {' '.join(map(str, cells))}")
    items.number(4, 0, "the rank of cell 0: {}")
    return {key: number_of(key, cells, seed) for key, _ in RECORDS}


# The two files


def store_of(cmph: Path, store: Path) -> list[Field]:
    """The fields of a store file that the program has made."""
    with tempfile.TemporaryDirectory() as folder:
        lines, keys = Path(folder) / "lines", Path(folder) / "keys"
        lines.write_bytes(b"".join(key + b"\t" + value + b"\n" for key, value in RECORDS))
        keys.write_bytes(b"".join(key + b"\n" for key, _ in RECORDS))
        subprocess.run([store, "-g", lines], check=True)
        subprocess.run([cmph, "-g", "-a", "bdz", keys], check=True)
        made, index = Path(f"{lines}.rec").read_bytes(), Path(f"{keys}.mph").read_bytes()
        answers = draw.answers(str(cmph), keys)
    items, sizes = Items(made), [4 + len(key) + len(value) for key, value in RECORDS]
    items.part = "header"
    items.take(b"CMPHREC1", "the text CMPHREC1")
    items.number(4, len(index), "the length of the index: {} bytes")
    items.number(4, sum(sizes), "the length of the records: {} bytes")
    items.part = "index"
    numbers = index_fields(items, index, len(RECORDS))
    must(made[16 : 16 + len(index)] == index, "the index")
    must({key.decode(): number for key, number in numbers.items()} == answers, "the numbers of the keys")
    items.part = "places"
    for number, (key, place) in sorted((numbers[key], (key, sum(sizes[:at]))) for at, (key, _) in enumerate(RECORDS)):
        items.number(4, place, f"number {number}, of {key.decode()}: its record is at {{}}")
    items.part = "records"
    for at, (key, value) in enumerate(RECORDS):
        record = len(key).to_bytes(2, "little") + len(value).to_bytes(2, "little") + key + value
        items.take(record, f"at {sum(sizes[:at])}: a key of {len(key)} bytes, a value of {len(value)}: {key.decode()}, {value.decode()}")
    return items.ended()


def manifest_of(cmph: Path, shards: Path) -> list[Field]:
    """The fields of a manifest that the program has made."""
    with tempfile.TemporaryDirectory() as folder:
        keys, at = Path(folder) / "words", Path(folder)
        keys.write_text("".join(f"{key}\n" for key in draw.KEYS))
        subprocess.run([shards, "-n", str(SHARDS), "-d", at, keys], check=True)
        pieces = [at / f"shard-{shard:04}" for shard in range(SHARDS)]
        for piece in pieces:
            subprocess.run([cmph, "-g", "-a", "bdz", piece], check=True)
        functions = [Path(f"{piece}.mph") for piece in pieces]
        subprocess.run([shards, "-j", "-m", at / "all", "-d", at, *functions], check=True)
        made, counts = (at / "all").read_bytes(), [len(piece.read_text().split()) for piece in pieces]
        files = [(function.name, function.read_bytes()) for function in functions]
    items = Items(made)
    items.part = "header"
    items.take(b"CMPHSHD1", "the text CMPHSHD1")
    items.take(b"\2\0\0\0", "the algorithm of all functions, BDZ, and three zeros")
    items.number(4, ROUTE_SEED, "the seed of the hash that gives the shard: {}")
    items.number(4, SHARDS, "{} shards")
    for shard, (name, function) in enumerate(files):
        shard_fields(items, shard, name, function, counts)
    items.part = "digest"
    items.take(hashlib.sha256(made[: items.at]).digest(), f"the SHA-256 of the {items.at} bytes before it")
    return items.ended()


def shard_fields(items: Items, shard: int, name: str, function: bytes, counts: list[int]) -> None:
    items.part = f"shard {shard}"
    items.number(2, len(name), "the length of the name: {} bytes")
    items.take(name.encode(), f"the name: {name}")
    items.number(4, counts[shard], "{} keys")
    items.number(4, counts[shard], "its span: {} numbers")
    items.number(8, sum(counts[:shard]), "its offset: its numbers begin at {}")
    items.number(8, len(function), "the length of the function file: {} bytes")
    items.take(hashlib.sha256(function).digest(), "the SHA-256 of the function file")


# The drawing

ROW, CELL, LEFT, ACROSS = 22, 23, 118, 16  # the height of a row, the width of a byte, where bytes begin, and how many a row has
LEADS = 644  # where arrows from field to field begin and end


def size(count: int) -> str:
    return "1 byte" if count == 1 else f"{count} bytes"


def field_marks(field: Field, y: float, kind: str) -> list[str]:
    """A field from y down: its offset, its bytes in rows, and what they mean."""
    marks = [text(LEFT - 10, y + 15, str(field.offset), "byte soft", "end")]
    for at, byte in enumerate(field.data):
        x, top = LEFT + CELL * (at % ACROSS), y + ROW * (at // ACROSS)
        marks += [svg.box(x, top, CELL - 1, ROW - 2, kind), text(x + (CELL - 1) / 2, top + 14, f"{byte:02x}", "byte")]
    says = LEFT + CELL * min(ACROSS, len(field.data)) + 10
    return [*marks, text(says, y + 15, said(field.means), "", "start")]


def rows_of(field: Field) -> int:
    return -(-len(field.data) // ACROSS)


def part_marks(name: str, fields: list[Field], y: float, kind: str) -> tuple[list[str], float]:
    """A part of the file: its name, where it begins and how long it is, and its fields; and where it ends."""
    length = sum(len(field.data) for field in fields)
    marks = [text(16, y + 14, name, "head", "start"), text(16, y + 30, size(length), "soft", "start")]
    marks.append(text(16, y + 46, f"from {fields[0].offset}", "soft", "start"))
    top = y
    for field in fields:
        marks += field_marks(field, y, kind)
        y += ROW * rows_of(field)
    return marks, max(y, top + 50) + 10


def arrows(rows: dict[int, float], leads: dict[int, int]) -> list[str]:
    """From each field to the one that it leads to, both by their offsets, beside the rows."""
    marks = [svg.tip("tip", "[red]")] if leads else []
    for at, (begin, end) in enumerate(leads.items()):
        y, z, bulge = rows[begin] + 11, rows[end] + 11, LEADS + 44 + 28 * at
        curve = f"M{LEADS:g} {y:g}C{bulge:g} {y:g} {bulge:g} {z:g} {LEADS + 2:g} {z:g}"
        marks.append(svg.path("line way", curve, 'marker-end="url(#tip)"'))
    return marks


def drawn(title: str, fields: list[Field], leads: dict[int, int]) -> str:
    total = sum(len(field.data) for field in fields)
    marks, y, rows = [text(16, 28, title, "title", "start")], 68.0, {}
    marks.append(text(16, 46, f"{total} bytes in hexadecimal, each row after the offset of its first byte. Numbers are little-endian.", "soft", "start"))
    for at, part in enumerate(dict.fromkeys(field.part for field in fields)):
        own = [field for field in fields if field.part == part]
        rows |= {field.offset: y + ROW * sum(map(rows_of, own[:before])) for before, field in enumerate(own)}
        more, y = part_marks(part, own, y, f"t{at % 4}")
        marks += more
    return svg.page(title, y + 6, [*marks, *arrows(rows, leads)])


def drawn_store(cmph: Path, store: Path) -> str:
    fields = store_of(cmph, store)
    places, records = ([field for field in fields if field.part == part] for part in ("places", "records"))
    leads = {place.offset: records[0].offset + int.from_bytes(place.data, "little") for place in places}
    return drawn("A store file, byte by byte", fields, leads)


def drawn_manifest(cmph: Path, shards: Path) -> str:
    return drawn("A manifest of two shards, byte by byte", manifest_of(cmph, shards), {})


def main() -> None:
    given = sys.argv[1:4] or [TOP / "bin" / name for name in ("cmph", "cmph_store", "cmph_shards")]
    cmph, store, shards = (Path(path).resolve() for path in given)
    try:
        STORE_DRAWING.write_text(drawn_store(cmph, store))
        MANIFEST_DRAWING.write_text(drawn_manifest(cmph, shards))
    except draw.Differs as fault:
        sys.exit(str(fault))


if __name__ == "__main__":
    main()
