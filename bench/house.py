#!/usr/bin/env python3
"""Reads the crates and their families from crates.txt, and writes from it the table of families and the drawing docs/believe/crates.svg.

    bench/house.py DRAWING.svg

A paragraph of crates.txt that has crates is a family. Its first line is `# NAME: WHAT IT IS FOR; WHAT IT PROMISES`. Then each crate
has two lines: `# WHAT IT PROMISES` and `NAME: DEP ..`. A family stands above those that its crates use.

In the drawing each family is a box, in the lowest storey that is above all families it uses. Only those arrows are drawn that do not
follow from others: from family to family, and within a family from crate to crate.
"""

import sys
from html import escape
from pathlib import Path
from typing import NamedTuple

TOP = Path(__file__).resolve().parent.parent


class Refused(Exception):
    """Why crates.txt is no table of contents."""


class Crate(NamedTuple):
    name: str
    promise: str
    uses: list[str]


class Family(NamedTuple):
    name: str
    purpose: str
    promise: str
    crates: list[Crate]


# What crates.txt says


def comment(line: str) -> str:
    if not line.startswith("# "):
        raise Refused(f"crates.txt: a comment has to stand before '{line}'")
    return line[2:]


def family(lines: list[str]) -> Family:
    name, _, says = comment(lines[0]).partition(": ")
    purpose, _, promise = says.partition("; ")
    if not promise or len(lines) % 2 == 0:
        raise Refused(f"crates.txt: the family '{name}' needs a line of its own with a promise, and each crate one")
    crates = []
    for said, line in zip(lines[1::2], lines[2::2]):
        head, colon, uses = line.partition(":")
        if line.startswith("#") or not colon:
            raise Refused(f"crates.txt: a crate has to stand after '{said}'")
        crates.append(Crate(head.split()[0], comment(said), uses.split()))
    return Family(name, purpose, promise, crates)


def read(path: Path = TOP / "crates.txt") -> list[Family]:
    """The families, lowest first. Each crate stands after those of its repository that it uses."""
    paragraphs = [text.splitlines() for text in path.read_text().strip().split("\n\n")]
    families = [family(lines) for lines in paragraphs if not all(line.startswith("#") for line in lines)]
    crates = [crate for each in families for crate in each.crates]
    for at, crate in enumerate(crates):
        if later := {below.name for below in crates[at:]} & set(crate.uses):
            raise Refused(f"crates.txt: {crate.name} stands before {min(later)}, which it uses")
    for each in families:
        named_in(each)
    return families


def named_in(each: Family) -> None:
    """A crate with a name of three words or more has to be a part of another one of its family."""
    names = {crate.name for crate in each.crates}
    for name in names:
        whole = "_".join(name.split("_")[:2])
        if name.count("_") > 1 and whole not in names:
            raise Refused(f"crates.txt: {name} is a part of {whole}, which has to be in the family '{each.name}'")


# Tables


def table_of_families() -> str:
    """Each family with what it is for, and what it promises."""
    rows = [f"| {each.name} | {each.purpose} | {each.promise} |" for each in read()]
    return "\n".join(["| Family | What it is for | What it promises |", "|---|---|---|", *rows]) + "\n"


# Which arrows don't follow from others

Uses = dict[str, list[str]]


def below(name: str, uses: Uses) -> set[str]:
    """What something stands on, at any depth."""
    return set(uses[name]).union(*(below(used, uses) for used in uses[name]))


def reduced(uses: Uses) -> Uses:
    """The same without what follows: a use of something that another used one stands on."""
    return {name: [used for used in used_by if not any(used in below(other, uses) for other in used_by)]
            for name, used_by in uses.items()}


def uses_of_families(families: list[Family]) -> Uses:
    home = {crate.name: each.name for each in families for crate in each.crates}
    return {each.name: list(dict.fromkeys(
        home[used] for crate in each.crates for used in crate.uses if used in home and home[used] != each.name))
        for each in families}


def uses_within(each: Family) -> Uses:
    names = [crate.name for crate in each.crates]
    return {crate.name: [used for used in crate.uses if used in names] for crate in each.crates}


def level(name: str, uses: Uses) -> int:
    return 1 + max((level(used, uses) for used in uses[name]), default=-1)


# The drawing: what stands where

WIDTH, EDGE, HEAD, SPACE = 860, 16, 60, 12  # the least width, inside a box, above all, the least space between boxes
LETTER, PAD, PILL, DROP = 6.7, 8, 20, 6  # of a crate: the width of a letter, left and right of the name, height, space below
BESIDE, STOREY, LANE = 26, 34, 26  # between columns of crates, between storeys, of an arrow that passes a storey
BESIDE_MOST = 5  # crates side by side
TITLE = 40  # the name of a family, and what it is for


class Box(NamedTuple):
    """A crate in the box of its family, or with no name the way of an arrow that passes its column."""

    name: str
    column: int
    row: int


def rows_of(column: int, before: list[Box], names: list[str], uses: Uses) -> list[Box]:
    """The crates of a column, each beside the first one that it uses, or below those that are there."""
    beside = {box.name: box.row for box in before}
    boxes: list[Box] = []
    for name in names:
        row = next((beside[used] for used in uses.get(name, []) if used in beside), 0)
        while row in {box.row for box in boxes}:
            row += 1
        boxes.append(Box(name, column, row))
    return boxes


def within(each: Family) -> list[Box]:
    """Columns of crates: each to the right of those that it uses; in lines if none uses another."""
    uses = reduced(uses_within(each))
    if not any(uses.values()):
        return [Box(crate.name, at % BESIDE_MOST, at // BESIDE_MOST) for at, crate in enumerate(each.crates)]
    boxes: list[Box] = []
    for column in range(1 + max(level(name, uses) for name in uses)):
        names = [name for name in uses if level(name, uses) == column]
        passing = [used for name in uses for used in uses[name] if level(used, uses) < column < level(name, uses)]
        boxes += rows_of(column, boxes, names, uses)
        taken = {box.row for box in boxes if box.column == column}
        for used in dict.fromkeys(passing):
            row = next(box.row for box in boxes if box.name == used)
            boxes.append(Box("", column, next(free for free in range(row, row + 9) if free not in taken)))
    return boxes


def width_of(name: str) -> float:
    return len(name) * LETTER + 2 * PAD


class Placed:
    """A family in the drawing, or without one the way of an arrow that passes a storey."""

    def __init__(self, key: str, each: Family | None) -> None:
        self.key, self.family, self.boxes = key, each, within(each) if each else []
        self.left = self.top = self.height = 0.0
        columns = range(1 + max((box.column for box in self.boxes), default=-1))
        self.columns = [max(width_of(box.name) for box in self.boxes if box.column == at) for at in columns]
        inner = sum(self.columns) + BESIDE * (len(self.columns) - 1) + 2 * EDGE
        self.width = max(inner, 6.2 * len(each.purpose) + 2 * EDGE) if each else LANE

    def needs(self) -> float:
        rows = 1 + max((box.row for box in self.boxes), default=-1)
        return TITLE + rows * (PILL + DROP) + 6 if self.family else 0

    def middle(self) -> float:
        return self.left + self.width / 2

    def nearest(self, x: float) -> float:
        """Where an arrow that comes from x meets the box."""
        return min(max(x, self.left + EDGE), self.left + self.width - EDGE) if self.family else self.middle()

    def corner(self, box: Box) -> tuple[float, float]:
        """The left end and the middle height of a crate."""
        left = self.left + EDGE + sum(self.columns[: box.column]) + BESIDE * box.column
        return left, self.top + TITLE + box.row * (PILL + DROP) + PILL / 2


Arrow = tuple[str, str]


def steps(uses: Uses) -> tuple[dict[str, int], list[Arrow]]:
    """The storey of each family and of each way past a storey, and the arrows, each from a storey to the next."""
    storeys, arrows = {name: level(name, uses) for name in uses}, []
    for name, used_by in uses.items():
        for used in used_by:
            upper = name
            for storey in range(storeys[name] - 1, storeys[used], -1):
                way = f"{name} > {used} > {storey}"
                storeys[way] = storey
                arrows.append((upper, way))
                upper = way
            arrows.append((upper, used))
    return storeys, arrows


def placed(families: list[Family]) -> tuple[dict[str, Placed], list[Arrow], float, float]:
    """The boxes of all families and the ways of arrows, from the lowest storey to the highest; the arrows; the width and the height."""
    by_name = {each.name: each for each in families}
    storeys, arrows = steps(reduced(uses_of_families(families)))
    boxes = {key: Placed(key, by_name.get(key)) for key in storeys}
    rows = [[box for box in boxes.values() if storeys[box.key] == at] for at in range(1 + max(storeys.values()))]
    width = max(WIDTH, *(SPACE * (len(row) + 1) + sum(box.width for box in row) for row in rows))
    for row in rows:
        beside(row, boxes, arrows, width)
    y = float(HEAD)
    for row in reversed(rows):
        for box in row:
            box.top, box.height = y, max(other.needs() for other in row)
        y += row[0].height + STOREY
    return boxes, arrows, width, y - STOREY


def beside(row: list[Placed], boxes: dict[str, Placed], arrows: list[Arrow], width: float) -> None:
    """Places a storey above those below it: each near the middle of what it uses, and all of them with equal space between."""

    def under(box: Placed) -> float:
        middles = [boxes[used].middle() for name, used in arrows if name == box.key]
        return sum(middles) / len(middles) if middles else 0

    row.sort(key=under)
    left = space = (width - sum(box.width for box in row)) / (len(row) + 1)
    for box in row:
        box.left = left
        left += box.width + space


# The drawing: its marks

STYLE = """
  .card { fill: #ffffff; stroke: #d0d7de; }
  text { font: 12px system-ui, sans-serif; fill: #1f2328; }
  .title { font-size: 15px; font-weight: 600; }
  .name { font-size: 13px; font-weight: 600; }
  .soft { font-size: 11px; fill: #59636e; }
  .crate { font: 11px ui-monospace, "DejaVu Sans Mono", monospace; }
  .family { fill: #f6f8fa; stroke: #afb8c1; }
  .pill { fill: #ffffff; stroke: #d0d7de; }
  .uses { fill: none; stroke: #0969da; stroke-width: 1.5; }
  .within { fill: none; stroke: #59636e; }
  .head { fill: #0969da; } .tip { fill: #59636e; }
  @media (prefers-color-scheme: dark) {
    .card { fill: #0d1117; stroke: #3d444d; }
    text { fill: #e6edf3; }
    .soft { fill: #9198a1; }
    .family { fill: #151b23; stroke: #656c76; }
    .pill { fill: #0d1117; stroke: #3d444d; }
    .uses { stroke: #58a6ff; } .within { stroke: #9198a1; }
    .head { fill: #58a6ff; } .tip { fill: #9198a1; }
  }
"""
MARKERS = """<defs>
<marker id="head" viewBox="0 0 8 8" refX="7" refY="4" markerWidth="8" markerHeight="8" markerUnits="userSpaceOnUse" orient="auto">
<path class="head" d="M0 0.5 8 4 0 7.5z"/></marker>
<marker id="tip" viewBox="0 0 6 6" refX="5" refY="3" markerWidth="6" markerHeight="6" markerUnits="userSpaceOnUse" orient="auto">
<path class="tip" d="M0 0.5 6 3 0 5.5z"/></marker>
</defs>"""


def curve(kind: str, marker: str, begin: tuple[float, float], end: tuple[float, float], down: bool) -> str:
    """An arrow that leaves and comes in along the storeys' direction, down or to the left."""
    (x1, y1), (x2, y2) = begin, end
    bend = f"{x1:.1f} {(y1 + y2) / 2:.1f} {x2:.1f} {(y1 + y2) / 2:.1f}" if down else \
        f"{(x1 + x2) / 2:.1f} {y1:.1f} {(x1 + x2) / 2:.1f} {y2:.1f}"
    tip = f' marker-end="url(#{marker})"' if marker else ""
    return f'<path class="{kind}" d="M{x1:.1f} {y1:.1f}C{bend} {x2:.1f} {y2:.1f}"{tip}/>'


def arrow(upper: Placed, lower: Placed) -> list[str]:
    """One step of an arrow down a storey, and on through the storey if it only passes that."""
    begin, end = upper.nearest(lower.middle()), lower.nearest(upper.nearest(lower.middle()))
    marks = [curve("uses", "head" if lower.family else "", (begin, upper.top + upper.height), (end, lower.top), True)]
    if not lower.family:
        marks.append(f'<path class="uses" d="M{end:.1f} {lower.top:.1f}V{lower.top + lower.height:.1f}"/>')
    return marks


def crates_of(box: Placed, each: Family) -> list[str]:
    """The crates of a family, and the arrows between them."""
    marks, uses = [], reduced(uses_within(each))
    at = {crate.name: crate for crate in box.boxes}
    for name, used_by in uses.items():
        for used in used_by:
            x, y = box.corner(at[name])
            ways = [other for other in box.boxes if not other.name and at[used].column < other.column < at[name].column]
            for way in reversed(ways):
                left, height = box.corner(way)
                right = left + box.columns[way.column]
                marks.append(curve("within", "", (x, y), (right, height), False))
                marks.append(f'<path class="within" d="M{right:.1f} {height:.1f}H{left:.1f}"/>')
                x, y = left, height
            left, height = box.corner(at[used])
            marks.append(curve("within", "tip", (x, y), (left + width_of(used), height), False))
    for crate in each.crates:
        x, y = box.corner(at[crate.name])
        width = width_of(crate.name)
        marks.append(f'<rect class="pill" x="{x:.1f}" y="{y - PILL / 2:.1f}" width="{width:.1f}" height="{PILL}" rx="4">'
                     f"<title>{escape(crate.promise)}</title></rect>")
        marks.append(f'<text class="crate" x="{x + width / 2:.1f}" y="{y + 4:.1f}" text-anchor="middle">{crate.name}</text>')
    return marks


def boxed(box: Placed, each: Family) -> list[str]:
    at = f'x="{box.left:.1f}" y="{box.top:.1f}" width="{box.width:.1f}" height="{box.height:.1f}"'
    return [
        f'<rect class="family" {at} rx="6"/>',
        f'<text class="name" x="{box.left + EDGE:.1f}" y="{box.top + 18:.1f}">{escape(each.name)}</text>',
        f'<text class="soft" x="{box.left + EDGE:.1f}" y="{box.top + 32:.1f}">{escape(each.purpose.replace("`", ""))}</text>',
        *crates_of(box, each),
    ]


def drawn() -> str:
    """The drawing of all crates."""
    families = read()
    boxes, arrows, width, foot = placed(families)
    count, high = sum(len(each.crates) for each in families), f"{foot + 20:g}"
    legend = "An arrow goes from what uses to what is used. One that follows from others is left out."
    return "\n".join([
        f'<svg xmlns="http://www.w3.org/2000/svg" viewBox="0 0 {width:g} {high}" width="{width:g}" height="{high}" role="img">',
        "<title>The crates in their families, lowest below</title>",
        f"<style>{STYLE}</style>",
        MARKERS,
        f'<rect class="card" x="0.5" y="0.5" width="{width - 1:g}" height="{foot + 19:g}" rx="6"/>',
        f'<text class="title" x="{EDGE}" y="26">The {count} crates in their {len(families)} families</text>',
        f'<text class="soft" x="{EDGE}" y="44">{legend}</text>',
        *(mark for upper, lower in arrows for mark in arrow(boxes[upper], boxes[lower])),
        *(mark for box in boxes.values() if box.family for mark in boxed(box, box.family)),
        "</svg>",
    ]) + "\n"


if __name__ == "__main__":
    if len(sys.argv) != 2:
        sys.exit(__doc__)
    Path(sys.argv[1]).write_text(drawn())
