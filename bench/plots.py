#!/usr/bin/env python3
"""Draws what bench/results has as plots: docs/measured/time.svg and memory.svg from sizes.md, space.svg from latest.csv, bbhash.md and
filter.md. bench.svg, with the ratios to the C tool, is drawn from latest.csv by bars.py.

    bench/plots.py

A drawing without its results is left as it is.
"""

import csv
import math
from pathlib import Path
from typing import NamedTuple

import bars
import svg
from svg import box, said, text

TOP = Path(__file__).resolve().parent.parent
RESULTS = TOP / "bench" / "results"
DRAWINGS = TOP / "docs" / "measured"
ALGORITHMS = ["chm", "bdz", "bdz_ph", "brz"]
STYLE = svg.STYLE + """
  .own { fill: none; stroke-width: 2.5; }
  .c { fill: none; stroke: #59636e; stroke-width: 2; stroke-dasharray: 5 4; }
  .faint { fill: none; stroke: #afb8c1; stroke-width: 1; }
  .dot { fill: #59636e; }
  .bound { stroke: #cf222e; stroke-width: 1.5; stroke-dasharray: 3 3; }
  @media (prefers-color-scheme: dark) {
    .c { stroke: #9198a1; } .faint { stroke: #4a525c; } .dot { fill: #9198a1; } .bound { stroke: #ff7b72; }
  }
"""


class Missing(Exception):
    """A drawing has no results."""


# Tables of results


def numbers(cells: list[str]) -> list[float | None]:
    return [None if cell == "-" else float(cell.replace(",", "")) for cell in cells]


def rows_of(name: str) -> list[list[str]]:
    """The cells of all rows of the tables of bench/results/NAME.md."""
    lines = (RESULTS / f"{name}.md").read_text().split("\n")
    return [[cell.strip() for cell in line.strip("| ").split(" | ")] for line in lines if line.startswith("| ")]


Line = list[tuple[float, float]]


def curves(column: int) -> dict[str, tuple[Line, Line]]:
    """For each algorithm a column of sizes.md against the number of keys: of this program, and of the C tool, which is in the next column."""
    found: dict[str, tuple[Line, Line]] = {name: ([], []) for name in ALGORITHMS}
    for cells in rows_of("sizes"):
        if cells[1] in found:
            count = float(cells[0].replace(",", ""))
            for line, value in zip(found[cells[1]], numbers(cells[column : column + 2])):
                if value is not None:
                    line.append((count, value))
    return found


# Axes of powers of ten


class Axis(NamedTuple):
    """The powers of ten of its ends, and where these are."""

    least: int
    most: int
    first: float
    last: float

    def at(self, value: float) -> float:
        return self.first + (self.last - self.first) * (math.log10(value) - self.least) / (self.most - self.least)

    def powers(self) -> list[int]:
        return list(range(self.least, self.most + 1))


class Panel(NamedTuple):
    across: Axis
    up: Axis

    def way(self, line: Line) -> str:
        return "M" + "L".join(f"{self.across.at(x):.1f} {self.up.at(y):.1f}" for x, y in line)


def ends(values: list[float]) -> tuple[int, int]:
    """The powers of ten around these values."""
    least, most = math.floor(math.log10(min(values))), math.ceil(math.log10(max(values)))
    return least, max(most, least + 1)


def power(exponent: int) -> str:
    """A power of ten, as text."""
    return "10" + str(exponent).translate(str.maketrans("0123456789-", "⁰¹²³⁴⁵⁶⁷⁸⁹⁻"))


def grid(panel: Panel, unit: str) -> list[str]:
    """The lines and the numbers of the axes."""
    across, up = panel
    marks = []
    for exponent in across.powers():
        x = across.at(10**exponent)
        marks.append(svg.path("grid", f"M{x:.1f} {up.first:g}V{up.last:g}"))
        marks.append(text(x, up.first + 15, power(exponent), "soft"))
    for exponent in up.powers():
        y = up.at(10**exponent)
        marks.append(svg.path("grid", f"M{across.first:g} {y:.1f}H{across.last:g}"))
        marks.append(text(across.first - 6, y + 4, f"{10**exponent:,} {unit}" if exponent >= 0 else f"{10.0**exponent:g} {unit}", "soft", "end"))
    return marks


# Plots against the number of keys


class Plot(NamedTuple):
    title: str
    column: int  # of sizes.md
    unit: str

    def shown(self, value: float) -> str:
        """A value as text."""
        return f"{value:.3g} {self.unit}" if value < 100 else f"{value:,.0f} {self.unit}"


TIME = Plot("Processor time of a build", 3, "s")
MEMORY = Plot("Greatest memory of a build", 5, "MB")
PANELS, ACROSS, HIGH, ASIDE, BELOW = (86, 104), 226, 190, 368, 254  # where they begin, how large they are, and how far the next one is
LABEL = 14  # the height of a label


def last_values(plot: Plot, panel: Panel, lines: list[tuple[Line, str]]) -> list[str]:
    """The last value of each line: to the right of its end, apart from that of another; or to the left, if the other line goes on."""
    ends_of = sorted((panel.up.at(line[-1][1]), line[-1], kind) for line, kind in lines if line)
    most, marks, before = max((count for _, (count, _), _ in ends_of), default=0), [], -math.inf
    for y, (count, value), kind in ends_of:
        x, shown = panel.across.at(count), plot.shown(value)
        if count < most:
            marks.append(text(round(x - 8, 1), round(y - 4, 1), shown, f"halo {kind}", "end"))
        else:
            before = max(y, before + LABEL)
            marks.append(text(round(x + 8, 1), round(before + 4, 1), shown, f"halo {kind}", "start"))
    return marks


def dots(plot: Plot, panel: Panel, line: Line, kind: str) -> list[str]:
    return [
        f'<circle class="{kind}" cx="{panel.across.at(x):.1f}" cy="{panel.up.at(y):.1f}" r="3"><title>{x:,.0f} keys: {plot.shown(y)}</title></circle>'
        for x, y in line
    ]


def panel_of(plot: Plot, panel: Panel, name: str, lines: dict[str, tuple[Line, Line]]) -> list[str]:
    """One algorithm: this program and the C tool, and faintly this program by the others."""
    own, theirs = lines[name]
    hue = ALGORITHMS.index(name)
    marks = [text(panel.across.first, panel.up.last - 8, name, "head", "start"), *grid(panel, plot.unit)]
    marks += [svg.path("faint", panel.way(line)) for other, (line, _) in lines.items() if other != name and line]
    for line, way, dot in ((theirs, "c", "dot"), (own, f"own l{hue}", f"a{hue}")):
        marks += [svg.path(way, panel.way(line)), *dots(plot, panel, line, dot)] if line else []
    return marks + last_values(plot, panel, [(theirs, "soft"), (own, f"a{hue}")])


def legend() -> list[str]:
    y, marks = 66, []
    for x, kind, words in ((16, "own l0", "this program"), (150, "c", "the C tool"), (274, "faint", "this program, by the other algorithms")):
        marks += [svg.path(kind, f"M{x} {y}H{x + 28}"), text(x + 36, y + 4, words, "", "start")]
    return marks


def against_keys(plot: Plot) -> str:
    lines = curves(plot.column)
    points = [point for both in lines.values() for line in both for point in line]
    if not points:
        raise Missing(plot.title)
    marks = [text(16, 28, plot.title, "title", "start"), *legend()]
    marks.append(text(16, 46, "Against the number of keys, both on scales of powers of ten. The lower line is the better one.", "soft", "start"))
    for at, name in enumerate(ALGORITHMS):
        left, top = PANELS[0] + ASIDE * (at % 2), PANELS[1] + BELOW * (at // 2)
        panel = Panel(Axis(*ends([x for x, _ in points]), left, left + ACROSS), Axis(*ends([y for _, y in points]), top + HIGH, top))
        marks += panel_of(plot, panel, name, lines)
        marks.append(text(left + ACROSS / 2, top + HIGH + 32, "keys", "soft"))
    return svg.page(f"{plot.title} against the number of keys", PANELS[1] + HIGH + BELOW + 46, marks, STYLE)


# Space


class Bar(NamedTuple):
    name: str
    bits: float  # for each key
    kind: str


class Space(NamedTuple):
    """Bars of one kind of structure, and what it needs at least."""

    title: str
    bars: list[Bar]
    bounds: dict[str, float]


KEYS = 1_000_000
EXPONENT = 8  # one strange key in 2^8 holds in a filter


def bits_of(algorithm: str) -> tuple[float, float | None]:
    """Bits a key of a function by this program and by the C tool."""
    with open(RESULTS / "latest.csv", newline="") as file:
        rows = [row for row in csv.DictReader(file) if row["measure"] == "function, bits a key" and row["set"] == str(KEYS)]
    row = next((row for row in rows if row["algorithm"] == algorithm), None)
    if row is None:
        raise Missing(algorithm)
    return float(row["ours"]), float(row["c"]) if row["c"] else None


def functions(*names: str) -> list[Bar]:
    found = []
    for name in names:
        ours, theirs = bits_of(name)
        found.append(Bar(name, ours, f"a{ALGORITHMS.index(name)}"))
        found += [Bar(f"C tool, {name}", theirs, "grey")] if theirs else []
    return found


def of_bbhash() -> list[Bar]:
    rows = [cells for cells in rows_of("bbhash") if cells[0] == f"{KEYS:,}" and cells[1].startswith("bbhash")]
    return [Bar(cells[1], float(cells[3]), "grey") for cells in rows]


def of_filters() -> list[Bar]:
    cells = next((cells for cells in rows_of("filter") if cells[0] == str(EXPONENT)), None)
    if cells is None:
        raise Missing("filter")
    ours, theirs = numbers([cells[2], cells[5]])
    return [Bar(f"cmph_filter -w {EXPONENT}", ours, "a0")] + ([Bar("libbloom", theirs, "grey")] if theirs else [])


def distinct_bound(ratio: float) -> float:
    """Bits a key that distinct numbers below `ratio` times the number of keys need at least: 1.44 for a ratio of 1."""
    spare = ratio - 1
    return math.log2(math.e) * (1 + (spare * math.log(spare / ratio) if spare else 0))


def spaces() -> list[Space]:
    bloom = EXPONENT * math.log2(math.e)
    return [
        Space("Distinct numbers below 1.23 m", functions("bdz_ph"), {"at least": distinct_bound(1.23)}),
        Space("All numbers below m", [*functions("bdz", "brz"), *of_bbhash()], {"at least": distinct_bound(1)}),
        Space(f"Filters: one strange key in {2**EXPONENT} holds", of_filters(), {"at least": EXPONENT, "Bloom filter": bloom}),
        Space("The numbers of the lines, in their order", functions("chm"), {"at least": math.log2(KEYS)}),
    ]


LEFT, RIGHT, STEP = 170, 710, 20


def bars_of(space: Space, top: float, most: float) -> tuple[list[str], float]:
    """A panel from `top` down with bits from 0 to `most` across, and where it ends."""
    def across(bits: float) -> float:
        return LEFT + (RIGHT - LEFT) * bits / most

    foot = top + 48 + STEP * len(space.bars)
    marks = [text(16, top + 14, said(space.title), "head", "start")]
    for at, bar in enumerate(space.bars):
        y = top + 44 + STEP * at
        marks += [text(LEFT - 8, y + 11, said(bar.name), "", "end"), box(LEFT, y, round(across(bar.bits) - LEFT, 1), STEP - 6, bar.kind)]
        marks.append(text(round(across(bar.bits) + 6, 1), y + 11, f"{bar.bits:.2f}", "halo", "start"))
    for name, bits in space.bounds.items():
        marks.append(svg.path("bound", f"M{across(bits):.1f} {top + 36:g}V{foot:g}"))
        marks.append(text(round(across(bits), 1), top + 32, f"{name}: {bits:.2f}", "red"))
    return marks, foot


def scale(most: int, step: int, top: float, foot: float) -> list[str]:
    """The lines and the numbers below some panels."""
    marks = []
    for bits in range(0, most + 1, step):
        x = LEFT + (RIGHT - LEFT) * bits / most
        marks += [svg.path("grid", f"M{x:.1f} {top:g}V{foot:g}"), text(round(x, 1), foot + 16, str(bits), "soft")]
    return [*marks, text(RIGHT + 14, foot + 16, "bits", "soft", "start")]


def space() -> str:
    *small, large = spaces()
    marks = [text(16, 28, "Space for each key", "title", "start")]
    marks.append(text(16, 46, f"Bits a key, for m = {KEYS:,} keys. Red: the least that any such structure takes, or any Bloom filter.", "soft", "start"))
    y = 62.0
    for group, most, step in ((small, 14, 1), ([large], 70, 5)):
        drawn, top = [], y
        for each in group:
            panel, y = bars_of(each, y, most)
            drawn += panel
            y += 12
        marks += [*scale(most, step, top + 36, y - 6), *drawn]
        y += 30
    return svg.page("Bits a key of functions and filters, and what they need at least", y - 4, marks, STYLE)


# All of them


def of_c(name: str) -> str:
    """The ratios to the C tool, if it was there."""
    path = RESULTS / f"{name}.csv"
    if not bars.read(path):
        raise Missing(name)
    return bars.drawn(path)


def drawings() -> dict[Path, str]:
    """Each drawing of measured figures, if it has results."""
    makers = {"bench": lambda: of_c("latest"), "time": lambda: against_keys(TIME), "memory": lambda: against_keys(MEMORY), "space": space}
    found = {}
    for name, make in makers.items():
        try:
            found[DRAWINGS / f"{name}.svg"] = make()
        except (Missing, FileNotFoundError):
            continue
    return found


if __name__ == "__main__":
    for path, drawing in drawings().items():
        path.write_text(drawing)
