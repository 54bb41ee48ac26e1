#!/usr/bin/env python3
"""Draws the ratios to the C tool of a file of results as bars.

    bench/bars.py RESULTS.csv DRAWING.svg

It has one panel for each measure, and in it one bar for each set of keys and each algorithm. Its colours follow the
reader's choice of light or dark.
"""

import csv
import math
import sys
from html import escape
from pathlib import Path

MEASURES = {
    "build, s": "Build: processor time",
    "query, s": "Query: processor time",
    "build, bytes a key": "Build: peak memory",
    "query, bytes a key": "Query: peak memory",
    "function, bits a key": "Size of the function file",
}
STYLE = """
  .card { fill: #ffffff; stroke: #d0d7de; }
  text { font: 12px system-ui, sans-serif; fill: #1f2328; }
  .title { font-size: 15px; font-weight: 600; }
  .panel { font-weight: 600; }
  .soft { fill: #59636e; }
  .value { paint-order: stroke; stroke: #ffffff; stroke-width: 3px; }
  .grid { stroke: #d8dee4; }
  .one { stroke: #cf222e; stroke-width: 1.5; }
  .a0 { fill: #0969da; } .a1 { fill: #1a7f37; } .a2 { fill: #8250df; } .a3 { fill: #9a6700; }
  @media (prefers-color-scheme: dark) {
    .card { fill: #0d1117; stroke: #3d444d; }
    text { fill: #e6edf3; }
    .soft { fill: #9198a1; }
    .value { stroke: #0d1117; }
    .grid { stroke: #30363d; }
    .one { stroke: #ff7b72; }
    .a0 { fill: #58a6ff; } .a1 { fill: #3fb950; } .a2 { fill: #bc8cff; } .a3 { fill: #d29922; }
  }
"""
WIDTH, LEFT, RIGHT = 760, 190, 60
BAR, GAP, HEAD = 12, 4, 34


def named(row: dict) -> str:
    count = f"{int(row['keys']):,}"
    return f"{count} generated keys" if row["set"].isdigit() else f"{count} {Path(row['set']).name}"


def read(path: Path) -> list[dict]:
    with open(path, newline="") as file:
        return [row for row in csv.DictReader(file) if row["to_c"]]


def panel(rows: list[dict], algorithms: list[str], title: str, top: float, across) -> tuple[list[str], float]:
    """The bars of a measure from `top` down, and where they end."""
    marks = [f'<text class="panel" x="16" y="{top + 14}">{title}</text>']
    y, last = top + 22, None
    for row in rows:
        if row["set"] != last:
            y += GAP if last is not None else 0
            last = row["set"]
            at = f'x="{LEFT - 8}" y="{y + 10}" text-anchor="end"'
            marks.append(f'<text class="soft" {at}>{escape(named(row))}</text>')
        ratio, hue = float(row["to_c"]), algorithms.index(row["algorithm"]) % 4
        marks.append(
            f'<rect class="a{hue}" x="{LEFT}" y="{y}" width="{across(ratio) - LEFT:.1f}" height="{BAR - 2}" rx="1.5">'
            f"<title>{escape(named(row))}, {row['algorithm']}: {ratio:.2f}</title></rect>"
        )
        marks.append(f'<text class="value" x="{across(ratio) + 5:.1f}" y="{y + 9}">{ratio:.2f}</text>')
        y += BAR
    return marks, y


def legend(algorithms: list[str]) -> list[str]:
    """The colour of each algorithm."""
    marks = []
    for at, name in enumerate(algorithms):
        marks.append(f'<rect class="a{at % 4}" x="{LEFT + 90 * at}" y="52" width="10" height="10" rx="1.5"/>')
        marks.append(f'<text x="{LEFT + 90 * at + 16}" y="61">{escape(name)}</text>')
    return marks


def drawn(results: Path) -> str:
    """The drawing of all measures."""
    rows = read(results)
    algorithms = list(dict.fromkeys(row["algorithm"] for row in rows))
    most = max(1.25, max(float(row["to_c"]) for row in rows))
    end = math.ceil(most * 4) / 4

    def across(ratio: float) -> float:
        return LEFT + (WIDTH - LEFT - RIGHT) * ratio / end

    bars, y = [], 84.0
    for measure, title in MEASURES.items():
        of_measure = [row for row in rows if row["measure"] == measure]
        if of_measure:
            marks, y = panel(of_measure, algorithms, title, y, across)
            bars += marks
            y += HEAD - 22
    foot, high = y, f"{y + 28:g}"
    grid = []
    for quarter in range(int(end * 4) + 1):
        ratio = quarter / 4
        kind = "one" if ratio == 1 else "grid"
        grid.append(f'<line class="{kind}" x1="{across(ratio):.1f}" y1="78" x2="{across(ratio):.1f}" y2="{foot}"/>')
        grid.append(f'<text class="soft" x="{across(ratio):.1f}" y="{foot + 16}" text-anchor="middle">{ratio:g}</text>')
    lines = [
        f'<svg xmlns="http://www.w3.org/2000/svg" viewBox="0 0 {WIDTH} {high}" width="{WIDTH}" height="{high}" role="img">',
        "<title>This program beside the C tool: ratios of time, memory and size</title>",
        f"<style>{STYLE}</style>",
        f'<rect class="card" x="0.5" y="0.5" width="{WIDTH - 1}" height="{foot + 27:g}" rx="6"/>',
        '<text class="title" x="16" y="26">This program beside the C tool</text>',
        '<text class="soft" x="16" y="44">Ratios: the C tool is 1, and a shorter bar is better.</text>',
        f'<text class="soft" x="{across(1):.1f}" y="72" text-anchor="middle">C = 1</text>',
        *legend(algorithms),
        *grid,
        *bars,
        "</svg>",
    ]
    return "\n".join(lines) + "\n"


if __name__ == "__main__":
    if len(sys.argv) != 3:
        sys.exit(__doc__)
    Path(sys.argv[2]).write_text(drawn(Path(sys.argv[1])))
