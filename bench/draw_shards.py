#!/usr/bin/env python3
"""Draws a split into shards, their functions, the manifest and an answer, into docs/use/shards.svg.

    bench/draw_shards.py [CMPH SHARDS]

The programs are bin/cmph and bin/cmph_shards if none are given. They split the words of examples/words into four shards and build the functions, as docs/use/shards.md does; what is
drawn of them is what they leave and print.
"""

import subprocess
import sys
import tempfile
from pathlib import Path

import svg
from svg import WIDTH, box, text

TOP = Path(__file__).resolve().parent.parent
WORDS = TOP / "examples" / "words"
SHARDS, SHOWN, FILES = 4, "Gold", 3
HEIGHT, EDGE = 486, 24
DRAWING = TOP / "docs" / "use" / "shards.svg"

STYLE = """
  .card { fill: #ffffff; stroke: #d0d7de; }
  text { font: 12px system-ui, sans-serif; fill: #1f2328; }
  .head { font-size: 15px; font-weight: 600; }
  .soft { fill: #59636e; }
  .code { font: 12px ui-monospace, "DejaVu Sans Mono", monospace; }
  .box { fill: #f6f8fa; stroke: #afb8c1; }
  .line { fill: none; stroke: #afb8c1; stroke-width: 1.5; }
  .way { fill: none; stroke: #cf222e; stroke-width: 2; }
  .s0 { fill: #0969da; } .s1 { fill: #1a7f37; } .s2 { fill: #bf8700; } .s3 { fill: #8250df; }
  .on { fill: #ffffff; font-weight: 600; }
  @media (prefers-color-scheme: dark) {
    .card { fill: #0d1117; stroke: #3d444d; }
    text { fill: #e6edf3; }
    .soft { fill: #9198a1; }
    .box { fill: #151b23; stroke: #656c76; }
    .line { stroke: #656c76; } .way { stroke: #ff7b72; }
    .on { fill: #ffffff; }
  }
"""


def made(cmph, shards):
    """How many keys each shard has, and the shard and the number of a key."""
    with tempfile.TemporaryDirectory() as at:
        subprocess.run([shards, "-n", str(SHARDS), "-d", at, WORDS], check=True)
        pieces = [Path(at, f"shard-{shard:04}") for shard in range(SHARDS)]
        for piece in pieces:
            subprocess.run([cmph, "-g", "-a", "bdz", piece], check=True)
        subprocess.run([shards, "-j", "-m", f"{at}/all", "-d", at, *(f"{piece}.mph" for piece in pieces)], check=True)
        said = subprocess.run([shards, "-m", f"{at}/all", "/dev/stdin"], input=SHOWN, capture_output=True, text=True, check=True).stdout
        holds = next(shard for shard, piece in enumerate(pieces) if SHOWN in piece.read_text().split())
        return list(map(int, Path(at, "counts").read_text().split())), holds, int(said.split()[-1])


def line(x1, y1, x2, y2, kind="line", tip=False):
    middle = (y1 + y2) / 2
    end = ' marker-end="url(#tip)"' if tip else ""
    return f'<path class="{kind}" d="M{x1:g} {y1:g}C{x1:g} {middle:g} {x2:g} {middle:g} {x2:g} {y2:g}"{end}/>'


def marks_of(counts, holds, number):
    inner = WIDTH - 2 * EDGE
    marks = [text(EDGE, 34, f"{sum(counts)} words in {SHARDS} shards, and the number of one", "head", "start")]
    middles = [EDGE + inner * (2 * shard + 1) / (2 * SHARDS) for shard in range(SHARDS)]
    for file in range(FILES):
        x = EDGE + inner * (2 * file + 1) / (2 * FILES)
        for shard, middle in enumerate(middles):
            marks.append(line(x - 48 + 32 * shard, 126, middle - 40 + 40 * file, 190, "line"))
        marks += [box(x - 70, 56, 140, 70), text(x, 76, ("keys, first block", "next block", "last block")[file]), text(x, 94, "cmph_shards -n 4", "code soft")]
        marks += [box(x - 60 + 32 * shard, 104, 24, 14, f"s{shard}") for shard in range(SHARDS)]
    starts = [sum(counts[:shard]) for shard in range(SHARDS)]
    scale = inner / sum(counts)
    for shard, middle in enumerate(middles):
        left = EDGE + starts[shard] * scale
        marks.append(line(middle, 276, left + counts[shard] * scale / 2, 318))
        marks += [box(middle - 80, 190, 160, 86), box(middle - 68, 200, 136, 20, f"s{shard}"), text(middle, 214, f"shard {shard}: {counts[shard]} keys", "on")]
        marks += [text(middle, 240, "cmph -g -a bdz", "code soft"), text(middle, 262, f"0 .. {counts[shard] - 1}")]
        marks += [box(left, 318, counts[shard] * scale, 26, f"s{shard}"), text(left + counts[shard] * scale / 2, 335, f"{starts[shard]} .. {starts[shard] + counts[shard] - 1}", "on")]
    marks.append(text(EDGE, 366, "The manifest holds where the numbers of each shard begin, and the length and the SHA-256 of each function file.", "soft", "start"))
    own = number - starts[holds]
    steps = [SHOWN, f"shard {holds}", f"number {own} there", f"{starts[holds]} + {own} = {number}"]
    places = [EDGE + 62, EDGE + 246, EDGE + 448, EDGE + 650]
    for at, (place, step) in enumerate(zip(places, steps)):
        marks += [box(place - 62, 400, 124, 30), text(place, 419, step, "code")]
        if at:
            marks.append(f'<path class="way" d="M{places[at - 1] + 64:g} 415H{place - 66:g}" marker-end="url(#tip)"/>')
    for place, words in zip(((a + b) / 2 for a, b in zip(places, places[1:])), ("its hash, modulo 4", "the function of the shard", "the offset of the shard")):
        marks.append(text(place, 452, words, "soft"))
    return marks


def drawn(cmph, shards):
    marks = [svg.tip("tip", "#cf222e"), *marks_of(*made(cmph, shards))]
    return svg.page("Keys are split into shards, each with a function, and a manifest numbers them all", HEIGHT, marks, STYLE)


def main():
    cmph, shards = [Path(path).resolve() for path in (sys.argv[1:3] or (TOP / "bin" / "cmph", TOP / "bin" / "cmph_shards"))]
    DRAWING.write_text(drawn(cmph, shards))


if __name__ == "__main__":
    main()
