#!/usr/bin/env python3
"""Draws a build and an answer by CHM, step by step, into docs/believe/chm.svg.

    bench/draw.py [PROGRAM]

PROGRAM is bin/cmph if none is given. It builds a function over eight words and answers them. This script reads the
function file that came of it, works out the hashes, the graph, the rounds and the cells again, and stops if anything
differs from the file or from the answers. What it draws is what it worked out.
"""

import os
import subprocess
import sys
import tempfile
from pathlib import Path
from typing import NamedTuple

import svg
from svg import spaced

TOP = Path(__file__).resolve().parent.parent
DRAWING = TOP / "docs" / "believe" / "chm.svg"
KEYS = "ape duck hawk mouse owl ray toad zebra".split()
STRANGER = "wolf"  # not among the keys
SHOWN = "mouse"  # the key whose answer is drawn
RATIO = 2_090_000  # vertices for each key, in millionths

# Hashing: lookup2 (Jenkins 1997)

MASK = 2**32 - 1


def mix(a: int, b: int, c: int) -> tuple[int, int, int]:
    for right, left, last in ((13, 8, 13), (12, 16, 5), (3, 10, 15)):
        a = (a - b - c) & MASK ^ c >> right
        b = (b - c - a) & MASK ^ a << left & MASK
        c = (c - a - b) & MASK ^ b >> last
    return a, b, c


def three(piece: bytes) -> list[int]:
    """The three words of up to 12 bytes, the lowest byte first."""
    return [int.from_bytes(piece[at : at + 4], "little") for at in (0, 4, 8)]


def words(key: bytes, seed: int) -> tuple[int, int, int]:
    a, b, c = 0x9E3779B9, 0x9E3779B9, seed
    whole = len(key) // 12 * 12
    for at in range(0, whole, 12):
        x, y, z = three(key[at : at + 12])
        a, b, c = mix(a + x & MASK, b + y & MASK, c + z & MASK)
    x, y, z = three(key[whole:])
    return mix(a + x & MASK, b + y & MASK, c + (z << 8) + len(key) & MASK)


# The graph, its rounds and its cells


def edge(key: str, seed: int, n: int) -> tuple[int, int]:
    w = words(key.encode(), seed)
    first, second = w[0] % n, w[1] % n
    return (first, second) if first != second else (first, (first + 1) % n)


def peel(edges: list[tuple[int, int]]) -> tuple[list[list[tuple[int, int]]], list[int]]:
    """The rounds, each a list of edges with their pivots' positions, and the edges that are left."""
    left, rounds = list(range(len(edges))), []
    while True:
        ends = [v for e in left for v in edges[e]]
        gone = []
        for e in left:
            pivots = [at for at in (0, 1) if ends.count(edges[e][at]) == 1]
            if pivots:
                gone.append((e, pivots[0]))
        if not gone:
            return rounds, left
        rounds.append(gone)
        removed = {e for e, _ in gone}
        left = [e for e in left if e not in removed]


class Setting(NamedTuple):
    edge: int
    pivot: int  # the vertex whose cell is set
    other: int  # the value of the cell at the other end
    value: int


def assign(edges: list[tuple[int, int]], rounds: list, n: int) -> tuple[list[int], list[list[Setting]]]:
    """The cells, and how each round set them, from the last round to the first."""
    m, cells, steps = len(edges), [0] * n, []
    for gone in reversed(rounds):
        step = []
        for e, at in gone:
            other = cells[edges[e][1 - at]]
            step.append(Setting(e, edges[e][at], other, (e - other) % m))
        for each in step:
            cells[each.pivot] = each.value
        steps.append(step)
    return cells, steps


# The function file and the answers


class Function(NamedTuple):
    m: int
    seed: int
    cells: list[int]


class Differs(Exception):
    """What of a run is not what this script works out."""


def must(holds: bool, what: str) -> None:
    if not holds:
        raise Differs(f"{what} differs")


def vertices(m: int) -> int:
    return max(2, -(-RATIO * m // 1_000_000))


def read(path: Path) -> Function:
    data = path.read_bytes()
    must(data[:12] == b"CMPHDMP2\x01\0\0\0", "the head of the function file")
    m, ratio, seed = three(data[12:24])
    must(ratio == RATIO, "the ratio")
    n, width = vertices(m), max(1, (m - 1).bit_length())
    must(len(data) == 24 + (n * width + 7) // 8, "the length of the function file")
    image = int.from_bytes(data[24:], "little")
    return Function(m, seed, [image >> width * v & (1 << width) - 1 for v in range(n)])


def answers(program: str, keys: Path) -> dict[str, int]:
    text = subprocess.run([program, keys], capture_output=True, text=True, check=True).stdout
    return {key: int(value) for key, value in (line.split(" -> ") for line in text.splitlines())}


def real_run(program: str) -> tuple[Function, dict[str, int]]:
    """A build over the keys, and the answers to them and to a stranger."""
    with tempfile.TemporaryDirectory() as folder:
        keys, stranger = Path(folder) / "words", Path(folder) / "stranger"
        keys.write_text("".join(f"{key}\n" for key in KEYS))
        stranger.write_text(f"{STRANGER}\n")
        subprocess.run([program, "-g", keys], check=True)
        function = Path(f"{keys}.mph")
        Path(f"{stranger}.mph").write_bytes(function.read_bytes())
        return read(function), answers(program, keys) | answers(program, stranger)


# The drawing

STYLE = """
  .card { fill: #ffffff; stroke: #d0d7de; }
  text { font: 12px ui-monospace, "DejaVu Sans Mono", monospace; fill: #1f2328; }
  .head { font: 600 14px system-ui, sans-serif; }
  .say { font: 13px system-ui, sans-serif; }
  .soft { fill: #59636e; }
  .small { font-size: 10px; }
  .cell { fill: #f6f8fa; stroke: #afb8c1; }
  .arc { fill: none; stroke-width: 2; }
  .name { paint-order: stroke; stroke: #ffffff; stroke-width: 4px; }
  .arc.r0, rect.r0 { stroke: #afb8c1; } .arc.r1, rect.r1 { stroke: #0969da; } .arc.r2, rect.r2 { stroke: #1a7f37; }
  .arc.r3, rect.r3 { stroke: #8250df; } .arc.core { stroke: #cf222e; }
  text.r0 { fill: #59636e; } text.r1 { fill: #0969da; } text.r2 { fill: #1a7f37; } text.r3 { fill: #8250df; }
  text.core { fill: #cf222e; }
  rect.set { stroke-width: 2; }
  @media (prefers-color-scheme: dark) {
    .card { fill: #0d1117; stroke: #3d444d; }
    text { fill: #e6edf3; }
    .soft { fill: #9198a1; }
    .cell { fill: #151b23; stroke: #656c76; }
    .name { stroke: #0d1117; }
    .arc.r0, rect.r0 { stroke: #656c76; } .arc.r1, rect.r1 { stroke: #58a6ff; } .arc.r2, rect.r2 { stroke: #3fb950; }
    .arc.r3, rect.r3 { stroke: #bc8cff; } .arc.core { stroke: #ff7b72; }
    text.r0 { fill: #9198a1; } text.r1 { fill: #58a6ff; } text.r2 { fill: #3fb950; } text.r3 { fill: #bc8cff; }
    text.core { fill: #ff7b72; }
  }
"""
LEFT, STEP, BOX = 22, 42, 34


class Page:
    """Marks from the top of the page down."""

    def __init__(self) -> None:
        self.marks: list[str] = []
        self.y = 14.0

    def text(self, x: float, y: float, text: str, kind: str = "", anchor: str = "start") -> None:
        self.marks.append(f'<text class="{kind}" x="{x:g}" y="{y:g}" text-anchor="{anchor}">{text}</text>')

    def head(self, text: str) -> None:
        self.y += 26
        self.text(LEFT, self.y, text, "head")
        self.y += 6

    def say(self, text: str, kind: str = "say") -> None:
        self.y += 17
        self.text(LEFT, self.y, text, kind)

    def graph(self, edges: list[tuple[int, int]], kinds: dict[int, str]) -> None:
        """Arcs over a row of vertices; those without a kind aren't drawn."""
        base = self.y + 32 + max(rise(edges[e]) for e in kinds)
        drawn = sorted(kinds.items(), key=lambda each: each[1] != "r0")
        for e, kind in drawn:
            (x, z), high = map(middle, sorted(edges[e])), base - rise(edges[e]) * 4 / 3
            curve = f"M{x:g},{base:g} C{x:g},{high:g} {z:g},{high:g} {z:g},{base:g}"
            self.marks.append(f'<path class="arc {kind}" d="{curve}"/>')
        names: list[tuple[float, float]] = []
        for e, kind in drawn:
            x, y = free_place(edges[e], base, names)
            names.append((x, y))
            self.text(x, y, KEYS[e], f"name {kind}", "middle")
        self.y = base

    def cells(self, n: int, values: list[int] | None = None, set_by: dict[int, str] | None = None) -> None:
        """The row of vertices: a box for the cell of each, and its number below."""
        for v in range(n):
            kind = (set_by or {}).get(v, "")
            look, x = f"cell set {kind}" if kind else "cell", middle(v) - BOX / 2
            self.marks.append(f'<rect class="{look}" x="{x:g}" y="{self.y:g}" width="{BOX}" height="24" rx="3"/>')
            if values is not None:
                self.text(middle(v), self.y + 16, str(values[v]), kind or "soft", "middle")
            self.text(middle(v), self.y + 36, str(v), "soft small", "middle")
        self.y += 42

    def svg(self) -> str:
        return svg.page("A build over eight words, and an answer, step by step", self.y + 18, self.marks, STYLE)


def middle(v: int) -> float:
    return LEFT + STEP * v + BOX / 2


def rise(ends: tuple[int, int]) -> int:
    """How high the arc of an edge is."""
    return 14 + 6 * abs(ends[0] - ends[1])


def free_place(ends: tuple[int, int], base: float, names: list[tuple[float, float]]) -> tuple[float, float]:
    """A place on an arc for its name, away from the names that stand already."""
    left, right = map(middle, sorted(ends))
    for part in (0.5, 0.4, 0.6, 0.3, 0.7, 0.25, 0.75):
        x = left + (right - left) * (3 * part**2 - 2 * part**3)
        y = base - rise(ends) * 4 * part * (1 - part) + 4
        if all(abs(x - u) > 42 or abs(y - v) > 13 for u, v in names):
            break
    return x, y


def draw_hashes(page: Page, seeds: list[int], n: int) -> None:
    page.head(f"1. Each key is hashed, and becomes an edge between two of {n} vertices")
    page.say(f"The ends are w0 mod {n} and w1 mod {n}, of the hash values under the seed.", "say soft")
    page.y += 4
    for at, seed in enumerate(seeds):
        page.text(LEFT + 110 + 310 * at, page.y + 17, spaced(f"seed {seed}    w0        w1        ends"), "soft")
    page.y += 17
    for number, key in enumerate(KEYS):
        page.y += 16
        page.text(LEFT, page.y, f"{number}  {key}")
        for at, seed in enumerate(seeds):
            w, ends = words(key.encode(), seed), edge(key, seed, n)
            page.text(LEFT + 182 + 310 * at, page.y, spaced(f"{w[0]:08x}  {w[1]:08x}  {ends[0]:2}, {ends[1]:2}"))


def draw_refused(page: Page, seed: int, edges: list, n: int) -> None:
    rounds, rest = peel(edges)
    page.y += 6
    page.head(f"2. Under seed {seed} a 2-core is left, so this seed does not work")
    removed = f"{len(rounds)} rounds remove the grey edges."
    page.say(f"{removed} Each end of a red edge has a second red edge, so none goes.", "say soft")
    page.graph(edges, {e: "core" if e in rest else "r0" for e in range(len(edges))})
    page.cells(n)


def draw_rounds(page: Page, seed: int, edges: list, rounds: list, n: int) -> None:
    page.head(f"3. Under seed {seed} peeling removes every edge")
    pivots = "its pivot, drawn as a box of the same colour."
    page.say(f"A round removes each edge that has an end of degree one: {pivots}", "say soft")
    left = set(range(len(edges)))
    for at, gone in enumerate(rounds, 1):
        page.y += 8
        page.say(f"Round {at}: {', '.join(KEYS[e] for e, _ in gone)}", f"say r{at}")
        going = {e for e, _ in gone}
        page.graph(edges, {e: f"r{at}" if e in going else "r0" for e in left})
        page.cells(n, set_by={edges[e][position]: f"r{at}" for e, position in gone})
        left -= going


def draw_cells(page: Page, edges: list, steps: list, n: int) -> None:
    m = len(edges)
    page.head("4. Cells are set from the last round to the first")
    wanted = f"its two cells sum to its key's number, modulo {m}."
    page.say(f"All begin as 0. Each edge sets the cell of its pivot so that {wanted}", "say soft")
    cells, set_by = [0] * n, {}
    for at, step in zip(range(len(steps), 0, -1), steps):
        page.y += 8
        page.say(f"Round {at}", f"say r{at}")
        for each in step:
            cells[each.pivot] = each.value
            set_by[each.pivot] = f"r{at}"
            other = sum(edges[each.edge]) - each.pivot
            sums = f"({each.edge} - cell {other}) mod {m} = ({each.edge} - {each.other}) mod {m} = {each.value}"
            page.say(spaced(f"{KEYS[each.edge]:6}is key {each.edge}: cell {each.pivot:2} = {sums}"), "")
        page.y += 10
        page.cells(n, cells, set_by)


def draw_answer(page: Page, key: str, seed: int, cells: list[int], answer: int, m: int) -> None:
    n = len(cells)
    u, v = edge(key, seed, n)
    w = words(key.encode(), seed)
    sums = f"(cell {u} + cell {v}) mod {m} = ({cells[u]} + {cells[v]}) mod {m} = {answer}"
    page.say(spaced(f"{key:6}{w[0]:08x}  {w[1]:08x}  ends {u} and {v}: {sums}"), "")


class Build(NamedTuple):
    """A build that this script has worked out again."""

    refused: list[int]  # the seeds before that of the function
    function: Function
    edges: list[tuple[int, int]]
    rounds: list
    steps: list[list[Setting]]
    answers: dict[str, int]


def checked(program: str) -> Build:
    """What a real run leaves, which must be what is worked out here."""
    function, answered = real_run(os.path.abspath(program))
    m, n = len(KEYS), len(function.cells)
    must(function.m == m, "the number of keys")
    refused = list(range(1, function.seed))
    edges = [edge(key, function.seed, n) for key in KEYS]
    rounds, rest = peel(edges)
    must(rest == [], "the core under the seed of the function")
    for seed in refused:
        must(peel([edge(key, seed, n) for key in KEYS])[1] != [], "the core under an earlier seed")
    cells, steps = assign(edges, rounds, n)
    must(cells == function.cells, "the cells")
    for key in [*KEYS, STRANGER]:
        u, v = edge(key, function.seed, n)
        must(answered[key] == (cells[u] + cells[v]) % m, f"the answer to {key}")
    must([answered[key] for key in KEYS] == list(range(m)), "the order of the answers")
    return Build(refused, function, edges, rounds, steps, answered)


def drawn(program: str) -> str:
    refused, function, edges, rounds, steps, answered = checked(program)
    m, n, page = len(KEYS), len(function.cells), Page()
    draw_hashes(page, [*refused, function.seed], n)
    for seed in refused:
        draw_refused(page, seed, [edge(key, seed, n) for key in KEYS], n)
    draw_rounds(page, function.seed, edges, rounds, n)
    draw_cells(page, edges, steps, n)
    page.head("5. An answer is the sum of two cells")
    stranger = "a key that was not among them gets a number, too."
    page.say(f"The file holds the seed and the cells, and no keys: {stranger}", "say soft")
    page.y += 4
    for key in (SHOWN, STRANGER):
        draw_answer(page, key, function.seed, function.cells, answered[key], m)
    return page.svg()


def main() -> None:
    program = sys.argv[1] if len(sys.argv) > 1 else TOP / "bin" / "cmph"
    try:
        DRAWING.write_text(drawn(str(program)))
    except Differs as fault:
        sys.exit(str(fault))


if __name__ == "__main__":
    main()
