#!/usr/bin/env python3
"""Draws one round of peeling, by chunks and by blocks, into docs/change/peeling.svg.

    bench/draw_peeling.py

It works both out on a small graph as docs/change/peeling.md says, with small chunks, blocks and parts, and stops if the edges of the next round or their
pivots are not those of the definition.
"""

import sys
from pathlib import Path
from typing import NamedTuple

import draw
import svg
from draw import must
from svg import box, text

TOP = Path(__file__).resolve().parent.parent
DRAWING = TOP / "docs" / "change" / "peeling.svg"
EDGES = [(6, 16), (11, 21), (3, 0), (16, 14), (9, 2), (8, 11), (12, 20), (0, 20), (12, 6), (12, 9), (15, 12), (2, 18)]
VERTICES = 24
CHUNK = 3  # edges
BLOCK, PART = 8, 3  # vertices, and how many half-edges wait for them at most
EDGE_BLOCK, FREED = 6, 2  # edges, and how many places wait for them at most
BLOCKS, EDGE_BLOCKS = VERTICES // BLOCK, len(EDGES) // EDGE_BLOCK
UNTAKEN = 8


# The round


class Half(NamedTuple):
    vertex: int
    place: int  # 4 times the number of the edge, and the position in it


class Step(NamedTuple):
    """Half-edges that are removed together, and the places that this leaves alone."""

    name: str
    halves: list[Half]
    freed: list[int]


class Graph:
    """Each vertex with its half-edges, and the byte of each edge: the position of its pivot, and 4 more in the next round."""

    def __init__(self, taken: list[tuple[int, int]]) -> None:
        self.at = [[4 * e + j for e, ends in enumerate(EDGES) for j, end in enumerate(ends) if end == v] for v in range(VERTICES)]
        self.bytes = [dict(taken).get(e, UNTAKEN) for e in range(len(EDGES))]

    def remove(self, halves: list[Half]) -> list[int]:
        for half in halves:
            self.at[half.vertex].remove(half.place)
        return [self.at[half.vertex][0] for half in halves if len(self.at[half.vertex]) == 1]

    def take(self, places: list[int]) -> list[int]:
        """The edges of these places that are new. Those of this round are passed over."""
        new = []
        for place in places:
            e, old = place // 4, self.bytes[place // 4]
            new += [e] if old >= UNTAKEN else []
            self.bytes[e] = old if old < 4 else min(old, 4 + place % 4)
        return new

    def taken(self) -> list[tuple[int, int]]:
        """The edges of the next round, with the positions of their pivots."""
        return [(e, byte - 4) for e, byte in enumerate(self.bytes) if 4 <= byte < UNTAKEN]


def halves_of(chunk: list[tuple[int, int]]) -> list[Half]:
    """The half-edges of some edges, except those of their pivots."""
    return [Half(end, 4 * e + j) for e, pivot in chunk for j, end in enumerate(EDGES[e]) if j != pivot]


def chunks(taken: list[tuple[int, int]]) -> list[list[Half]]:
    return [halves_of(taken[at : at + CHUNK]) for at in range(0, len(taken), CHUNK)]


def by_chunks(taken: list[tuple[int, int]], graph: Graph) -> tuple[list[Step], list[int]]:
    """The steps of a round by chunks, and the edges of the next round as they are listed."""
    steps, listed = [], []
    for at, halves in enumerate(chunks(taken), 1):
        steps.append(Step(f"chunk {at}", halves, graph.remove(halves)))
        listed += graph.take(steps[-1].freed)
    return steps, listed


class Waiting:
    """A round by blocks: the half-edges and the freed places that wait, and what was done so far."""

    def __init__(self, graph: Graph) -> None:
        self.graph, self.steps, self.marked, self.full = graph, [], [], []
        self.halves: list[list[Half]] = [[] for _ in range(BLOCKS)]
        self.places: list[list[int]] = [[] for _ in range(EDGE_BLOCKS)]

    def put(self, half: Half) -> None:
        block = half.vertex // BLOCK
        self.halves[block].append(half)
        if len(self.halves[block]) == PART:
            self.empty(block, f"block {block}, as its part is full")

    def empty(self, block: int, name: str) -> None:
        halves, self.halves[block] = self.halves[block], []
        if halves:
            self.steps.append(Step(name, halves, self.graph.remove(halves)))
            for place in self.steps[-1].freed:
                self.free(place)

    def free(self, place: int) -> None:
        block = place // 4 // EDGE_BLOCK
        self.places[block].append(place)
        if len(self.places[block]) == FREED:
            self.full.append(block)
            self.take(block)

    def take(self, block: int) -> None:
        self.marked += self.graph.take(self.places[block])
        self.places[block] = []


def by_blocks(taken: list[tuple[int, int]], graph: Graph) -> Waiting:
    waiting = Waiting(graph)
    for half in (half for chunk in chunks(taken) for half in chunk):
        waiting.put(half)
    for block in range(BLOCKS):
        waiting.empty(block, f"block {block}, at the end")
    for block in range(EDGE_BLOCKS):
        waiting.take(block)
    return waiting


# The drawing: the graph

STYLE = svg.STYLE + """
  .arc { fill: none; stroke-width: 2; }
  .rest { stroke: #afb8c1; }
  .pivot { fill: none; stroke: #9a6700; stroke-width: 2.5; }
  .jump { fill: none; stroke: #8c959f; stroke-width: 1.2; }
  .n0, .n1, .n2 { paint-order: stroke; stroke-width: 4px; } .n0 { stroke: #ddf4ff; } .n1 { stroke: #dafbe1; } .n2 { stroke: #fbefff; }
  @media (prefers-color-scheme: dark) {
    .rest { stroke: #656c76; } .pivot { stroke: #d29922; } .jump { stroke: #7d8590; }
    .n0 { stroke: #0c2d4f; } .n1 { stroke: #0f3320; } .n2 { stroke: #2d1c4d; }
  }
"""
LEFT, STEP, CELL, GAP = 24, 29, 26, 8  # of the row of vertices; the gap is that between blocks


def middle(v: int) -> float:
    return LEFT + STEP * v + GAP * (v // BLOCK) + CELL / 2


def arc(ends: tuple[int, int], base: float, kind: str) -> str:
    x, z, high = middle(min(ends)), middle(max(ends)), base - rise(ends) * 4 / 3
    return svg.path(f"arc {kind}", f"M{x:g} {base:g}C{x:g} {high:g} {z:g} {high:g} {z:g} {base:g}")


def rise(ends: tuple[int, int]) -> float:
    """How high the arc of an edge is."""
    return 16 + 5.6 * abs(ends[0] - ends[1])


def name_place(ends: tuple[int, int], base: float, names: list[tuple[float, float]]) -> tuple[float, float]:
    """A place on an arc for its number, away from the numbers that stand already."""
    left, right = middle(min(ends)), middle(max(ends))
    for part in (0.5, 0.42, 0.58, 0.34, 0.66, 0.26, 0.74):
        x = left + (right - left) * (3 * part**2 - 2 * part**3)
        y = base - rise(ends) * 4 * part * (1 - part) + 4
        if all(abs(x - u) > 20 or abs(y - v) > 13 for u, v in names):
            break
    return x, y


def graph_marks(taken: list[tuple[int, int]], base: float) -> list[str]:
    """The edges above the row of vertices, those of the round in colour, and the degree of each vertex."""
    pivots, names, marks = dict(taken), [], []
    order = sorted(range(len(EDGES)), key=lambda e: (e in pivots, abs(EDGES[e][0] - EDGES[e][1])))
    marks += [arc(EDGES[e], base, "l3" if e in pivots else "rest") for e in order]
    for e in reversed(order):
        names.append(name_place(EDGES[e], base, names))
        marks.append(text(round(names[-1][0], 1), round(names[-1][1], 1), str(e), f"code halo {'a3' if e in pivots else 'soft'}"))
    for v in range(VERTICES):
        degree, x = sum(v in ends for ends in EDGES), middle(v) - CELL / 2
        marks += [box(x, base, CELL, 22, f"t{v // BLOCK}"), text(middle(v), base + 15, str(degree), "code")]
        marks.append(text(middle(v), base + 36, str(v), "soft small"))
    marks += [box(middle(EDGES[e][at]) - CELL / 2, base, CELL, 22, "pivot") for e, at in taken]
    return [*marks, *(text((middle(BLOCK * b) + middle(BLOCK * b + BLOCK - 1)) / 2, base + 52, f"block {b}", "soft") for b in range(BLOCKS))]


# The drawing: the removals

COLUMN, WIDE, ROW, HEAD = 12.6, 3 * 8 * 12.6, 17, 22  # of a chart: a vertex across, a removal down, and the head of a step


def chart(steps: list[Step], left: float, top: float) -> tuple[list[str], float]:
    """The removals of some steps, one below the other, each at its vertex."""
    rows, bands, heads, y = [], [], [], top
    for step in steps:
        y += HEAD
        places = ", ".join(map(str, step.freed)) or "none"
        heads += [text(left, y - 6, step.name, "halo soft", "start"), text(left + WIDE, y - 6, f"places left alone: {places}", "halo soft", "end")]
        high = ROW * len(step.halves)
        bands += [box(left + COLUMN * BLOCK * b, y, COLUMN * BLOCK - 1, high, f"t{b}") for b in range(BLOCKS)]
        rows += [(left + COLUMN * (half.vertex + 0.5), y + ROW * (at + 0.5), half) for at, half in enumerate(step.halves)]
        y += high + 4
    way = svg.path("jump", "M" + "L".join(f"{x:.1f} {at:.1f}" for x, at, _ in rows))
    names = [text(round(x + 9, 1), at + 4, str(half.vertex), f"byte n{half.vertex // BLOCK}", "start") for x, at, half in rows]
    dots = [f'<circle class="a{half.vertex // BLOCK}" cx="{x:.1f}" cy="{at:.1f}" r="5"/>' for x, at, half in rows]
    return [*bands, way, *names, *dots, *heads], y


def numbers(values: list[int], left: float, y: float, kind: str = "box") -> list[str]:
    """A row of boxes with numbers."""
    marks = []
    for at, value in enumerate(values):
        marks += [box(left + 28 * at, y, 25, 20, kind), text(left + 28 * at + 12.5, y + 14, str(value), "code")]
    return marks


def lines(words: list[str], left: float, y: float) -> list[str]:
    return [text(left, y + 16 * at, line, "", "start") for at, line in enumerate(words)]


def listing_marks(listed: list[int], passed: list[int], left: float, y: float) -> list[str]:
    said = [f"Edge {e} is in this round, and passed over." for e in passed] or ["No edge of this round is left alone."]
    marks = lines(["The edges of the places that are left alone, chunk by chunk:"], left, y + 14)
    marks += numbers(listed, left, y + 24)
    marks += lines([*said, "At the end the list is sorted:"], left, y + 62)
    return [*marks, *numbers(sorted(listed), left, y + 46 + 16 * len(said) + 26)]


def marking_marks(waiting: Waiting, left: float, y: float) -> list[str]:
    freed = [place for step in waiting.steps for place in step.freed]
    marks = lines(["The places wait for their blocks of edges:"], left, y + 14)
    for block in range(EDGE_BLOCKS):
        own, x = [place for place in freed if place // 4 // EDGE_BLOCK == block], left + 170 * block
        marks += [text(x, y + 38, f"{EDGE_BLOCK * block} to {EDGE_BLOCK * block + EDGE_BLOCK - 1}", "soft", "start"), *numbers(own, x + 52, y + 24)]
    marks += lines(["Taken, they mark their edges, and a walk lists these:"], left, y + 62)
    for e in range(len(EDGES)):
        kind = "t3" if e in waiting.marked else "box"
        marks += [box(left + 24 * e, y + 70, 22, 18, kind), text(left + 24 * e + 11, y + 83, str(e), "byte" if e in waiting.marked else "byte soft")]
    return [*marks, *numbers(sorted(waiting.marked), left, y + 98)]


# The page


def checked() -> tuple[list[tuple[int, int]], list[Step], list[int], Waiting]:
    """A round both ways, which must lead to the next round of the definition."""
    rounds, _ = draw.peel(EDGES)
    graphs = [Graph(rounds[0]), Graph(rounds[0])]
    steps, listed = by_chunks(rounds[0], graphs[0])
    waiting = by_blocks(rounds[0], graphs[1])
    for graph in graphs:
        must(graph.taken() == rounds[1], "the next round")
    must(sorted(listed) == sorted(waiting.marked) == [e for e, _ in rounds[1]], "the list of the next round")
    return rounds[0], steps, listed, waiting


def drawn() -> str:
    taken, steps, listed, waiting = checked()
    base = 70 + max(map(rise, EDGES)) + 8
    own = [e for e, _ in taken]
    marks = [text(16, 28, "One round of peeling, by chunks and by blocks", "title", "start")]
    said = f"The round removes the edges {', '.join(map(str, own))}: each has a pivot, an end of degree one. Vertices show their degrees."
    marks += [text(16, 48, said, "soft", "start"), *graph_marks(taken, base)]
    y = base + 84
    said = f"The other half-edge of each is removed, {CHUNK} edges to a chunk. Each dot is an access to a vertex, the first on top."
    marks.append(text(16, y, said, "", "start"))
    charts, foot = [], 0
    for left, name, made in ((24, "By chunks", steps), (410, "By blocks", waiting.steps)):
        marks.append(text(left, y + 28, name, "head", "start"))
        more, end = chart(made, left, y + 32)
        charts, foot = [*charts, *more], max(foot, end)
    passed = [place // 4 for step in steps for place in step.freed if place // 4 in own]
    marks += [*charts, *listing_marks(listed, passed, 24, foot + 10), *marking_marks(waiting, 410, foot + 10)]
    return svg.page("One round of peeling, by chunks and by blocks", foot + 10 + 136, marks, STYLE)


def main() -> None:
    try:
        DRAWING.write_text(drawn())
    except draw.Differs as fault:
        sys.exit(str(fault))


if __name__ == "__main__":
    main()
