#!/usr/bin/env python3
"""Counts how many seeds leave an empty 2-core, by CHM and by BDZ, over generated keys such as are measured.

It takes about a minute.
"""

from draw import edge, vertices, words

TRIED = {100: 200, 1_000: 200, 10_000: 60}  # number of keys: how many seeds, from 1 on


def third(m: int) -> int:
    """A third of BDZ's vertices for m keys."""
    r = -(-1_230_000 * m // 3_000_000)
    r += r % 2 == 0
    return 3 if r == 1 else r


def triple(key: str, seed: int, r: int) -> tuple[int, int, int]:
    w = words(key.encode(), seed)
    return w[0] % r, r + w[1] % r, 2 * r + w[2] % r


def is_peeled(edges: list[tuple[int, ...]], n: int) -> bool:
    """Whether peeling removes every edge, in whatever order."""
    degree, xor = [0] * n, [0] * n
    for e, ends in enumerate(edges):
        for v in ends:
            degree[v] += 1
            xor[v] ^= e
    waiting, removed = [v for v in range(n) if degree[v] == 1], 0
    while waiting:
        v = waiting.pop()
        if degree[v] == 1:
            removed += 1
            e = xor[v]
            for u in edges[e]:
                degree[u] -= 1
                xor[u] ^= e
                if degree[u] == 1:
                    waiting.append(u)
    return removed == len(edges)


def main() -> None:
    print("| keys | seeds tried | CHM: an empty 2-core | BDZ: an empty 2-core |")
    print("|---|---|---|---|")
    for m, seeds in TRIED.items():
        keys = [f"key-{2654435761 * i % 4294967296:010d}" for i in range(m)]
        n, r = vertices(m), third(m)
        chm = sum(is_peeled([edge(key, seed, n) for key in keys], n) for seed in range(1, seeds + 1))
        bdz = sum(is_peeled([triple(key, seed, r) for key in keys], 3 * r) for seed in range(1, seeds + 1))
        print(f"| {m:,} | {seeds} | {chm} | {bdz} |", flush=True)


if __name__ == "__main__":
    main()
