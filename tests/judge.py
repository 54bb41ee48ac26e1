#!/usr/bin/env python3
"""A judge of reports in plain Python, written from docs/use/formats.md and man/cmph_judge.1 alone: it shares no line with the program. tests/judging.py compares both.

    tests/judge.py REPORT KEYS        says what is wrong with the report of a build without -b, -c, -k and -z
"""
import re
import sys
from collections import Counter

HEADS = ["core (chm|bdz|bdz_ph) seed N edges N", "core (brz) split N bucket N seed N edges N", "(overfull) brz seed N bucket N keys N"]
SHIFTS = (-13, 8, -13, -12, 16, -5, -3, 10, -15)


def hashes(key, seed):
    """The three hash values of lookup2 (Jenkins 1997)."""
    state = [0x9E3779B9, 0x9E3779B9, seed]
    for at in range(0, len(key) + 1, 12):
        block, last = key[at:at + 12], at + 12 > len(key)
        block = block[:8] + b"\0" + block[8:] if last and len(block) > 8 else block
        state = [value + int.from_bytes(block[4 * i:4 * i + 4], "little") for i, value in enumerate(state)]
        state[2] += len(key) if last else 0
        for i, shift in enumerate(SHIFTS):
            b, c = state[(i + 1) % 3], state[(i + 2) % 3] % 2**32
            state[i % 3] = ((state[i % 3] - b - c) ^ (c >> -shift if shift < 0 else c << shift)) % 2**32
    return state


def edge(name, key, seed, m, c):
    w, millions = hashes(key, seed), m * (c or (2090000 if name == "chm" else 1230000))
    if name == "chm":
        n = max(2, -(-millions // 10**6))
        return w[0] % n, (w[1] % n + (w[0] % n == w[1] % n)) % n
    r = max(3, -(-millions // (3 * 10**6)) | 1)
    return tuple(i * r + w[i] % r for i in range(3))


def numbers(form, line):
    """What a line of this form says, or None: N stands for a number of 32 bits without leading zeros."""
    found = re.fullmatch(form.replace("N", r"(0|[1-9]\d{0,9})"), line, re.ASCII)
    values = found and [int(text) if text.isdigit() else text for text in found.groups()]
    return values if found and all(value < 2**32 for value in values if value not in ("chm", "bdz", "bdz_ph", "brz", "overfull")) else None


def read(text):
    """The first line of a report, its edges and its pairs; or the first line at which the text is none."""
    *whole, rest = text.decode("latin-1").split("\n")
    head = next((found for found in (numbers(form, line) for line in whole[:1] for form in HEADS) if found), None)
    left = head[-1] if head and head[0] != "overfull" else 0
    if not head or not (left or head[0] == "overfull") or left > 2**26:
        return 1
    edges, pairs = [], []
    for number, line in enumerate(whole[1:], 2):
        said = numbers(("edge N N N" + " N" * (head[0] != "chm")) if left else "equal N N", line)
        if not said or (left and not (edges[-1][0] if edges else 0) < said[0] <= 2**32 - left):
            return number
        if not left and not (0 < said[0] < said[1] and said[1] > (pairs[-1][1] if pairs else 0)):
            return number
        (edges if left else pairs).append(tuple(said))
        left = max(0, left - 1)
    return len(whole) + 1 if rest or left else (head, edges, pairs)


def why_false(report, keys, c, b):
    (name, *head), edges, pairs = report
    own, k, first, lines = dict(enumerate(keys, 1)), -(-len(keys) // b), {}, [e[0] for e in edges]
    if name in ("brz", "overfull"):
        places = {line: hashes(key, head[0] ^ 0xFFFFFFFF)[2] % k for line, key in own.items()}
        full = [j for j, count in sorted(Counter(places.values()).items()) if count > 1023]
        own = {line: key for line, key in own.items() if places[line] == head[1]}
        if head[1] >= k or (len(own) > 1023 if name == "brz" else head[1] not in full[:1]):
            return "no such bucket"
    if name == "overfull" and head[2] != len(own):
        return f"the bucket has {len(own)} keys"
    if name != "overfull":
        graph = {line: edge(name, key, head[-2], len(own), c) for line, key in own.items()}
        once = [v for v, count in Counter(v for e in edges for v in set(e[1:])).items() if count == 1]
        for found, words in [(set(lines) - set(graph), "line {} is no key"), ([e[0] for e in edges if graph.get(e[0]) != e[1:]], "line {} has other vertices"),
                             (once, "vertex {} is touched once"), (set(core_of(graph)) - set(lines), "line {} is missing")]:
            if found:
                return words.format(min(found))
        own = {line: own[line] for line in core_of(graph)}
    apart = {(first[own[line]], line) for line in sorted(own) if first.setdefault(own[line], line) != line} ^ set(pairs)
    return f"pair of line {min(later for _, later in apart)}" if apart else None


def core_of(graph):
    degrees = Counter(v for e in graph.values() for v in e)
    core = {line: e for line, e in graph.items() if all(degrees[v] > 1 for v in e)}
    return core if len(core) == len(graph) else core_of(core)


def said(text, keys, c=None, b=128):
    """The status of a report, and what is said of it, or the line at which it is bad."""
    report = read(text)
    why = None if isinstance(report, int) else why_false(report, keys, c, b)
    return (3, report) if isinstance(report, int) else (1, f"false: {why}") if why else (0, "true")


if __name__ == "__main__":
    print(*said(open(sys.argv[1], "rb").read(), open(sys.argv[2], "rb").read().removesuffix(b"\n").split(b"\n")))
