#!/usr/bin/env python3
"""Makes what `geometry_replay` is run on: crates/geometry_replay/stdin (the cases) and stdout (the answers).

    python3 scripts/make_geometry_replay.py ORACLE

ORACLE is the original Rust, built as a program that reads one question on each line and answers it on a line of its own:
`turn ax ay bx by cx cy` (1, 0 or -1), `contains ax ay o|c bx by o|c px py` (o: open end, c: closed end; 1 or 0) and
`meet ax ay bx by cx cy dx dy` (`0 none`, `1 crossing` or `1 overlap x y o|c x y o|c`). It is asked whatever it has an answer to. What is refused is not its
business: a coordinate outside the limits, and a segment of equal ends, are refused by rule, with number 3.

The format is told in crates/geometry_replay/src/main.rt.
"""
import itertools
import os
import random
import struct
import subprocess
import sys

LIMIT = 1_000_000_000
FOLDER = os.path.join(os.path.dirname(os.path.dirname(os.path.abspath(__file__))), "crates", "geometry_replay")


def grid(xs, ys):
    return [(x, y) for x in xs for y in ys]


def turns(points):
    return [(0, t) for t in itertools.product(points, repeat=3)]


def contains(points):
    return [(4 + marks, t) for t in itertools.product(points, repeat=3) for marks in range(4)]


def meets(points):
    return [(1, t) for t in itertools.product(points, repeat=4)]


def anywhere(count):
    """Segments over the whole range, and as many on one line, their points in any order and some of them equal."""
    r = random.Random(1)
    for _ in range(count):
        yield 1, tuple((r.randint(-LIMIT, LIMIT), r.randint(-LIMIT, LIMIT)) for _ in range(4))
        x, y, dx, dy = (r.randint(-LIMIT // 2, LIMIT // 2) for _ in range(4))
        yield 1, tuple((x + k * (dx // 10), y + k * (dy // 10)) for k in (r.randint(-9, 9) for _ in range(4)))


def nudged(points):
    """Each coordinate moved by one from its corner, inward or outward, in turn."""
    for i, (x, y) in enumerate(points):
        for dx, dy in ((1, 0), (-1, 0), (0, 1), (0, -1)):
            yield points[:i] + ((x + dx, y + dy),) + points[i + 1:]


def cases():
    small = grid(range(3), range(3))
    corners = grid((-LIMIT, LIMIT), (-LIMIT, LIMIT))
    wide = grid((-LIMIT, 0, LIMIT), (-LIMIT, 0, LIMIT))
    found = turns(small) + turns(wide)
    found += contains(small) + contains(wide)
    found += meets(grid(range(4), range(3))) + meets(wide)
    for t in itertools.product(corners, repeat=3):
        found += [(0, u) for u in nudged(t)] + [(4, u) for u in nudged(t)]
    for t in itertools.permutations(corners):
        found += [(1, u) for u in nudged(t)]
    return found + list(anywhere(2000))


def refused(kind, points):
    if any(abs(v) > LIMIT for p in points for v in p):
        return True
    return kind != 0 and (points[0] == points[1] or kind == 1 and points[2] == points[3])


def question(kind, points):
    words = ["%d %d" % p for p in points]
    if kind == 0:
        return "turn " + " ".join(words)
    if kind == 1:
        return "meet " + " ".join(words)
    first, second = "co"[kind & 1], "co"[kind >> 1 & 1]
    return "contains %s %s %s %s %s" % (words[0], first, words[1], second, words[2])


def contact(points, words):
    if words[1] != "overlap":
        return {"none": "n", "crossing": "x"}[words[1]]
    start, stop = (1 + points.index((int(words[k]), int(words[k + 1]))) for k in (2, 5))
    return "(["[words[4] == "c"] + "%d%d" % (start, stop) + ")]"[words[7] == "c"]


def answer(kind, points, line):
    words = line.split()
    if kind == 1:
        return contact(points, words)
    return {"1": "+", "0": "0", "-1": "-"}[words[0]] if kind == 0 else {"1": "y", "0": "n"}[words[0]]


def main():
    found = cases()
    asked = [c for c in found if not refused(*c)]
    lines = "".join(question(*c) + "\n" for c in asked)
    answers = subprocess.run([sys.argv[1]], input=lines, capture_output=True, text=True, check=True).stdout.splitlines()
    assert len(answers) == len(asked), (len(answers), len(asked))
    told = iter(answers)
    texts = ["3" if refused(*c) else answer(*c, next(told)) for c in found]
    with open(os.path.join(FOLDER, "stdin"), "wb") as out:
        for kind, points in found:
            words = [v for p in points for v in p]
            out.write(struct.pack("<I8i", kind, *(words + [0] * (8 - len(words)))))
    with open(os.path.join(FOLDER, "stdout"), "w") as out:
        for i in range(0, len(texts), 81):
            out.write("".join(texts[i:i + 81]) + "\n")
    print(len(found), "cases,", len(asked), "answered by the original,", len(found) - len(asked), "refused")


main()
