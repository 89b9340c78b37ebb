#!/usr/bin/env python3
"""Makes what `tourjob_replay` is run on: crates/tourjob_replay/stdin (a row of jobs, each behind its length as a little-endian
32-bit word) and stdout (what `tourjob` has to print of each).

    python3 scripts/make_tourjob_replay.py ORACLE

The refusals of the job file, the rounding and the feed are computed here, from the rules of the job file. The rest is what the
original Rust answers: ORACLE is it, built as a program that reads one question on each line, `moves N x y .. M pick ..`, and
answers on a line of its own: `error NAME`, or `ok` or `out` with the fields `ring`, `moves`, `cross`, `left` between bars.
"""
import math
import os
import struct
import subprocess
import sys

LIMIT = 16384
FOLDER = os.path.join(os.path.dirname(os.path.dirname(os.path.abspath(__file__))), "crates", "tourjob_replay")


def words(*ws):
    return b"".join(struct.pack("<I", w % 2**32) for w in ws)


def job(points, picks, *, n=None, at=20, m=None, picks_at=None, total=None, pad=0, gap=0):
    """A job with its areas one behind the other. The named words override what would be written."""
    area = b"".join(words(x, y) for x, y in points)
    first = 20 + gap + len(area)
    body = bytes(gap) + area + words(*picks) + bytes(pad)
    return words(
        len(points) if n is None else n,
        at + gap if n is None else at,
        len(picks) if m is None else m,
        first if picks_at is None else picks_at,
        20 + len(body) if total is None else total,
    ) + body


def areas(at, n, picks_at, m, end=0):
    """A job with its areas where they are said to be, over bytes that count on."""
    end = max(end, at + 8 * n, picks_at + 4 * m)
    return words(n, at, m, picks_at, end) + bytes(k * 37 % 256 for k in range(20, end))


def steps(v):
    """The nearest tenth part, exact halves away from zero."""
    return (v + 5) // 10 if v >= 0 else -((5 - v) // 10)


def with_mirror_images(points):
    """A board, the same mirrored about x = 0, and about y = 0."""
    return points, [(-x, y) for x, y in points], [(x, -y) for x, y in points]


def signed(w):
    return w - 2**32 if w >= 2**31 else w


def word(b, i):
    return struct.unpack_from("<I", b, i)[0]


def outside(start, size, total):
    return start < 20 or start + size > total


def shares_bytes(start, size, other, extent):
    return bool(set(range(start, start + size)) & set(range(other, other + extent)))


def refusal(b):
    if len(b) < 20 or len(b) > LIMIT:
        return 9
    n, at, m, picks_at, total = (word(b, 4 * i) for i in range(5))
    if total != len(b):
        return 10
    if n > 48:
        return 11
    if outside(at, 8 * n, total) or outside(picks_at, 4 * m, total):
        return 12
    if shares_bytes(at, 8 * n, picks_at, 4 * m):
        return 13
    return 0


def board(b):
    n, at, m, picks_at, _ = (word(b, 4 * i) for i in range(5))
    points = [(steps(signed(word(b, at + 8 * i))), steps(signed(word(b, at + 8 * i + 4)))) for i in range(n)]
    return points, [word(b, picks_at + 4 * i) for i in range(m)]


ERRORS = {"DuplicatePoints": 5, "InsufficientVertices": 6, "CoLinearViolation": 7}


def ask(oracle, boards):
    lines = []
    for points, picks in boards:
        flat = [str(c) for p in points for c in p]
        lines.append(" ".join(["moves", str(len(points)), *flat, str(len(picks)), *map(str, picks)]))
    out = subprocess.run([oracle], input="\n".join(lines) + "\n", capture_output=True, text=True, check=True).stdout
    answers = out.splitlines()
    assert len(answers) == len(boards), (len(answers), len(boards))
    return answers


def feed(points, ring):
    """Of each edge the greatest whole f with f*f at most dx*dx + dy*dy."""
    square = lambda a, b: (points[a][0] - points[b][0]) ** 2 + (points[a][1] - points[b][1]) ** 2
    return sum(math.isqrt(square(a, b)) for a, b in zip(ring, ring[1:] + ring[:1]))


def tangles(ring, dense):
    """The lines of the ring's edges, with how many of the original's records name each, and of the sum."""
    named = [edge.rstrip(",") for edge in dense]
    edges = [sorted(e) for e in zip(ring, ring[1:] + ring[:1])]
    counts = [named.count(f"{a}-{b}") for a, b in edges]
    assert sum(counts) == len(named)
    return "".join(f"edge {a} {b} {count}\n" for (a, b), count in zip(edges, counts)) + f"total {sum(counts)}\n"


def text(points, answer):
    parts = [p.strip() for p in answer.split("|")]
    head = parts[0].split()
    if head[0] == "error":
        return f"refused {ERRORS[head[1]]}\n"
    fields = {p.split()[0]: p.split()[1:] for p in parts[1:] if p}
    if head[0] == "out":
        return f"refused 8 left {fields['left'][0]}\n" + tangles([int(r) for r in fields["ring"]], fields["dense"])
    assert head[0] == "ok", answer
    ring = [int(r) for r in fields["ring"]]
    lines = [f"ok {len(points)} moves {fields['moves'][0]} cross {fields['cross'][0]} feed {feed(points, ring)}"]
    lines += [f"{points[r][0]} {points[r][1]}" for r in ring]
    return "\n".join(lines) + "\n"


def draw(seed, count):
    """The generator of `picks SEED COUNT`."""
    out, s = [], seed
    for _ in range(count):
        s = (s * 1664525 + 1013904223) % 2**32
        out.append((s >> 16) | (s & 0xFFFF) << 16)
    return out


CROSSED = [(0, 0), (100, 100), (100, 0), (0, 100)]
SEVEN = [(120, 0), (10, 0), (30, -50), (0, 0), (100, 0), (20, 0), (60, 50)]
FOLD = [(0, 0), (40, 0), (20, 0), (20, 30)]


def spread(n, seed, side):
    """n different points of a square, none of which rounding makes equal."""
    out, s, seen = [], seed, set()
    while len(out) < n:
        s = (s * 1664525 + 1013904223) % 2**32
        x = s // 2**8 % side - side // 2
        s = (s * 1664525 + 1013904223) % 2**32
        y = s // 2**8 % side - side // 2
        if (steps(x), steps(y)) not in seen:
            seen.add((steps(x), steps(y)))
            out.append((x, y))
    return out


def jobs():
    # the example of the job file's page
    yield job(CROSSED, [7])
    # 9: the length
    yield b""
    yield bytes(19)
    yield job([], [])
    yield job(CROSSED, [7], pad=LIMIT - 56)
    yield job(CROSSED, [7], pad=LIMIT - 55)
    yield job(CROSSED, [7])[:20]
    # 10: the total word
    for total in (0, 55, 57, 2**32 - 1):
        yield job(CROSSED, [7], total=total)
    yield bytes(20)
    # 11: 48 and 49 points; before 12, after 10
    yield job(spread(48, 3, 20000), draw(1, 3000))
    yield job(spread(49, 3, 20000), draw(1, 3000))
    yield job(CROSSED, [7], n=49)
    yield job(CROSSED, [7], n=2**32 - 1)
    yield job(CROSSED, [7], n=2**29)
    yield job(CROSSED, [7], n=49, total=55)
    # 12: where the areas start and end
    for at in (0, 19, 24, 25, 2**32 - 8, 2**32 - 1):
        yield job(CROSSED, [7], n=4, at=at)
    for picks_at in (0, 19, 20, 51, 53, 56, 2**32 - 4, 2**32 - 1):
        yield job(CROSSED, [7], picks_at=picks_at)
    for m in (0, 2, 9, 10, 2**30, 2**30 + 1, 2**32 - 1):
        yield job(CROSSED, [7], m=m, picks_at=20)
    # empty areas still start from 20 to the total
    for at in (19, 20, 56, 57):
        yield job(CROSSED, [7], n=0, at=at)
    for picks_at in (19, 20, 56, 57):
        yield job(CROSSED, [7], m=0, picks_at=picks_at)
    # 13: the exporter's picks over the last point, over the last two, over all; after 12, and after 11
    yield job(CROSSED, [], m=2, picks_at=44)
    yield job(CROSSED, [7], m=3, picks_at=44)
    yield job(CROSSED, [], m=4, picks_at=36)
    yield job(CROSSED, [], m=8, picks_at=20)
    yield job(CROSSED, [7], m=4, picks_at=44)
    yield job(CROSSED, [7], n=49, picks_at=48)
    # areas that touch, and that share one byte, in both orders
    yield areas(20, 4, 52, 1)
    yield areas(24, 4, 20, 1)
    yield words(4, 24, 1, 20, 56, 7) + b"".join(words(x, y) for x, y in CROSSED)
    yield areas(20, 4, 51, 1)
    yield areas(23, 4, 20, 1)
    # one in the other: at its start, in the middle, at its end
    for k in (20, 22, 34, 48):
        yield areas(20, 4, k, 1)
    for k in (20, 22, 34, 44):
        yield areas(k, 1, 20, 8)
    # an empty area in the other, at its start, in the middle, at its end; both empty
    for k in (20, 30, 51, 52):
        yield areas(20, 4, k, 0)
        yield areas(k, 0, 20, 8)
    yield areas(20, 0, 20, 0)
    yield areas(30, 0, 30, 0, 40)
    # bytes between the areas that belong to none
    yield job(CROSSED, [7], gap=13)
    # rounding: around the halves, and the largest values
    yield job([(-16, -15), (-14, 15), (16, 14), (5, -5)], [])
    yield job([(-15, 0), (-5, 40), (5, 0), (15, 40)], draw(2, 20))
    yield job([(-6, -4), (4, 6), (14, -14), (-25, 25)], draw(3, 20))
    yield job([(-26, 24), (26, -24), (-24, -26), (24, 26)], draw(4, 20))
    yield job([(2**31 - 1, 2**31 - 1), (-(2**31), -(2**31)), (2**31 - 1, -(2**31)), (-(2**31), 2**31 - 1)], [0, 0])
    yield job([(2**31 - 1, 0), (2**31 - 3, 10), (2**31 - 4, 20), (-(2**31), 30), (-(2**31) + 3, 40)], draw(5, 20))
    # halves away from zero, just beside them, and the values at the ends, of which the lowest has no negative
    yield job([(-5, -15), (5, -15), (15, 5), (-15, 5)], [])
    yield job([(-4, -6), (6, -4), (4, 6), (-6, 4)], [])
    top = 2**31 - 1
    yield job([(-top, -top), (top, -top), (top, top), (-top, top)], [])
    yield job([(-top - 1, -top - 1), (top, -top), (top, top), (-top, top)], [])
    yield job([(-top - 1, 0), (-top, 0), (top, top)], [])
    # boards and their mirror images
    for points in ([(-5, 0), (-15, 45), (5, 25), (15, -35), (25, 5), (-25, -5), (45, -15)], spread(24, 21, 4000)):
        for image in with_mirror_images(points):
            yield job(image, draw(7, 300))
    # the feed: 3 by 4 steps; squares one below and one above a square, and between two; the same loop from another start, and backwards
    yield job([(0, 0), (30, 0), (30, 40)], [])
    yield job([(0, 0), (20, 20), (0, 40)], [])
    yield job([(0, 0), (30, -10), (20, 20)], [])
    yield job([(0, 0), (70, 0), (100, 110), (-20, 90)], [])
    around = [(0, 0), (75, -20), (130, 40), (90, 95), (-15, 80)]
    for points in (around, around[2:] + around[:2], around[::-1]):
        yield job(points, [])
    # 5: equal by rounding, and just not
    yield job([(0, 0), (100, 0), (4, 4), (0, 100)], [1])
    yield job([(0, 0), (100, 0), (5, 4), (0, 100)], [1])
    yield job([(-4, 0), (100, 0), (4, 0), (0, 100)], [1])
    yield job([(-5, 0), (100, 0), (4, 0), (0, 100)], [1])
    yield job([(7, 7), (7, 7)], [])
    # 6: few points
    yield job([(0, 0), (10, 10)], [1, 2])
    yield job([(0, 0)], [])
    # 7: all on one line, and just not
    yield job([(0, 0), (10, 0), (20, 0)], [])
    yield job([(0, 0), (10, 4), (20, -4)], [])
    yield job([(0, 0), (10, 4), (20, -5)], [])
    yield job([(0, 0), (10, 5), (20, 0)], [])
    yield job([(0, 0), (20, 20), (10, 10), (40, 40), (30, 30)], [1])
    # 8: picks used up, and unused picks
    yield job(CROSSED, [])
    yield job(CROSSED, [7, 8, 9])
    yield job([(0, 0), (0, 10), (10, 0)], [])
    yield job([(0, 0), (0, 10), (10, 0)], [2**32 - 1])
    yield job(FOLD, [])
    yield job(FOLD, [0])
    yield job(FOLD, [1])
    yield job(FOLD, [2**32 - 1])
    for k in range(5):
        yield job(SEVEN, [0] * k)
    yield job(SEVEN, draw(9, 40))
    # larger boards, stopped and delivered
    for n, side, seed in ((16, 300, 11), (24, 200, 12), (32, 5000, 13), (48, 400, 14), (48, 2**31, 15)):
        yield job(spread(n, seed, side), draw(seed, 5))
        yield job(spread(n, seed, side), draw(seed, 3000))
    # a row of pads with one beside it
    yield job([((k * 7) % 20 * 100, 0) for k in range(20)] + [(900, 500)], draw(20, 2000))


def main():
    oracle = sys.argv[1]
    rows = list(jobs())
    asked = [board(b) for b in rows if refusal(b) == 0]
    answers = iter(zip(asked, ask(oracle, asked)))
    with open(os.path.join(FOLDER, "stdin"), "wb") as i, open(os.path.join(FOLDER, "stdout"), "w") as o:
        for b in rows:
            i.write(words(len(b)) + b)
            k = refusal(b)
            if k:
                o.write(f"refused {k}\n")
            else:
                (points, _), answer = next(answers)
                o.write(text(points, answer))
    print(len(rows), "jobs")


main()
