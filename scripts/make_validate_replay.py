#!/usr/bin/env python3
"""Makes what `validate_replay` is run on: crates/validate_replay/stdin (the cases) and stdout (the answers).

    python3 scripts/make_validate_replay.py ORACLE

ORACLE is the original Rust, built as make_replay.py tells. It answers one question on each line:
    validate N x y .. r0 .. rN-1             `Polygon::validate` of that ring: `ok` or `error NAME`
    moves N x y .. lcg SEED K                `two_opt_moves`, of which a loop's ring is taken: at random few rings of many points pass
    ring  N x y .. r0 .. rN-1 0              `resolve_self_intersections` with no picks: it delivers a ring as it is just where that passes

It is asked whatever it has an answer to. What the project adds is answered by rule (`ruled`): more than 256 points, short buffers, coordinates outside the
limits, a ring that does not name each point once. The original tells no pair: which two edges meet first is searched for here (`judged`), by what it means
that two edges meet, in whole numbers, and whether any two do must be its answer. So must every other refusal.

The format is told in crates/validate_replay/src/main.rt. The last case is cut off.
"""
import itertools
import os
import random
import struct
import subprocess
import sys
from collections import Counter
from functools import cmp_to_key

LIMIT = 1_000_000_000
FOLDER = os.path.join(os.path.dirname(os.path.dirname(os.path.abspath(__file__))), "crates", "validate_replay")
REFUSAL = {"DuplicatePoints": "5", "InsufficientVertices": "6", "ClockWiseViolation": "14", "SelfIntersections": "15"}
GRID = [(x, y) for x in range(3) for y in range(3)]


class Case:
    """What a call is lent: n, and x, y and ring of any length."""

    def __init__(self, n, x, y, ring):
        self.n, self.x, self.y, self.ring = n, list(x), list(y), list(ring)

    def points(self):
        return list(zip(self.x, self.y))[:self.n]


def case(points, ring):
    return Case(len(points), [x for x, _ in points], [y for _, y in points], ring)


def drawn(r, places):
    """The loop over these places, in this order, its points numbered at random."""
    ring = r.sample(range(len(places)), len(places))
    points = dict(zip(ring, places))
    return case([points[i] for i in range(len(places))], ring)


# ---- rings ----

def every_small():
    """Every ring of up to five points of a grid of nine."""
    return [case(points, ring) for n in range(6) for points in itertools.combinations(GRID, n) for ring in itertools.permutations(range(n))]


def one_pair_equal():
    """Every row of two or three points of that grid, and of four of its first four, of which just two are equal, each with one ring."""
    found = []
    for n, places in ((2, GRID), (3, GRID), (4, GRID[:2] + GRID[3:5])):
        for i, points in enumerate(itertools.product(places, repeat=n)):
            if len(set(points)) == n - 1:
                rings = list(itertools.permutations(range(n)))
                found.append(case(points, rings[i % len(rings)]))
    return found


def places(r, n, width, height, origin=(0, 0)):
    """n different places of a rectangle, in random order."""
    found = set()
    while len(found) < min(n, (width + 1) * (height + 1)):
        found.add((origin[0] + r.randint(0, width), origin[1] + r.randint(0, height)))
    return r.sample(sorted(found), len(found))


def row(r, n):
    """n places of one line, in random order or along it."""
    dx, dy = r.choice([(1, 0), (0, 1), (1, 1), (2, -1), (-1, 3)])
    steps = r.sample(range(-40, 41), n)
    if r.random() < 0.3:
        steps.sort()
    return [(k * dx, k * dy) for k in steps]


def rows(r, n):
    """n places of two or three lines beside each other, in random order."""
    return places(r, n, 40, r.randint(1, 2))


def fold(r, n):
    """A row walked along, with some places out of their order, and one or two places beside it."""
    steps = sorted(r.sample(range(-40, 41), n - 1 - n % 2))
    for _ in range(r.randrange(4)):
        i = r.randrange(len(steps) - 1)
        steps[i], steps[i + 1] = steps[i + 1], steps[i]
    return [(k, 0) for k in steps] + [(40 - k, 40) for k in range(1 + n % 2)]


def cross(a, b):
    return a[0] * b[1] - a[1] * b[0]


def star(r, n, size):
    """A loop around a centre, of one place in each direction: it passes, unless all places stand on one side."""
    upper = lambda p: p[1] > 0 or p[1] == 0 and p[0] > 0
    found = []
    for p in places(r, n, 2 * size, 2 * size, (-size, -size)):
        if p != (0, 0) and not any(cross(p, q) == 0 and upper(p) == upper(q) for q in found):
            found.append(p)
    return sorted(found, key=cmp_to_key(lambda p, q: -1 if upper(p) and not upper(q) else 1 if upper(q) and not upper(p) else -cross(p, q)))


def delivered(oracle, boards):
    """The loops that `two_opt_moves` makes of boards, as rows of places."""
    lines = ["moves %d %s lcg %d 4096" % (len(b), " ".join("%d %d" % p for p in b), i) for i, b in enumerate(boards)]
    loops = []
    for board, line in zip(boards, asked(oracle, lines)):
        if line.startswith("ok"):
            loops.append([board[k] for k in ring_in(line)])
    return loops


def turned(r, loop):
    """The same loop from another place on."""
    k = r.randrange(len(loop))
    return loop[k:] + loop[:k]


def nudged(r, loop):
    """A loop with two neighbours or any two exchanged, with one place moved to another's neighbourhood, or to the middle of an edge."""
    loop, n = list(loop), len(loop)
    i, j = r.randrange(n), r.randrange(n)
    how = r.randrange(4)
    if how < 2:
        j = (i + 1) % n if how == 0 else j
        loop[i], loop[j] = loop[j], loop[i]
    else:
        (x, y), (u, v) = loop[j], loop[(j + 1) % n]
        place = (x + r.randint(-1, 1), y + r.randint(-1, 1)) if how == 2 else ((x + u) // 2, (y + v) // 2)
        loop[i] = loop[i] if place in loop else place
    return loop


def boards(r):
    found = []
    for i in range(900):
        n = 4 + i % 37
        found.append([lambda: places(r, n, 7, 7), lambda: places(r, n, 120, 120, (-60, -60)), lambda: rows(r, n)][i % 3]())
    for i in range(60):
        found.append(places(r, 4 + i % 37, 2 * LIMIT, 2 * LIMIT, (-LIMIT, -LIMIT)))
    return found + [places(r, 256, 60, 60), places(r, 256, 2 * LIMIT, 2 * LIMIT, (-LIMIT, -LIMIT))]


def large(oracle, r):
    """Rings of up to 40 points, and a few of 256."""
    loops = delivered(oracle, boards(r))
    loops += [star(r, 3 + i % 38, 60) for i in range(450)]
    found = [drawn(r, l) for l in loops if len(l) > 2]
    for loop in [l for l in loops if len(l) > 3]:
        found.append(drawn(r, turned(r, loop)))
        found += [drawn(r, nudged(r, turned(r, loop))) for _ in range(2)]
        found.append(drawn(r, turned(r, loop)[::-1]))
    for i in range(500):
        n = 3 + i % 38
        found += [drawn(r, places(r, n, 120, 120, (-60, -60))), drawn(r, places(r, n, 7, 7)), drawn(r, rows(r, n)), drawn(r, row(r, n))]
        found += [drawn(r, fold(r, max(n, 5))), drawn(r, fold(r, max(n, 5))[::-1])]
    for i in range(100):
        found.append(drawn(r, places(r, 3 + i % 38, 2 * LIMIT, 2 * LIMIT, (-LIMIT, -LIMIT))))
    return found


# ---- the refusals that the original does not have, and the order of all ----

SQUARE = [(0, 0), (5, 0), (5, 5), (0, 5)]


def at_the_limits():
    """Corners and middles of the allowed square, each coordinate moved by one inward or outward; first the greatest loop there is."""
    corners = [(-LIMIT, -LIMIT), (LIMIT, -LIMIT), (LIMIT, LIMIT), (-LIMIT, LIMIT)]
    found = [case(corners, range(4)), case(corners, [3, 2, 1, 0]), case(corners, [0, 2, 1, 3])]
    for points in (corners, corners[:2] + [(0, 0)] + corners[2:], corners[:3] + [(0, 0)]):
        for i, (x, y) in enumerate(points):
            for dx, dy in ((1, 0), (-1, 0), (0, 1), (0, -1)):
                moved = points[:i] + [(x + dx, y + dy)] + points[i + 1:]
                found += [case(moved, range(len(moved))), case(moved, range(len(moved))[::-1])]
    for far in (LIMIT + 1, -LIMIT - 1, 2**31 - 1, -2**31):
        for i in range(4):
            found += [case(SQUARE[:i] + [p] + SQUARE[i + 1:], range(4)) for p in ((far, 0), (0, far), (far, far))]
    return found


def no_rings():
    """Every row of up to four entries over the numbers 0 to 4, and 65,535."""
    return [case(SQUARE[:n], ring) for n in range(5) for ring in itertools.product([0, 1, 2, 3, 4, 65535], repeat=n)]


def lengths():
    """Each buffer shorter than the call needs, empty, and longer: what stands behind the first n entries is read by none."""
    found = []
    x, y = [p[0] for p in SQUARE], [p[1] for p in SQUARE]
    for n in (1, 3, 4):
        for lens in itertools.product((0, n - 1, n, n + 2), repeat=3):
            lent = [(part + [2 * LIMIT, -9])[:k] for part, k in zip((x[:n], y[:n]), lens)] + [(list(range(n)) + [65535, 0])[:lens[2]]]
            found.append(Case(n, *lent))
    return found


def many_points():
    circle = [(k, k * k) for k in range(258)]
    found = [case(circle[:n], range(n)) for n in (255, 256, 257, 258)]
    return found + [Case(n, [], [], []) for n in (256, 257, 65535)] + [Case(257, *lent) for lent in ([[1], [1], [0]], [[LIMIT + 1] * 257, [0] * 257, [0] * 257])]


def orders():
    """Rings that more than one refusal fits, so that it shows which is told: each row of faults of a square, from none to all."""
    found = []
    for short, far, twice, equal, few, line, clockwise, meeting in itertools.product((False, True), repeat=8):
        points = [(k, 0) for k in range(4)] if line else list(SQUARE)
        n = 2 if few else 4
        ring = list(range(n))
        if meeting and n == 4:
            ring[1], ring[2] = ring[2], ring[1]
        if clockwise:
            ring.reverse()
        if equal:
            points[1] = points[0]
        if far:
            points[n - 1] = (LIMIT + 1, 0)
        if twice:
            ring[n - 1] = ring[0]
        found.append(case(points[:n], ring))
        if short:
            found[-1].y.pop()
    return found


def cases(oracle):
    r = random.Random(5)
    return every_small() + one_pair_equal() + large(oracle, r) + at_the_limits() + no_rings() + lengths() + many_points() + orders()


# ---- answers ----

def ruled(c):
    """The number of a refusal that the original does not have, if one applies."""
    if c.n > 256:
        return "1"
    if min(len(c.x), len(c.y), len(c.ring)) < c.n:
        return "2"
    if any(abs(v) > LIMIT for v in c.x[:c.n] + c.y[:c.n]):
        return "3"
    if sorted(c.ring[:c.n]) != list(range(c.n)):
        return "4"
    return None


def minus(p, q):
    return p[0] - q[0], p[1] - q[1]


def meet(a1, a2, b1, b2):
    """There is a place d·a1 + s·(a2-a1) = d·b1 + t·(b2-b1), d > 0, s and t from 0 to d, that is no vertex which ends both."""
    u, v, w = minus(a2, a1), minus(b2, b1), minus(b1, a1)
    d = cross(u, v)
    if d != 0:  # one place at most
        s, t = cross(w, v), cross(w, u)
        if d < 0:
            d, s, t = -d, -s, -t
        return 0 <= s <= d and 0 <= t <= d and not (s in (0, d) and t in (0, d))
    if cross(u, w) != 0:
        return False
    # on one line: from the greater of the starts to the lesser of the ends
    start, stop = max(min(a1, a2), min(b1, b2)), min(max(a1, a2), max(b1, b2))
    return start < stop or start == stop and not (start in (a1, a2) and start in (b1, b2))


def judged(c):
    """Answered without the original: equal points, few points, the least point's turn, then the first pair that meets."""
    points = c.points()
    loop = [points[k] for k in c.ring[:c.n]]
    if len(set(points)) < c.n:
        return "5"
    if c.n < 3:
        return "6"
    k = loop.index(min(loop))
    before, behind = loop[k - 1], loop[(k + 1) % c.n]
    if cross(minus(loop[k], before), minus(behind, before)) <= 0:
        return "14"
    edges = list(zip(loop, loop[1:] + loop[:1]))
    for i, j in itertools.combinations(range(c.n), 2):
        if meet(*edges[i], *edges[j]):
            return "15:%d-%d" % (i, j)
    return "ok"


def asked(oracle, lines):
    told = subprocess.run([oracle], input="".join(l + "\n" for l in lines), capture_output=True, text=True, check=True).stdout.splitlines()
    assert len(told) == len(lines), (len(told), len(lines))
    return told


def ring_in(line):
    """The ring of an answer to `moves` or `ring`."""
    fields = dict(f.split(" ", 1) for f in line.split(" | ")[1:] if " " in f)
    return [int(k) for k in fields["ring"].split()]


def question(c):
    return " ".join([str(c.n)] + ["%d %d" % p for p in c.points()] + [str(k) for k in c.ring[:c.n]])


def told_alike(oracle, found, texts):
    """The original tells the same numbers, and a run with no picks delivers just the rings that pass, as they are."""
    for c, text, line in zip(found, texts, asked(oracle, ["validate " + question(c) for c in found])):
        told = line.split()
        assert text.split(":")[0] == (told[0] if told[0] == "ok" else REFUSAL[told[1]]), (question(c), line, text)
    runs = [(c, text) for c, text in zip(found, texts) if text not in ("5", "6")]
    for (c, text), line in zip(runs, asked(oracle, ["ring " + question(c) + " 0" for c, _ in runs])):
        assert (text == "ok") == (line.startswith("ok") and ring_in(line) == c.ring[:c.n]), (question(c), line, text)


def packed(c):
    numbers = c.x + c.y
    width, code = (1, "b") if all(-128 <= v < 128 for v in numbers) else (4, "i")
    head = struct.pack("<B4H", width, c.n, len(c.x), len(c.y), len(c.ring))
    return head + struct.pack("<%d%s" % (len(numbers), code), *numbers) + struct.pack("<%dH" % len(c.ring), *c.ring)


def main():
    found = cases(sys.argv[1])
    texts = [ruled(c) or judged(c) for c in found]
    open_to_it = [(c, text) for c, text in zip(found, texts) if ruled(c) is None]
    told_alike(sys.argv[1], *zip(*open_to_it))
    with open(os.path.join(FOLDER, "stdin"), "wb") as out:
        for c in found:
            out.write(packed(c))
        out.write(packed(case(SQUARE, range(4)))[:-1])
    lines = [texts[i:i + 24] for i in range(0, len(texts), 24)]
    if len(lines[-1]) == 24:
        lines.append([])
    lines[-1].append("bad")
    with open(os.path.join(FOLDER, "stdout"), "w") as out:
        out.write("\n".join(" ".join(line) for line in lines) + "\n")
    print(len(found), "rings,", len(open_to_it), "answered by the original;", Counter(t.split(":")[0] for t in texts))
    passing = Counter(c.n for c, t in zip(found, texts) if t == "ok")
    print("of those that pass: 40 points", passing[40], "256 points", passing[256])


main()
