#!/usr/bin/env python3
"""Makes what `checkloop_replay` is run on: crates/checkloop_replay/stdin (a row of texts with a byte 0 between them) and stdout (what `checkloop` has to print of
each; where it tells on standard error what is wrong with a text, that).

    python3 scripts/make_checkloop_replay.py

All is computed here, by rules of its own: lines by a regular expression, whole numbers of any size, and the places that two edges have in common as fractions.
"""
import math
import os
import random
import re
from collections import Counter
from fractions import Fraction

FOLDER = os.path.join(os.path.dirname(os.path.dirname(os.path.abspath(__file__))), "crates", "checkloop_replay")
LOW, HIGH = -(2**31), 2**31 - 1


# ---- the text
def pads_of(text):
    """The pads of a text, or what is wrong with its first line that does not fit."""
    pads = []
    for number, line in enumerate(text.split(b"\n"), 1):
        fields = re.findall(rb"[^ \t\r]+", re.sub(rb"#.*", b"", line))
        if not fields:
            continue
        wrong = None
        if len(fields) > 2:
            wrong = "expected X Y, a # comment or nothing"
        else:
            for field in fields + [b""] * (2 - len(fields)):
                if not re.fullmatch(rb"-?[0-9]+", field):
                    wrong = "expected X Y, a # comment or nothing"
                elif not LOW <= int(field) <= HIGH:
                    wrong = "a number does not fit 32 bits"
                if wrong:
                    break
        if wrong:
            return None, f"line {number}: {wrong}\n"
        pads.append(tuple(int(f) for f in fields))
    return pads, None


# ---- the loop
def steps(v):
    """The nearest tenth part, exact halves away from zero."""
    tenth = Fraction(abs(v), 10)
    down = math.floor(tenth)
    near = down if tenth - down < Fraction(1, 2) else down + 1
    return near if v >= 0 else -near


def minus(a, b):
    return (a[0] - b[0], a[1] - b[1])


def cross(u, v):
    return u[0] * v[1] - u[1] * v[0]


def contact(a, b, c, d):
    """How the closed segments a b and c d meet elsewhere than in an end of both: None, `crosses` or `overlaps`."""
    u, v, w = minus(b, a), minus(d, c), minus(c, a)
    if cross(u, v):
        # the one place on both lines: a + s·u and c + t·v
        s, t = Fraction(cross(w, v), cross(u, v)), Fraction(cross(w, u), cross(u, v))
        if not (0 <= s <= 1 and 0 <= t <= 1):
            return None
        return None if s in (0, 1) and t in (0, 1) else "crosses"
    if cross(w, u):
        return None
    # on one line: c and d as fractions of the way from a to b
    way = lambda p: Fraction(minus(p, a)[0] * u[0] + minus(p, a)[1] * u[1], u[0] ** 2 + u[1] ** 2)
    start, stop = max(0, min(way(c), way(d))), min(1, max(way(c), way(d)))
    return "overlaps" if start < stop else None


def turn(points):
    """Of the least point: positive where it turns counter-clockwise."""
    least = points.index(min(points))
    before, after = points[least - 1], points[(least + 1) % len(points)]
    return cross(minus(points[least], before), minus(after, points[least]))


def answer(pads):
    """What is printed of the loop through the pads."""
    n = len(pads)
    if n > 256:
        return "refused 1\n"
    points = [(steps(x), steps(y)) for x, y in pads]
    if len(set(points)) < n:
        return "refused 5\n"
    if n < 3:
        return "refused 6\n"
    if turn(points) <= 0:
        return "refused 14\n"
    edges = [(i, (i + 1) % n) for i in range(n)]
    for k, (a, b) in enumerate(edges):
        for c, d in edges[k + 1 :]:
            kind = contact(points[a], points[b], points[c], points[d])
            if kind:
                first, second = sorted((a, b)), sorted((c, d))
                return "refused 15\nedge {} {} {} edge {} {}\n".format(*first, kind, *second)
    feed = sum(math.isqrt(sum(k * k for k in minus(points[b], points[a]))) for a, b in edges)
    return f"ok {n} feed {feed}\n"


# ---- loops to try
def around(rng, n, size):
    """A loop that goes once around its middle, counter-clockwise, at changing distances."""
    turns = sorted(rng.sample(range(360 * 8), n))
    far = [rng.randint(size // 3, size) for _ in turns]
    return [(round(r * math.cos(math.radians(t / 8))), round(r * math.sin(math.radians(t / 8)))) for r, t in zip(far, turns)]


def comb(teeth):
    """Teeth of a comb, drawn up and down, and the way back: rows of pads on one line."""
    loop = []
    for k in range(teeth):
        loop += [(200 * k, 0), (200 * k, 1000), (200 * k + 100, 1000), (200 * k + 100, 0)]
    return ([(-100, -100), (200 * teeth, -100)] + [(x, y) for x, y in loop[::-1]])


def shifted(loop, k):
    return loop[k:] + loop[:k]


def turned(loop):
    """The loop in that direction in which its least point does not turn clockwise."""
    return loop[::-1] if turn(loop) < 0 else loop


SQUARE = [(0, 0), (100, 0), (100, 100), (0, 100)]
BOW_TIE = [(0, 0), (100, 0), (0, 100), (100, 100)]
FOLD = [(0, 0), (40, 0), (20, 0), (20, 30)]
TOUCH = [(0, 0), (40, 0), (40, 40), (20, 0), (0, 40)]
TOP = HIGH


def loops():
    rng = random.Random(15)
    # the small ones, from each start, in both directions, and mirrored
    for loop in (SQUARE, BOW_TIE, FOLD, TOUCH, [(0, 0), (10, 0), (0, 10)], comb(3)):
        for k in range(min(len(loop), 5)):
            yield shifted(loop, k)
            yield shifted(loop, k)[::-1]
        yield [(-x, y) for x, y in loop]
        yield [(x, -y) for x, y in loop][::-1]
    # 6: no pad, one, two; 5 comes before it
    yield []
    yield [(7, 7)]
    yield [(0, 0), (10, 10)]
    yield [(0, 0), (4, 4)]
    # 5: equal by rounding, and just not; halves away from zero
    for x in (4, 5, -4, -5, 14, 15, -14, -15):
        yield [(0, 0), (x, 0), (100, 0), (100, 100), (0, 100)]
        yield [(x, 0), (100, 0), (100, 100), (10, 0), (0, 100)]
        yield [(x, 0), (100, 0), (100, 100), (-10, 0)]
    # 14: all on one line, and just not; a corner that is flat
    yield [(0, 0), (100, 0), (200, 0)]
    yield [(0, 0), (100, 4), (200, -4)]
    yield [(0, 0), (100, 4), (200, 5)]
    yield [(0, 0), (100, -5), (200, 0)]
    yield [(0, 0), (0, 100), (0, 200), (100, 100)]
    yield [(0, 200), (0, 100), (0, 0), (100, 100)]
    yield [(0, 100), (0, 0), (100, 0), (0, 200)]
    # the ends of the range
    yield [(-TOP - 1, -TOP - 1), (TOP, -TOP - 1), (TOP, TOP), (-TOP - 1, TOP)]
    yield [(-TOP - 1, -TOP - 1), (TOP, TOP), (TOP, -TOP - 1), (-TOP - 1, TOP)]
    yield [(-TOP - 1, 0), (-TOP, 0), (TOP, TOP)]
    yield [(-TOP, -TOP), (TOP, -TOP), (TOP, TOP), (0, -TOP + 1), (-TOP, TOP)]
    # edges on one line: apart, end to end, one within the other, the same
    yield [(0, 0), (100, 0), (100, 50), (200, 50), (200, 0), (300, 0), (300, 100), (0, 100)]
    yield [(0, 0), (100, 0), (100, 50), (50, 50), (50, 0), (-50, 0), (-50, -50), (300, -50), (300, 100), (0, 100)]
    yield [(0, 0), (300, 0), (300, 50), (200, 50), (200, 0), (100, 0), (100, 100), (0, 100)]
    yield [(0, 0), (100, 0), (200, 0), (100, 10), (150, 0), (50, 100)]
    # a vertex on another edge, and on another line only
    yield [(0, 0), (200, 0), (200, 100), (100, 0), (0, 100)]
    yield [(0, 0), (200, 0), (200, 100), (100, 10), (0, 100)]
    yield [(0, 0), (200, 0), (200, 100), (100, 4), (0, 100)]
    # the feed: squares one below and one above a square
    yield [(0, 0), (30, 0), (30, 40)]
    yield [(0, 0), (20, -20), (20, 20)]
    yield [(0, 0), (30, -10), (40, 30)]
    # many pads: 255, 256, 257 and more
    for n in (255, 256, 257, 300):
        yield around(rng, n, 9000000)
    twisted = around(rng, 256, 9000000)
    twisted[100], twisted[200] = twisted[200], twisted[100]
    yield twisted
    yield [(10 * k, 0) for k in range(255)] + [(0, 10)]
    yield [(10 * k, 0) for k in range(256)] + [(0, 10)]
    # simple loops, the same backwards, and with two pads exchanged
    for n in (3, 4, 5, 6, 8, 12, 20, 40, 80):
        for _ in range(3):
            loop = shifted(around(rng, n, 40 * n * n), rng.randrange(n))
            yield loop
            yield loop[::-1]
            i, j = rng.sample(range(n), 2)
            loop[i], loop[j] = loop[j], loop[i]
            yield loop
    # few places for many edges: touches and overlaps abound
    for _ in range(160):
        n = rng.randint(3, 7)
        cells = rng.sample([(x, y) for x in range(4) for y in range(4)], n)
        yield turned([(10 * x + rng.randint(-4, 4), 10 * y + rng.randint(-4, 4)) for x, y in cells])
    # pads along a bus bar, and one or two beside it
    for _ in range(40):
        n = rng.randint(2, 6)
        row = [(10 * x, 0) for x in rng.sample(range(12), n)]
        yield turned(shifted(row + [(10 * rng.randrange(12), 10 * rng.choice([-1, 1, 2])) for _ in range(rng.randint(1, 2))], rng.randrange(n)))


def plain(loop):
    return "".join(f"{x} {y}\n" for x, y in loop).encode()


def dressed(rng, loop):
    """The same with comments, blanks, tabs, carriage returns and zeros in front, and sometimes no end of the last line."""
    lines = ["# a loop"] if rng.random() < 0.5 else []
    for x, y in loop:
        if rng.random() < 0.2:
            lines.append(rng.choice(["", "  ", "\t", "# pick 7", "  # 1 2 3", "\r"]))
        sign = lambda v: ("-" if v < 0 or v == 0 and rng.random() < 0.1 else "") + "0" * rng.choice([0, 0, 0, 2, 12]) + str(abs(v))
        gap = lambda least: rng.choice([" ", "\t", "  ", " \t "]) * least if least else rng.choice(["", "", " ", "\t"])
        lines.append(gap(0) + sign(x) + gap(1) + sign(y) + gap(0) + rng.choice(["", "", "\r", "# here", " #"]))
    return ("\n".join(lines) + rng.choice(["", "\n", "\n\n"])).encode()


def faulty():
    square = plain(SQUARE)
    for line in (
        b"5", b"x", b"1 2 3", b"1 2 3 4", b"1,2", b"1 2,", b"1.5 2", b"+1 2", b"1 +2", b"- 2", b"1 -", b"--1 2", b"1- 2", b"0x1 2", b"1e3 2", b"\xc3\xa9 1", b"\xff",
        b"pick 7", b"pick", b"pick 7 8", b"picks 1 2", b"picks 1", b"pick 4294967296", b"picks 1 99999999999", b"PICK 7", b"1 pick", b"1 2 pick 7", b"1\x0b2", b"1;2",
        b"2147483648 0", b"0 2147483648", b"-2147483649 0", b"0 -2147483649", b"99999999999999999999999999 0", b"0 -99999999999999999999999999", b"x 2147483648",
        b"2147483648 x", b"2147483648", b"2147483648 0 0", b"4294967296 0", b"10000000000 0", b"18446744073709551616 0",
    ):
        yield line
        yield square + line
        yield square + b"# so far so good\n" + line + b"\n" + square
    # two of them: the first is told
    yield square + b"pick 7\n2147483648 0\n"
    yield b"\n\n2147483648 0\npick 7\n"
    # behind the 257th pad too
    yield plain([(10 * k, 0) for k in range(300)]) + b"pick 7\n"
    # no pads: nothing at all, and comments
    yield b""
    yield b"\n"
    yield b"# nothing\n   \n\t#"
    yield b"\r"


def main():
    rng = random.Random(7)
    texts = []
    for loop in loops():
        texts.append(plain(loop) if rng.random() < 0.5 else dressed(rng, loop))
    texts += faulty()
    told = []
    for text in texts:
        pads, wrong = pads_of(text)
        told.append(wrong if wrong else answer(pads))
    with open(os.path.join(FOLDER, "stdin"), "wb") as i, open(os.path.join(FOLDER, "stdout"), "w") as o:
        i.write(b"\0".join(texts))
        o.write("".join(told))
    kinds = Counter(" ".join(re.findall(r"refused \d+|ok|crosses|overlaps|expected|number", t)) for t in told)
    print(len(texts), "texts:", dict(sorted(kinds.items())))


main()
