#!/usr/bin/env python3
"""Makes what `replay` is run on: crates/replay/stdin (the cases) and stdout (the answers).

    python3 scripts/make_replay.py ORACLE

ORACLE is the original Rust, built as a program that answers one question on each line:
    moves N x y .. K c1 .. cK                two_opt_moves of these points and picks
    ring  N x y .. r0 .. rN-1 K c1 .. cK     resolve_self_intersections from that ring
with `ok | moves M | cross C | left 0 | ring .. | dense`, `out | .. | left L | ring .. | dense a-b c-d, ..` where the picks are used
up, or `error DuplicatePoints`, `InsufficientVertices` or `CoLinearViolation`. It is built from the unchanged sources by
    mkdir -p standin/src/algorithms/polygonization standin/src/algorithms/intersection && sh build.sh OUT SOURCES
in a copy of the oracle's folder, and is then OUT/oracle.

It is asked whatever it has an answer to. What the project adds is answered by rule (`ruled`): more than 256 points or 1,000,000 picks, coordinates
outside the limits, a ring that does not name each point once, and in `resolve_self_intersections` equal points and fewer than three. It keeps no
ages: those of the records left are the definition's (machine.py), whose ring, moves and records must be its answer. How many records name each edge is
counted here. It keeps no tree of boxes either: that is built here from nothing over its ring, for up to SMALL points.

The format is told in crates/replay/src/main.rt. The last case is cut off.
"""
import itertools
import os
import random
import struct
import subprocess
import sys
from collections import Counter

from machine import ran

LIMIT = 1_000_000_000
MOST_PICKS = 1_000_000
SMALL = 24
FOLDER = os.path.join(os.path.dirname(os.path.dirname(os.path.abspath(__file__))), "crates", "replay")
REFUSAL = {"DuplicatePoints": 5, "InsufficientVertices": 6, "CoLinearViolation": 7}
MOVES, RING = 0, 1


class Case:
    def __init__(self, kind, points, ring, picks):
        self.kind, self.points, self.ring, self.picks, self.again = kind, list(points), list(ring), list(picks), False


def moves(points, picks):
    return Case(MOVES, points, (), picks)


def ring(points, order, picks):
    return Case(RING, points, order, picks)


def again(case, times):
    """The same case with its one pick made so often."""
    case.picks, case.again = case.picks * times, True
    return case


def lcg(seed, count):
    """Picks that look random and use all 32 bits."""
    out = []
    for _ in range(count):
        seed = (seed * 1664525 + 1013904223) % 2**32
        out.append((seed >> 16 | seed << 16) % 2**32)
    return out


def shuffled(r, items):
    items = list(items)
    r.shuffle(items)
    return items


# ---- boards ----

def uniform(r, n, size):
    found = set()
    while len(found) < n:
        found.add((r.randrange(-size, size + 1), r.randrange(-size, size + 1)))
    return shuffled(r, sorted(found))


def row(r, n, beside, step=(3, 2)):
    """n points, all on one line but `beside`, which stand on both sides of it."""
    on = [(k * step[0], k * step[1]) for k in range(n - beside)]
    off = [(k * step[0] + step[1] * (-1)**k * (k + 1), k * step[1] - step[0] * (-1)**k * (k + 1)) for k in range(beside)]
    return shuffled(r, on + off)


def two_rows(r, n):
    return shuffled(r, [(k, 0) for k in range(n // 2)] + [(2 * k, 1) for k in range(n - n // 2)])


def folded(n):
    """A comb along a line: out by every other point and back, with one point beside it, so that every edge retraces others."""
    out = [(2 * k, 0) for k in range(n // 2)]
    back = [(2 * k + 1, 0) for k in range(n - 1 - n // 2)]
    return out + back[::-1] + [(n, n)]


def far(r, n):
    """Corners and edge points of the allowed square, and points next to them."""
    coordinates = (-LIMIT, -LIMIT + 1, -1, 0, 1, LIMIT - 1, LIMIT)
    return r.sample([(x, y) for x in coordinates for y in coordinates], n)


def far_row(r, n):
    """A row that reaches from corner to corner of the allowed square, with two other corners."""
    on = [(-LIMIT + k * (2 * LIMIT // (n - 3)),) * 2 for k in range(n - 3)] + [(LIMIT, LIMIT)]
    return shuffled(r, dict.fromkeys(on + [(-LIMIT, LIMIT), (LIMIT, -LIMIT)]))


# ---- cases ----

def told():
    """Boards of the specification, and boards that catch what those do not."""
    seven = [(12, 0), (1, 0), (3, -5), (0, 0), (10, 0), (2, 0), (6, 5)]
    square = [(0, 0), (10, 10), (10, 0), (0, 10)]
    hat = [(0, 0), (4, 0), (2, 0), (2, 3)]
    found = [moves([(0, 0), (1, 0), (2, 0)], []), moves([], []), moves([(5, 5)] * 2, []), moves([(5, 5), (6, 5)], [])]
    found += [moves([(0, 0), (0, 1), (1, 0)], []), moves(square, []), moves(square, [7])]
    found += [moves(hat, []), moves(hat, [0]), moves(hat, [1]), moves(seven, []), moves(seven, [0])]
    found += [moves([(1, 0), (4, 0), (5, -5), (6, 0), (3, 0), (0, 0), (1, 5)], [0])]
    found += [moves([(0, 3), (0, 0), (0, 1), (1, 0), (0, 2)], [0]), moves([(1, 0), (0, 3), (0, 0), (0, 1), (0, 2)], [0])]
    found += [moves([(1, 1), (0, 0), (0, 2), (1, 0), (0, 1)], [0]), moves([(0, 0), (0, 1), (1, 0), (2, 0), (3, 0)], [1])]
    found += [moves([(0, 0), (0, 1), (2, 0), (1, 0), (1, 1), (2, 1)], [1])]
    return found


def every_order():
    """Every order of four points of a grid of nine, every ring of six points on two rows, every ring of a row with one beside it."""
    grid = [(x, y) for x in range(3) for y in range(3)]
    found = [moves(p, lcg(i, i % 4)) for i, p in enumerate(itertools.permutations(grid, 4))]
    for points in ([(x, y) for x in range(3) for y in range(2)], [(x, 0) for x in range(5)] + [(2, 1)]):
        found += [ring(points, order, lcg(i, i % 6)) for i, order in enumerate(itertools.permutations(range(6)))]
    return found


def both(r, points, picks):
    order = shuffled(r, range(len(points)))
    return [moves(points, picks), ring(points, order, picks)]


def small(r):
    """Boards of 3 to 16 points of every make, with no picks, few and plenty."""
    found = []
    for i in range(600):
        n = 3 + i % 14
        points = [
            lambda: uniform(r, n, 3),
            lambda: uniform(r, n, LIMIT),
            lambda: row(r, n, 1 + i % 3),
            lambda: two_rows(r, n),
            lambda: folded(n),
            lambda: far(r, n),
            lambda: row(r, n, 1, (0, 1)),
            lambda: far_row(r, max(n, 5)),
        ][i % 8]()
        found += both(r, points, lcg(r.getrandbits(32), (0, 1, 3, 200)[r.randrange(4)]))
    return found


def beginnings(r):
    """One case for every beginning of a pick list."""
    found = []
    for i in range(40):
        n = 5 + i % 9
        points = [uniform(r, n, 4), row(r, n, 2), two_rows(r, n), folded(n)][i % 4]
        picks = lcg(r.getrandbits(32), 2 * n)
        order = shuffled(r, range(n))
        for k in range(len(picks) + 1):
            found.append(moves(points, picks[:k]) if i % 2 else ring(points, order, picks[:k]))
    return found


def up_to_the_loop(case):
    """One case for every beginning of its pick list, from no pick to the first that delivers the loop, so that the tree is compared after every pick."""
    machine = played(case)
    assert not machine.store.dense, (case.points, case.ring)
    return [Case(case.kind, case.points, case.ring, case.picks[:k]) for k in range(machine.moves + 1)]


def to_the_loop(r):
    """A dozen boards of 4 to 12 points and two of 18 and 24, each in its own order and from a ring, pick by pick until the loop is delivered. The code
    makes up to 8 leaves anew as a whole, and the root's box never changes: so only past 16 points a node above them is seen to follow a pick."""
    boards = [uniform(r, 4, 1), uniform(r, 8, 3), uniform(r, 12, 4), row(r, 5, 1), row(r, 8, 2), row(r, 12, 3), two_rows(r, 7), two_rows(r, 12)]
    boards += [folded(9), folded(12), far(r, 6), far(r, 11), uniform(r, 18, 4), row(r, 24, 2)]
    found = []
    for points in boards:
        for case in both(r, points, lcg(r.getrandbits(32), 200)):
            found += up_to_the_loop(case)
    return found


def large(r):
    """Boards of 48, 64, 128 and 256 points: plenty of picks, and few."""
    found = []
    for n, times in ((48, 12), (64, 6), (128, 3), (256, 2)):
        for _ in range(times):
            for points in (uniform(r, n, LIMIT), uniform(r, n, n // 4), row(r, n, 2), two_rows(r, n), folded(n), far_row(r, n)):
                found += both(r, points, lcg(r.getrandbits(32), min(4096, 16 * n)))
        found += both(r, uniform(r, n, LIMIT), lcg(r.getrandbits(32), n))
        found.append(moves(row(r, n, 2), lcg(r.getrandbits(32), n // 2)))
    found.append(moves(uniform(r, 256, LIMIT), []))
    return found


def picks_of_any_value(r):
    """The least and the greatest picks, and as many as a case may have."""
    found = []
    for value in (0, 1, 2, 65535, 65536, 2**31 - 1, 2**31, 2**32 - 1):
        for points in (uniform(r, 9, 5), row(r, 9, 2), uniform(r, 24, LIMIT)):
            found += both(r, points, [value] * 60)
    found += both(r, uniform(r, 48, LIMIT), lcg(9, 4096))
    return found


def many_picks():
    """As many picks as a run may have, and one more; then the other refusals with as many."""
    seven = [(12, 0), (1, 0), (3, -5), (0, 0), (10, 0), (2, 0), (6, 5)]
    found = []
    for times in (MOST_PICKS, MOST_PICKS + 1):
        found += [again(moves(seven, [7]), times), again(ring(seven, range(7), [7]), times)]
        found += [again(moves([(LIMIT + 1, 0)] + seven, [7]), times), again(moves([(k, 0) for k in range(257)], [7]), times)]
        found += [again(moves(seven + seven, [7]), times), again(ring(seven, [0] * 7, [7]), times)]
    return found


def refused(r):
    """Each refusal by itself, and before the ones with greater numbers."""
    found = []
    for n in (257, 258, 1000, 20000):
        points = [(k % 7, k % 7) for k in range(n)]
        found += [moves(points, [1, 2, 3]), ring(points, [0] * n, []), ring(points, range(n), lcg(n, 4096))]
    for n in (1, 2, 3, 4, 9):
        board = uniform(r, n, 6)
        orders = [list(range(n)), [0] * n, [n] + list(range(n - 1)), [65535] * n, [65536] + list(range(1, n))]
        orders += [[2**32 - 1] * n, list(range(n - 1)) + [2**16 + n - 1], [2**31] * n]
        for value in (LIMIT + 1, -LIMIT - 1, 2**31 - 1, -2**31):
            for k in range(n):
                for p in ((value, board[k][1]), (board[k][0], value)):
                    outside = board[:k] + [p] + board[k + 1:]
                    found += [moves(outside, [0]), ring(outside, orders[k % 8], [0])]
        for order in orders:
            found += [ring(board, order, lcg(n, 9)), ring([board[0]] * n, order, [1]), ring([(k, k) for k in range(n)], order, [])]
        found += [moves([board[0]] * n, [1]), moves([(k, 2 * k) for k in range(n)], [1]), moves(board + board[:1], [])]
    found += [ring([], [], []), ring([], [], [5]), moves([], [5])]
    found += [moves([(k, k) for k in range(256)], [3]), moves([(k, k) for k in range(255)] + [(0, 1)], [])]
    return found


def cases():
    r = random.Random(20)
    found = told() + every_order() + small(r) + beginnings(r) + large(r) + picks_of_any_value(r) + refused(r) + many_picks()
    return found + to_the_loop(r)


# ---- answers ----

def ruled(case):
    """The refusal that the project adds to the Rust, or none."""
    n = len(case.points)
    if n > 256:
        return 1
    if len(case.picks) > MOST_PICKS:
        return 19
    if any(abs(v) > LIMIT for p in case.points for v in p):
        return 3
    if case.kind == MOVES:
        return None
    if sorted(case.ring) != list(range(n)):
        return 4
    if len(set(case.points)) < n:
        return 5
    return 6 if n < 3 else None


def question(case):
    words = [["moves", "ring"][case.kind], len(case.points)]
    words += [v for p in case.points for v in p] + case.ring + [len(case.picks)] + case.picks
    return " ".join(map(str, words)) + "\n"


def played(case):
    return ran(case.points, case.ring or range(len(case.points)), case.picks)


def tree_of(edges):
    """The numbers of a tree over these edges: the box of all their ends, then the tree of the first half, then that of the second."""
    xs, ys = zip(*itertools.chain(*edges))
    box = [min(xs), min(ys), max(xs), max(ys)]
    half = len(edges) // 2
    return box + tree_of(edges[:half]) + tree_of(edges[half:]) if half else box


def tree_line(case, order):
    """The line of the tree over the ring that the original told."""
    if len(order) > SMALL:
        return ""
    points = [case.points[k] for k in order]
    numbers = tree_of(list(zip(points, points[1:] + points[:1])))
    assert len(numbers) == 4 * (2 * len(order) - 1)
    return " ".join(["tree", *map(str, numbers)]) + "\n"


def state_lines(case, told):
    """The lines of ages and of counts by edge behind what the original told of a run that used up its picks."""
    machine = played(case)
    records = ["record %d %d %d %d" % (*e, *f) for e, f, _, _ in machine.store.dense]
    state = ["refused 8 moves %d left %d" % (machine.moves, len(records)), " ".join(["ring", *map(str, machine.ring)])]
    assert state + records == told.splitlines(), (case.points, case.ring, case.picks)
    ages = [age for _, _, age, _ in machine.store.dense]
    named = Counter(g for e, f, _, _ in machine.store.dense for g in (e, f))
    tangles = [named[e] for e in machine.edges()]
    assert sum(tangles) == 2 * len(records)
    return " ".join(["ages", *map(str, ages)]) + "\n" + " ".join(["tangles", *map(str, tangles)]) + "\n"


def answer(case, line):
    parts = [p.strip() for p in line.split("|")]
    if parts[0].startswith("error"):
        return "refused %d\n" % REFUSAL[parts[0].split()[1]]
    field = dict((p + " ").split(" ", 1) for p in parts[1:])
    named = field["ring"].split()
    order = " ".join(["ring", *named]) + "\n"
    tree = tree_line(case, list(map(int, named)))
    if parts[0] == "ok":
        return "ok moves %d cross %d\n" % (int(field["moves"]), int(field["cross"])) + order + tree
    assert parts[0] == "out", line
    records = "".join("record %s\n" % " ".join(p.replace("-", " ").split()) for p in field["dense"].split(","))
    told = "refused 8 moves %d left %d\n" % (int(field["moves"]), int(field["left"])) + order + records
    return told + state_lines(case, told) + tree


def encode(case):
    n, k = len(case.points), len(case.picks)
    kind, picks = (case.kind + 2, case.picks[:1]) if case.again else (case.kind, case.picks)
    coordinates = [v for p in case.points for v in p]
    return struct.pack("<III%di%dI%dI" % (2 * n, len(case.ring), len(picks)), kind, n, k, *coordinates, *case.ring, *picks)


def main():
    found = cases()
    asked = [c for c in found if ruled(c) is None]
    said = subprocess.run([sys.argv[1]], input="".join(map(question, asked)), capture_output=True, text=True, check=True)
    lines = said.stdout.splitlines()
    assert len(lines) == len(asked), (len(lines), len(asked))
    told_lines = iter(lines)
    with open(os.path.join(FOLDER, "stdin"), "wb") as out:
        out.write(b"".join(map(encode, found)))
        out.write(encode(moves([(0, 0), (1, 0), (0, 1)], [1, 2]))[:-1])
    with open(os.path.join(FOLDER, "stdout"), "w") as out:
        for case in found:
            number = ruled(case)
            out.write(answer(case, next(told_lines)) if number is None else "refused %d\n" % number)
        out.write("bad case %d\n" % (len(found) + 1))
    kinds = [sum(c.kind == k for c in asked) for k in (MOVES, RING)]
    ends = [sum(l.startswith(w) for l in lines) for w in ("ok", "out", "error")]
    print(len(found), "cases;", len({(tuple(c.points), tuple(c.ring)) for c in found}), "different starts")
    print("answered by the original: %d two_opt_moves, %d resolve_self_intersections" % tuple(kinds))
    print("delivered %d, picks used up %d, refused %d; refused by rule %d" % (*ends, len(found) - len(asked)))


main()
