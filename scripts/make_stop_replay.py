#!/usr/bin/env python3
"""Makes what `stop_replay` is run on, crates/stop_replay/stdin (the cases) and stdout (the answers), and the examples of `stopjob` and `takeup`.

    python3 scripts/make_stop_replay.py

The original cannot stop a run. Runs are made by the plain machine (machine.py), which make_replay.py compares with the original's answers. What an image is, which
are refused, and with which number, is written here from the rules: which pairs meet is searched for in whole numbers.

The format is told in crates/stop_replay/src/main.rt.
"""
import itertools
import math
import os
import random
import struct
from collections import Counter

from machine import Machine, Store, turn

LIMIT = 1_000_000_000
CRATES = os.path.join(os.path.dirname(os.path.dirname(os.path.abspath(__file__))), "crates")
RUN, INPUT, IMAGE, STATE = range(4)


# ---- boards ----

def places(r, n, width, height):
    """n different places of a rectangle, in random order."""
    return r.sample([(x, y) for x in range(width + 1) for y in range(height + 1)], n)


def rows(r, n):
    """n places of two or three lines beside each other, in random order."""
    dx, dy = r.choice([(1, 0), (0, 1), (1, 1), (2, -1), (-1, 3)])
    return [(k * dx, k * dy + j) for k, j in places(r, n, 7, r.randint(1, 2))]


def fold(r, n):
    """A row walked along, with some places out of their order, and one or two places beside it."""
    steps = sorted(r.sample(range(-20, 21), n - 1 - n % 2))
    for _ in range(r.randrange(1, 5)):
        i, j = r.randrange(len(steps)), r.randrange(len(steps))
        steps[i], steps[j] = steps[j], steps[i]
    return [(k, 0) for k in steps] + [(20 - k, 20) for k in range(1 + n % 2)]


def lattice(r, n):
    """n places of a small square grid, whose edges have few directions, all repeated."""
    side = max(2, math.isqrt(n))
    return places(r, n, side, side)


def on_line(points):
    return all(turn(points[0], points[1], p) == 0 for p in points)


def boards(r):
    for i in range(520):
        n = 4 + i % 9
        points = [lambda: places(r, n, 30, 30), lambda: lattice(r, n), lambda: rows(r, n), lambda: fold(r, n)][i // 9 % 4]()
        if not on_line(points):
            yield points


# ---- runs ----

def finished(points, ring):
    """The loop reversed whole, if its least point turns clockwise."""
    k = min(range(len(ring)), key=lambda i: points[ring[i]])
    at = lambda i: points[ring[i % len(ring)]]
    return ring[::-1] if turn(at(k - 1), at(k), at(k + 1)) < 0 else list(ring)


class Run:
    """A run that is stopped when its picks are used up: its ring, records with their ages in dense order, moves, and records at the start."""

    def __init__(self, machine, picks):
        start = len(machine.store.dense)
        for pick in picks:
            if not machine.store.dense:
                break
            machine.step(pick)
        self.points, self.moves, self.cross = machine.points, machine.moves, start
        self.records = [(*a, *b, age) for a, b, age, _ in machine.store.dense]
        self.ring = list(machine.ring) if self.records else finished(machine.points, machine.ring)

    def line(self):
        if self.records:
            return f"refused 8 moves {self.moves} left {len(self.records)}"
        return f"ok moves {self.moves} cross {self.cross}"

    def text(self):
        """What is printed of it."""
        edges = list(zip(self.ring, self.ring[1:] + self.ring[:1]))
        if not self.records:
            feed = sum(math.isqrt(sum((p - q) ** 2 for p, q in zip(self.points[a], self.points[b]))) for a, b in edges)
            head = f"ok {len(self.ring)} moves {self.moves} cross {self.cross} feed {feed}\n"
            return head + "".join("%d %d\n" % self.points[k] for k in self.ring)
        named = Counter(e for a, b, c, d, _ in self.records for e in ((a, b), (c, d)))
        counts = [(min(e), max(e), named[min(e), max(e)]) for e in edges]
        lines = "".join("edge %d %d %d\n" % c for c in counts)
        return f"refused 8 left {len(self.records)}\n{lines}total {sum(c for _, _, c in counts)}\n"


def from_start(points, picks):
    return Run(Machine(points, range(len(points))), picks)


def taken_up(points, ring, records, picks):
    """The run that goes on from these records, (a, b, c, d, age) in dense order: a place is a slot, and the next age is their count."""
    machine = Machine.__new__(Machine)
    machine.points, machine.ring, machine.n, machine.store, machine.moves = points, list(ring), len(ring), Store(), 0
    store = machine.store
    store.dense = [[(a, b), (c, d), age, k] for k, (a, b, c, d, age) in enumerate(records)]
    store.pushes = len(records)
    for record in sorted(store.dense, key=lambda r: r[2]):
        for e in record[:2]:
            store.named.setdefault(e, []).append(record)
    return Run(machine, picks)


# ---- images ----

def renumbered(records):
    """The ages from 0 by age."""
    order = sorted(age for *_, age in records)
    return [(*ends, order.index(age)) for *ends, age in records]


class Image:
    """An image by its parts, so that each can be damaged. The named words override what would be written."""

    def __init__(self, points, ring, records, width=12):
        self.points, self.ring, self.records, self.width = list(points), list(ring), list(records), width
        self.words, self.gaps, self.order, self.pad, self.cut = {}, [0, 0, 0], (0, 1, 2), 0, 0

    def bytes(self):
        areas = [
            b"".join(struct.pack("<ii", *p) for p in self.points),
            struct.pack(f"<{len(self.ring)}H", *self.ring),
            b"".join(struct.pack("<4HI", *r)[:self.width] for r in self.records),
        ]
        body, starts = b"", {}
        for k in self.order:
            body += bytes(171 for _ in range(self.gaps[k]))
            starts[k] = 28 + len(body)
            body += areas[k]
        body += bytes(205 for _ in range(self.pad))
        body = body[:len(body) - self.cut]
        words = [len(self.points), starts[0], starts[1], len(self.records), starts[2], self.width, 28 + len(body)]
        for k, word in self.words.items():
            words[k] = word(words[k]) % 2**32
        return struct.pack("<7I", *words) + body


def image_of(run):
    return Image(run.points, run.ring, renumbered(run.records))


def minus(p, q):
    return p[0] - q[0], p[1] - q[1]


def cross(a, b):
    return a[0] * b[1] - a[1] * b[0]


def meet(a1, a2, b1, b2):
    """There is a place d·a1 + s·(a2-a1) = d·b1 + t·(b2-b1), d > 0, s and t from 0 to d, that is no vertex which ends both."""
    u, v, w = minus(a2, a1), minus(b2, b1), minus(b1, a1)
    d = cross(u, v)
    if d != 0:  # one place at most
        s, t = cross(w, v), cross(w, u)
        if d < 0:
            d, s, t = -d, -s, -t
        return 0 <= s <= d and 0 <= t <= d and not (s in (0, d) and t in (0, d))
    if cross(u, w) != 0:
        return False
    # on one line: from the greater of the starts to the lesser of the ends
    start, stop = max(min(a1, a2), min(b1, b2)), min(max(a1, a2), max(b1, b2))
    return start < stop or start == stop and not (start in (a1, a2) and start in (b1, b2))


def meeting(points, ring):
    """The pairs of different ring edges that meet, each edge by its two point numbers, the smaller first, and the smaller edge first."""
    edges = sorted(tuple(sorted(e)) for e in zip(ring, ring[1:] + ring[:1]))
    return {(*e, *f) for e, f in itertools.combinations(edges, 2) if meet(points[e[0]], points[e[1]], points[f[0]], points[f[1]])}


def state_refusal(points, ring, pairs, met=meeting):
    """The number of the first of the checks 3 to 7 and 21 that refuses points, ring and the pairs of the records, or 0. `pairs` is None where 21 refuses them."""
    n = len(points)
    if any(abs(v) > LIMIT for p in points for v in p):
        return 3
    if sorted(ring) != list(range(n)):
        return 4
    if len(set(points)) < n:
        return 5
    if n < 3:
        return 6
    if on_line(points):
        return 7
    if pairs is None:
        return 21
    counts = Counter(pairs)
    if set(counts) != met(points, ring) or any(k > 2 for k in counts.values()):
        return 21
    return 0


class Read:
    """An image that is read: its refusal, else its points, ring and records."""

    def __init__(self, b):
        self.refusal = self.read(b)

    def read(self, b):
        if len(b) < 28:
            return 20
        n, at, ring_at, count, records_at, width, total = struct.unpack_from("<7I", b)
        if total != len(b) or width not in (8, 12):
            return 20
        if any(start < 28 or start + size > total for start, size in ((at, 8 * n), (ring_at, 2 * n), (records_at, width * count))):
            return 20
        if n > 256:
            return 1
        self.points = [struct.unpack_from("<ii", b, at + 8 * i) for i in range(n)]
        self.ring = list(struct.unpack_from(f"<{n}H", b, ring_at))
        starts = [records_at + width * k for k in range(count)]
        self.records = [struct.unpack_from("<4H", b, s) + (struct.unpack_from("<I", b, s + 8) if width == 12 else (k,)) for k, s in enumerate(starts)]
        ages = sorted(age for *_, age in self.records)
        pairs = [r[:4] for r in self.records] if ages == list(range(count)) else None
        return state_refusal(self.points, self.ring, pairs)


def as_input(picks, image):
    return struct.pack(f"<{1 + len(picks)}I", len(picks), *picks) + image


def texts(b):
    """What `takeup` prints of an input, and the line of the image that is saved then."""
    count = struct.unpack_from("<I", b)[0] if len(b) >= 4 else 0
    if len(b) < 4 + 4 * count:
        return "refused 20\n"
    picks, read = struct.unpack_from(f"<{count}I", b, 4), Read(b[4 + 4 * count:])
    if read.refusal:
        return f"refused {read.refusal}\n"
    run = taken_up(read.points, read.ring, read.records, picks)
    again = image_of(run).bytes()
    return f"{run.text()}image {len(again)} {hashed(again):016x}\n"


def hashed(b, h=0xcbf29ce484222325):
    for byte in b:
        h = (h ^ byte) * 0x100000001b3 % 2**64
    return h


# ---- damage ----

def word(k, change):
    def damaged(image):
        image.words[k] = change
    return damaged


def part(change):
    return change


def swap(items, i, j):
    items[i], items[j] = items[j], items[i]


def replaced(records, k, **fields):
    names = ("a", "b", "c", "d", "age")
    records[k] = tuple(fields.get(name, v) for name, v in zip(names, records[k]))


def damages(r, image):
    """Changes to an image with at least two records, each alone."""
    n, count = len(image.points), len(image.records)
    i, j = r.sample(range(count), 2)
    a, b = image.records[i], image.records[j]
    # every word: off by one, none, huge
    for k in range(7):
        for change in (lambda w: w + 1, lambda w: w - 1, lambda w: 0, lambda w: 2**32 - 1, lambda w: 2**31):
            yield word(k, change)
    yield word(5, lambda w: 8)
    # areas: before the header's end, by one byte off, past the end, over one another, with gaps, in another order
    for k in (1, 2, 4):
        for start in (0, 27, 28, 29):
            yield word(k, lambda w, start=start: start)
    for k in range(3):
        yield part(lambda m, k=k: m.gaps.__setitem__(k, 3))
    yield part(lambda m: setattr(m, "gaps", [1, 2, 5]))
    for order in itertools.permutations(range(3)):
        yield part(lambda m, order=order: setattr(m, "order", order))
    # the file: longer, shorter; by its own word or not
    for k in (1, 12):
        yield part(lambda m, k=k: setattr(m, "pad", k))
        yield part(lambda m, k=k: setattr(m, "cut", k))

        def told_cut(m, k=k):
            m.cut = k
            m.words[6] = lambda w: w + k
        yield told_cut
    # ages: swapped (taken up otherwise), repeated, missing, too great
    yield part(lambda m: (replaced(m.records, i, age=b[4]), replaced(m.records, j, age=a[4])))
    yield part(lambda m: replaced(m.records, i, age=b[4]))
    yield part(lambda m: replaced(m.records, i, age=count))
    yield part(lambda m: replaced(m.records, i, age=2**32 - 1))
    yield part(lambda m: replaced(m.records, i, age=a[4] + 65536))
    yield part(lambda m: [replaced(m.records, k, age=t[4] + 1) for k, t in enumerate(list(m.records))])
    yield part(lambda m: [replaced(m.records, k, age=count - 1 - t[4]) for k, t in enumerate(list(m.records))])
    # records: in another order, one missing, one twice, one thrice, one for another
    yield part(lambda m: swap(m.records, i, j))
    yield part(lambda m: m.records.reverse())
    yield part(lambda m: m.records.pop(i))
    yield part(lambda m: m.records.pop())

    def without_last_age(m):
        k = max(range(count), key=lambda k: m.records[k][4])
        m.records.pop(k)
    yield without_last_age
    yield part(lambda m: m.records.append((*a[:4], count)))
    yield part(lambda m: m.records.insert(0, (*a[:4], count)))
    yield part(lambda m: m.records.extend([(*a[:4], count), (*a[:4], count + 1)]))
    yield part(lambda m: m.records.__setitem__(i, (*b[:4], a[4])))
    yield part(lambda m: m.records.clear())
    # a record's edges: its points or its edges in the other order, another point, no point, an edge with itself
    yield part(lambda m: replaced(m.records, i, a=a[2], b=a[3], c=a[0], d=a[1]))
    yield part(lambda m: replaced(m.records, i, a=a[1], b=a[0]))
    yield part(lambda m: replaced(m.records, i, c=a[3], d=a[2]))
    yield part(lambda m: replaced(m.records, i, a=(a[0] + 1) % n))
    yield part(lambda m: replaced(m.records, i, d=n))
    yield part(lambda m: replaced(m.records, i, d=65535))
    yield part(lambda m: replaced(m.records, i, c=a[0], d=a[1]))
    yield part(lambda m: replaced(m.records, i, a=0, b=0, c=0, d=0))
    # the ring: another start, backwards, two entries swapped, one repeated, one that is no point
    yield part(lambda m: m.ring.append(m.ring.pop(0)))
    yield part(lambda m: m.ring.reverse())
    yield part(lambda m: swap(m.ring, 0, n // 2))
    yield part(lambda m: m.ring.__setitem__(0, m.ring[1]))
    yield part(lambda m: m.ring.__setitem__(n - 1, n))
    yield part(lambda m: m.ring.__setitem__(1, 65535))
    # the points: moved by one, equal, beyond the limits, all on one line, each alike
    yield part(lambda m: m.points.__setitem__(0, (m.points[0][0] + 1, m.points[0][1])))
    yield part(lambda m: m.points.__setitem__(1, m.points[0]))
    for far in (LIMIT + 1, -LIMIT - 1, 2**31 - 1, -2**31):
        yield part(lambda m, far=far: m.points.__setitem__(n - 1, (m.points[n - 1][0], far)))
    yield part(lambda m: m.points.__setitem__(slice(None), [(k, 2 * k) for k in range(n)]))
    yield part(lambda m: m.points.__setitem__(slice(None), [(x + 5, y - 7) for x, y in m.points]))
    # more than one number: which is told
    yield part(lambda m: (m.points.__setitem__(0, (LIMIT + 1, 0)), m.ring.__setitem__(0, m.ring[1]), m.records.clear()))
    yield part(lambda m: (m.ring.__setitem__(0, m.ring[1]), m.points.__setitem__(1, m.points[0]), m.records.clear()))
    yield part(lambda m: (m.ring.__setitem__(0, m.ring[1]), m.words.__setitem__(5, lambda w: 9)))


def cloned(image, width=None):
    copy = Image(image.points, image.ring, image.records, width or image.width)
    copy.words, copy.gaps, copy.order, copy.pad, copy.cut = dict(image.words), list(image.gaps), image.order, image.pad, image.cut
    return copy


def damaged(r, image, width):
    for change in list(damages(r, image)):
        m = cloned(image, width)
        change(m)
        yield m.bytes()


# ---- cases ----

def picks_for(r, points):
    """Picks up to the loop and two more; sometimes fewer."""
    picks, machine = [], Machine(points, range(len(points)))
    while machine.store.dense:
        picks.append(r.choice([r.randrange(2**32), 0, 2**32 - 1 - r.randrange(3)]))
        machine.step(picks[-1])
    picks += [r.randrange(2**32) for _ in range(2)]
    return picks[:r.randrange(len(picks))] if r.random() < 0.3 else picks


def run_case(points, picks):
    runs = [from_start(points, picks[:k]) for k in range(len(picks) + 1)]
    h = hashed(b"")
    for run in runs:
        h = hashed(image_of(run).bytes(), h)
    data = struct.pack("<BHH", RUN, len(points), len(picks)) + b"".join(struct.pack("<hh", *p) for p in points) + struct.pack(f"<{len(picks)}I", *picks)
    return data, f"{runs[-1].line()} stops {len(runs)} images {h:016x}\n", runs


def input_case(b):
    return struct.pack("<BH", INPUT, len(b)) + b, texts(b)


def number_of(b):
    read = Read(b)
    return read.refusal or (8 if read.records else 0)


def image_case(b):
    numbers = [number_of(b)]
    for i, bit in itertools.product(range(len(b)), range(8)):
        numbers.append(number_of(b[:i] + bytes([b[i] ^ 1 << bit]) + b[i + 1:]))
    line = " ".join(f"{k}*{len(list(same))}" for k, same in itertools.groupby(numbers))
    return struct.pack("<BH", IMAGE, len(b)) + b, line + "\n", Counter(numbers)


class State:
    """What a call is lent that saves a state."""

    def __init__(self, run, r):
        n, size = len(run.points), len(run.points) * (len(run.points) - 1)
        self.n, self.live, self.room = n, len(run.records), 28 + 10 * n + 12 * len(run.records)
        self.x, self.y, self.ring = [p[0] for p in run.points], [p[1] for p in run.points], list(run.ring)
        slots = r.sample(range(size), size)
        self.dense = slots
        self.ends, self.ages = [r.randrange(2**64) for _ in range(size)], [r.randrange(2**32) for _ in range(size)]
        for k, (a, b, c, d, age) in zip(slots, run.records):
            self.ends[k], self.ages[k] = a + b * 2**16 + c * 2**32 + d * 2**48, age

    def record(self, k):
        word = self.ends[self.dense[k]]
        return (*(word >> 16 * j & 65535 for j in range(4)), self.ages[self.dense[k]])

    def answer(self):
        n, size = self.n, self.n * (self.n - 1)
        if n > 256:
            return "1"
        long = 28 + 10 * n + 12 * self.live
        if min(len(self.x), len(self.y), len(self.ring)) < n or min(len(self.dense), len(self.ends), len(self.ages)) < size or self.live > size or self.room < long:
            return "2"
        points, ring = list(zip(self.x, self.y))[:n], self.ring[:n]
        records = [self.record(k) for k in range(self.live)] if all(k < size for k in self.dense[:self.live]) else None
        fit = records is not None and len({age for *_, age in records}) == self.live
        refusal = state_refusal(points, ring, [r[:4] for r in records] if fit else None)
        if refusal:
            return str(refusal)
        b = Image(points, ring, renumbered(records)).bytes()
        return f"{len(b)} {hashed(b):016x}"

    def case(self):
        lists = (self.x, self.y, self.ring, self.dense, self.ends, self.ages)
        head = struct.pack("<B9H", STATE, self.n, self.live, self.room, *map(len, lists))
        return head + b"".join(struct.pack(f"<{len(l)}{code}", *l) for l, code in zip(lists, "iiHHQI")), self.answer() + "\n"


def states(r, run):
    """The state of a run with two records or more, as it is and damaged."""
    fresh = lambda: State(run, r)
    yield fresh()
    for name in ("x", "y", "ring", "dense", "ends", "ages"):
        s = fresh()
        getattr(s, name).pop()
        yield s
        s = fresh()
        getattr(s, name).append(9)
        yield s
    for name, by in (("room", -1), ("room", 5), ("live", 1), ("live", -1), ("n", 1), ("n", -1)):
        s = fresh()
        setattr(s, name, getattr(s, name) + by)
        yield s
    s = fresh()
    s.live = s.n * (s.n - 1) + 1
    s.room = 65535
    yield s
    for n in (257, 65535):
        s = fresh()
        s.n = n
        yield s
    for k in (0, s.live and run.records and len(run.records) - 1):
        for entry in (len(s.dense), 65535):
            s = fresh()
            s.dense[k] = entry
            yield s
        s = fresh()
        s.dense[k] = s.dense[1 - k]
        yield s
        s = fresh()
        s.ages[s.dense[k]] = s.ages[s.dense[1 - k]]
        yield s
        s = fresh()
        s.ages[s.dense[k]] = 2**32 - 1
        yield s
        s = fresh()
        s.ends[s.dense[k]] ^= 1
        yield s
        s = fresh()
        s.ends[s.dense[k]] = s.ends[s.dense[k]] >> 32 | s.ends[s.dense[k]] << 32 & 2**64 - 1
        yield s
    # a dense entry past the live ones may be any
    s = fresh()
    s.dense[-1] = 65535
    yield s
    # what comes before 21
    s = fresh()
    s.ring[0] = s.ring[1]
    yield s
    s = fresh()
    s.x[0] = LIMIT + 1
    yield s
    s = fresh()
    s.x[1], s.y[1] = s.x[0], s.y[0]
    yield s
    s = fresh()
    s.x, s.y = list(range(s.n)), list(range(s.n))
    yield s


def circle(n):
    return [(k - n // 2, (k - n // 2) ** 2) for k in range(n)]


def large():
    """Loops of 255 to 257 points, one with two neighbours of the ring exchanged."""
    for n in (255, 256, 257):
        yield Image(circle(n), range(n), []).bytes()
    points, ring = circle(256), list(range(256))
    swap(ring, 100, 101)
    yield Image(points, ring, [(*p, k) for k, p in enumerate(sorted(meeting(points, ring)))]).bytes()


def odd_inputs(image):
    """Inputs that are too short for their picks, and just long enough."""
    yield b""
    for k in (1, 3, 4, 7):
        yield bytes(k)
    yield as_input([7], b"")
    yield as_input([7], b"")[:-1]
    yield as_input([7], image)[:5]
    yield struct.pack("<I", 2**32 - 1) + image
    yield struct.pack("<I", 2**30) + image
    yield struct.pack("<I", len(image) // 4) + image
    yield struct.pack("<I", len(image) // 4 + 1) + image
    yield as_input([], image[:27])
    yield as_input([], image[:28])


def all_cases():
    """Each case with its answer, and what there is of each kind."""
    r = random.Random(12)
    ran = [run_case(points, picks_for(r, points)) for points in boards(r)]
    found = [(data, text) for data, text, _ in ran]
    stopped = [run for _, _, runs in ran for run in runs if len(run.records) > 1]
    twice = [run for run in stopped if max(Counter(x[:4] for x in run.records).values()) == 2]
    gaps = [run for run in stopped if sorted(x[4] for x in run.records) != list(range(len(run.records)))]
    print(len(ran), "boards,", sum(len(runs) for _, _, runs in ran), "stops;", len(stopped), "with records,", len(twice), "with a pair twice,", len(gaps), "with gaps in the ages")
    chosen = [run for run in r.sample(stopped, 6) + r.sample(twice, 6) if len(run.records) <= 16][:9]
    inputs = []
    for run, width in itertools.product(chosen, (12, 8)):
        for b in damaged(r, image_of(run), width):
            count = 0 if Read(b).refusal else r.choice([0, 0, 1, 2, 30])
            inputs.append(as_input([r.randrange(2**32) for _ in range(count)], b))
    inputs += list(odd_inputs(image_of(chosen[0]).bytes())) + [as_input([3, 5], b) for b in large()]
    found += [input_case(b) for b in inputs]
    print("images", Counter(text.split(" left")[0] if text[0] == "r" else "ok" for _, text in found[len(ran):]))
    flips = Counter()
    for run, width in itertools.product([run for run in chosen if len(run.records) < 9][:4], (12, 8)):
        image = image_of(run)
        image.width = width
        data, text, numbers = image_case(image.bytes())
        found.append((data, text))
        flips += numbers
    print("with a bit turned", flips)
    saves = [s.case() for run in chosen[:4] for s in states(r, run)]
    print("states", Counter(text.split()[0] if " " not in text else "image" for _, text in saves))
    return found + saves


def write(crate, stdin, stdout):
    for name, data in (("stdin", stdin), ("stdout", stdout)):
        with open(os.path.join(CRATES, crate, name), "wb") as out:
            out.write(data)


def main():
    found = all_cases()
    write("stop_replay", b"".join(data for data, _ in found) + bytes([RUN, 4]), "".join(text for _, text in found).encode() + b"bad case %d\n" % (len(found) + 1))
    # a board of seven pads is stopped after one pick, with four records left, and taken up with three picks, one more than it needs
    points, picks = [(120, 0), (10, 0), (30, -50), (0, 0), (100, 0), (20, 0), (60, 50)], [0, 3, 1, 4]
    stopped = image_of(from_start(points, picks[:1])).bytes()
    job = struct.pack("<5I", 7, 20, 1, 76, 80) + b"".join(struct.pack("<ii", 10 * x, 10 * y) for x, y in points) + struct.pack("<I", picks[0])
    write("stopjob", job, stopped)
    print(from_start(points, picks[:1]).line(), "and", from_start(points, picks).line())
    going_on = as_input(picks[1:], stopped)
    write("takeup", going_on, texts(going_on).split("image")[0].encode())


if __name__ == "__main__":
    main()
