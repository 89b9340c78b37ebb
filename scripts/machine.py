"""The plain machine of crates/machine/specs, crates/polygon/specs and crates/intersection_set/specs in Python, for the ages of the records, which the
original does not have. Names as there; `ran` makes a run and is compared with the original's answer by make_replay.py."""


def turn(a, b, c):
    return (b[0] - a[0]) * (c[1] - a[1]) - (b[1] - a[1]) * (c[0] - a[0])


def inside(a, b, p):
    """p is strictly inside the segment from a to b."""
    return min(a, b) < p < max(a, b) and turn(a, b, p) == 0


def meet(a, b, c, d):
    """The segments a b and c d, of which no two ends are equal within one, share a place that is no end of both."""
    if max(a, b) < min(c, d) or max(c, d) < min(a, b):
        return False
    c_side, d_side = turn(a, b, c), turn(a, b, d)
    if c_side == d_side == 0:
        low, high = max(min(a, b), min(c, d)), min(max(a, b), max(c, d))
        return low < high or low == high and not (low in (a, b) and low in (c, d))
    if c_side > 0 < d_side or c_side < 0 > d_side:
        return False
    a_side, b_side = turn(c, d, a), turn(c, d, b)
    if a_side > 0 < b_side or a_side < 0 > b_side:
        return False
    return not {a, b} & {c, d}


class Store:
    """The dense list and the count of pushes. A record is [e0, e1, age, dense place]; `named` has each edge's records, the newest last."""

    def __init__(self):
        self.dense, self.pushes, self.named = [], 0, {}

    def push(self, e, f):
        record = [min(e, f), max(e, f), self.pushes, len(self.dense)]
        self.pushes += 1
        self.dense.append(record)
        for g in (e, f):
            self.named.setdefault(g, []).append(record)

    def remove_all(self, e):
        for record in self.named.pop(e, [])[::-1]:
            other = record[1] if record[0] == e else record[0]
            self.named[other].remove(record)
            last = self.dense.pop()
            if last is not record:
                last[3] = record[3]
                self.dense[record[3]] = last


def edge(a, b):
    return (a, b) if a < b else (b, a)


class Machine:
    def __init__(self, points, ring):
        self.points, self.ring, self.n, self.store, self.moves = points, list(ring), len(ring), Store(), 0
        edges = self.edges()
        for e in edges:
            for f in edges:
                if e < f and self.meet(e, f):
                    self.store.push(e, f)

    def point(self, i):
        return self.points[self.ring[i % self.n]]

    def meet(self, e, f):
        p = self.points
        return meet(p[e[0]], p[e[1]], p[f[0]], p[f[1]])

    def edge_at(self, i):
        return edge(self.ring[i % self.n], self.ring[(i + 1) % self.n])

    def edges(self):
        return [self.edge_at(i) for i in range(self.n)]

    def direct(self, e):
        i, j = self.ring.index(e[0]), self.ring.index(e[1])
        return i if (i + 1) % self.n == j else j

    def run(self, i):
        """The positions of the run of the edge at i: back and on past collinear vertices, to a corner each way."""
        is_line = lambda j: turn(self.point(j - 1), self.point(j), self.point(j + 1)) == 0
        first, last = i, i + 1
        while is_line(first):
            first -= 1
        while is_line(last):
            last += 1
        return [j % self.n for j in range(first, last + 1)]

    def plan(self, a, b):
        """The edges cut and laid, in order, and the ring afterwards."""
        n, r, at = self.n, self.ring, lambda i: self.ring[i % self.n]
        if any(turn(self.point(a), self.point(a + 1), self.point(b + k)) for k in (0, 1)):
            first, size = a + 1, (b - a) % n
            turned = list(r)
            for k in range(size):
                turned[(first + k) % n] = at(b - k)
            return [self.edge_at(a), self.edge_at(b)], [edge(at(a), at(b)), edge(at(a + 1), at(b + 1))], turned
        runs = [self.run(a), self.run(b)]
        kinks = [k for k in runs[0] + runs[1] if not inside(self.point(k - 1), self.point(k + 1), self.point(k))]
        for p in runs[0][:-1] + runs[1][:-1]:
            for k in kinks:
                if inside(self.point(p), self.point(p + 1), self.point(k)):
                    return ([self.edge_at(k - 1), self.edge_at(k), self.edge_at(p)],
                        [edge(at(k - 1), at(k + 1)), edge(at(p), at(k)), edge(at(k), at(p + 1))], joined(n, r, p, k))
        return [], [], r

    def step(self, pick):
        e, f, _, _ = self.store.dense[pick % len(self.store.dense)]
        cut, laid, self.ring = self.plan(self.direct(e), self.direct(f))
        for g in cut:
            self.store.remove_all(g)
        edges = self.edges()
        for g in laid:
            for f in edges:
                if f != g and self.meet(f, g):
                    self.store.push(f, g)
        self.moves += 1


def joined(n, r, e, k):
    """The point at k comes to stand right behind e, and those between move on by one."""
    dist = lambda i: (i - e) % n
    return [r[i] if dist(i) == 0 else r[k] if dist(i) == 1 else r[(i - 1) % n] if dist(i) <= dist(k) else r[i] for i in range(n)]


def ran(points, ring, picks):
    """The machine after the picks."""
    machine = Machine(points, ring)
    for pick in picks:
        if not machine.store.dense:
            break
        machine.step(pick)
    return machine
