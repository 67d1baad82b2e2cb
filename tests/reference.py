#!/usr/bin/env python3
"""The whole method once more, written from docs/ alone, for plainness and not for speed.

Reads a case on standard input; prints each tile with its points and wait word, then each row with its rank and value."""
import struct
import sys

NEVER = 4294967295
LIMITS = {1: 1048576, 2: 16777216, 3: 16, 4: 64}


class Refused(Exception):
    def __init__(self, number, place, layer):
        super().__init__(f"refused {number} place {place} in {layer}")


class Case:
    """A case file taken apart; every figure is a float (doubles) or an int (minutes)."""

    def __init__(self, data):
        if len(data) > 16384 or len(data) < 17 or struct.unpack_from(">I", data, 0)[0] != len(data) - 4:
            raise Refused(19, 0, "file")
        version, self.kind, self.sweeps, self.seed_sweep, self.tiles = data[4:9]
        self.rows, self.entries = struct.unpack_from(">II", data, 9)
        if version != 1:
            raise Refused(20, 4, "file")
        if self.kind not in (1, 2):
            raise Refused(20, 5, "file")
        sizes = [(self.rows, LIMITS[1]), (self.entries, LIMITS[2]), (self.sweeps, LIMITS[3]), (self.tiles, LIMITS[4]), (self.seed_sweep, self.sweeps)]
        for place, (value, limit) in enumerate(sizes, 1):
            if not 1 <= value <= limit:
                raise Refused(1, place, "file")
        letter = "d" if self.kind == 1 else "I"
        shape = [(self.rows + 1, "I"), (self.entries, "I"), (self.entries, letter), (self.rows, letter), (self.rows, letter), (self.rows, "B")]
        if 17 + sum(struct.calcsize(f">{n}{c}") for n, c in shape) != len(data):
            raise Refused(19, 17, "file")
        tables, at = [], 17
        for n, c in shape:
            tables.append(list(struct.unpack_from(f">{n}{c}", data, at)))
            at += struct.calcsize(f">{n}{c}")
        self.starts, self.columns, self.coefficients, self.rhs, self.vector, self.seed = tables


def check_matrix(rows, entries, starts, columns):
    for i, start in enumerate(starts):
        if (i == 0 and start != 0) or (i > 0 and start < starts[i - 1]) or (i == rows and start != entries):
            raise Refused(3, i, "matrix")
    for e, column in enumerate(columns):
        if column >= rows:
            raise Refused(4, e, "matrix")
    for v in range(rows):
        if columns[starts[v]:starts[v + 1]].count(v) != 1:
            raise Refused(5, v, "matrix")


def links_of(rows, starts, columns):
    links = set()
    for v in range(rows):
        for w in columns[starts[v]:starts[v + 1]]:
            if v != w:
                links.add((v, w))
                links.add((w, v))
    return links


def grow(rows, links, sweeps, seed_sweep, seed):
    """The tile of every row in every sweep, by the constraints alone: the greatest below the seed sweep, the least above it."""
    theta = {seed_sweep: list(seed)}
    before = {(v, w) for v, w in links if seed[v] < seed[w]}
    for s in range(seed_sweep - 1, 0, -1):
        near, g = theta[s + 1], list(theta[s + 1])
        moved = True
        while moved:
            moved = False
            for v, w in before:
                low = min(g[w], near[v])
                if low < g[w]:
                    g[w], moved = low, True
                if g[w] < g[v]:
                    g[v], moved = g[w], True
        theta[s] = g
        before |= {(v, w) for v, w in links if g[v] < g[w]}
    for s in range(seed_sweep + 1, sweeps + 1):
        near, g = theta[s - 1], list(theta[s - 1])
        moved = True
        while moved:
            moved = False
            for v, w in before:
                high = max(g[v], near[w])
                if high > g[v]:
                    g[v], moved = high, True
                if g[v] > g[w]:
                    g[w], moved = g[v], True
        theta[s] = g
        before |= {(v, w) for v, w in links if g[v] < g[w]}
    marks = lambda v, w: 1 if (v, w) in before else 2 if (w, v) in before else 0
    return [theta[s] for s in range(1, sweeps + 1)], marks


def order(rows, theta):
    by_rank = sorted(range(rows), key=lambda v: ([g[v] for g in theta], v))
    ranks = [0] * rows
    for i, v in enumerate(by_rank):
        ranks[v] = i
    return ranks, by_rank


def check_seed(case):
    for v, cell in enumerate(case.seed):
        if cell >= case.tiles:
            raise Refused(6, v, "matrix")


class Rows:
    """Rows of (column, coefficient) with their right-hand sides and a start."""

    def __init__(self, kind, entries, rhs, start):
        self.kind, self.entries, self.rhs, self.start = kind, entries, rhs, start
        finite = lambda x: kind == 2 or abs(x) < float("inf")
        usable = lambda d: d == 0 if kind == 2 else d != 0
        e = 0
        for i, row in enumerate(entries):
            for j, a in row:
                if not finite(a) or (j == i and not usable(a)):
                    raise Refused(13, e, "run")
                e += 1
        for number, values in ((14, rhs), (15, start)):
            for i, value in enumerate(values):
                if not finite(value):
                    raise Refused(number, i, "run")

    def update(self, x, i):
        acc, diagonal = self.rhs[i], None
        for j, a in self.entries[i]:
            if j == i:
                diagonal = a
            elif self.kind == 1:
                acc = acc - a * x[j]
            else:
                acc = min(acc, a + x[j] if a + x[j] <= NEVER - 1 else NEVER)
        x[i] = divide(acc, diagonal) if self.kind == 1 else acc

    def plain(self, sweeps):
        x = list(self.start)
        for _ in range(sweeps):
            for i in range(len(self.rhs)):
                self.update(x, i)
        return x


class Tiled(Rows):
    """A case in the new numbering, with its tiles and who waits for whom."""

    def __init__(self, case):
        check_matrix(case.rows, case.entries, case.starts, case.columns)
        check_seed(case)
        links = links_of(case.rows, case.starts, case.columns)
        theta, _ = grow(case.rows, links, case.sweeps, case.seed_sweep, case.seed)
        self.ranks, by_rank = order(case.rows, theta)
        self.sweeps, self.tiles = case.sweeps, case.tiles
        entries = [[(self.ranks[case.columns[e]], case.coefficients[e]) for e in range(case.starts[v], case.starts[v + 1])] for v in by_rank]
        super().__init__(case.kind, entries, [case.rhs[v] for v in by_rank], [case.vector[v] for v in by_rank])
        self.theta = [[g[v] for v in by_rank] for g in theta]
        self.waits = [set() for _ in range(self.tiles)]
        links = {(self.ranks[v], self.ranks[w]) for v, w in links}
        for s, g in enumerate(self.theta):
            for i, j in links:
                if i < j:
                    self.wait(g[j], g[i])
            if s + 1 < self.sweeps:
                for i, j in links | {(i, i) for i in range(case.rows)}:
                    self.wait(self.theta[s + 1][j], g[i])

    def wait(self, u, t):
        if t != u:
            self.waits[u].add(t)

    def points(self, tile):
        return [i for g in self.theta for i in range(len(g)) if g[i] == tile]

    def call(self, x, done, tile):
        """A tile call: the number of points, or the fault's number and place."""
        if tile >= self.tiles:
            return (16, tile)
        if tile in done:
            return (17, tile)
        missing = sorted(self.waits[tile] - done)
        if missing:
            return (18, missing[0])
        for i in self.points(tile):
            self.update(x, i)
        done.add(tile)
        return len(self.points(tile))


def divide(a, b):
    if b != 0:
        return a / b
    sign = (struct.pack(">d", a)[0] ^ struct.pack(">d", b)[0]) & 128
    return float("nan") if a != a or a == 0 else (float("-inf") if sign else float("inf"))


def printed(kind, value):
    if kind == 2:
        return f"{value:08x}"
    return "7ff8000000000000" if value != value else struct.pack(">d", value).hex()


def listing(data):
    try:
        case = Case(data)
        system = Tiled(case)
    except Refused as refusal:
        return f"{refusal}\n"
    x, done = list(system.start), set()
    lines = [f"rows {case.rows} sweeps {system.sweeps} tiles {system.tiles}"]
    for tile in range(system.tiles):
        count = system.call(x, done, tile)
        lines.append(f"tile {tile} points {count} waits {sum(1 << t for t in system.waits[tile]):x}")
    assert [printed(system.kind, a) for a in x] == [printed(system.kind, a) for a in system.plain(system.sweeps)]
    for v, rank in enumerate(system.ranks):
        lines.append(f"row {v} rank {rank} value {printed(system.kind, x[rank])}")
    return "\n".join(lines) + "\n"


if __name__ == "__main__":
    sys.stdout.write(listing(sys.stdin.buffer.read(16385)))
