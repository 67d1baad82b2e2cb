#!/usr/bin/env python3
"""Random case files, valid, damaged and extreme."""
import random
import struct

SPECIAL_DOUBLES = [0x7FF0000000000000, 0xFFF0000000000000, 0x7FF8000000000000, 0x7FF0000000000001, 0xFFFFFFFFFFFFFFFF, 1, 0x8000000000000001,
                   0x000FFFFFFFFFFFFF, 0x7FEFFFFFFFFFFFFF, 0x8000000000000000, 0]


def double(rng, special):
    if rng.random() < special:
        return struct.pack(">Q", rng.choice(SPECIAL_DOUBLES))
    return struct.pack(">d", rng.choice([-1.0, 2.0, 0.5, 3.0, -0.25, rng.uniform(-10, 10), rng.uniform(-1, 1) * 10.0 ** rng.randint(-300, 300)]))


def minutes(rng, special):
    if rng.random() < special:
        return struct.pack(">I", rng.choice([0, 1, 4294967294, 4294967295, 4294967290]))
    return struct.pack(">I", rng.randint(0, 100))


def case(rng):
    """One case file; about half of them are accepted."""
    kind = rng.choice([1, 1, 2])
    rows = rng.choice([1, 2, 3, rng.randint(1, 8), rng.randint(1, 30)])
    sweeps = rng.choice([1, 2, 3, rng.randint(1, 16), 16])
    tiles = rng.choice([1, 2, 3, rng.randint(1, 64), 64])
    seed_sweep = rng.randint(1, sweeps)
    density, one_way = rng.choice([0.05, 0.2, 0.5]), rng.random() < 0.5
    lists = [[v] for v in range(rows)]
    for v in range(rows):
        for w in range(v):
            if rng.random() < density:
                if not one_way or rng.random() < 0.5:
                    lists[v].append(w)
                if not one_way or rng.random() < 0.5:
                    lists[w].append(v)
                if rng.random() < 0.1:
                    lists[v].append(w)
    for row in lists:
        if rng.random() < 0.7:
            rng.shuffle(row)
    starts = [0]
    for row in lists:
        starts.append(starts[-1] + len(row))
    columns = [w for row in lists for w in row]
    special = rng.choice([0.0, 0.0, 0.0, 0.02])
    figure = double if kind == 1 else minutes
    coefficients = []
    for v, row in enumerate(lists):
        for w in row:
            if w != v or rng.random() < special:
                coefficients.append(figure(rng, special))
            else:
                coefficients.append(struct.pack(">d", rng.choice([2.0, 4.0, rng.uniform(1, 5)])) if kind == 1 else struct.pack(">I", 0))
    limit = tiles if rng.random() < 0.97 else 256
    body = bytes([1, kind, sweeps, seed_sweep, tiles]) + struct.pack(">II", rows, len(columns))
    body += b"".join(struct.pack(">I", n) for n in starts + columns)
    body += b"".join(coefficients + [figure(rng, special) for _ in range(2 * rows)])
    body += bytes(rng.randrange(limit) for _ in range(rows))
    return damaged(rng, struct.pack(">I", len(body)) + body)


def damaged(rng, data):
    """Most files go on unharmed; some lose bytes, gain bytes or have bytes changed."""
    chance = rng.random()
    data = bytearray(data)
    if chance < 0.8:
        return bytes(data)
    if chance < 0.85:
        data = data[:rng.randrange(len(data) + 1)]
    elif chance < 0.88:
        data += bytes(rng.randrange(256) for _ in range(rng.randint(1, 20)))
    elif chance < 0.9:
        data += bytes(16385 - len(data)) if len(data) < 16385 else b""
    else:
        for _ in range(rng.randint(1, 3)):
            data[rng.randrange(min(len(data), rng.choice([17, 200, len(data)])))] = rng.choice([0, 1, 2, 255, rng.randrange(256)])
    if rng.random() < 0.5 and len(data) >= 4:
        data[0:4] = struct.pack(">I", len(data) - 4)
    return bytes(data)
