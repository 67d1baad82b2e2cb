#!/usr/bin/env python3
"""Writes the example case files beside this script. The format is described in docs/CASE_FILE.md."""
import struct
from pathlib import Path

DOUBLES, MINUTES = 1, 2
NEVER = 4294967295
ELEMENT = {DOUBLES: ">d", MINUTES: ">I"}


def case(kind, sweeps, seed_sweep, tiles, rows, rhs, vector, seed):
    """`rows` lists each row's entries as (column, coefficient), in stored order."""
    starts = [0]
    for row in rows:
        starts.append(starts[-1] + len(row))
    entries = [entry for row in rows for entry in row]
    body = bytes([1, kind, sweeps, seed_sweep, tiles]) + struct.pack(">II", len(rows), len(entries))
    body += b"".join(struct.pack(">I", s) for s in starts)
    body += b"".join(struct.pack(">I", column) for column, _ in entries)
    for figure in [a for _, a in entries] + list(rhs) + list(vector):
        body += struct.pack(ELEMENT[kind], figure)
    body += bytes(seed)
    return struct.pack(">I", len(body)) + body


def path(diagonal, others):
    """Rows in a line: each stores itself first, then its lower and its higher neighbour."""
    count = len(others) + 1
    rows = []
    for v in range(count):
        row = [(v, diagonal)]
        if v > 0:
            row.append((v - 1, others[v - 1]))
        if v + 1 < count:
            row.append((v + 1, others[v]))
        rows.append(row)
    return rows


def grid(width, height):
    """A five-point grid: diagonal 4 and a little, neighbours -1, rows numbered line by line."""
    rows = []
    for y in range(height):
        for x in range(width):
            row = [(y * width + x, 4.0 + (x + y) / 16.0)]
            for dx, dy in ((0, -1), (-1, 0), (1, 0), (0, 1)):
                if 0 <= x + dx < width and 0 <= y + dy < height:
                    row.append(((y + dy) * width + x + dx, -1.0))
            rows.append(row)
    return rows


def main():
    here = Path(__file__).resolve().parent
    three = path(2.0, [-1.0, -1.0])
    seed = [1, 0, 0]
    files = {
        "path3_doubles": case(DOUBLES, 2, 1, 2, three, [4.0, 0.0, 8.0], [0.0] * 3, seed),
        "path3_reversed": case(DOUBLES, 2, 1, 2, [[(0, 2.0), (1, -1.0)], [(1, 2.0), (2, -1.0), (0, -1.0)], [(2, 2.0), (1, -1.0)]],
                               [8.0, 0.0, 4.0], [0.0] * 3, [0, 0, 1]),
        "path3_minutes": case(MINUTES, 2, 1, 2, path(0, [7, 5]), [10, NEVER, NEVER], [NEVER] * 3, seed),
        "grid_doubles": case(DOUBLES, 4, 2, 4, grid(6, 5), [((7 * v) % 11) / 8.0 for v in range(30)], [1.0] * 30,
                             [2 * (v // 6 >= 3) + (v % 6 >= 3) for v in range(30)]),
        "overflow_doubles": case(DOUBLES, 1, 1, 1, [[(0, 1e-300), (1, 1e300)], [(1, 1e-300), (0, -1e300)], [(2, 1.0), (0, 1.0), (1, -1.0)]],
                                 [1e300, 1e300, 1.0], [0.0] * 3, [0, 0, 0]),
        "refused_row": case(DOUBLES, 1, 1, 1, [[(0, 1.0)], [(0, 1.0)]], [1.0, 1.0], [0.0, 0.0], [0, 0]),
    }
    for name, data in files.items():
        (here / f"{name}.case").write_bytes(data)


if __name__ == "__main__":
    main()
