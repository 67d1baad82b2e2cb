#!/usr/bin/env python3
"""Sweeps a case plainly, rows in the order of the file: prints what the program plain_sweep prints. Reads standard input."""
import sys

sys.dont_write_bytecode = True  # no __pycache__ in the checkout

from reference import Case, Refused, Rows, check_matrix, printed


def listing(data):
    try:
        case = Case(data)
        check_matrix(case.rows, case.entries, case.starts, case.columns)
        entries = [[(case.columns[e], case.coefficients[e]) for e in range(case.starts[v], case.starts[v + 1])] for v in range(case.rows)]
        values = Rows(case.kind, entries, case.rhs, case.vector).plain(case.sweeps)
    except Refused as refusal:
        return f"{refusal}\n"
    lines = [f"rows {case.rows} sweeps {case.sweeps}"] + [f"row {v} value {printed(case.kind, x)}" for v, x in enumerate(values)]
    return "\n".join(lines) + "\n"


if __name__ == "__main__":
    sys.stdout.write(listing(sys.stdin.buffer.read(16385)))
