#!/usr/bin/env python3
"""Runs the programs over random cases and compares every byte with the reference.

    tests/compare.py COUNT [SEED]
"""
import random
import subprocess
import sys
import tempfile
from pathlib import Path

sys.dont_write_bytecode = True  # no __pycache__ in the checkout

import plain_sweep
import random_cases
import reference

CRATES = Path(__file__).resolve().parent.parent / "crates"


def built(name):
    """The path of a program, which rt run builds where it is missing or old."""
    with (CRATES / name / "stdin").open("rb") as given:
        done = subprocess.run(["rt", "run"], cwd=CRATES / name, stdin=given, stdout=subprocess.DEVNULL, stderr=subprocess.PIPE, text=True)
    if done.returncode != 0:
        sys.exit(f"{done.stderr}rt run of {name} fails")
    return CRATES / name / "out" / name


def tiles(data):
    """What show_tiles prints."""
    try:
        case = reference.Case(data)
        reference.check_matrix(case.rows, case.entries, case.starts, case.columns)
        reference.check_seed(case)
    except reference.Refused as refusal:
        return f"{refusal}\n"
    links = reference.links_of(case.rows, case.starts, case.columns)
    theta, _ = reference.grow(case.rows, links, case.sweeps, case.seed_sweep, case.seed)
    lines = [f"rows {case.rows} sweeps {case.sweeps} tiles {case.tiles}"]
    lines += [f"sweep {s} tiles " + " ".join(map(str, g)) for s, g in enumerate(theta, 1)]
    return "\n".join(lines) + "\n"


PROGRAMS = {"curtzano": reference.listing, "plain_sweep": plain_sweep.listing, "show_tiles": tiles}


def main():
    count = int(sys.argv[1])
    rng = random.Random(int(sys.argv[2]) if len(sys.argv) > 2 else 1)
    paths = {name: built(name) for name in PROGRAMS}
    refused = 0
    for n in range(count):
        data = random_cases.case(rng)
        for name, expected in PROGRAMS.items():
            got = subprocess.run([paths[name]], input=data, stdout=subprocess.PIPE, check=True).stdout.decode()
            if got != expected(data):
                kept = Path(tempfile.mkdtemp(prefix="differs")) / f"{name}.case"
                kept.write_bytes(data)
                sys.exit(f"{name} differs at case {n}, kept as {kept}")
        refused += expected(data).startswith("refused")
    print(f"{count} cases, {refused} of them refused: {', '.join(PROGRAMS)} agree with the reference")


if __name__ == "__main__":
    main()
