#!/usr/bin/env bash
# Compares the programs and the replay library with the second implementation.
# tests/second/run.sh [COUNT [SEED]]
set -euo pipefail
cd "$(dirname "$0")/../.."

kit=$(dirname "$(rt doc)")
built=target/second
mkdir -p "$built"

# rt builds what is missing or old, in each crate's out/.
for program in curtzano plain_sweep show_tiles; do
    (cd "crates/$program" && rt run <stdin) >"$built/$program.log" 2>&1 || { cat "$built/$program.log"; exit 1; }
done
(cd crates/replay_c && rt lib) >"$built/replay_c.log" 2>&1 || { cat "$built/replay_c.log"; exit 1; }

# The kit's libc_c holds the allocator that the archive calls.
rustc -O --edition 2024 tests/second/compare.rs -o "$built/compare" \
    -L native=crates/replay_c/out -l static=replay_c \
    -L native="$kit/c" -l static=libc_c

"$built/compare" "${1:-20000}" "${2:-1}"
