#!/usr/bin/env bash
# Measures what each exported call takes of the stack at most, and what its slices have at the limits, and prints both tables for docs/SPEED.md.
#
#     bash tools/staticlib.sh engine       once: the library. Another one: HICSOLMAB_LIBRARY=PATH
#     bash tools/stack/run.sh
set -euo pipefail
root=$(cd "$(dirname "$0")/../.." && pwd)
cd "$root/tools/stack"
export CARGO_TARGET_DIR=$root/target/stack
cargo build --quiet --offline --locked --jobs 1 --release
"$CARGO_TARGET_DIR/release/stack"
