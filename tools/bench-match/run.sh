#!/usr/bin/env bash
# Measures matching a selector against html2text 0.17.4 and prints tables for docs/SPEED.md, and the machine's load, for others may work on it.
#
#     bash tools/crate/build.sh FOLDER       once: the crate
#     bash tools/staticlib.sh engine         once: this engine
#     bash tools/staticlib.sh comparison     once: what only the comparison asks
#     bash tools/bench-match/run.sh
set -euo pipefail
cd "$(dirname "$0")/../../target/crate"
CARGO_TERM_QUIET=true cargo build --offline -p bench-match --release
target/release/bench-match "$@"
echo
echo "load $(cut -d ' ' -f 1-3 /proc/loadavg), $(nproc) processors"
