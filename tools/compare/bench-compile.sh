#!/usr/bin/env bash
# Measures compiling against html2text 0.17.4 and prints a table for docs/SPEED.md, and the machine's load, for others may work on it.
#
#     bash tools/crate/build.sh FOLDER                    once: the crate
#     bash tools/staticlib.sh engine                      once: this engine
#     bash tools/staticlib.sh comparison                  once: what only the comparison asks
#     bash tools/compare/bench-compile.sh
set -euo pipefail
cd "$(dirname "$0")/../../target/crate"
CARGO_TERM_QUIET=true cargo build --offline --jobs 1 -p compare --bin bench_compile --release
target/release/bench_compile
echo
echo "load $(cut -d ' ' -f 1-3 /proc/loadavg), $(nproc) processors"
