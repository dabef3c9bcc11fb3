#!/usr/bin/env bash
# Measures reading a sheet against html2text 0.17.4 and prints tables for docs/SPEED.md, and the machine's load, for others may work on it.
#
#     bash tools/crate/build.sh FOLDER       once: the crate
#     bash tools/staticlib.sh engine         once: this engine (another archive: ENGINE=PATH)
#     bash tools/staticlib.sh comparison     once, since tools/compare, whose stores it uses, links it
#     bash tools/bench-read/run.sh
set -euo pipefail
cd "$(dirname "$0")/../../target/crate"
CARGO_TERM_QUIET=true cargo build --offline -p bench-read --release
target/release/bench-read "$@"
echo
echo "load $(cut -d ' ' -f 1-3 /proc/loadavg), $(nproc) processors"
