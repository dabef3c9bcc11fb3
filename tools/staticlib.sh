#!/usr/bin/env bash
# Writes a static library for programs in C, target/staticlib/libNAME.a: what crates/NAME_c exports. It proves that crate and all below it first.
#
#     bash tools/staticlib.sh engine          the engine's calls (include/hicsolmab.h)
#     bash tools/staticlib.sh comparison      what only the comparison asks (tools/compare/comparison.h)
set -euo pipefail
name=${1:-}
cd "$(dirname "$0")/.."
[[ $# -eq 1 && $name =~ ^[a-z_]+$ && -d crates/${name}_c ]] || {
    echo "staticlib.sh: name one library, engine or comparison" >&2
    exit 1
}
(cd "crates/${name}_c" && rt lib)
mkdir -p target/staticlib
cp "crates/${name}_c/out/lib${name}_c.a" "target/staticlib/lib$name.a"
