#!/usr/bin/env bash
# Everything that is checked of the callers' side: the declarations, and that the check notices planted differences; the header with C and C++ compilers and
# against the library; the Rust crate's formatting, lints, documentation and tests; and both examples.
#
#     bash tools/staticlib.sh engine       once: the library. Another one: HICSOLMAB_LIBRARY=PATH
#     bash tools/check-bindings/run.sh
set -euo pipefail
here=$(cd "$(dirname "$0")" && pwd)
root=$(cd "$here/../.." && pwd)
cd "$root"
library=${HICSOLMAB_LIBRARY:-target/staticlib/libengine.a}
[ -f "$library" ] || {
    echo "check-bindings: there is no $library: run bash tools/staticlib.sh engine, or name a library in HICSOLMAB_LIBRARY" >&2
    exit 1
}
library=$(realpath "$library")
export HICSOLMAB_LIBRARY=$library CARGO_TARGET_DIR=${CARGO_TARGET_DIR:-$root/target/bindings} CARGO_NET_OFFLINE=true CARGO_TERM_QUIET=true
export CARGO_BUILD_JOBS=${CARGO_BUILD_JOBS:-1} PYTHONDONTWRITEBYTECODE=1
built=$(mktemp -d)
trap 'rm -rf "$built"' EXIT

# ---- declarations
python3 "$here/check.py" "$library"
python3 "$here/test.py"

# ---- the header
warnings=(-Wall -Wextra -Wpedantic -Wconversion -Wsign-conversion -Werror -I include)
for standard in c99 c11 c17; do
    cc -std=$standard "${warnings[@]}" -fsyntax-only -x c include/hicsolmab.h
done
for standard in c++11 c++20; do
    c++ -std=$standard "${warnings[@]}" -fsyntax-only -x c++ include/hicsolmab.h
done
cc -std=c11 -O2 "${warnings[@]}" -o "$built/header" "$here/header.c" "$library"
"$built/header"

# ---- the crate
cd bindings/rust
cargo fmt --check
cargo clippy --locked --all-targets -- -D warnings
RUSTDOCFLAGS="-D warnings" cargo doc --locked --no-deps
cargo test --locked > "$built/tests" 2>&1 || {
    cat "$built/tests" >&2
    exit 1
}
passed=$(awk '/^test result: ok/ { passed += $4 } END { print passed + 0 }' "$built/tests")
[ "$passed" -gt 0 ] || {
    echo "check-bindings: no test of the crate was run" >&2
    exit 1
}
echo "check-bindings: $passed tests of the crate passed"

# ---- both examples
bash "$root/examples/run.sh"
