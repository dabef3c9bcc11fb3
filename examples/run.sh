#!/usr/bin/env bash
# Builds the examples in C and in Rust, runs them, and compares what they print with styles.stdout, and with levels.stdout. In the repository it first checks that
# the header and the bindings declare what the engine exports.
#
#     bash tools/staticlib.sh engine       once: the library. Another one: HICSOLMAB_LIBRARY=PATH
#     bash examples/run.sh
set -euo pipefail
here=$(cd "$(dirname "$0")" && pwd)
root=$(cd "$here/.." && pwd)

fail() {
    echo "examples: $1" >&2
    exit 1
}

# Where things lie: in the repository, or in a distribution.
if [ -d "$root/bindings/rust" ]; then
    crate=$root/bindings/rust
    library=$root/target/staticlib/libengine.a
else
    crate=$root/rust
    library=$root/lib/libengine.a
fi
library=$(realpath "${HICSOLMAB_LIBRARY:-$library}")
[ -f "$library" ] || fail "there is no $library: run bash tools/staticlib.sh engine, or name a library in HICSOLMAB_LIBRARY"

if [ -d "$root/tools/check-bindings" ]; then
    python3 "$root/tools/check-bindings/check.py" "$library"
fi

built=$(mktemp -d)
trap 'rm -rf "$built"' EXIT

for program in styles levels; do
    cc -std=c11 -O2 -Wall -Wextra -Wpedantic -Wconversion -Werror -I "$root/include" -o "$built/$program" "$here/c/$program.c" "$library"
done
"$built/styles" > "$built/c.stdout"
"$built/levels" > "$built/levels.stdout"
diff -u "$here/levels.stdout" "$built/levels.stdout" || fail "examples/c/levels.c prints something else than examples/levels.stdout"

(cd "$crate" && HICSOLMAB_LIBRARY=$library CARGO_TARGET_DIR=$built/cargo cargo run --quiet --offline --locked --jobs 1 --example styles) > "$built/rust.stdout"

for language in c rust; do
    diff -u "$here/styles.stdout" "$built/$language.stdout" || fail "the example in $language prints something else than examples/styles.stdout"
done
echo "examples: C and Rust print examples/styles.stdout"
