#!/usr/bin/env bash
# Builds the viewer, prints the pages of pages/ with their colours in words, and compares each with what is stored beside it. With the crate built (tools/crate/build.sh) the styles of all elements
# are then held against html2text's own.
#
#     bash tools/staticlib.sh engine          once: the library. Another one: HICSOLMAB_LIBRARY=PATH
#     bash examples/viewer/run.sh             all pages
#     bash examples/viewer/run.sh PAGE.html   one page, in the colours of the terminal
#
# html5ever is Debian's (librust-html5ever-dev).
set -euo pipefail
here=$(cd "$(dirname "$0")" && pwd)
root=$(cd "$here/../.." && pwd)
registry=/usr/share/cargo/registry
export CARGO_TERM_QUIET=true CARGO_TARGET_DIR=$root/target/viewer/build

fail() {
    echo "viewer: $1" >&2
    exit 1
}

[ -d "$registry/html5ever-0.26.0" ] || fail "html5ever 0.26 is not there: install librust-html5ever-dev"
# Tendril's one repr(packed) becomes repr(C), which today's rustc asks for.
if [ ! -d "$root/target/viewer/tendril" ]; then
    mkdir -p "$root/target/viewer"
    cp -r "$registry/tendril-0.4.0" "$root/target/viewer/tendril"
    rm "$root/target/viewer/tendril/.cargo-checksum.json"
    sed -i 's|^#\[repr(packed)\]$|#[repr(C)]|' "$root/target/viewer/tendril/src/tendril.rs"
    printf '\n[lints.rust]\nwarnings = "allow"\n' >> "$root/target/viewer/tendril/Cargo.toml"
fi
page=${1:+$(realpath "$1")}
cd "$here"
cargo build --offline --locked --jobs 1
cargo test --offline --locked --jobs 1 > /dev/null
viewer=$CARGO_TARGET_DIR/debug/viewer
if [ -n "$page" ]; then
    exec "$viewer" "$page" sheets/school.css
fi

count=0
for html in pages/*.html; do
    "$viewer" --marks "$html" sheets/school.css | diff -u "${html%.html}.stdout" - || fail "$html prints something else than ${html%.html}.stdout"
    count=$((count + 1))
done
echo "viewer: $count pages print what is stored"
if [ -d "$root/target/crate/judge" ]; then
    (cd against && cargo run --offline --locked --jobs 1 -- ../sheets/school.css ../pages/*.html)
else
    echo "viewer: not held against html2text, which tools/crate/build.sh builds"
fi
