#!/usr/bin/env bash
# Builds html2text's own stylesheet half as a Rust library that can be asked what it reads and matches: the judge of tools/compare.
#
#     bash tools/crate/build.sh FOLDER        FOLDER holds the source of html2text 0.17.4 (src/css.rs lies in it)
#
# Everything is assembled in target/crate, a cargo workspace of which tools/compare and tools/bench-* are members. Nothing of the
# crate's text is kept in this repository. Taken unchanged: src/css.rs and src/css/parser.rs (a module is appended to each, which
# reaches what is private there), src/macros.rs; of src/lib.rs the text from WhiteSpace to Result and the tree-map helpers; of
# src/markup5ever_rcdom.rs the node types, get_parent and append.
#
# Written new, in this folder: lib.rs and dom.rs (what stands around those parts), types.rs (css/types.rs is not in the source at hand),
# names.rs and questions.rs (the appended modules), answers.rs (what a question is answered with).
#
# The one adaptation: the crate asks for nom 8, Debian has nom 7.1.1. In a copy of that, `combinator::fail()` gives a parser, and tuples of
# parsers are parsers by nom's own Tuple. (tendril's one repr(packed) becomes repr(C), which today's rustc asks for.)
set -euo pipefail
here=$(cd "$(dirname "$0")" && pwd)
root=$(cd "$here/../.." && pwd)
source=$(cd "${1:?the folder that holds the source of html2text 0.17.4}" && pwd)/src
out=$root/target/crate
registry=/usr/share/cargo/registry
nom=$registry/nom-7.1.1
tendril=$registry/tendril-0.4.0

fail() {
    echo "build.sh: $1" >&2
    exit 1
}

[ -f "$source/css/parser.rs" ] || fail "there is no src/css/parser.rs in $1"

# ---- the packages, by name
packages=(librust-nom-dev librust-html5ever-dev librust-tendril-dev librust-thiserror-dev)
missing=()
for package in "${packages[@]}"; do
    dpkg-query -W -f '${Status}' "$package" 2> /dev/null | grep -q 'ok installed' || missing+=("$package")
done
if [ "${#missing[@]}" -gt 0 ]; then
    apt-get update -qq
    apt-get install -y -qq --no-install-recommends "${missing[@]}" > /dev/null
fi
[ -d "$nom" ] || fail "Debian's nom is not 7.1.1"
[ -d "$tendril" ] || fail "Debian's tendril is not 0.4.0"

# ---- parts of a file
# The lines of $1 from the first that matches $2 to the first that matches $3 behind one that matches $4 (or $2).
part() {
    awk -v from="$2" -v to="$3" -v past="${4:-$2}" '
        !on && $0 ~ from { on = 1 }
        on && $0 ~ past { passed = 1 }
        on { print }
        on && passed && $0 ~ to { found = 1; exit }
        END { exit !found }' "$1" || fail "$1 has no part from '$2' to '$3'"
}

# ---- nom in nom 8's form, in two places
rm -rf "$out/nom" "$out/tendril" "$out/judge/src"
mkdir -p "$out/.cargo" "$out/judge/src/css"
cp -r "$nom" "$out/nom"
cp -r "$tendril" "$out/tendril"
rm "$out/nom/.cargo-checksum.json" "$out/tendril/.cargo-checksum.json"
# fail::<..>(input), a parser itself, becomes fail(), which gives one
sed -i 's|^pub fn fail<I, O, E: ParseError<I>>(i: I) -> IResult<I, O, E> {|pub fn fail<I, O, E: ParseError<I>>() -> impl FnMut(I) -> IResult<I, O, E> {|
        s|^  Err(Err::Error(E::from_error_kind(i, ErrorKind::Fail)))$|  move \|i: I\| Err(Err::Error(E::from_error_kind(i, ErrorKind::Fail)))|' "$out/nom/src/combinator/mod.rs"
grep -q '^pub fn fail<I, O, E: ParseError<I>>() ->' "$out/nom/src/combinator/mod.rs" || fail "nom's fail was not adapted"
cat "$here/nom_tuples.rs" >> "$out/nom/src/sequence/mod.rs"
for copy in nom tendril; do
    printf '\n[lints.rust]\nwarnings = "allow"\n' >> "$out/$copy/Cargo.toml"
done
sed -i 's|^#\[repr(packed)\]$|#[repr(C)]|' "$out/tendril/src/tendril.rs"

# ---- the crate's text
cp "$source/macros.rs" "$out/judge/src/macros.rs"
{ cat "$source/css.rs"; echo 'pub mod questions;'; } > "$out/judge/src/css.rs"
{ cat "$source/css/parser.rs" "$here/names.rs"; } > "$out/judge/src/css/parser.rs"
{
    cat "$here/lib.rs"
    part "$source/lib.rs" '^#.derive.Debug, Copy, Clone, Default, PartialEq, Eq..$' '^type Result<'
    part "$source/lib.rs" '^/// A reducer which combines' '^}$' '^fn tree_map_reduce'
} > "$out/judge/src/lib.rs"
{
    cat "$here/dom.rs"
    part "$source/markup5ever_rcdom.rs" '^/// The different kinds of nodes' '^    }$' 'pub fn get_parent'
    echo '}'
    part "$source/markup5ever_rcdom.rs" '^impl Drop for Node' '^}$' '^fn append\('
} > "$out/judge/src/markup5ever_rcdom.rs"
cp "$here/types.rs" "$here/questions.rs" "$out/judge/src/css/"
cp "$here/answers.rs" "$out/judge/src/"

# ---- the workspace, and both builds
cp "$here/judge.toml" "$out/judge/Cargo.toml"
cp "$here/workspace.toml" "$out/Cargo.toml"
sed "s|REGISTRY|$registry|" "$here/config.toml" > "$out/.cargo/config.toml"
cd "$out"
export CARGO_TERM_QUIET=true
cargo test --offline -p judge --profile checked
cargo build --offline -p judge --release
echo "built in target/crate: with overflow checks (profile checked), and for release"
