#!/usr/bin/env bash
# Asks html2text 0.17.4 and this engine the same questions and prints one table. The crate is asked as built with overflow checks and as released; where the two
# tables are not the same, both are printed.
#
#     bash tools/crate/build.sh FOLDER                    once: the crate
#     bash tools/staticlib.sh engine                      once: this engine
#     bash tools/staticlib.sh comparison                  once: what only the comparison asks
#     bash tools/compare/run.sh                           all questions: seed 1, 3,000 inputs for each
#     bash tools/compare/run.sh SEED COUNT [QUESTION]     COUNT inputs for each question, or for one
#     bash tools/compare/run.sh short                     all short texts of src/short.rs
#
# It fails where there is a difference. Other archives than target/staticlib/libengine.a and libcomparison.a: ENGINE=PATH, COMPARISON=PATH.
set -euo pipefail
SEED=1
COUNT=3000
root=$(cd "$(dirname "$0")/../.." && pwd)
[ $# -gt 0 ] || set -- "$SEED" "$COUNT"

fail() {
    echo "compare: $1" >&2
    exit 1
}

[ -d "$root/target/crate" ] || fail "the crate is not built: run bash tools/crate/build.sh FOLDER, where FOLDER holds the source of html2text 0.17.4"
cd "$root/target/crate"
work=$(mktemp -d)
trap 'rm -rf "$work"' EXIT
status=0
for profile in checked release; do
    CARGO_TERM_QUIET=true cargo build --offline --jobs 1 -p compare --profile "$profile"
    "target/$profile/compare" "$@" > "$work/$profile" || status=1
done
if cmp -s "$work/checked" "$work/release"; then
    cat "$work/release"
    echo "html2text with overflow checks and as released: the same table"
else
    for profile in checked release; do
        echo "profile $profile"
        cat "$work/$profile"
    done
fi
exit "$status"
