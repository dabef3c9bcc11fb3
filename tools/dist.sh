#!/usr/bin/env bash
# Makes one archive file for a build machine without Rattle: the static library, the header, the Rust crate, both examples, and a manifest that says what they were
# made from. Then unpacks it elsewhere, compares the checksums and runs both examples from it.
#
#     bash tools/dist.sh [GATE_LOG]
#
# GATE_LOG is what `bash .ci/run` printed for this very commit; without it the gate is run, which takes its time. The library is that of `bash tools/staticlib.sh engine`.
# Another one is taken from HICSOLMAB_LIBRARY=PATH, and the manifest then says so. The archive is written to target/dist.
set -euo pipefail
root=$(cd "$(dirname "$0")/.." && pwd)
cd "$root"

fail() {
    echo "dist.sh: $1" >&2
    exit 1
}

[ -z "$(git status --porcelain)" ] || fail "there are changes that are not committed, so no commit would say what the archive is made from"
work=$(mktemp -d)
trap 'rm -rf "$work"' EXIT

# ---- the gate
gate=$work/gate.log
gate_note="run for this archive"
if [ $# -gt 0 ]; then
    cp "$1" "$gate"
    gate_note="from a log given by hand"
else
    bash .ci/run | tee "$gate"
fi
gate_line=$(tail -n 1 "$gate")
[[ $gate_line =~ (^|[^0-9])[1-9][0-9]*\ passed,\ 0\ failed$ ]] || fail "the gate's last line is not 'N passed, 0 failed' but '$gate_line'"

# ---- the library
library=${HICSOLMAB_LIBRARY:-}
library_line="a file given by hand"
if [ -z "$library" ]; then
    bash tools/staticlib.sh engine > /dev/null
    library=target/staticlib/libengine.a
    library_line="bash tools/staticlib.sh engine"
fi
python3 tools/check-bindings/check.py "$library" --alone

# ---- what is in it
commit=$(git rev-parse HEAD)
version=$(sed -n 's/^version = "\(.*\)"$/\1/p' bindings/rust/Cargo.toml)
name=hicsolmab-$version-${commit:0:12}
folder=$work/$name
mkdir -p "$folder"/{include,lib,rust,examples}
cp NOTICE CHANGELOG.md "$folder"
cp include/hicsolmab.h "$folder/include"
cp "$library" "$folder/lib/libengine.a"
git archive HEAD:bindings/rust | tar -x -C "$folder/rust"
git archive HEAD:examples | tar -x -C "$folder/examples"

# ---- the manifest: lines that `sha256sum --check` passes over, and its checksums
{
    echo "# $name"
    echo "# commit: $commit"
    echo "# toolchain: $(rt version)"
    echo "# gate: $gate_line ($gate_note)"
    echo "# library: $library_line"
    (cd "$folder" && find . -type f ! -name MANIFEST -printf '%P\0' | sort -z | xargs -0 sha256sum)
} > "$work/MANIFEST"
mv "$work/MANIFEST" "$folder/MANIFEST"

# ---- the archive, byte for byte the same for the same commit and library
mkdir -p target/dist
archive=target/dist/$name.tar.gz
tar --sort=name --format=gnu --mtime="@$(git log -1 --format=%ct)" --owner=0 --group=0 --numeric-owner --mode=u=rwX,go=rX -C "$work" -cf - "$name" |
    gzip -n9 > "$archive"

# ---- unpacked elsewhere
elsewhere=$work/elsewhere
mkdir "$elsewhere"
tar -xzf "$archive" -C "$elsewhere"
(cd "$elsewhere/$name" && sha256sum --check --quiet --strict MANIFEST)
env -u HICSOLMAB_LIBRARY bash "$elsewhere/$name/examples/run.sh"
sed -n 's/^# //p' "$folder/MANIFEST"
echo "$archive, $(stat -c %s "$archive") bytes, SHA-256 $(sha256sum "$archive" | cut -d ' ' -f 1)"
