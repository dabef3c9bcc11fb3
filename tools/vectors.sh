#!/usr/bin/env bash
# Writes the fixed lists of html2text's answers, which lie in crates/replay/stdin (their format: tools/vectors/README.md),
# and makes sure that they meet every branch of html2text's reader, matcher and cascade but those in tools/vectors/unreachable.txt.
#
#     bash tools/crate/build.sh FOLDER       once: the crate
#     bash tools/vectors.sh [SEED]
#
# The crate's text, and nothing else, is built with -C instrument-coverage; of generated inputs those are taken whose counters show
# something new (choose_vectors.rs of tools/compare). llvm-22 reads the counters; it is installed by name where it is missing.
set -euo pipefail
here=$(cd "$(dirname "$0")" && pwd)
cover=$here/../target/crate/cover
llvm=/usr/lib/llvm-22/bin
[ -x "$llvm/llvm-cov" ] || { apt-get update -qq; apt-get install -y -qq --no-install-recommends llvm-22 > /dev/null; }

mkdir -p "$cover"
cat > "$cover/rustc-wrapper" <<'WRAPPER'
#!/usr/bin/env bash
case " $* " in
    *" --crate-name judge "*) exec "$@" -C instrument-coverage ;;
    *) exec "$@" ;;
esac
WRAPPER
chmod +x "$cover/rustc-wrapper"

cd "$here/../target/crate"
CARGO_TERM_QUIET=true RUSTC_WRAPPER=$cover/rustc-wrapper cargo build --offline -p compare --features cover --bin choose_vectors --profile release --target-dir "$cover"
program=$cover/release/choose_vectors
LLVM_PROFILE_FILE=$cover/vectors.profraw "$program" "${1:-1}" "$cover"
python3 "$here/vectors/vectors.py" join "$cover"
"$llvm/llvm-profdata" merge -o "$cover/vectors.profdata" "$cover/vectors.profraw"
"$llvm/llvm-cov" export "$program" -instr-profile="$cover/vectors.profdata" | python3 "$here/vectors/uncovered.py"
