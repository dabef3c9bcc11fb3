#!/usr/bin/env bash
# Builds the static library and the example in C, and reads two sheets with it: one whose second rule does not read, and one with a number on which html2text panics.
#
#     bash tools/example-c/run.sh
set -euo pipefail
here=$(cd "$(dirname "$0")" && pwd)
root=$here/../..
cd "$root"
bash tools/staticlib.sh engine > /dev/null
cc -std=c11 -O2 -Wall -Wextra -Werror -I include -o target/example-c tools/example-c/main.c target/staticlib/libengine.a
printf 'p > .k { color: red; zz: 1 } q { color }' | target/example-c
printf 'a:nth-child(2147483648' | target/example-c || true
