#!/usr/bin/env python3
"""Lists the places of html2text's reader, matcher and cascade that the vectors leave unmet, and fails unless each of them stands in unreachable.txt.
Its input is what `llvm-cov export` prints; tools/vectors.sh runs it."""
import json
import pathlib
import sys

HERE = pathlib.Path(__file__).parent
# What is held to the list: all of the reader; of css.rs matching, specificities, styles and computed styles; of lib.rs (in the order of the judge's
# assembled text) specificities and slots. Printing for a person, and what the viewer does not use, is left out.
FUNCTIONS = {
    "css.rs": ["do_matches", "matches", "specificity", "styles_from_properties", "do_add_css", "add_agent_css", "add_user_css", "add_author_css",
               "computed_style", "merge_computed_style"],
    "css/parser.rs": None,
    "lib.rs": ["inline", "add_assign", "partial_cmp", "maybe_update", "inherit"],
}
CODE_REGION = 0


def source_file(name):
    return name.split("/judge/src/")[-1]


def wanted(function):
    functions = FUNCTIONS.get(source_file(function["filenames"][0]), [])
    if "names" in function["name"] and "parser" in function["name"]:
        return False  # the module that tools/crate appends
    return functions is None or any(f"{len(f)}{f}" in function["name"] for f in functions)


def main():
    allowed = set()
    for line in (HERE / "unreachable.txt").read_text().splitlines():
        if not line.startswith("#"):
            file, number, _ = line.split(" ", 2)
            allowed.add((file.removeprefix("src/"), int(number)))
    counts = {}
    for function in json.load(sys.stdin)["data"][0]["functions"]:
        if wanted(function):
            file = source_file(function["filenames"][0])
            for line, column, end_line, end_column, count, _, _, kind in function["regions"]:
                if kind == CODE_REGION:
                    place = (file, line, column, end_line, end_column)
                    counts[place] = counts.get(place, 0) + count
    unmet = sorted({(file, line) for (file, line, *_), count in counts.items() if count == 0})
    fresh = [place for place in unmet if place not in allowed]
    print(f"{len(counts)} places of html2text, {sum(c == 0 for c in counts.values())} unmet, on {len(unmet)} lines, of which {len(fresh)} are not listed as unreachable")
    for file, line in fresh:
        print(f"unmet: src/{file} {line}")
    return 1 if fresh else 0


sys.exit(main())
