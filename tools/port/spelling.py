#!/usr/bin/env python3
"""Spells the definitions and lemmas of this repository in snake case: `styleRow` becomes `style_row`, `style-at′` becomes `style-at'`.

usage: spelling.py [--dry]     at the top of the repository, once

The names are those that the files of specs/ and proofs/ declare in camel case, but for types, facts and modules, which begin with a capital. A whole word turns, and
nothing less: in .antt files everywhere, in .rt files only in clauses, `ghost` items and the code spans of comments, in must-fail edits by the file that they
change, and in the documents and tables that name definitions. Functions of src/, exported names, strings, inputs and outputs keep their names.
Some lemmas that port.py spelled like a definition get `_lem` behind them. --dry writes nothing and lists what would fall together. tools/port/spelling.tsv has the
names, old and new.

It gives the crate `unicode` the name `characters` too, since the library of Rattle has a crate of that name, and takes the foreign `io` and `libc` out of crates.txt.
"""

import collections
import os
import re
import sys

TURNED = "tools/port/spelling.tsv"

WORD = re.compile(r"[^\s(){}.;,@\"«»`\[\]|]+")
DECLARED = re.compile(r"(?m)^ *(?:(?:pub|abbrev|unfoldable|data|record|constructor|pattern) +)*([^\s:(){}]+)(?: +(?:\([^()]*\)|\{[^{}]*\}|\w+))* +:(?!=)")
LOCAL = re.compile(r"(?m)^ *let ([a-z]\w*) ?[:=]|\blet ([a-z]\w*) (?::|=)")
ALIAS = re.compile(r"(?m)^use [^\n]* as ([a-z][\w'-]*) *$")
GHOST = re.compile(r"ghost\s+use\b[^;]*;|\b(?:requires|ensures)\*?\s*\w*\s*\{|\bghost\s*(?:\w+\s*:\s*)?\{")
EDITED = re.compile(r"(?m)^file: *(\S+)")

# Lemmas that have the name of a definition beside them: the definition keeps it.
LEMMAS = {n: n + "_lem" for n in "all_white below_top components_from fresh_in head_at left_in more_left row_below step_in too_long zero_row".split()}

CRATES = {"unicode": "characters"}
TEXTS = ("docs/", "docs/requests/", "README.md", "CONTRIBUTING.md", "CHANGELOG.md", "tools/proof/theorems.txt", "tools/vectors/definitions.py", "tools/vectors/README.md")


def in_snake_case(name):
    def part(p):
        if not p[:1].islower():
            return p
        return re.sub(r"(?<=[a-z0-9])[A-Z]", lambda m: "_" + m[0].lower(), p)

    return "-".join(part(p) for p in name.split("-")).replace("′", "'")


def files(*endings):
    for folder, dirs, names in os.walk("crates"):
        dirs[:] = sorted(d for d in dirs if d != "out")
        for f in sorted(names):
            if f.endswith(endings):
                yield os.path.join(folder, f)


def read(path):
    with open(path, encoding="utf-8") as f:
        return f.read()


def declared():
    """The names that turn, each with the files that declare it."""
    found = collections.defaultdict(set)
    for path in files(".antt"):
        text = read(path)
        for m in DECLARED.finditer(text):
            found[m[1]].add(path)
        for m in LOCAL.finditer(text):
            found[m[1] or m[2]].add(path)
        for m in ALIAS.finditer(text):
            found[m[1]].add(path)
    return found


def table():
    found = declared()
    rows = {}
    for name in found:
        new = LEMMAS.get(name) or in_snake_case(name)
        if new != name and name[:1].islower():
            rows[name] = new
    return rows, found


def turn_words(text, rows):
    return WORD.sub(lambda m: rows.get(m[0], m[0]), text)


def closing(text, i):
    deep = 0
    for k in range(i, len(text)):
        deep += (text[k] == "{") - (text[k] == "}")
        if not deep:
            return k + 1
    return len(text)


def turn_rust(text, rows):
    """Clauses, ghost items, and the code spans of comments."""
    out, i = [], 0
    while True:
        m = GHOST.search(text, i)
        if not m:
            break
        end = m.end() if m[0].endswith(";") else closing(text, m.end() - 1)
        out += [turn_spans(text[i : m.start()], rows), turn_words(text[m.start() : end], rows)]
        i = end
    return "".join(out + [turn_spans(text[i:], rows)])


def turn_spans(text, rows):
    def comment(m):
        return re.sub(r"`[^`\n]*`", lambda s: turn_words(s[0], rows), m[0])

    return re.sub(r"//[^\n]*", comment, text)


def turn_edit(text, rows):
    m = EDITED.search(text)
    rust = m and m[1].endswith(".rt")

    def line(l):
        head, _, rest = l.partition(": ")
        if head not in ("old", "new"):
            return turn_words(l, rows) if not rust else l
        return head + ": " + (turn_words(rest, rows) if not rust or re.search(r"\b(ensures|requires|ghost)\b", rest) else rest)

    return "\n".join(line(l) for l in text.split("\n"))


def rename_crates(text):
    for old, new in CRATES.items():
        text = re.sub(rf"\bRattle\.{old}\b", f"Rattle.{new}", text)
    return text


def rename_uses(text):
    for old, new in CRATES.items():
        text = re.sub(rf"(?m)^(\s*(?:pub )?use ){old}::", rf"\g<1>{new}::", text)
    return text


def crates_txt(text):
    lines = []
    for l in text.split("\n"):
        if l.startswith("#") or ":" not in l:
            lines.append(l)
            continue
        name, _, deps = l.partition(":")
        words = [CRATES.get(d, d) for d in deps.split() if d not in ("io", "libc")]
        lines.append(CRATES.get(name, name) + ":" + "".join(" " + d for d in words))
    return "\n".join(lines)


def taken(rows, found):
    """What would fall together: names declared, words of one file, and words of Rust beside a clause."""
    said = []
    news = collections.defaultdict(list)
    for old, new in rows.items():
        news[new].append(old)
    for new, olds in sorted(news.items()):
        if len(olds) > 1:
            said.append(f"two: {' '.join(olds)} -> {new}")
        if new in found:
            said.append(f"declared: {olds[0]} -> {new} in {sorted(found[olds[0]])[0]}, beside {sorted(found[new])[0]}")
    for path in files(".antt"):
        words = set(WORD.findall(read(path)))
        for w in sorted(words):
            if w in rows and rows[w] in words:
                said.append(f"word: {w} -> {rows[w]} in {path}")
    for path in files(".rt"):
        text = read(path)
        clauses = set()
        i = 0
        while m := GHOST.search(text, i):
            i = m.end() if m[0].endswith(";") else closing(text, m.end() - 1)
            clauses |= set(WORD.findall(text[m.start() : i]))
        rust = set(re.findall(r"\b(\w+)\s*:(?!:)", text)) | set(re.findall(r"\blet (?:mut )?(\w+)", text))
        functions = set(re.findall(r"\bfn (\w+)", text))
        for w in sorted(clauses):
            if w in rows and rows[w] in rust:
                said.append(f"rust: {w} -> {rows[w]} in {path}")
            if w in rows and rows[w] in functions:
                said.append(f"function: {w} -> {rows[w]} in {path}")
    return said


def main(argv):
    rows, found = table()
    if "--dry" in argv:
        print("\n".join(taken(rows, found)))
        print(f"{len(rows)} names")
        return 0
    if os.path.exists(TURNED):
        sys.exit(f"spelling.py: {TURNED} is there, so the names were turned already")
    for path in files(".antt", ".rt", ".edit"):
        text = read(path)
        new = rename_crates(text)
        if path.endswith(".antt"):
            new = turn_words(new, rows)
        elif path.endswith(".rt"):
            new = rename_uses(turn_rust(new, rows))
        else:
            new = turn_edit(new, rows)
        if new != text:
            with open(path, "w", encoding="utf-8") as f:
                f.write(new)
    for folder in TEXTS:
        for path in [folder] if os.path.isfile(folder) else [os.path.join(folder, f) for f in sorted(os.listdir(folder)) if f.endswith(".md") and f != "PORT.md"]:
            text = read(path)
            new = turn_words(text, rows)
            if new != text:
                with open(path, "w", encoding="utf-8") as f:
                    f.write(new)
    with open("crates.txt", encoding="utf-8") as f:
        text = f.read()
    with open("crates.txt", "w", encoding="utf-8") as f:
        f.write(crates_txt(text))
    for old, new in CRATES.items():
        if os.path.isdir(f"crates/{old}"):
            os.rename(f"crates/{old}", f"crates/{new}")
    with open(TURNED, "w", encoding="utf-8") as f:
        f.write("".join(f"{o}\t{n}\n" for o, n in sorted(rows.items())))
    print(f"{len(rows)} names")
    return 0


if __name__ == "__main__":
    raise SystemExit(main(sys.argv[1:]))
