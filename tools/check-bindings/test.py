#!/usr/bin/env python3
"""Plants single differences in the header, in the bindings and in the engine's sources, and says how many of them the check noticed.

    python3 tools/check-bindings/test.py

Nothing is written: the check is handed texts. Differences are of these kinds: a number of a constant or of a formula raised by one, a function left out, two
parameters or fields in each other's place, one left out, one renamed, and one of another type.
"""
import re
import sys

import check

# Lines that declare a parameter or a field, in C, in Rust, and in the sources.
C_MEMBER = re.compile(r"^ +(?:hicsolmab_\w+ \w+\()?(?:const )?(?:uint8_t|uint32_t|uint64_t|size_t) \*?\w+[,;)]|^hicsolmab_\w+ \w+\(")
RUST_MEMBER = re.compile(r"^ {4,8}(?:pub )?\w+: (?:\*(?:const|mut) |&(?:mut )?\[)?(?:u8|u32|u64|usize)\b")
TYPES = [("uint8_t", "uint32_t"), ("uint32_t", "uint8_t"), ("uint64_t", "uint32_t"), ("size_t", "uint32_t"), ("const ", ""), ("uint8_t *", "const uint8_t *"), ("*const", "*mut"),
         ("*mut", "*const"), ("u8", "u32"), ("u32", "u8"), ("u64", "u32"), ("usize", "u32"), ("&mut [", "&["), ("&[", "&mut [")]


def numbers(path, text):
    """Each number of a constant, a macro or a length, raised by one."""
    code = blanked(path, text)
    for match in re.finditer(r"(?<![\w.])\d+(?!\w)", code):
        line = text[text.rfind("\n", 0, match.start()) + 1:text.find("\n", match.start())]
        if re.search(r"#define|const \w+:|^ {4}HICSOLMAB_\w+ =|\+ 1\)", line):
            yield f"{path}: {line.strip()}: {int(match[0]) + 1}", text[:match.start()] + str(int(match[0]) + 1) + text[match.end():]


def signs(path, text):
    """Each sum a product and each product a sum, in macros and in lengths."""
    for match in re.finditer(r" ([+*]) ", blanked(path, text)):
        line = text[text.rfind("\n", 0, match.start()) + 1:text.find("\n", match.start())]
        if path != check.HEADER or re.search(r"#define|^ {4}\(HICSOLMAB", line):
            other = "*" if match[1] == "+" else "+"
            yield f"{path}: {line.strip()}: {other}", text[:match.start(1)] + other + text[match.end(1):]


def members(path, text, pattern):
    """Each line of a parameter or a field left out, renamed, of another type, and in the place of the next."""
    lines = text.split("\n")
    plain = blanked(path, text).split("\n")

    def edited(said, *instead, lines_taken=1):
        return f"{path}: {lines[i].strip()}: {said}", "\n".join([*lines[:i], *instead, *lines[i + lines_taken:]])

    for i, line in enumerate(lines):
        if not pattern.match(plain[i]):
            continue
        if "(" not in line and ");" not in line:
            yield edited("left out")
            if pattern.match(plain[i + 1]) and ");" not in lines[i + 1]:
                yield edited("behind the next", lines[i + 1], line, lines_taken=2)
        for match in re.finditer(r"\b(?!u8|u32|u64|usize)(\w+)(?=[:,;)])", plain[i]):
            yield edited(f"{match[1]} renamed", line[:match.end()] + "s" + line[match.end():])
        for before, after in TYPES:
            for match in re.finditer(r"(?<!\w)" + re.escape(before) + (r"(?!\w)" if before[-1].isalnum() else ""), plain[i]):
                yield edited(f"{after} for {before}", line[:match.start()] + after + line[match.end():])


def in_part(text, start, end, edits):
    """The edits of a part of a text, as edits of the text."""
    for said, part in edits(text[start:end]):
        yield said, text[:start] + part + text[end:]


def functions(path, text, pattern):
    """Each function left out."""
    for match in re.finditer(pattern, text, flags=re.M | re.S):
        yield f"{path}: without {match[1]}", text[:match.start()] + text[match.end():]


def blanked(path, text):
    """The text with blanks for its comments."""
    comment = r"/\*.*?\*/" if path.endswith(".h") else r"//[^\n]*"
    return re.sub(comment, lambda match: re.sub(r"[^\n]", " ", match[0]), text, flags=re.S)


def planted(path, text):
    """All edits of a text: what each is, and the whole text with it."""
    if path == check.HEADER:
        yield from numbers(path, text)
        yield from signs(path, text)
        yield from functions(path, text, r"^hicsolmab_\w+ (\w+)\([^)]*\);$")
        yield from in_part(text, text.index("/* ---- Calls */"), len(text), lambda part: members(path, part, C_MEMBER))
    elif path == check.CALLS:
        yield from functions(path, text, r"^ {4}fn (\w+)\([^)]*\) -> \w+;$")
        start, end = text.index("/// What [`read_sheet`] answers"), text.index("/// Reads one sheet")
        yield from in_part(text, start, end, lambda part: members(path, part, RUST_MEMBER))
    elif path in (check.LAYOUT, check.LENGTHS):
        yield from numbers(path, text)
        yield from signs(path, text)
    elif path in check.CONSTANTS:
        yield from ((said, edited) for said, edited in numbers(path, text) if re.search(rf"const ({names(path)}):", said))
    elif path.startswith((check.ENGINE, check.EXPORTS)):
        pattern = r"#\[repr\(C\)\][^{]*pub struct \w+ \{[^}]*\}" if path.startswith(check.ENGINE) else r"pub extern \"C\" fn \w+\([^)]*\)"
        for match in re.finditer(pattern, text):
            yield from in_part(text, match.start(), match.end(), lambda part: members(path, part, RUST_MEMBER))


def names(path):
    return "|".join(word.split(":")[-1] for word in check.CONSTANTS[path][1].split())


def noticed(files):
    try:
        return bool(check.differences(files))
    except ValueError:
        return True


def main():
    files = check.read_files()
    if noticed(files):
        sys.exit("check-bindings: there are differences already, run check.py")
    count, missed = 0, []
    for path, text in files.items():
        for said, edited in planted(path, text):
            count += 1
            if not noticed(files | {path: edited}):
                missed.append(said)
    for said in missed:
        print(f"check-bindings: not noticed: {said}", file=sys.stderr)
    print(f"check-bindings: {count - len(missed)} of {count} planted differences were noticed")
    sys.exit(1 if missed else 0)


if __name__ == "__main__":
    main()
