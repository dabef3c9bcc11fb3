#!/usr/bin/env python3
"""Compares what the header and the Rust bindings declare with what the engine exports, and fails on a difference.

    python3 tools/check-bindings/check.py [LIBRARY [--alone]]

The signatures of crates/engine_c/src and the result structs of crates/engine/src are compared with those of include/hicsolmab.h and bindings/rust/src/calls.rs:
names, order, types and fields. (tools/compare/src/engine.rs, which declares them once more, may leave functions out.) Each constant of the header and of bindings/rust/src/layout.rs is
compared with the one in the source that it repeats, and the least lengths of both with the formulas over these. With LIBRARY its exported symbols are compared
too; with --alone it is also to have no variables and to call nothing outside but what moves bytes, for the header says that calls keep and allocate nothing. A linker
notices none of these.

What the check does not understand is a difference as well: each file is read whole, and what is left of it in the end must be nothing.
"""
import re
import subprocess
import sys
from pathlib import Path

ROOT = Path(__file__).resolve().parents[2]
ENGINE = "crates/engine/src"
EXPORTS = "crates/engine_c/src"
HEADER = "include/hicsolmab.h"
CALLS = "bindings/rust/src/calls.rs"
LAYOUT = "bindings/rust/src/layout.rs"
LENGTHS = "bindings/rust/src/lengths.rs"
COMPARE = "tools/compare/src/engine.rs"
PREFIX = "hicsolmab_"
MACRO = "HICSOLMAB_"

# For each source the constants that are repeated, a name that is another one there behind a colon; and before them a pattern. Every constant of the source that
# the pattern matches is to be among them, so that a new refusal or a new slot is not forgotten.
CONSTANTS = {
    "crates/combinators/src/refusals.rt": (r"", """NO_REFUSAL TOO_LONG SHORT_STORE NOT_UTF8 PANIC TOO_LARGE BAD_ROW BAD_TEXT NO_ELEMENT BAD_BYTES BAD_LENGTH NO_ROOM"""),
    "crates/combinators/src/least.rt": (r"", "TEXT_WIDTH TEXT_MORE NUMBER_WIDTH NUMBER_MORE"),
    "crates/origins/src/reading.rt": (r"\w+_TEXT$", "AGENT_TEXT USER_TEXT AUTHOR_TEXT"),
    "crates/sheets/src/sheet.rt": (r"\w+_LIMIT$", "SHEET_LIMIT"),
    "crates/lengths/src/answers.rt": (r"\w+_KIND$", "NO_LENGTH:NO_KIND UNIT_LENGTH:UNIT_KIND EM_LENGTH:EM_KIND EX_LENGTH:EX_KIND"),
    "crates/compiled/src/sheets.rt": (r"\w+_LIMIT$", "COMPILED_LIMIT"),
    "crates/page/src/check.rt": (r"\w+_LIMIT$", "NODE_LIMIT ATTRIBUTE_LIMIT TEXT_LIMIT"),
    "crates/page/src/rules.rt": (r"\w+_LIMIT$", "DEPTH_LIMIT"),
    "crates/page/src/rows.rt": (r"", """NODE_KIND:KIND NODE_PARENT:PARENT NODE_NAME_START:NAME_START NODE_NAME_LENGTH:NAME_LENGTH
        NODE_FIRST_ATTRIBUTE:FIRST_ATTRIBUTE NODE_ATTRIBUTE_COUNT:ATTRIBUTE_COUNT NODE_WIDTH DOCUMENT ELEMENT OTHER ATTRIBUTE_NAME_START ATTRIBUTE_NAME_LENGTH
        ATTRIBUTE_VALUE_START:VALUE_START ATTRIBUTE_VALUE_LENGTH:VALUE_LENGTH ATTRIBUTE_WIDTH"""),
    "crates/cascade/src/rows.rt": (r"(?!\w+_PLACE$)", """MAIN BEFORE AFTER RECORD_COUNT SLOT_COUNT SLOT_FILLED SLOT_ORIGIN SLOT_INLINE SLOT_ID SLOT_CLASS SLOT_TYPE SLOT_IMPORTANT
        SLOT_NUMBER SLOT_SECOND SLOT_START SLOT_WIDTH PRESENCE_WIDTH RECORD_WIDTH STYLE_ROW_WIDTH"""),
    "crates/syntax/src/rows.rt": (r"(?!LAST_|STYLE_)\w+_(SLOT|ORIGIN)$|WHITE_SPACE_\w+$", """COLOUR_SLOT BACKGROUND_SLOT DISPLAY_SLOT WHITE_SPACE_SLOT CONTENT_SLOT
        VISIBILITY_SLOT AGENT_ORIGIN USER_ORIGIN AUTHOR_ORIGIN WHITE_SPACE_NORMAL WHITE_SPACE_PRE WHITE_SPACE_PRE_WRAP
        VISIBILITY_VISIBLE:FLAG_FALSE VISIBILITY_HIDDEN:FLAG_TRUE"""),
}

# The least lengths, and where things begin in a row: the header's macro, the bindings' function, and the formula over the constants of the sources.
FORMULAS = [
    ("READ_SHEET_BYTES", "read_sheet_bytes", lambda c, sheet: sheet),
    ("HEIGHT_LENGTH_BYTES", "height_length_bytes", lambda c, value: value),
    ("COMPILE_BYTES", "compile_bytes", lambda c, agent, user, author: agent + user + author),
    ("RUN_BYTES", "run_bytes", lambda c, attributes, text: text + 2 * (attributes // c["ATTRIBUTE_WIDTH"])),
    ("STYLE_BYTES", "style_bytes", lambda c, agent, user, author, attributes, text: agent + user + author + text + 2 * (attributes // c["ATTRIBUTE_WIDTH"])),
    ("RULES_LEAST", "rules", lambda c, n: c["NUMBER_WIDTH"] * n + c["NUMBER_MORE"]),
    ("TOKENS_LEAST", "tokens", lambda c, n: c["NUMBER_WIDTH"] * n + c["NUMBER_MORE"]),
    ("BRACKETS_LEAST", "brackets", lambda c, n: n),
    ("TEXTS_LEAST", "texts", lambda c, n: c["TEXT_WIDTH"] * n + c["TEXT_MORE"]),
    ("ROWS_LEAST", "rows", lambda c, nodes: c["STYLE_ROW_WIDTH"] * (nodes // c["NODE_WIDTH"])),
    ("STATE_LEAST", "state", lambda c, compiled: (c["DEPTH_LIMIT"] + 1) * (compiled + 1)),
    ("RECORD_PLACE", "record_place", lambda c, record: record * c["RECORD_WIDTH"]),
    ("SLOT_PLACE", None, lambda c, record, slot: record * c["RECORD_WIDTH"] + c["PRESENCE_WIDTH"] + slot * c["SLOT_WIDTH"]),
    (None, "slot_place", lambda c, slot: c["PRESENCE_WIDTH"] + slot * c["SLOT_WIDTH"]),
]
SAMPLES = [[0, 0, 0, 0, 0], [1, 2, 3, 4, 5], [7, 11, 13, 17, 19], [100, 1000, 50, 4096, 65536]]

# Helpers of the header: they name no function of the library, and the compiler sees them whole.
INLINE = {"hicsolmab_has_record", "hicsolmab_slot_of", "hicsolmab_is_hidden", "hicsolmab_is_invisible", "hicsolmab_content"}

# What a compiler calls for loops over bytes.
MOVERS = {"memset", "memcpy", "memmove", "memcmp", "bcmp"}

# How a parameter of a signature passes.
C_TYPES = {"u64": "uint64_t", "u32": "uint32_t", "u8": "uint8_t", "usize": "size_t"}


class Declared:
    """Functions, each with its parameters in order and its result; structs, each with its fields in order."""

    def __init__(self):
        self.functions = {}
        self.structs = {}


def pairs(text, separator):
    return [tuple(word.strip() for word in part.split(separator, 1)) for part in text.split(",") if part.strip()]


def rust_structs(text):
    """The structs of repr(C), with their fields; and the text without them."""
    structs = {}

    def take(match):
        structs[match[1]] = [(name.removeprefix("pub "), kind) for name, kind in pairs(match[2], ":")]
        return ""

    rest = re.sub(r"(?:#\[cfg\([^\]]*\)\]\s*)?#\[repr\(C\)\]\s*(?:#\[derive\([^\]]*\)\]\s*)?pub struct (\w+) \{([^}]*)\}", take, text)
    return structs, rest


def without_comments(text):
    return re.sub(r"//[^\n]*", "", re.sub(r"/\*.*?\*/", "", text, flags=re.S))


# ---- the engine's sources

def exports(files):
    """What crates/engine_c/src exports, and the structs of crates/engine/src, which are its results."""
    declared = Declared()
    for path, text in files.items():
        text = without_comments(text)
        if path.startswith(ENGINE):
            structs, _ = rust_structs(text)
            declared.structs.update(structs)
        if not path.startswith(EXPORTS):
            continue
        found = re.findall(r"#\[unsafe\(no_mangle\)\]\s*pub extern \"C\" fn (\w+)\(([^)]*)\) -> (\w+)", text)
        if len(found) != text.count('extern "C"') or len(found) != text.count("#[unsafe(no_mangle)]"):
            raise ValueError(f"{path}: an export that is not understood")
        for name, parameters, result in found:
            declared.functions[name] = (pairs(parameters, ":"), result)
    if not declared.functions:
        raise ValueError(f"{EXPORTS} exports nothing")
    return declared


def passed(parameters, pointer, plain):
    """Parameters as they pass: a slice as a pointer and a length."""
    out = []
    for name, kind in parameters:
        slice_of = re.fullmatch(r"&(mut )?\[(\w+)\]", kind)
        if slice_of:
            out += [(name, pointer(bool(slice_of[1]), slice_of[2])), (f"{name}_length", plain("usize"))]
        else:
            out.append((name, plain(kind)))
    return out


def in_rust(engine):
    declared = Declared()
    declared.structs = engine.structs
    for name, (parameters, result) in engine.functions.items():
        declared.functions[name] = (passed(parameters, lambda mut, of: f"*{'mut' if mut else 'const'} {of}", lambda kind: kind), result)
    return declared


def c_name(struct):
    """hicsolmab_run_result for RunResult."""
    return PREFIX + re.sub(r"(?<!^)([A-Z])", r"_\1", struct).lower()


def in_c(engine):
    declared = Declared()
    for name, fields in engine.structs.items():
        declared.structs[c_name(name)] = [(field, C_TYPES[kind]) for field, kind in fields]
    for name, (parameters, result) in engine.functions.items():
        written = passed(parameters, lambda mut, of: f"{'' if mut else 'const '}{C_TYPES[of]} *", C_TYPES.get)
        declared.functions[name] = (written, c_name(result))
    return declared


# ---- the header

def c_pair(declaration):
    """Name and type of `const uint8_t *name`."""
    match = re.fullmatch(r"(.*?)(\w+)", " ".join(declaration.split()))
    return match[2], match[1].strip()


def header(text):
    """What the header declares, its constants, and its macros with parameters."""
    declared, constants, macros, left = Declared(), {}, {}, []
    text = re.sub(r"/\*.*?\*/", "", text, flags=re.S).replace("\\\n", " ")

    def take_macro(match):
        name, parameters, value = match[1], match[2], match[3].strip()
        if parameters is not None:
            macros[name] = ([word.strip() for word in parameters.split(",")], value)
        elif value:
            set_once(constants, name, value)
        return ""

    def take_enum(match):
        for name, value in pairs(match[1], "="):
            set_once(constants, name, value)
        return ""

    def take_struct(match):
        set_once(declared.structs, match[2], [c_pair(field) for field in match[1].split(";") if field.strip()])
        return ""

    def take_inline(match):
        if match[1] not in INLINE:
            left.append(match[1])
        return ""

    def take_function(match):
        set_once(declared.functions, match[2], ([c_pair(parameter) for parameter in match[3].split(",")], match[1]))
        return ""

    text = re.sub(r"#ifdef __cplusplus\n.*?#endif", "", text, flags=re.S)
    text = re.sub(r"^#define (\w+)(?:\(([^)]*)\))?([^\n]*)$", take_macro, text, flags=re.M)
    text = re.sub(r"^#(ifndef HICSOLMAB_H|include <std(def|int)\.h>|endif)$", "", text, flags=re.M)
    text = re.sub(r"enum \w+ \{([^}]*)\};", take_enum, text)
    text = re.sub(r"typedef struct \{([^}]*)\} (\w+);", take_struct, text)
    text = re.sub(r"static inline [^;{}]*?(\w+)\([^)]*\)\n\{\n.*?\n\}\n", take_inline, text, flags=re.S)
    text = re.sub(r"(\w+) (\w+)\(([^)]*)\);", take_function, text)
    left += text.split()
    if left:
        raise ValueError(f"{HEADER}: not understood: {' '.join(left)[:200]}")
    return declared, constants, macros


def set_once(table, name, value):
    if name in table:
        raise ValueError(f"{name} is there twice")
    table[name] = value


# ---- Rust

def rust_declared(path, text):
    """The structs and foreign functions of a file."""
    declared = Declared()
    declared.structs, text = rust_structs(without_comments(text))
    blocks = re.findall(r"unsafe extern \"C\" \{(.*?)\n\}", text, flags=re.S)
    if len(blocks) != 1 or re.search(r"#\[link_name|extern \"(?!C\")", text):
        raise ValueError(f"{path}: one block of foreign functions is understood")

    def take(match):
        set_once(declared.functions, match[1], (pairs(match[2], ":"), match[3]))
        return ""

    left = re.sub(r"(?:#\[cfg\(\w+\)\]\s*)?fn (\w+)\(([^)]*)\) -> (\w+);", take, blocks[0]).split()
    if left:
        raise ValueError(f"{path}: not understood: {' '.join(left)[:200]}")
    return declared


def rust_constants(text):
    return {name: value.replace(" as usize", "") for name, value in re.findall(r"^(?:pub )?const (\w+): (?:usize|u32) = ([^;]+);", without_comments(text), flags=re.M)}


def rust_functions(path, text):
    """The functions of one expression, as macros."""
    text = without_comments(text)
    found = re.findall(r"pub const fn (\w+)\(([^)]*)\) -> usize \{([^{};]*)\}", text)
    if len(found) != text.count("fn "):
        raise ValueError(f"{path}: a function that is not understood")
    return {name: ([parameter for parameter, _ in pairs(parameters, ":")], value.strip()) for name, parameters, value in found}


# ---- values

def value_of(expression, constants, macros, arguments=None):
    """The value of a sum of products, with constants, macros and arguments in it."""
    arguments = arguments or {}
    expression = expression.replace("(size_t)", "").replace("/", "//")
    names = set(re.findall(r"[A-Za-z_]\w*", expression))
    if not re.fullmatch(r"[\w\s+*/(),]*", expression):
        raise ValueError(f"not understood: {expression}")
    known = dict(arguments)
    for name in names - set(arguments):
        if name in macros:
            parameters, body = macros[name]
            known[name] = lambda *given, parameters=parameters, body=body: value_of(body, constants, macros, dict(zip(parameters, given, strict=True)))
        elif name in constants:
            known[name] = value_of(constants[name], constants, macros)
        else:
            raise ValueError(f"{name} is not there")
    return eval(expression, {"__builtins__": {}}, known)  # of digits, names, sums and products alone, as was tested


# ---- the comparison

def differences(files):
    """All differences, a line each. `files` has the texts by their paths."""
    out = []
    engine = exports(files)
    declared, constants, macros = header(files[HEADER])
    out += declarations(HEADER, in_c(engine), declared)
    out += declarations(CALLS, in_rust(engine), rust_declared(CALLS, files[CALLS]))
    out += declarations(COMPARE, in_rust(engine), rust_declared(COMPARE, files[COMPARE]), all_of_them=False)

    sources, due = source_constants(files, out)
    layout = rust_constants(files[LAYOUT])
    out += values(HEADER, sources, due, {name: value_of(value, constants, macros) for name, value in constants.items()}, MACRO)
    out += values(LAYOUT, sources, due, {name: value_of(value, layout, {}) for name, value in layout.items()}, "")
    out += [f"{HEADER}: {name} is not named {MACRO}.." for name in constants if not name.startswith(MACRO)]

    functions = rust_functions(LENGTHS, files[LENGTHS]) | rust_functions(LAYOUT, files[LAYOUT])
    every = layout | rust_constants(files[LENGTHS])
    out += formulas(HEADER, sources, constants, macros, {MACRO + name: formula for name, _, formula in FORMULAS if name})
    out += formulas(LENGTHS, sources, every, functions, {name: formula for _, name, formula in FORMULAS if name})
    return out


def declarations(path, wanted, found, all_of_them=True):
    out = []
    for what, want, have in (("function", wanted.functions, found.functions), ("struct", wanted.structs, found.structs)):
        for name in sorted(want.keys() | have.keys()):
            if name not in have:
                if all_of_them:
                    out.append(f"{path}: {what} {name} is not declared")
            elif name not in want:
                if all_of_them or name.startswith(PREFIX):
                    out.append(f"{path}: {what} {name} is not exported by {EXPORTS}")
            elif want[name] != have[name]:
                out.append(f"{path}: {what} {name} is {have[name]}, and should be {want[name]}")
    return out


def source_constants(files, out):
    """The value of each constant that is repeated, by its name here; and which of them are due."""
    values_here, due = {}, set()
    # a constant may be made of those of another crate, which its file takes from there
    all_of_them = {name: value for path in CONSTANTS for name, value in rust_constants(files[path]).items()}
    for path, (pattern, names) in CONSTANTS.items():
        there = rust_constants(files[path])
        named = dict(word.split(":") if ":" in word else (word, word) for word in names.split())
        for here, name in named.items():
            if name not in there:
                out.append(f"{path}: there is no constant {name}")
                continue
            values_here[here] = value_of(there[name], all_of_them | there, {})
            due.add(here)
        for name in there.keys() - set(named.values()):
            if re.match(pattern, name):
                out.append(f"{path}: {name} is repeated nowhere")
    return values_here, due


def values(path, sources, due, found, prefix):
    out = [f"{path}: {prefix}{name} is not there" for name in sorted(due) if prefix + name not in found]
    for name, value in found.items():
        source = sources.get(name.removeprefix(prefix))
        if source is None:
            out.append(f"{path}: {name} repeats no constant that the check knows")
        elif source != value:
            out.append(f"{path}: {name} is {value}, and should be {source}")
    return out


def formulas(path, sources, constants, macros, wanted):
    out = [f"{path}: {name} is not known to the check" for name in macros.keys() - wanted.keys()]
    for name, formula in wanted.items():
        if name not in macros:
            out.append(f"{path}: {name} is not there")
            continue
        count = len(macros[name][0])
        if count != formula.__code__.co_argcount - 1:
            out.append(f"{path}: {name} takes {count} arguments")
            continue
        for sample in SAMPLES:
            given = sample[:count]
            have = value_of(f"{name}({', '.join(map(str, given))})", constants, macros)
            want = formula(sources, *given)
            if have != want:
                out.append(f"{path}: {name} of {given} is {have}, and should be {want}")
                break
    return out


def symbols(library, engine):
    listed = subprocess.run(["nm", "--defined-only", "--extern-only", library], capture_output=True, text=True, check=True)
    found = {line.split()[-1] for line in listed.stdout.splitlines() if len(line.split()) == 3}
    return [f"{library}: {name} is {'not there' if name in engine.functions else 'there and not exported by ' + EXPORTS}"
            for name in sorted(engine.functions.keys() ^ {name for name in found if name.startswith(PREFIX)})]


def alone(library):
    """What a library needs beside itself, or keeps. A letter of nm in lower case is local."""
    listed = subprocess.run(["nm", library], capture_output=True, text=True, check=True)
    out = []
    for kind, name in re.findall(r"^(?:[0-9a-f]{16}| {16}) (\w) (\S+)$", listed.stdout, flags=re.M):
        if kind in "bBdDC":
            out.append(f"{library}: {name} is a variable")
        elif kind == "U" and name not in MOVERS:
            out.append(f"{library}: {name} is called, which is not its own")
    return out


def read_files():
    paths = [HEADER, CALLS, LAYOUT, LENGTHS, COMPARE, *CONSTANTS]
    paths += [str(path.relative_to(ROOT)) for folder in (ENGINE, EXPORTS) for path in sorted((ROOT / folder).glob("*.rt"))]
    return {path: (ROOT / path).read_text(encoding="utf-8") for path in paths}


def main():
    files = read_files()
    try:
        out = differences(files)
        if sys.argv[1:]:
            out += symbols(sys.argv[1], exports(files))
        if sys.argv[2:] == ["--alone"]:
            out += alone(sys.argv[1])
    except ValueError as error:
        out = [str(error)]
    for line in out:
        print(f"check-bindings: {line}", file=sys.stderr)
    if out:
        sys.exit(1)
    print(f"check-bindings: header and bindings declare the {len(exports(files).functions)} functions that the engine exports")


if __name__ == "__main__":
    main()
