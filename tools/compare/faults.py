#!/usr/bin/env python3
"""Plants single faults, one at a time, and counts how many the comparison notices.

    bash tools/crate/build.sh FOLDER                 once: the crate
    bash tools/staticlib.sh engine                   once: this engine
    bash tools/staticlib.sh comparison               once: what only the comparison asks
    python3 tools/compare/faults.py [PART ..]        parts of the names of faults; without them all

Faults of the crate are changes of its text. Those of the engine are made by a layer between it and the comparison (faults/shim.c), for the engine's text cannot be built where
it is wrong. For each fault every question is asked until its first difference, at most 500 inputs with one seed; where none differs all short texts of src/short.rs are asked, and then 4,000 inputs. A fault that makes a question crash or last too long is noticed too.
All is built in target/faults; target/crate stays as it is. It takes half an hour. What is printed is a table.
"""
import os
import shutil
import subprocess
import sys
from pathlib import Path

SEED = "1"
# How a fault is asked for, one after the other until something notices it: so many inputs for each question, all short texts, more inputs.
STAGES = (("notice", SEED, "500"), ("short",), ("notice", SEED, "4000"))
SECONDS = 600
ROOT = Path(__file__).resolve().parents[2]
FAULTS = ROOT / "target/faults"
CRATE = FAULTS / "target/crate"
ARCHIVES = {"engine": "ENGINE", "comparison": "COMPARISON"}
PREFIXES = ("hicsolmab_", "comparison_")
# Of those functions nothing is changed, so they keep their names.
UNCHANGED = {"comparison_style_attribute"}

PARSER, CSS, LIB = "css/parser.rs", "css.rs", "lib.rs"
# A fault of the crate: its name, the file, what stands there exactly so often, what takes its place, and what that means.
CRATE_FAULTS = [
    ("parser_name_start", PARSER, r"'\u{0081}'..", 1, r"'\u{0080}'..", "U+0080 starts a name"),
    ("parser_hex_digits", PARSER, "nexti - start_idx < 6", 1, "nexti - start_idx < 5", "an escape has five hex digits at most"),
    ("parser_cdo", PARSER, 'rest.strip_prefix("<!--")', 1, 'rest.strip_prefix("<!-")', "`<!-` opens a bracket"),
    ("parser_important", PARSER, 'x == "important"', 1, 'x.starts_with("important")', "`!importantly` is a mark"),
    ("parser_trim", PARSER, "let text = text.trim();", 1, "let text = text.trim_end();", "a faulty colour has no white space before it"),
    ("parser_gray", PARSER, '"gray" => Colour::Rgb(0x80, 0x80, 0x80)', 1, '"gray" => Colour::Rgb(0x80, 0x80, 0x81)', "another gray"),
    ("parser_auto", PARSER, "return Ok(Overflow::Auto);", 1, "return Ok(Overflow::Scroll);", "`overflow: auto` scrolls"),
    ("parser_white_space", PARSER, "    Ok(WhiteSpace::Normal)\n", 1, "    Err(empty_fail())\n", "a white space that is not known is no declaration"),
    ("parser_string_line", PARSER, "Some((_i, '\\n')) => {} // Eat the newline", 1, "Some((_i, '\\n')) => s.push('\\n'),", "an escaped line feed stays in a string"),
    ("parser_odd", PARSER, 'map(tag("odd"), |_| (2, 1))', 1, 'map(tag("odd"), |_| (2, -1))', "`odd` is 2n-1"),
    ("parser_sign", PARSER, "let b = <i32 as FromStr>::from_str(b_val).unwrap() * b_sign.val();\n            (0, b)", 1,
     "let b = <i32 as FromStr>::from_str(b_val).unwrap() * (b_sign.val() * b_sign.val());\n            (0, b)", "the sign of a lone number is lost"),
    ("parser_leading_space", PARSER, "components.reverse();\n    if let Some(&SelectorComponent::CombDescendant) = components.last() {\n        components.pop();\n    }", 1,
     "components.reverse();", "white space before a selector is a descendant step"),
    ("parser_trailing_space", PARSER, "    if let Some(&SelectorComponent::CombDescendant) = components.last() {\n        components.pop();\n    }\n    components.reverse();", 1,
     "    components.reverse();", "white space behind a selector is a descendant step"),
    ("parser_semicolon", PARSER, 'opt(tag(";"))', 1, 'opt(tag(";;"))', "no `;` may stand behind the last declaration"),
    ("parser_at_rule", PARSER, "parse_to_end_of_statement(rest, None, true)", 1, "parse_to_end_of_statement(rest, None, false)", "the `;` of an at-rule is left"),
    ("css_class_case", CSS, "if cls == class {", 1, "if cls.eq_ignore_ascii_case(class) {", "classes match in either case"),
    ("css_class_space", CSS, "attr.value.split_whitespace()", 1, "attr.value.split(' ')", "only spaces stand between classes"),
    ("css_attribute_again", CSS, "                                        } else {\n                                            return false;\n", 1,
     "                                        } else {\n", "of several attributes of one name any may be equal"),
    ("css_nth_zero", CSS, "n >= 0 && Self::do_matches", 1, "n > 0 && Self::do_matches", "n starts from 1"),
    ("css_nth_comments", CSS, "if let Element { .. } = child.data {", 1, "if !matches!(child.data, Document) {", "nth-child counts comments"),
    ("css_nth_weight", CSS, "                    result.class += 1;\n                    result += &sel.specificity();", 1, "                    result += &sel.specificity();",
     "nth-child weighs nothing"),
    ("css_max_height", CSS, "parser::Decl::MaxHeight { value } => match value {\n                parser::Height::Auto => (),\n                parser::Height::Length(l, _) => {\n                    if *l == 0.0 {", 1,
     "parser::Decl::MaxHeight { value } => match value {\n                parser::Height::Auto => (),\n                parser::Height::Length(l, _) => {\n                    if *l < 0.0 {", "a max-height of zero hides nothing"),
    ("css_hidden_important", CSS, "style: Style::Display(Display::None),\n            importance: Importance::Default,", 1,
     "style: Style::Display(Display::None),\n            importance: Importance::Important,", "a height of zero is important"),
    ("css_order", CSS, "            (StyleOrigin::Agent, &self.agent_rules),\n            (StyleOrigin::User, &self.user_rules),\n", 1,
     "            (StyleOrigin::User, &self.user_rules),\n            (StyleOrigin::Agent, &self.agent_rules),\n", "user rules come before those of the agent"),
    ("css_attribute_weight", CSS, "Specificity::inline(),\n                                None,\n                                &StyleDecl {\n                                    style: Style::BgColour", 1,
     "Specificity::default(),\n                                None,\n                                &StyleDecl {\n                                    style: Style::BgColour", "a `bgcolor` attribute weighs nothing"),
    ("css_after", CSS, "Some(PseudoElement::After) => result.content_after.", 1, "Some(PseudoElement::After) => result.content_before.", "`::after` is kept as `::before`"),
    ("lib_important", LIB, "if self.important && !important {", 1, "if self.important {", "of important declarations the first wins"),
    ("lib_origin", LIB, "(important && theirs > mine)", 1, "(important && theirs < mine)", "of important declarations the later origin wins"),
    ("lib_later", LIB, "if specificity < self.specificity {", 1, "if specificity <= self.specificity {", "of equal weights the first wins"),
    ("lib_weights", LIB, "match self.class.partial_cmp(&other.class) {", 1, "match self.typ.partial_cmp(&other.typ) {", "a class weighs as an element name"),
    ("lib_id_weight", LIB, "match self.id.partial_cmp(&other.id) {", 1, "match (self.id * 10 + self.class).partial_cmp(&(other.id * 10 + other.class)) {", "an id weighs as ten classes"),
]

# A fault of the engine: its name in faults/shim.c, and what it means.
ENGINE_FAULTS = [
    ("sheet_stop", "where reading stops early, the stop is one byte further"),
    ("sheet_last_number", "the last number of the rules is one more"),
    ("sheet_tokens_left", "a number is left in a work store"),
    ("sheet_panic_place", "the place of refusal 4 is one more"),
    ("length_rounded", "a length is told in tens of units"),
    ("length_em_as_ex", "an `em` is told as an `ex`"),
    ("length_place", "the place of refusal 12 is one more"),
    ("length_texts_left", "a byte is left in the text store of a height"),
    ("compile_swapped", "agent and user sheet are swapped"),
    ("compile_byte_less", "one byte less is used than is lent"),
    ("compile_last_byte", "one byte less is told of"),
    ("compile_panic_text", "refusal 4 names the author's sheet"),
    ("compile_panic_unclear", "after refusal 4 a byte is left in a work store"),
    ("page_place", "the row of refusal 6 is one less"),
    ("page_refusal", "refusal 7 is told as 6"),
    ("matches_class_count", "a selector with an id has one class more"),
    ("colour_without_hash", "a colour that begins with `0` is none"),
    ("bytes_left_over", "the last byte may be left over"),
    ("style_of_parent", "the parent's style is answered"),
    ("style_no_element", "refusal 8 is told as 6"),
    ("style_short_store", "refusal 2 writes a byte"),
    ("style_content_start", "the content of `::before` starts a byte earlier"),
    ("style_declaration", "a white space of a rule is declared a byte later"),
    ("style_visibility", "what is visible is hidden"),
    ("style_inline_origin", "the origin of an inline colour is the user"),
    ("style_empty_record", "a record of `::after` without content is left out"),
    ("book_is_crate", "the book order is the crate's"),
    ("book_switch", "document styles are always on"),
    ("book_visibility", "`::before` does not inherit the visibility of its element"),
    ("book_inline_important", "an inline colour is never important"),
    ("book_inherited_class", "a colour by an id has one class more"),
    ("book_declaration", "an important colour is declared where the background is"),
    ("run_row_copied", "the last element has the row before it"),
    ("run_other_rows", "nodes that are no elements have their parent's row"),
    ("run_stale", "an empty colour is that of a closed element"),
    ("run_slot_off", "a lone colour lies in the slot of the background"),
    ("run_visibility", "what is visible leaves its slot empty"),
    ("run_other_store", "contents of attributes are looked for in the compiled bytes"),
    ("run_important", "no colour is important"),
    ("run_type_count", "a colour by two element names counts one"),
    ("run_declaration", "a display of an attribute is declared from its first byte on"),
    ("run_switch", "document styles are on for 1 alone"),
    ("run_bytes_place", "the byte of refusal 9 is one more"),
    ("run_refused_write", "refusal 6 writes a number"),
    ("run_state_left", "a byte is left in the state"),
    ("run_texts_count", "one byte of the texts is not told of"),
]


def call(words, **more):
    """Runs a command that must succeed."""
    done = subprocess.run([str(word) for word in words], capture_output=True, text=True, **more)
    if done.returncode != 0:
        sys.exit(f"faults.py: {' '.join(map(str, words))}\n{done.stdout}{done.stderr}")
    return done.stdout


def exported(archive):
    """The functions that an archive exports."""
    names = [line.split()[-1] for line in call(["nm", "--defined-only", "--extern-only", archive]).splitlines() if " T " in line]
    return [name for name in names if name.startswith(PREFIXES) and name not in UNCHANGED]


def make_archives():
    """Copies of both archives under other names for their functions, the layer in that of the engine."""
    shim = (ROOT / "tools/compare/faults/shim.c").read_text()
    for name, _ in ENGINE_FAULTS:
        if f'is("{name}")' not in shim:
            sys.exit(f"faults.py: shim.c does not know {name}")
    for name in ARCHIVES:
        source, copy = ROOT / f"target/staticlib/lib{name}.a", FAULTS / f"lib{name}.a"
        renamed = [f"--redefine-sym={function}=real_{function}" for function in exported(source)]
        call(["objcopy", *renamed, source, copy])
    folders = ["-I", ROOT / "include", "-I", ROOT / "tools/compare"]
    call(["cc", "-std=gnu11", "-O1", "-Wall", "-Wextra", "-Werror", *folders, "-c", ROOT / "tools/compare/faults/shim.c", "-o", FAULTS / "shim.o"])
    call(["ar", "rs", FAULTS / "libengine.a", FAULTS / "shim.o"])


def make_workspace():
    """The crate and the comparison, laid out as in the repository, so that the paths between them hold."""
    for folder in ("nom", "tendril", ".cargo"):
        shutil.copytree(ROOT / "target/crate" / folder, CRATE / folder, dirs_exist_ok=True)
    # With the time of now, so that cargo builds again what an earlier start may have left with a fault.
    shutil.copytree(ROOT / "target/crate/judge", CRATE / "judge", dirs_exist_ok=True, copy_function=shutil.copy)
    shutil.copytree(ROOT / "tools/compare", FAULTS / "tools/compare", dirs_exist_ok=True)
    shutil.copy(ROOT / "target/crate/Cargo.lock", CRATE / "Cargo.lock")
    workspace = (ROOT / "tools/crate/workspace.toml").read_text().splitlines()
    members = 'members = ["judge", "../../tools/compare"]'
    lines = [members if line.startswith("members") else line for line in workspace]
    # What is asked is the same however fast; the crate is built for each of its faults.
    lines = ["opt-level = 1" if line.startswith("opt-level") else line for line in lines]
    (CRATE / "Cargo.toml").write_text("\n".join(lines) + "\n")


def build():
    """Builds the comparison; what the compiler says, or nothing."""
    archives = {variable: str(FAULTS / f"lib{name}.a") for name, variable in ARCHIVES.items()}
    done = subprocess.run(["cargo", "build", "--quiet", "--offline", "--jobs", "1", "-p", "compare", "--release"], cwd=CRATE, env=os.environ | archives, capture_output=True, text=True)
    return "" if done.returncode == 0 else done.stderr


def ask(fault="", stages=None):
    """What notices a fault: questions, each with the inputs that it took."""
    for words in STAGES[:stages]:
        noticed = ask_with(fault, *words)
        if noticed:
            return noticed
    return []


def ask_with(fault, *words):
    """What notices a fault when the comparison is started so."""
    try:
        done = subprocess.run([CRATE / "target/release/compare", *words], env=os.environ | {"FAULT": fault}, capture_output=True, text=True, timeout=SECONDS)
    except subprocess.TimeoutExpired:
        return ["lasts too long"]
    if words[0] == "short" and done.returncode == 1:
        return ["all short texts"]
    noticed = done.stdout.splitlines() if words[0] == "notice" else []
    return noticed + ["crashes"] if done.returncode not in (0, 1) else noticed


def ask_crate(fault):
    """Plants a fault in the crate's text, asks, and takes it out again."""
    name, file, old, times, new, _ = fault
    path = CRATE / "judge/src" / file
    text = path.read_text()
    if text.count(old) != times:
        sys.exit(f"faults.py: {name}: {file} has its text {text.count(old)} times")
    path.write_text(text.replace(old, new))
    try:
        told = build()
        if told:
            sys.exit(f"faults.py: {name} does not build\n{told}")
        return ask()
    finally:
        path.write_text(text)


def row(side, name, words, noticed):
    """A row of the table; of the questions the one that took the fewest inputs comes first."""
    questions = sorted((line.split() for line in noticed if line[-1].isdigit()), key=lambda pair: int(pair[1]))
    said = [f"{question} ({inputs})" for question, inputs in questions] + [line for line in noticed if not line[-1].isdigit()]
    print(f"| {side} | `{name}` | {words} | {', '.join(said) or '**not noticed**'} |", flush=True)


def main():
    parts = sys.argv[1:] or [""]
    FAULTS.mkdir(parents=True, exist_ok=True)
    make_archives()
    make_workspace()
    told = build()
    if told:
        sys.exit(f"faults.py: the comparison does not build\n{told}")
    if ask(stages=1):
        sys.exit("faults.py: there are differences before a fault is planted")
    found = {"engine": [0, 0], "crate": [0, 0]}
    print("| in | fault | what it does | noticed by (inputs) |\n|---|---|---|---|", flush=True)
    planted = [("engine", name, words, lambda name=name: ask(name)) for name, words in ENGINE_FAULTS]
    planted += [("crate", fault[0], fault[-1], lambda fault=fault: ask_crate(fault)) for fault in CRATE_FAULTS]
    for side, name, words, plant in planted:
        if any(part in name for part in parts):
            noticed = plant()
            found[side][0] += 1
            found[side][1] += bool(noticed)
            row(side, name, words, noticed)
    for side, (count, noticed) in found.items():
        print(f"{side}: {noticed} of {count} noticed")


if __name__ == "__main__":
    main()
