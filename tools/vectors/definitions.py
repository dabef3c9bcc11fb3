#!/usr/bin/env python3
"""Holds the definitions `computed_style` and `page_row` against html2text's computed styles, by computing them. Where declarations start, html2text does not say: model.py does.

    python3 tools/vectors/definitions.py FOLDER style|run [FIRST COUNT]
    cd FOLDER/crates/held && rt check

FOLDER, outside this repository, becomes one: the crates of this one, with what their checks kept (out/), and a crate `held`, where each vector is a case that `refl`
has to prove. A case says that the sheets are read, that the page is accepted, and what the style of each element is: computed from the sheets (style), or
read in the rows of the page by the compiled bytes (run). The vectors are taken in order of size, COUNT of them from the FIRST on."""
import pathlib
import re
import shutil
import sys

import model
from vectors import recorded_file

HERE = pathlib.Path(__file__).resolve().parent
ROOT = HERE.parent.parent
LIBRARIES = "combinators characters lexer decimal syntax values declarations selectors sheets origins cascade page matching compiled segments compiler styles runner".split()
COMPUTED = 6
SHEETS = 3
NODE_WIDTH = 6
ELEMENT_KIND = 1
RECORDS = 3
NUMBERS_BEFORE_VALUE = 6
CONTENT_SLOT = 4
CASES_A_FILE = 50

# How a vector is asked, over the definitions.
ASKED = """-- How a vector is asked.
use Rattle.std.specs.Prelude.{ℕ, suc, Bool, true, false, List, [], ◌∷◌, ◌++◌, map}
use Rattle.combinators.specs.Choice.{and}
use Rattle.combinators.specs.Refusal.{no_refusal}
use Rattle.combinators.specs.declared.refusals.Refusal.{Refusal}
use Rattle.syntax.specs.Layout.{value_in}
use Rattle.syntax.specs.Selector.{RuleSet}
use Rattle.syntax.specs.Style.{Style, StyleValue}
use Rattle.syntax.specs.declared.styles.Value.{Value}
use Rattle.selectors.specs.Outcome.{on_outcome}
use Rattle.sheets.specs.Sheet.{sheet_of}
use Rattle.cascade.specs.declared.slots.Cascade.TheVariants.{Crate}
use Rattle.cascade.specs.Record.{Record, ComputedStyle}
use Rattle.cascade.specs.Row.{style_at}
use Rattle.cascade.specs.Slot.{Slot, empty, held}
use Rattle.page.specs.PathOf.{path_of}
use Rattle.page.specs.Accepted.{page_refusal}
use Rattle.compiled.specs.Sheet.{encode}
use Rattle.compiler.specs.Selectors.{selectors_of}
use Rattle.styles.specs.Computed.{computed_style}
use Rattle.styles.specs.Said.{Rules}
use Rattle.styles.specs.declared.settings.Settings.{Settings}
use Rattle.styles.specs.Lent.{Page}
use Rattle.runner.specs.PageRows.{page_contents, page_row}

pub record Answer : Type 0 where
  pub read : Bool
  pub page : Refusal
  pub styles : List (ComputedStyle StyleValue)

unfoldable pub accepted : List (ComputedStyle StyleValue) → Answer
accepted l = record { read = true; page = no_refusal; styles = l }

abbrev pub unfilled : Slot StyleValue
unfilled = empty

abbrev pub filled : ℕ → Bool → ℕ → ℕ → ℕ → Bool → ℕ → Style → Slot StyleValue
filled o i id class type important start x =
    held (record { weight = record { important = important; origin = o; spec = record { inline = i; id = id; class = class; typ = type } }; value = record { style = x; start = start } })

abbrev pub settings : Bool → Settings
settings on = record { document_styles = on }

unfoldable pub is_read : List ℕ → Bool
is_read s = on_outcome (sheet_of s) (λ n rs. true) false (λ p. false)

unfoldable pub rules_of : List ℕ → List RuleSet
rules_of s = on_outcome (sheet_of s) (λ n rs. rs) [] (λ p. [])

unfoldable pub answer : List ℕ → List ℕ → List ℕ → Page → List (ComputedStyle StyleValue) → Answer
answer agent user author g l =
    record { read = and (is_read agent) (and (is_read user) (is_read author)); page = page_refusal g.nodes g.attributes g.text; styles = l }

unfoldable pub style : List ℕ → List ℕ → List ℕ → Page → Bool → List ℕ → Answer
style agent user author g on elements =
    let rules : Rules RuleSet = record { agent = rules_of agent; user = rules_of user; author = rules_of author } in
    answer agent user author g (map (λ i. computed_style Crate rules (settings on) (path_of g.nodes g.attributes g.text i)) elements)

-- a row's style, read in the text that its contents lie in
unfoldable pub slot_seen : List ℕ → ℕ → Slot Value → Slot StyleValue
slot_seen t k empty = empty
slot_seen t k (held c) = held (record { weight = c.weight; value = value_in t k c.value })

unfoldable pub slots_seen : List ℕ → ℕ → List (Slot Value) → List (Slot StyleValue)
slots_seen t k [] = []
slots_seen t k (s ∷ ss) = slot_seen t k s ∷ slots_seen t (suc k) ss

unfoldable pub record_seen : List ℕ → Record Value → Record StyleValue
record_seen t p = record { present = p.present; slots = slots_seen t 0 p.slots }

unfoldable pub style_seen : List ℕ → ComputedStyle Value → ComputedStyle StyleValue
style_seen t s = record { main = record_seen t s.main; before = record_seen t s.before; after = record_seen t s.after }

unfoldable pub seen : List ℕ → Page → Bool → List ℕ → List (ComputedStyle StyleValue)
seen code g on elements = map (λ i. style_seen (code ++ page_contents (settings on) g) (style_at (page_row code (settings on) g i))) elements

unfoldable pub run : List ℕ → List ℕ → List ℕ → Page → Bool → List ℕ → Answer
run agent user author g on elements =
    answer agent user author g (seen (encode (selectors_of (rules_of agent) (rules_of user) (rules_of author))) g on elements)
"""


class Reader:
    """The format of README.md."""

    def __init__(self, bytes):
        self.bytes, self.at = bytes, 0

    def number(self):
        n, shift = 0, 0
        while True:
            byte = self.bytes[self.at]
            self.at += 1
            n += byte % 128 << shift
            if byte < 128:
                return n
            shift += 7

    def text(self):
        length = self.number()
        self.at += length
        return self.bytes[self.at - length:self.at]

    def list(self):
        return [self.number() for _ in range(self.number())]

    def record(self):
        present, slots = self.number(), [None] * model.SLOTS
        for _ in range(self.number()):
            slot = self.number()
            source = [self.number() for _ in range(NUMBERS_BEFORE_VALUE)]
            slots[slot] = (source, self.text() if slot == CONTENT_SLOT else self.number())
        return present, slots

    def vector(self, index):
        assert self.number() == COMPUTED
        v = {"index": index, "sheets": [self.text() for _ in range(SHEETS)], "nodes": self.list(), "attributes": self.list(), "text": self.text(), "on": self.number()}
        v["elements"] = [row for row, kind in enumerate(v["nodes"][::NODE_WIDTH]) if kind == ELEMENT_KIND]
        v["styles"] = [[self.record() for _ in range(RECORDS)] for _ in v["elements"]]
        v["starts"] = [starts_of(v, row) for row in v["elements"]]
        return v


def starts_of(v, row):
    """For each record of an element's style the starts of its slots."""
    _, numbers, _ = model.style_call(v["sheets"], v["nodes"], v["attributes"], v["text"], row, v["on"], False)
    records = [numbers[k * model.RECORD_WIDTH + 1:][:model.SLOTS * model.SLOT_WIDTH] for k in range(RECORDS)]
    return [slots[model.SLOT_WIDTH - 1::model.SLOT_WIDTH] for slots in records]


def size(v):
    return 4 * sum(map(len, v["sheets"])) + (len(v["text"]) + len(v["nodes"])) * (1 + len(v["elements"]))


# ---- a vector in the notation of the definitions

def items(texts):
    return " ∷ ".join([*texts, "[]"])


def numbers(l):
    return f"({items(map(str, l))})"


def flag(b):
    return ["false", "true"][b]


def colour(n):
    return f"(record {{ red = {n >> 16}; green = {n >> 8 & 255}; blue = {n & 255} }})"


# what a slot holds, by its number
VALUES = [
    lambda v: f"style.colour {colour(v)}",
    lambda v: f"style.background {colour(v)}",
    lambda v: "style.display_none",
    lambda v: "style.white_space " + ["declaration.normal", "declaration.pre", "declaration.pre_wrap"][v],
    lambda v: f"style.content {numbers(v)}",
    lambda v: f"style.visibility {flag(v)}",
]


def slot_of(number, slot, start):
    if slot is None:
        return "asked.unfilled"
    (origin, inline, ids, classes, types, important), value = slot
    return f"asked.filled {origin} {flag(inline)} {ids} {classes} {types} {flag(important)} {start} ({VALUES[number](value)})"


def record_of(present, slots, starts):
    return f"record {{ present = {flag(present)}; slots = {items(slot_of(k, s, start) for k, (s, start) in enumerate(zip(slots, starts)))} }}"


def style_of(records, starts):
    main, before, after = (record_of(*r, own) for r, own in zip(records, starts))
    return f"record {{ main = {main}; before = {before}; after = {after} }}"


def case(v, question, unfolding):
    sheets = " ".join(map(numbers, v["sheets"]))
    page = f"(record {{ nodes = {numbers(v['nodes'])}; attributes = {numbers(v['attributes'])}; text = {numbers(v['text'])} }})"
    name = f"vector-{v['index']}"
    return (f"{name} : asked.{question} {sheets} {page} {flag(v['on'])} {numbers(v['elements'])}\n"
            f"    ≡ asked.accepted ({items(map(style_of, v['styles'], v['starts']))})\nunfolding {unfolding}\n{name} = refl\n")


# ---- the repository

def unfoldable(definitions):
    return re.findall(r"^ *unfoldable pub (\S+)", definitions, re.M)


def opened():
    """The `use` lines for the definitions of the libraries, and the names of all that can be unfolded."""
    uses, names = ["use Rattle.held.specs.Asked as asked"], [f"asked.{f}" for f in unfoldable(ASKED)]
    for library in LIBRARIES:
        for file in sorted((ROOT / "crates" / library / "specs").glob("*.antt")):
            name, found = f"{library}-{file.stem.lower()}", unfoldable(file.read_text())
            if found:
                uses.append(f"use Rattle.{library}.specs.{file.stem} as {name}")
                names += [f"{name}.{f}" for f in found]
    return "\n".join(uses), " ".join(names)


def chosen(first, count):
    file = Reader(recorded_file("style_vectors"))
    vectors = sorted((file.vector(i) for i in range(file.number())), key=size)
    assert file.at == len(file.bytes)
    return vectors[first:first + count]


def main(folder, question, first=0, count=sys.maxsize):
    folder = pathlib.Path(folder).resolve()
    if ROOT in [folder, *folder.parents] or (folder / "crates").exists() and not (folder / "crates" / "held").exists():
        sys.exit(f"{folder} is a repository already")
    shutil.rmtree(folder / "crates", ignore_errors=True)
    shutil.copytree(ROOT / "crates", folder / "crates")
    (folder / "crates.txt").write_text((ROOT / "crates.txt").read_text() + f"held: {' '.join(LIBRARIES)}\n")
    held = folder / "crates" / "held"
    for part in ["src", "specs", "proofs"]:
        (held / part).mkdir(parents=True)
    (held / "src" / "lib.rt").write_text("// Definitions held against html2text's answers.\n#![tactic(auto)]\n")
    (held / "proofs" / "Lib.antt").write_text("")
    (held / "specs" / "Asked.antt").write_text(ASKED)

    vectors = chosen(int(first), int(count))
    uses, unfolding = opened()
    modules = ["Asked"]
    for at in range(0, len(vectors), CASES_A_FILE):
        modules.append(f"Held{at}")
        cases = [case(v, question, unfolding) for v in vectors[at:at + CASES_A_FILE]]
        head = ("use Rattle.std.specs.Prelude.{◌≡◌, true, false, [], ◌∷◌, refl}\n"
                "use Rattle.syntax.specs.Style as style\nuse Rattle.syntax.specs.Declaration as declaration")
        (held / "specs" / f"Held{at}.antt").write_text(f"-- Vectors.\n{head}\n{uses}\n\n" + "\n".join(cases))
    (held / "specs" / "Lib.antt").write_text("".join(f"pub mod {m}\n" for m in modules))
    print(f"{len(vectors)} vectors, {sum(len(v['elements']) for v in vectors)} elements")


main(*sys.argv[1:])
