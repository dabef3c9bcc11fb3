#!/usr/bin/env python3
"""Tests of the tools beside this file, on small texts and on this repository.

    python3 tools/proof/test.py"""
import importlib.util
import tempfile
import unittest
from importlib.machinery import SourceFileLoader
from pathlib import Path

import sources
from sources import AnttFile, Reader, shown, tokens

HERE = Path(__file__).parent


def tool(name):
    loader = SourceFileLoader(name, str(HERE / name))
    module = importlib.util.module_from_spec(importlib.util.spec_from_loader(name, loader))
    loader.exec_module(module)
    return module


class Names:
    """A scope without a file."""

    def __init__(self, constructors=(), modules=()):
        self.constructors, self.modules = constructors, {m: None for m in modules}

    def is_constructor(self, word):
        return word in self.constructors


def free(text, clause=False, **scope):
    reader = Reader(Names(**scope))
    (reader.clause if clause else reader.term)(tokens([text]))
    return [".".join(path) for path, _ in reader.found]


class Reading(unittest.TestCase):
    def test_binders_reach_to_the_end_of_their_brackets(self):
        self.assertEqual(free("f (λ x. x y) x"), ["f", "y", "x"])
        self.assertEqual(free("(a, λ x. x, x)"), ["a", "x"])
        self.assertEqual(free("(x : A) → B x"), ["A", "B"])
        self.assertEqual(free("let x = x in g x"), ["x", "g"])
        self.assertEqual(free("(let v : T = f in v)"), ["T", "f"])

    def test_fields_and_labels_name_nothing(self):
        self.assertEqual(free("(f x).field + record { label = v; other = w }"), ["f", "x", "+", "v", "w"])
        self.assertEqual(free("λ r. r.field.0"), [])
        self.assertEqual(free("ascii.colon x"), ["ascii.colon", "x"])

    def test_a_clause_binds_what_is_no_constructor(self):
        self.assertEqual(free("f (suc n) t = g n t m", clause=True, constructors=("suc",)), ["suc", "g", "m"])
        self.assertEqual(free("f (style.colour c) = c", clause=True, modules=("style",)), ["style.colour"])

    def test_quoted_texts_and_comments_name_nothing(self):
        self.assertEqual(free('text "a b -- c" x -- y'), ["text", "x"])

    def test_declarations(self):
        file = AnttFile("none.antt", "\n".join([
            "-- what it is for", "use Rattle.std.specs.Prelude.{◌≡◌, length, take as front}", "use a.B as b", "", "-- a record", "pub record R (n : ℕ) : Type 0 where",
            "  pub long : n ≡ 0", "  -- a word", "  pub short :", "      n ≡ 1", "", "module _ {A : Type 0} (x : A)", "    where", "  -- a law", "  pub law : (",
            "    x ≡ x", "  )", "  unfolding f", "  law = refl", "", "pub data D : Type 0 where", "  one two : D", "  three : {k : ℕ} → ℕ → D",
        ]))
        prelude = "Rattle.std.specs.Prelude"
        self.assertEqual(file.uses, [(prelude, "◌≡◌", "◌≡◌"), (prelude, "length", "length"), (prelude, "take", "front"), ("a.B", None, "b")])
        self.assertEqual([(d.name, d.kind, d.comment, d.first, d.last) for d in file.declarations],
                         [("R", "record", 5, 6, 10), ("law", "definition", 14, 15, 19), ("D", "data", 21, 21, 23)])
        self.assertEqual(file.by_name["R"].member_types(), {"long": "n ≡ 0", "short": "n ≡ 1"})
        self.assertEqual(file.by_name["D"].members, ["one", "two", "three"])
        self.assertEqual(file.by_name["law"].head_last(), 17)
        self.assertEqual(file.by_name["law"].outer, [(12, 13)])

    def test_a_contract_and_what_it_imports(self):
        with tempfile.TemporaryDirectory() as folder:
            path = Path(folder) / "a.rt"
            path.write_text("\n".join([
                "// what it is for", "ghost use Rattle.std.specs.Prelude.{◌≡◌, ◌+◌};", "", "use crate::rows::{", "    LEAST, put as write,", "};", "use low::Kind;", "",
                "// One more.", "#[unsafe(no_mangle)]", 'pub extern "C" fn more(', "    count: usize,", "    s: &mut [u8],", ") -> usize", "    requires { count < 1000 }",
                "    ensures result { result ≡", "        count + 1 }", "    ensures* kept { s.new ≡ s.old }", "{", "    count + 1", "}", "", "fn none() {}", "",
            ]))
            file = sources.RattleFile(path)
        self.assertEqual(file.uses, [("Rattle.std.specs.Prelude", "◌≡◌", "◌≡◌"), ("Rattle.std.specs.Prelude", "◌+◌", "◌+◌")])
        self.assertEqual(file.imports, {"LEAST": ("crate::rows", "LEAST"), "write": ("crate::rows", "put"), "Kind": ("low", "Kind")})
        self.assertEqual([(f.name, f.exported, f.parameters) for f in file.functions], [("more", True, ["count", "s"]), ("none", False, [])])
        self.assertEqual([(c.kind, c.name, c.text) for c in file.functions[0].clauses],
                         [("requires", None, "count < 1000"), ("ensures", "result", "result ≡ count + 1"), ("ensures", "kept", "s.new ≡ s.old")])

    def test_every_name_of_the_repository_is_known(self):
        for crate in sources.crates():
            for path in sources.spec_files(crate) + sources.law_files(crate):
                file = sources.antt_file(path)
                for d in file.declarations:
                    for name, line in sources.names_of(d, statement_only=path.parent.name == "proofs"):
                        sources.meaning_of(sources.scope_of(file), name, f"{path}:{line}")


class Exporting(unittest.TestCase):
    def test_what_is_exported_has_the_clauses_of_the_library(self):
        for library in ("engine", "comparison"):
            said = [{f.name: (f.parameters, [(c.kind, c.name, c.text) for c in f.clauses]) for path in sources.source_files(crate)
                     for f in sources.rattle_file(path).functions if f.exported} for crate in (library, library + "_c")]
            self.assertEqual(*said)
            self.assertTrue(all(clauses for _, clauses in said[0].values()))


OLD = """-- why it holds
use a.Laws as laws
use Rattle.a.proofs.rows.f.Goals as goal
use Rattle.a.proofs.rows.f.Goals.{then-x}

pub loop-i-init : goal.loop-i-init
loop-i-init c = laws.begin

-- a fact that two answers use
fact : ℕ
fact = 1

-- the text goes on
pub peek-requires : goal.peek-requires
peek-requires c = laws.stops fact

pub bounds-s-i : goal.bounds-s-i
bounds-s-i c = laws.within

pub overflow_add-i : goal.overflow_add-i
unfolding f
overflow_add-i c = laws.fits fact

pub peek-requires-2 : goal.peek-requires-2
peek-requires-2 c =
    let t : goal.peek-requires-2-raw c = laws.done in t

pub returns : goal.returns
returns c = record { value = laws.value; kept = laws.kept }
"""

OFFERED = """use Rattle.std.proofs.Common.{rules, ◌≡◌, length}
use Rattle.a.proofs.rows.f.Goals as goal

-- src/rows.rt:1:2
pub loop-i-init : goal.loop-i-init
loop-i-init c = ?

-- src/rows.rt:1:9
pub peek-requires : goal.peek-requires
peek-requires c = ?

-- src/rows.rt:2:2
pub peek-requires-2 : goal.peek-requires-2
peek-requires-2 c = ?

-- src/rows.rt:3:4
pub bounds-s-i : goal.bounds-s-i
bounds-s-i c = ?

-- src/rows.rt:4:4
pub nonzero_div-x : goal.nonzero_div-x
nonzero_div-x c = ?

-- src/rows.rt:5:6
pub peek-requires-3 :
    goal.peek-requires-3
peek-requires-3 c = ?

-- src/rows.rt:6:6
pub returns-clause-value : goal.returns-clause-value
returns-clause-value c = ?

-- src/rows.rt:6:6
pub returns-clause-kept : goal.returns-clause-kept
returns-clause-kept c = ?
"""

INVARIANTS = """use Rattle.a.proofs.rows.f.Given as goal

abbrev pub invariant-loop-i : goal.invariant-loop-i
invariant-loop-i l = laws.Holds l.s
"""

INVARIANTS_OFFERED = """use Rattle.std.proofs.Common.{length, ◌-◌, ◌≡◌}
use Rattle.a.proofs.rows.f.Given as goal

abbrev pub invariant-loop-i : goal.invariant-loop-i
invariant-loop-i l = ?

-- proposed from the loop's first test
abbrev pub decreases-loop-i : goal.decreases-loop-i
decreases-loop-i l = length l.s - l.i
"""


class Reprinting(unittest.TestCase):
    def merged(self, old, new, left):
        return tool("reprint").merged(AnttFile("a/Answers.antt", old), AnttFile("a/Answers.antt", new), left, False)

    def test_answers_go_over_in_their_order(self):
        text, told = self.merged(OLD, OFFERED, {"peek-requires-2", "returns-clause-kept"})
        self.assertEqual(told, {"new": ["peek-requires-2"], "moved": ["peek-requires-2 to peek-requires-3"], "no longer asked": ["overflow_add-i"]})
        for part in ("-- why it holds\nuse a.Laws as laws\n", "-- a fact that two answers use\nfact : ℕ\nfact = 1\n\n-- the text goes on\npub peek-requires :", "peek-requires c = laws.stops fact\n",
                     "peek-requires-2 c = ?\n", "pub peek-requires-3 : goal.peek-requires-3\npeek-requires-3 c =\n    let t : goal.peek-requires-3-raw c = laws.done in t\n",
                     "pub returns : goal.returns\nreturns c = record {", "-- no longer asked: overflow_add-i\n-- pub overflow_add-i : goal.overflow_add-i\n-- unfolding f\n"):
            self.assertIn(part, text)
        for part in ("src/rows.rt", "nonzero_div-x", "returns-clause", "Common"):
            self.assertNotIn(part, text)
        text, told = self.merged(INVARIANTS, INVARIANTS_OFFERED, None)
        self.assertEqual(told, {"new": ["decreases-loop-i"], "moved": [], "no longer asked": []})
        self.assertEqual(text, INVARIANTS.replace("use", "use Rattle.std.proofs.Common.{length, ◌-◌}\nuse", 1) + INVARIANTS_OFFERED.partition("= ?\n")[2])

    def test_what_is_printed_as_it_was_stays(self):
        for left in (set(), {"overflow_add-i"}):
            text, told = self.merged(OLD, OLD, left)
            self.assertEqual(sum(told.values(), []), [])
            self.assertEqual(text, OLD)

    def test_files_that_the_checker_offers(self):
        with tempfile.TemporaryDirectory() as folder:
            made = Path(folder) / "Rattle-a-proofs" / "rows" / "f"
            made.mkdir(parents=True)
            (made / "AnswersOffered.antt").write_text(OFFERED, encoding="utf-8")
            (made / "Goals.antt").write_text("", encoding="utf-8")
            offered = tool("reprint").offered(Path(folder), "a", Path("rows/f"))
        self.assertEqual(offered, {"Answers.antt": OFFERED})


# What the check generates of a function `f` that calls `peek` and joins two branches, cut down.
LTS = """        pub record Args : Type 0 where
          pub s : Kinds.Den {n = 1}
              κs

        pub record Start : Type 0 where
          pub lifetimes : Lifetimes.Lfts 1
          pub args : Args lifetimes
          pub requires : the-Pre

        module _ (the-before : Start) where
          abbrev pub Own-After-peek : Type 0
          Own-After-peek =
              Called.Called
              ps-0

        pub record After-peek : Type 0 where
          pub before : Start
          pub open before use *
          pub peek-a : Own-After-peek before

        module _ (the-before : After-peek) where
          pub record By-Joined1-then-a : Type 0 where
            pub if-a : Own-Then1 the-before

          pub data Came-Joined1 : Type 0 where
            then-a : By-Joined1-then-a → Came-Joined1

          pub record Step-Joined1 : Type 0 where
            pub branch : Came-Joined1 the-before
            pub branch-raw : Logic.◌⊎◌

        pub record Joined1 : Type 0 where
          pub before : After-peek
          pub open before use *
          pub if-a : Step-Joined1 before
"""

VIEW = """        module _ (the-before : Lts.Joined1 the-Pre) where
          pub record Typed-Joined-a : Type 0 where
            pub s : (Lts.s1).gives

        pub record In-Joined-a : Type 0 where
          pub before : Lts.Joined1
              the-Pre
          pub open before use *
          pub type_inv : Typed-Joined-a before

        abbrev pub Named-peek-a-requires : Type 0
        Named-peek-a-requires = (c : Lts.Start the-Pre) → Lts.s7.asks

        abbrev pub Named-returns : Type 0
        Named-returns =
            (c : In-Joined-a) →
            the-Post
"""


class Paths(unittest.TestCase):
    def test_claims_nest_to_the_right(self):
        paths = tool("paths")
        function = paths.function_of("selectors", "parse_selector")
        self.assertEqual([p for p, _, _ in paths.clauses(function, "requires")], ["." + c.name for c in function.of_kind("requires")])
        self.assertEqual([p for p, _, _ in paths.clauses(paths.function_of("combinators", "starts_with"), "ensures")], [""])

    def test_a_callee_of_another_file(self):
        paths = tool("paths")
        function = paths.function_of("matching", "elements/place")
        for step in ("parent_of", "parent_of-p", "parent_of-2"):
            self.assertEqual(paths.callee(function, step).file.path.parts[-3:], ("page", "src", "rows.rt"))
        self.assertIsNone(paths.callee(function, "shared_slice_known-1"))
        self.assertEqual(paths.path_of(paths.function_of("cascade", "slots/held_in_book")), "slots::Weight::held_in_book")

    def test_steps_and_their_fields(self):
        paths = tool("paths")
        with tempfile.TemporaryDirectory() as folder:
            for name, text in (("Lts", LTS), ("View", VIEW)):
                (Path(folder) / name).write_text(text, encoding="utf-8")
            places = paths.Places(Path(folder) / "Lts", Path(folder) / "View")
        function = paths.function_of("characters", "is_continuation")
        self.assertEqual(list(paths.facts("characters", function, places, "peek-a-requires")), [("", "", ".args.s .requires")])
        self.assertEqual(list(paths.facts("characters", function, places, "returns")), [
            ("", "", ".type_inv.s"), (".if-a", "", ".branch"), (".if-a", ".branch", "then-a w: w.if-a"),
            (".peek-a", "", ".result .new .type_inv .auto .ensures"), (".peek-a", ".ensures", "result ≡ get_or s.now i 0"), ("", "", ".args.s .requires"),
        ])


# Laws within modules within modules, which take what the laws speak of and more.
NESTED = """use mathlib.Core.Path.{◌≡◌}
use mathlib.Core.List.{List}
use lib.ListN.{length}

module _ {A : Type 0} (k : ℕ) where
  module _ (s t : List A) (fits : length s ≡ k) (same : s ≡ t) where
    pub begin : length t ≡ length s
    begin = by same

    module _ (more : k ≡ length t) where
      pub held : Held s k
      held = kept fits

      again : length t ≡ length s
      again = begin

  module _ (s : List A) (h : length s ≡ k) where
    pub room : Held s k
    room = kept h

    other : Held s k
    other = kept-always

    words : List A
    words = s

    places : List A
    places = s

plain : {B : Type 0} → {x : List B} (y : List B) → x ≡ y → length y ≡ length x
plain y e = by e

pub turned : {B : Type 0} → {x : List B} (y : List B) → x ≡ y → length x ≡ length y
turned y e = by e
"""


class Twice(unittest.TestCase):
    def setUp(self):
        self.twice = tool("twice")

    def test_variables_are_left_aside_and_other_names_are_not(self):
        groups = [{d.name for d in g} for g in self.twice.definitions().values() if len(g) > 1]
        self.assertNotIn({"SheetTexts", "Page"}, groups)

    def test_what_modules_take_is_read_as_the_own_premises_of_a_law(self):
        laws = {}
        for d in filter(self.twice.is_law, AnttFile("crates/x/proofs/Nested.antt", NESTED).declarations):
            laws.setdefault(self.twice.normal(d, self.twice.statement(d)), []).append(d.name)
        self.assertEqual(list(laws.values()), [["begin", "again", "plain"], ["held", "room"], ["other"], ["turned"]])


class Uncited(unittest.TestCase):
    def setUp(self):
        self.uncited = tool("uncited")

    def test_what_a_proof_names_serves(self):
        file = AnttFile("crates/x/proofs/X.antt", "use Rattle.x.proofs.Y.{law, ◌plus◌}\nuse Rattle.x.proofs.Z as other\n\nown : A → B\nown a = law a (other.far a) plus own\n")
        names, modules = self.uncited.brought(file.uses)
        found = set(self.uncited.named(self.uncited.said_by(file.declarations[0]), names, modules))
        self.assertEqual(found, {("Rattle.x.proofs.Y", "law"), ("Rattle.x.proofs.Y", "◌plus◌"), ("Rattle.x.proofs.Z", "far")})

    def test_a_case_is_computed(self):
        file = AnttFile("crates/x/specs/X.antt", "two : 1 + 1 ≡ 2\ntwo = refl\n\ntest-more : A\ntest-more = (refl, refl)\n\nlaw : (n : ℕ) → n ≡ n\nlaw n = refl\n")
        self.assertEqual([self.uncited.is_case(d) for d in file.declarations], [True, True, False])

    def test_no_named_theorem_is_listed(self):
        listed = {(shown(d.file.path), d.name) for d in self.uncited.uncited()}
        named = [line.split() for line in (HERE / "theorems.txt").read_text(encoding="utf-8").splitlines() if "crates/" in line]
        self.assertTrue(named)
        self.assertFalse(listed & {(path, name) for name, path in named})


class Believing(unittest.TestCase):
    def setUp(self):
        self.believe = tool("believe")
        self.statements = {s.name: s for s in list(self.believe.entry_points()) + list(self.believe.theorems())}

    def rests_on(self, name):
        return {n.name for n in self.believe.closure(self.statements[name])[0].values()}

    def test_a_theorem_rests_on_its_statement_and_not_on_its_proof(self):
        self.assertEqual(self.rests_on("places-rule"), {"number", "places"})

    def test_an_entry_point_rests_on_its_contract(self):
        found = self.rests_on("hicsolmab_check_page")
        self.assertLessEqual({"PageResult", "refusal_in", "page_refusal", "Refusal", "pick"}, found)
        self.assertNotIn("matches", found)

    def test_nothing_is_listed_before_what_it_uses(self):
        seen = set()
        for n in self.believe.in_order(self.believe.closure(self.statements["demand3"])[0]):
            seen.add(n.key)
            self.assertLessEqual({m.key for m in self.believe.direct(n)[0]}, seen, n)

    def test_numbers_as_ranges(self):
        self.assertEqual(self.believe.spans([3, 1, 2, 7]), "1-3, 7")


if __name__ == "__main__":
    unittest.main()
