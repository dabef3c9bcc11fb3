#!/usr/bin/env python3
"""Turns a Proof.antt that walks the code into Invariants.antt and Answers.antt.

usage: answers.py LIST CRATE_FOLDER [FUNCTION..]

LIST is the names.json that `rt check --generated DIR --old-names` writes for the crate. Paths through `before` become the names of steps; a path that
stands for a place, and what a file says of places alone, is written out where it is used. An answer that is only `search rules` goes, since the check tries more than
that by itself. A line is printed for what has to be mended by hand.
"""

import json
import os
import re
import sys

WORD = r"[^\s(){};,@\"«»⟦⟧.]+"
PLAIN = lambda it: re.sub(r"[-_]+", "-", it).lower()
LOOPS = {"loop-holds": "loop-init", "loop-less": "loop-smaller", "loop-again": "loop-preserved"}
FIELDS = {"inv": "invariant", "taken": "true", "left": "false", "pre": "requires", "last": "new"}
START = ("args", "requires", "pre", "ranges", "lifetimes", "well_formed", "well-formed")


def blocks(text):
    """The declarations of a file, each with its comment lines: blank lines part them."""
    out = []
    for part in re.split(r"\n\s*\n", text):
        lines = part.split("\n")
        out.append([l for l in lines if l.strip() or True])
    return ["\n".join(b).strip("\n") for b in out if "\n".join(b).strip()]


class Function:
    def __init__(self, listed, folder, where):
        self.l = listed
        self.folder = folder
        self.where = where
        self.places = listed["places"]
        self.index = {}
        for k, p in enumerate(self.places):
            self.index.setdefault(PLAIN(p[0]), k)
        self.parent = [self.index.get(PLAIN(p[1])) if p[1] else None for p in self.places]
        self.said = []
        self.place_macros = {}
        self.value_macros = {}

    def say(self, text):
        self.said.append(f"{self.where}: {text}")

    # ---- places
    def up(self, k):
        p = self.parent[k]
        return p if p is not None else k

    def find(self, k, step):
        while k is not None:
            old = self.places[k][2][0]
            if old and PLAIN(old) == PLAIN(step):
                return k
            k = self.parent[k]
        return None

    def chain(self, k):
        out = []
        while k is not None:
            out.append(k)
            k = self.parent[k]
        return out

    def step(self, goal, k, fields):
        """The new path of a field of the place k, seen from the place goal."""
        first, rest = fields[0], list(fields[1:])
        if first in START or PLAIN(first) in ("well-formed",):
            name = FIELDS.get(first, first).replace("-", "_")
            pre = self.l.get("pre")
            if name == "requires" and pre and isinstance(pre, dict) and pre.get("fields"):
                return self.clause("c.requires", pre["fields"], rest)
            return ".".join(["c", name] + rest)
        j = self.find(k, first)
        if j is None:
            # a place that is no longer counted lay between
            j = self.find(goal, first)
        if j is None:
            self.say(f"no step {first} at {self.places[k][0]}")
            return ".".join(["c", first] + rest)
        old, new = self.places[j][2]
        loop = any(PLAIN(old) == PLAIN(e[0][0]) for e in self.l["loops"])
        rest = [(f if loop and f != "inv" else FIELDS.get(f, f)) if i == 0 else f for i, f in enumerate(rest)]
        # a fact of a type
        typed = self.l["typed"][goal] if goal < len(self.l["typed"]) else []
        for var, step in typed:
            if PLAIN(step) == PLAIN(old) and rest[:1] == ["given"]:
                return ".".join(["c", "type_inv", var] + rest[1:])
        arm = self.l["arms"][j]
        if arm:
            best = arm
            for i in self.chain(goal):
                a = self.l["arms"][i]
                if a and a[0] == arm[0] and a[1] > best[1] and j in self.chain(i):
                    best = a
            for field, step, path in best[2]:
                if PLAIN(step) == PLAIN(old) and rest[: len(path)] == path and path:
                    return ".".join(["c", arm[0], field] + rest[len(path) :])
        if rest[:1] == ["ensures"]:
            cl = self.l["clauses"][j]
            if cl and cl.get("fields"):
                return self.clause(f"c.{new}.ensures", cl["fields"], rest[1:])
        if rest[:1] in (["auto"], ["new"]) and self.places[j][3]:
            params = self.l["params"].get(self.places[j][3])
            if params and len(rest) > 1:
                n = 1
                while n < len(rest) and rest[n] == "1":
                    n += 1
                if n < len(rest) and rest[n] == "0":
                    return ".".join(["c", new, rest[0], params[n - 1]] + rest[n + 1 :])
        return ".".join(["c", new] + rest)

    def clause(self, head, names, rest):
        n = 0
        while n < len(rest) and rest[n] == "1" and n < len(names) - 1:
            n += 1
        if n == len(names) - 1:
            return ".".join([head, names[n]] + rest[n:])
        if n < len(rest) and rest[n] == "0":
            return ".".join([head, names[n]] + rest[n + 1 :])
        if n < len(rest):
            return ".".join([head] + rest)
        each = [f"{head}.{it}" for it in names[n:]]
        out = each[-1]
        for it in reversed(each[:-1]):
            out = f"({it}, {out})"
        return out

    # ---- bodies
    def turned(self, body, variables, goal):
        """The body with places written out: variables maps names to places."""
        text = body
        for name, k in variables.items():
            text = self.put(text, name, f"⟦{k}⟧")
        for _ in range(60):
            before = text
            text = re.sub(r"⟦(\d+)⟧((?:\.before(?![\w-]))+)", lambda m: f"⟦{self.climb(int(m[1]), m[2].count('.before'))}⟧", text)
            text = re.sub(r"\(⟦(\d+)⟧\)", r"⟦\1⟧", text)
            for name, steps in self.place_macros.items():
                text = re.sub(rf"(?<![\w.'-]){re.escape(name)} ⟦(\d+)⟧(?!\.)", lambda m: f"⟦{self.walk(int(m[1]), steps)}⟧", text)
            for m in re.finditer(rf"let (\S+) = (⟦\d+⟧(?:\.{WORD})*) in\s*", text):
                if not m[2].endswith(".args"):
                    text = text[: m.start()] + self.put(text[m.end() :], m[1], m[2])
                    break
            for name, (params, lines) in self.value_macros.items():
                text = self.expand(text, name, params, lines)
            if text == before:
                break

        def path(m):
            k = int(m[1])
            fields = [f for f in m[2].split(".") if f]
            return self.step(goal, k, fields)

        text = re.sub(rf"⟦(\d+)⟧((?:\.{WORD})+)", path, text)
        if "⟦" in text:
            self.say("a bare place: " + re.sub(r"\s+", " ", text)[:160])
            text = re.sub(r"⟦(\d+)⟧", "c", text)
        return text

    def climb(self, k, n):
        for _ in range(n):
            k = self.up(k)
        return k

    def walk(self, k, steps):
        for s in steps:
            k = self.up(k) if s == "before" else self.walk(k, self.place_macros[s])
        return k

    def put(self, text, name, what):
        return re.sub(rf"(?<![\w.'₀-₉-]){re.escape(name)}(?![\w'₀-₉-])", lambda m: what, text)

    def expand(self, text, name, params, body):
        at = 0
        while True:
            m = re.compile(rf"(?<![\w.'-]){re.escape(name)}(?![\w'-])").search(text, at)
            if not m:
                return text
            i, args = m.end(), []
            while len(args) < len(params):
                j = i
                while j < len(text) and text[j] in " \n":
                    j += 1
                if j >= len(text) or text[j] in "),;]":
                    break
                if text[j] in "([":
                    d, e = 0, j
                    while e < len(text):
                        d += (text[e] in "([") - (text[e] in ")]")
                        e += 1
                        if d == 0:
                            break
                    while e < len(text) and text[e] == ".":
                        e = re.compile(rf"(?:\.{WORD})+").match(text, e).end()
                else:
                    w = re.compile(rf"[^\s(){{}};,]+").match(text, j)
                    if not w:
                        break
                    e = w.end()
                args.append(text[j:e])
                i = e
            if len(args) < len(params) or not re.match(r"⟦\d+⟧$", args[0]):
                at = m.end()
                continue
            new = body
            for p, a in zip(params, args):
                if p != "_":
                    new = self.put(new, p, a)
            text = text[: m.start()] + "(" + new.strip() + ")" + text[i:]
            at = m.start()

    # ---- the file
    def convert(self):
        with open(os.path.join(self.folder, "Proof.antt"), encoding="utf-8") as f:
            text = f.read()
        head, uses, invariants, answers, helpers = [], [], [], [], []
        for block in blocks(text):
            lines = block.split("\n")
            comments = [l for l in lines if l.startswith("--")]
            code = [l for l in lines if not l.startswith("--")]
            if code and code[0].startswith("use "):
                head += comments
                uses += code
                continue
            if not code:
                head += comments
                continue
            self.sort(comments, code, invariants, answers, helpers)
        return self.write(head, uses, invariants, answers, helpers)

    def sort(self, comments, code, invariants, answers, helpers):
        # the signature goes on in lines that are indented, then perhaps 'unfolding', then clauses
        sig = [code[0]]
        i = 1
        while i < len(code) and code[i].startswith(" "):
            sig.append(code[i])
            i += 1
        unfold = []
        while i < len(code) and code[i].startswith("unfolding"):
            unfold.append(code[i])
            i += 1
        body = code[i:]
        signature = "\n".join(sig)
        m = re.match(r"((?:abbrev |unfoldable |pub )*)(\S+) : (.*)$", signature, re.S)
        if not m:
            self.say("not read: " + code[0][:100])
            helpers.append((comments, code))
            return
        name, kind = m[2], m[3]
        if "statement M" in kind:
            order = [w for w in re.findall(r"[^\s()]+", "\n".join(body).split("tie.spec", 1)[-1])]
            self.order = order
            return
        if re.match(r"tie\.(invariant|decreases)-", kind):
            invariants.append((comments, name, kind[4:].split()[0], "\n".join(body)))
            return
        need = re.match(r"tie\.Need-(\S+)", kind)
        if need:
            answers.append((comments, name, need[1], unfold, body))
            return
        one = re.match(rf"{re.escape(name)} (\S+) = (\S+)((?:\.before)+)$", "\n".join(body))
        if "tie." in kind and one and one[1] == one[2]:
            self.place_macros[name] = ["before"] * one[3].count(".before")
            return
        macro = re.match(rf"{re.escape(name)} ((?:\S+ )*?)=\s(.*)$", "\n".join(body), re.S)
        if "tie." in kind and macro and not unfold:
            params = macro[1].split()
            tail = macro[2].strip()
            chained = re.match(r"\(?(\S+) (\S+)\)?((?:\.before)*)$", tail)
            if len(params) == 1 and chained and chained[1] in self.place_macros and chained[2] == params[0]:
                self.place_macros[name] = [chained[1]] + ["before"] * chained[3].count(".before")
            else:
                self.value_macros[name] = (params, macro[2])
            return
        if "tie." in kind:
            self.say(f"a helper over places: {name}")
        helpers.append((comments, code))

    def pair(self, answers):
        """Each answer beside its goal: by order, or by name."""
        needs = self.l["needs"]
        names = [a[1] for a in answers]
        order = [n for n in getattr(self, "order", names) if n in names] or names
        out = {}
        if len(order) == len(needs):
            for n, k in zip(order, range(len(needs))):
                out[n] = k
            return out
        used = set()

        def keys(n):
            n = PLAIN(n)
            yield n
            m = re.match(r"(loop\d*)-(holds|less|again)$", n)
            if m:
                yield m[1] + {"holds": "-init", "less": "-smaller", "again": "-preserved"}[m[2]]
            yield re.sub(r"^(overflow|nonzero|slice-bounds)-", "", n)

        for comments, name, need, unfold, body in answers:
            for key in list(keys(name)) + list(keys(need)):
                k = next((k for k, (o, n) in enumerate(needs) if PLAIN(o) == key and k not in used), None)
                if k is not None:
                    out[name] = k
                    used.add(k)
                    break
            else:
                if body_of(name, body) not in ("search rules", "search (rules)"):
                    self.say(f"no goal for {name} (tie.Need-{need})")
        return out

    def write(self, head, uses, invariants, answers, helpers):
        base = self.module
        uses = [u for u in uses if not re.search(r"\.(Statement|Tie|Lts|Goals|Kinds)\b", u) and "borrow.Author.Rules" not in u]
        written = []
        inv = []
        names = dict((o, n) for (o, n), _ in self.l["loops"])
        for comments, name, kind, body in invariants:
            what, _, loop = kind.partition("-")
            entry = next((e for e in self.l["loops"] if PLAIN(e[0][0]) == PLAIN(loop)), None)
            if entry is None and len(self.l["loops"]) == 1:
                entry = self.l["loops"][0]
            if entry is None:
                self.say(f"no loop for {kind}")
                continue
            at = self.l["loops"].index(entry)
            new = f"{what}-{entry[0][1]}"
            m = re.match(rf"{re.escape(name)}((?: \S+)*?) =\s(.*)$", body, re.S) or re.match(rf"{re.escape(name)}((?: \S+)*?) =(.*)$", body, re.S)
            if not m:
                self.say(f"an invariant by cases: {name}")
                continue
            given = m[1].split()
            variables, changed = entry[1], self.l["changed"][at]
            to = [f"l.initial.{v}" if c else f"l.{v}" for v, c in zip(variables, changed)] + [f"l.{v}" for v, c in zip(variables, changed) if c]
            if len(given) != len(to):
                self.say(f"{name} takes {len(given)}, and the loop has {len(to)}: {given} {to}")
            text = m[2]
            for k, (g, t) in enumerate(zip(given, to)):
                text = self.put(text, g, f"⟨{k}⟩")
            for k, (g, t) in enumerate(zip(given, to)):
                text = text.replace(f"⟨{k}⟩", t)
            inv.append("\n".join(comments + [f"abbrev pub {new} : goal.{new}", f"{new} l = {text.strip()}" if "\n" not in text.strip() else f"{new} l =\n    {text.strip()}"]))
        pairs = self.pair(answers)
        for comments, name, need, unfold, body in answers:
            if name not in pairs:
                continue
            old, new = self.l["needs"][pairs[name]]
            place = self.index.get(PLAIN(self.l["asked_at"][pairs[name]][0]))
            if place is None:
                self.say(f"no place {self.l['asked_at'][pairs[name]]} for {name}")
                continue
            if not unfold and body_of(name, body) in ("search rules", "search (rules)"):
                continue
            clauses = "\n".join(body)
            m = re.match(rf"{re.escape(name)} (\S+)((?: \S+)*?) =\s*(.*)$", clauses, re.S)
            if not m:
                self.say(f"an answer by cases: {name}")
                continue
            variables = {m[1]: place} if m[1] != "_" else {}
            text = self.turned(m[3], variables, place)
            fields = self.l["asked"].get(old)
            if fields and text.strip() != "search rules":
                text = self.recorded(text, fields, new)
            written.append("\n".join(comments + [f"pub {new} : goal.{new}"] + unfold + [f"{new} c = {text.strip()}"]))
        kept = []
        for comments, code in helpers:
            kept.append("\n".join(comments + code))
        top = "\n".join(head)
        if inv:
            whole = top + "\n" + "\n".join(uses + [f"use {base}.Given as goal"]) + "\n\n" + "\n\n".join(inv) + "\n"
            with open(os.path.join(self.folder, "Invariants.antt"), "w", encoding="utf-8") as f:
                f.write(whole)
        if written:
            whole = top + "\n" + "\n".join(uses + ["use borrow.Author.Rules.{rules}", f"use {base}.Goals as goal"]) + "\n\n" + "\n\n".join(kept + written) + "\n"
            with open(os.path.join(self.folder, "Answers.antt"), "w", encoding="utf-8") as f:
                f.write(whole)
        os.remove(os.path.join(self.folder, "Proof.antt"))
        return self.said

    def recorded(self, text, fields, goal):
        parts = self.parts(text.strip(), len(fields))
        if parts:
            return "record { " + "; ".join(f"{f} = {p}" for f, p in zip(fields, parts)) + " }"
        each = []
        for i, f in enumerate(fields):
            path = ".1" * i + ("" if i == len(fields) - 1 else ".0")
            each.append(f"{f} = t{path}")
        return f"let t : goal.{goal}-raw c = {text.strip()} in record {{ " + "; ".join(each) + " }"

    def parts(self, text, n):
        """The parts of a nested pair that is written out."""
        if n == 1:
            return [text]
        if not (text.startswith("(") and text.endswith(")")):
            return None
        d, cut = 0, None
        for i, ch in enumerate(text):
            d += (ch in "([{") - (ch in ")]}")
            if d == 0 and i < len(text) - 1:
                return None
            if d == 1 and ch == "," and cut is None:
                cut = i
        if cut is None:
            return None
        rest = self.parts(text[cut + 1 : -1].strip(), n - 1)
        return [text[1:cut].strip()] + rest if rest else None


def body_of(name, body):
    text = " ".join(" ".join(body).split())
    return text.split(" = ", 1)[1].strip() if " = " in text else text


def main(argv):
    with open(argv[0], encoding="utf-8") as f:
        listed = json.load(f)
    crate = argv[1].rstrip("/")
    name = os.path.basename(crate)
    for key, value in listed.items():
        m = re.match(rf"Rattle-{name}-proofs\.(.*)\.Lts$", key)
        if not m:
            continue
        folder = os.path.join(crate, "proofs", *m[1].split("."))
        if argv[2:] and m[1] not in argv[2:]:
            continue
        if not os.path.exists(os.path.join(folder, "Proof.antt")):
            continue
        f = Function(value, folder, f"{name}.{m[1]}")
        f.module = f"Rattle.{name}.proofs.{m[1]}"
        for line in f.convert():
            print(line)
    return 0


if __name__ == "__main__":
    raise SystemExit(main(sys.argv[1:]))
