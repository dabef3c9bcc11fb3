"""The texts of this repository as the tools beside this file read them: crates, declarations of antt, functions and types of Rattle, and which declarations a text names.

What a reading here does not understand it says (`Trouble`), and leaves nothing out in silence."""
import re
import signal
import subprocess
import sys
from pathlib import Path

ROOT = Path(__file__).resolve().parents[2]

# Libraries that belong to Rattle and antt: what is named of them, and of `Rattle.std`, is not followed.
LIBRARIES = {"Prim", "mathlib", "lib", "native", "borrow", "denote", "mir", "types", "base"}
# Words of antt that name nothing, and what its prelude and a contract's brackets bring into every file.
RESERVED = set("""data record deriving module where use mod pub package using open as unfoldable abbrev axiom unfold unfolding ruleset mutual infix infixl infixr elim let in
    do λ ∀ Type = → : | _ ← ↦ Σ rw simp search omega cc grw""".split())
PRELUDE = {"⊥", "¬", "IsProp", "Unit", "tt", "absurd", "Dec", "yes", "no", "×", "↔", "≢", "⌜", "⌝", "∗", "grind", "hlevel", "assumption", "first_of"}
# Constructors of the libraries: on the left of a clause these stand for themselves, where any other name that is no constructor is bound.
LIBRARY_CONSTRUCTORS = {"zero", "suc", "[]", "∷", "true", "false", "refl", "pos", "negsuc", "tt", "some", "none", "inl", "inr", "yes", "no", "true₂"}


class Trouble(Exception):
    """Something that the reading does not understand."""


def run(tool, main):
    """Runs a tool; a trouble is its last line, and an output that is cut short is none."""
    signal.signal(signal.SIGPIPE, signal.SIG_DFL)
    try:
        sys.exit(main())
    except Trouble as trouble:
        sys.exit(f"{tool}: {trouble}")


# ---- crates


def crates():
    """The crates of crates.txt, each with what it depends on, leaves first."""
    found = {}
    for line in (ROOT / "crates.txt").read_text(encoding="utf-8").splitlines():
        line = line.split("#")[0].strip()
        if line:
            name, _, below = line.partition(":")
            found[name.split()[0]] = below.split()
    return found


def shown(path):
    """A path as the repository's documents write it."""
    path = Path(path)
    return str(path.relative_to(ROOT) if path.is_relative_to(ROOT) else path)


# ---- tokens

TOKEN = re.compile(r'"(?:\\.|[^"\\])*"|«[^»]*»|[(){}.;,@]|[^\s(){}.;,@"«»]+')


class Token:
    def __init__(self, text, line, tight, followed):
        self.text, self.line = text, line
        self.tight = tight  # no blank before it
        self.followed = followed  # no blank behind it

    def __repr__(self):
        return self.text


def without_comment(line):
    """A line up to a comment: `--` as a token of its own, outside quoted texts."""
    for m in TOKEN.finditer(line):
        if m.group().startswith("--"):
            return line[: m.start()]
    return line


def tokens(lines, first=1):
    found = []
    for number, line in enumerate(lines, first):
        line = without_comment(line)
        for m in TOKEN.finditer(line):
            before = m.start() > 0 and not line[m.start() - 1].isspace()
            behind = m.end() < len(line) and not line[m.end()].isspace()
            found.append(Token(m.group(), number, before, behind))
    return found


def is_name(token):
    return token.text[0] not in '(){}.;,@"'


def plain(name):
    """`«max»` and `max` are one name where the latter is one."""
    return name[1:-1] if name.startswith("«") else name


# ---- files of antt

MARKS = r"(?:(?:unfoldable|abbrev|axiom|pub) )*"
SIGNATURE = re.compile(rf"(?P<marks>{MARKS})(?P<name>[^\s(){{}}.;,@\"]+|«[^»]*»)(?: \{{[^}}]*\}})? :(?:\s|$)")
RECORD = re.compile(rf"{MARKS}(?P<kind>record|data) (?P<name>\S+)")
RULES = re.compile(rf"{MARKS}ruleset (?P<name>\S+)")
MODULE = re.compile(r"module _\b")


class Declaration:
    """A definition, law, record, data type or ruleset, with the lines that it takes and those of the comment above it."""

    def __init__(self, file, kind, name, first, column, outer):
        self.file, self.kind, self.name, self.first, self.column = file, kind, name, first, column
        self.last = first
        self.comment = first  # the first line of the comment that stands directly above it
        self.outer = outer  # the heads of the modules around it, outermost first: (first line, last line)
        self.members = []  # constructors or fields

    @property
    def key(self):
        return (self.file.path, self.first)

    def lines(self):
        return self.file.lines[self.first - 1 : self.last]

    def comment_lines(self):
        return self.file.lines[self.comment - 1 : self.first - 1]

    def said(self):
        """Its lines without comments and blank ones."""
        return [l for l in map(without_comment, self.lines()) if l.strip()]

    def member_types(self):
        """Each field or constructor with its type."""
        found, name = {}, None
        for line in self.said():
            m = SIGNATURE.match(line.strip())
            if m and plain(m.group("name")) in self.members:
                name = plain(m.group("name"))
                found[name] = line.strip()[m.end() :].strip()
            elif name:
                found[name] = f"{found[name]} {line.strip()}".strip()
        return found

    def head_last(self):
        """The last line of its signature: the line before the first `unfolding` line or clause of its own column."""
        for number in range(self.first + 1, self.last + 1):
            if self.goes_on(self.file.lines[number - 1]):
                return last_said(self.file.lines, self.first, number - 1)
        return self.last

    def goes_on(self, line):
        """Whether a clause or an `unfolding` line begins here: a bracket that is closed at this column is none."""
        return indent_of(line) == self.column and line.split() and plain(line.split()[0]) in (self.name, "unfolding")

    def __repr__(self):
        return f"{self.name} ({shown(self.file.path)}:{self.first})"


def indent_of(line):
    return len(line) - len(line.lstrip(" "))


def last_said(lines, first, last):
    while last > first and (not lines[last - 1].strip() or lines[last - 1].lstrip().startswith("--")):
        last -= 1
    return last


class AnttFile:
    """A file of antt: what it uses, under which names, and what it declares, in order."""

    def __init__(self, path, text=None):
        self.path = Path(path)
        self.lines = (self.path.read_text(encoding="utf-8") if text is None else text).split("\n")
        self.uses = []  # (module, name, local name): a name of a module; (module, None, local name): a module
        self.declarations = []
        self.header_last = self._header()
        self._items(self.header_last + 1, len(self.lines), 0, [])
        self.by_name = {d.name: d for d in self.declarations}
        for d in self.declarations:
            for m in d.members:
                if d.kind == "data":
                    self.by_name.setdefault(m, d)

    def _header(self):
        last, number = 0, 1
        while number <= len(self.lines):
            line = self.lines[number - 1]
            text = line.strip()
            if text and not text.startswith("--"):
                if not re.match(r"(pub |unfoldable )*(use|mod) ", text):
                    break
                start = number
                while self._braces(start, number) > 0:
                    number += 1
                self._use(" ".join(without_comment(l).strip() for l in self.lines[start - 1 : number]), start)
                last = number
            number += 1
        return last

    def _braces(self, first, last):
        text = "".join(without_comment(l) for l in self.lines[first - 1 : last])
        return text.count("{") - text.count("}")

    def _use(self, text, number):
        text = re.sub(r"^(pub |unfoldable )*", "", text)
        if text.startswith("mod "):
            return
        self.uses += use_names(text.removeprefix("use ").strip(), f"{shown(self.path)}:{number}")

    def _items(self, first, last, column, outer):
        """The declarations from a line to a line that stand at a column."""
        number, comment, here = first, None, None
        while number <= last:
            line = self.lines[number - 1]
            if not line.strip():
                comment = None
                number += 1
                continue
            if line.lstrip().startswith("--"):
                if indent_of(line) == column and comment is None:
                    comment = number
                number += 1
                continue
            if indent_of(line) > column or not self._starts(line[column:]):
                if here is None:
                    raise Trouble(f"{shown(self.path)}:{number}: no declaration begins here: {line.strip()[:60]}")
                here.last = number
                comment = None
                number += 1
                continue
            text = line[column:]
            if MODULE.match(text):
                number = self._module(number, last, column, outer)
                comment, here = None, None
                continue
            m = RECORD.match(text) or RULES.match(text) or SIGNATURE.match(text)
            kind = m.groupdict().get("kind") or ("ruleset" if RULES.match(text) else "definition")
            here = Declaration(self, kind, plain(m.group("name")), number, column, list(outer))
            here.comment = comment or number
            self.declarations.append(here)
            comment = None
            number += 1
        for d in self.declarations:
            d.last = last_said(self.lines, d.first, d.last)
            if d.kind in ("record", "data") and not d.members:
                d.members = self._members(d)

    @staticmethod
    def _starts(text):
        return bool(MODULE.match(text) or RECORD.match(text) or RULES.match(text) or SIGNATURE.match(text))

    def _module(self, number, last, column, outer):
        head = number
        while not re.search(r"\bwhere\s*$", without_comment(self.lines[number - 1])):
            number += 1
        body = number + 1
        end = body
        while end <= last and (not self.lines[end - 1].strip() or indent_of(self.lines[end - 1]) > column):
            end += 1
        said = [l for l in self.lines[body - 1 : end - 1] if l.strip() and not l.lstrip().startswith("--")]
        if said:
            self._items(body, end - 1, indent_of(said[0]), outer + [(head, number)])
        return end

    def _members(self, d):
        """The names of fields or constructors, which stand at one column below the line that ends in `where`."""
        said = d.said()
        head = next((i for i, line in enumerate(said) if re.search(r"\bwhere\s*$", line)), len(said))
        found = []
        for line in said[head + 1 :]:
            m = re.match(r"\s*(?:pub )?((?:(?!: )[^\s(){}.;,@]+ )+):(\s|$)", line)
            if m and indent_of(line) == indent_of(said[head + 1]):
                found += map(plain, m.group(1).split())
        return found


def use_names(text, where):
    """What a `use` line brings: (module, name or None, local name) of each."""
    m = re.fullmatch(r"([^\s{}]+)\.\{(.*)\}", text)
    if m:
        found = []
        for item in m.group(2).split(","):
            item = item.strip()
            if item:
                name, _, local = item.partition(" as ")
                found.append((m.group(1), plain(name.strip()), plain((local or name).strip())))
        return found
    m = re.fullmatch(r"([^\s{}]+)(?: as (\S+))?", text)
    if not m:
        raise Trouble(f"{where}: a `use` line of another form: {text[:80]}")
    return [(m.group(1), None, m.group(2) or m.group(1).split(".")[-1])]


# ---- files of Rattle


class Clause:
    """A `requires` or an `ensures`: its name, if it has one, its lines, and what stands in its braces."""

    def __init__(self, kind, name, first, last, text):
        self.kind, self.name, self.first, self.last, self.text = kind, name, first, last, text


class Function:
    """A function: its name, the lines of its comment, signature and contract, and its clauses."""

    def __init__(self, file, name, first):
        self.file, self.name, self.first, self.last = file, name, first, first
        self.exported = False
        self.parameters = []
        self.clauses = []

    def of_kind(self, kind):
        return [c for c in self.clauses if c.kind == kind]

    def said(self):
        return [l for l in self.file.lines[self.first - 1 : self.last] if l.strip() and not l.lstrip().startswith("//")]


class RustType:
    """A struct or an enum; its variants, and the names of the types that it holds."""

    kind = "type"

    def __init__(self, file, name, first, last, enum):
        self.file, self.name, self.first, self.last, self.enum = file, name, first, last, enum
        body = "\n".join(file.lines[first - 1 : last])
        body = re.sub(r"//[^\n]*", "", body)
        inside = body.partition("{")[2] or body.partition("(")[2]
        self.members = re.findall(r"^\s*(\w+)\s*(?:\([^)]*\)|\{[^}]*\})?,?\s*$", inside, re.M) if enum else []
        self.types = [t for t in re.findall(r"\b[A-Z]\w*\b", inside) if t not in self.members or not enum]
        self.comment = first
        while self.comment > 1 and re.match(r"\s*(//|#\[)", file.lines[self.comment - 2]):
            self.comment -= 1

    @property
    def key(self):
        return (self.file.path, self.first)

    def said(self):
        return [l for l in self.file.lines[self.first - 1 : self.last] if l.strip() and not l.lstrip().startswith("//")]

    def __repr__(self):
        return f"{self.name} ({shown(self.file.path)}:{self.first})"


class RattleFile:
    """A file of Rattle: its functions with their contracts, its types, and what its contracts use."""

    def __init__(self, path):
        self.path = Path(path)
        self.lines = self.path.read_text(encoding="utf-8").split("\n")
        self.uses, self.functions, self.types, self.imports = [], [], {}, {}
        number = 1
        while number <= len(self.lines):
            line = self.lines[number - 1]
            if re.match(r"(pub )?(ghost )?use ", line):
                first = number
                while not self.lines[number - 1].rstrip().endswith(";"):
                    number += 1
                said = re.sub(r"^pub ", "", " ".join(l.strip() for l in self.lines[first - 1 : number]).rstrip("; "))
                if said.startswith("ghost "):
                    self.uses += use_names(said.removeprefix("ghost use "), f"{shown(self.path)}:{first}")
                else:
                    self._import(said.removeprefix("use ").strip(), "")
            m = re.match(r"\s*(?:pub )?(struct|enum) (\w+)", line)
            if m:
                last = number
                while not re.search(r"[;}]\s*(//.*)?$", self.lines[last - 1]) or self._open(number, last):
                    last += 1
                self.types[m.group(2)] = RustType(self, m.group(2), number, last, m.group(1) == "enum")
                number = last
            m = re.match(r"(\s*)(pub )?(extern \"C\" )?fn (\w+)", line)
            if m:
                number = self._function(number, m)
            number += 1

    def _import(self, tree, path):
        """What a `use` of Rattle brings: names, also in braces within braces."""
        head, brace, rest = tree.partition("{")
        if brace:
            for part in parts_of(rest.strip().removesuffix("}")):
                self._import(part, path + head.strip())
            return
        name, _, local = tree.partition(" as ")
        module, _, name = (path + name.strip()).rpartition("::")
        if module:
            self.imports[(local or name).strip()] = (module, name)

    def _open(self, first, last):
        text = re.sub(r"//[^\n]*", "", "\n".join(self.lines[first - 1 : last]))
        return text.count("{") - text.count("}") > 0

    def _function(self, number, m):
        f = Function(self, m.group(4), number)
        f.exported = bool(m.group(3)) and "no_mangle" in self.lines[number - 2]
        indent, start, body = m.group(1), number, None
        # the signature up to the closing bracket of its parameters, then clauses, then the body
        depth, text = 0, ""
        while True:
            line = re.sub(r"//[^\n]*", "", self.lines[number - 1])
            text += line + "\n"
            depth += line.count("(") - line.count(")")
            if depth == 0 and "(" in text:
                break
            number += 1
        parameters = text[text.index("(") + 1 : text.rindex(")")]
        f.parameters = [p.split(":")[0].strip().removeprefix("mut ") for p in re.split(r",(?![^\[(<]*[\])>])", parameters) if p.strip()]
        if re.search(r"\{\s*(\}\s*)?$", line):
            body = number
        while body is None:
            number += 1
            line = self.lines[number - 1]
            c = re.match(r"\s*(requires|ensures)\*?(?: (\w+))? \{", line)
            if c:
                first = number
                while self._braces(first, number) > 0:
                    number += 1
                clause = " ".join(l.strip() for l in self.lines[first - 1 : number])
                f.clauses.append(Clause(c.group(1), c.group(2), first, number, clause.partition("{")[2].rpartition("}")[0].strip()))
            elif line == indent + "{":
                body = number
            elif line.strip() and not line.lstrip().startswith(("//", "->")):
                raise Trouble(f"{shown(self.path)}:{number}: neither a clause nor a body: {line.strip()[:60]}")
        f.last = body - 1 if body > start else start
        while self.lines[number - 1] != indent + "}" and not (number == body and self.lines[number - 1].rstrip().endswith("}")):
            number += 1
        self.functions.append(f)
        return number

    def _braces(self, first, last):
        text = "".join(self.lines[first - 1 : last])
        return text.count("{") - text.count("}")


def parts_of(text, mark=","):
    """What stands between the commas of a text, or another mark, that are in no braces."""
    parts, depth = [""], 0
    for c in text:
        depth += (c == "{") - (c == "}")
        if c == mark and not depth:
            parts.append("")
        else:
            parts[-1] += c
    return [p.strip() for p in parts if p.strip()]


# ---- the repository

_antt, _rattle = {}, {}


def antt_file(path):
    path = Path(path)
    if path not in _antt:
        _antt[path] = AnttFile(path)
    return _antt[path]


def rattle_file(path):
    path = Path(path)
    if path not in _rattle:
        _rattle[path] = RattleFile(path)
    return _rattle[path]


def spec_files(crate):
    return sorted((ROOT / "crates" / crate / "specs").glob("*.antt"))


def law_files(crate):
    return sorted((ROOT / "crates" / crate / "proofs").glob("*.antt"))


# The files of a function's own proof: what its loops keep and its measures, the answers to its goals; or a walk through its code by hand.
PROOF_NAMES = ("Invariants.antt", "Answers.antt", "Proof.antt")


def proof_files(crate):
    """The files of the functions' own proofs."""
    return sorted(p for p in (ROOT / "crates" / crate / "proofs").rglob("*.antt") if p.name in PROOF_NAMES)


def source_files(crate):
    return sorted((ROOT / "crates" / crate / "src").glob("*.rt"))


class Library:
    """Something of Rattle's or antt's libraries: named, not followed."""

    def __init__(self, name):
        self.name = name


def module_of(path, own=None):
    """What a module's path means: a file of antt; ('type', type) or ('variants', type) of a Rattle type; a Library; None where it is none of these."""
    words = path.split(".")
    if words[0] in LIBRARIES or words[:2] == ["Rattle", "std"]:
        return Library(path)
    if words[0] != "Rattle" or len(words) < 4:
        return None
    base = ROOT / "crates" / words[1]
    words = words[1:]
    file = base / words[1] / (words[2] + ".antt")
    if words[1] in ("specs", "proofs") and file.exists():
        found = antt_file(file)
        if len(words) == 3:
            return found
        inner = found.by_name.get(words[3])  # a data type, whose constructors are named behind it
        return ("variants", inner) if len(words) == 4 and inner and inner.kind == "data" else None
    # types of Rattle: `specs.declared.FILE.Type`, and what is generated for one, `proofs.FILE.Type`
    variants = words[-1] == "TheVariants"
    names = words[3 if words[2] == "declared" else 2 : -1 if variants else None]
    for file in [base / "src" / (names[-2] + ".rt")] if len(names) > 1 else [base / "src" / "lib.rt", base / "src" / "main.rt"]:
        found = rattle_file(file).types.get(names[-1].strip("«»")) if file.exists() else None
        if found:
            return ("variants" if variants else "type", found)
    return None


def in_module(module, name):
    """What a name of a module means: a declaration, a Rattle type, or a Library; None where there is none."""
    if isinstance(module, Library):
        return Library(f"{module.name}.{name}")
    if isinstance(module, AnttFile):
        return module.by_name.get(name)
    if isinstance(module, tuple):
        kind, found = module
        return found if name == found.name or name in found.members or kind == "type" else None
    return None


class Scope:
    """What the names of a file mean: those that it declares and those that its `use` lines bring."""

    def __init__(self, file):
        self.file = file
        self.names, self.modules = {}, {}
        for path, name, local in file.uses:
            module = module_of(path)
            # what a derive makes stands in no source
            if module is None and ".specs.contracts." in path:
                module = Library(path)
            if module is None:
                raise Trouble(f"{shown(file.path)}: nothing stands at {path}")
            if name is None:
                self.modules[local] = module
                continue
            found = in_module(module, name)
            if found is None:
                raise Trouble(f"{shown(file.path)}: {path} has no {name}")
            self.names[local] = found
        if isinstance(file, AnttFile):
            self.names.update(file.by_name)
        self.parts = {}
        for name, found in self.names.items():
            if "◌" in name:
                for part in name.split("◌"):
                    if part:
                        self.parts[part] = found

    def meaning(self, word):
        return self.names.get(word) or self.parts.get(word)

    def is_constructor(self, word):
        found = self.meaning(word)
        if isinstance(found, Library):
            return word in LIBRARY_CONSTRUCTORS
        if found is None or isinstance(found, (Function,)):
            return word in ("tt", "yes", "no")
        return word in found.members and (found.kind == "data" or getattr(found, "enum", False))


_scopes = {}


def scope_of(file):
    if file.path not in _scopes:
        _scopes[file.path] = Scope(file)
    return _scopes[file.path]


# ---- what the check writes to start a proof from


def start(crate, functions, folder=None):
    """Has the check write the files to start these functions' proofs from (`rows::parent_of`) into the crate; or into a folder, with all that is generated of them. What it said."""
    command = ["rt", "check"] + (["--generated", str(folder)] if folder else [])
    for name in functions:
        command += ["--start", f"{crate}::{name}"]
    done = subprocess.run(command, cwd=ROOT / "crates" / crate, stdout=subprocess.PIPE, stderr=subprocess.STDOUT, text=True)
    return done.stdout


# ---- which names a text has that it does not bind itself


class Reader:
    """Goes through the tokens of a term and gathers the names that it does not bind itself."""

    def __init__(self, scope, bound=()):
        self.scope = scope
        self.bound = list(bound)
        self.found = []  # (name, line)

    def is_bound(self, name):
        return name in self.bound

    def term(self, ts):
        """The tokens of a term, in which binders reach to the end of the brackets around them, or to a comma or semicolon."""
        start = len(self.bound)
        pending = []  # names of `let`s whose `in` is still to come
        i = 0
        while i < len(ts):
            t = ts[i]
            if t.text in "({":
                close = matching(ts, i)
                inner = ts[i + 1 : close]
                if i and ts[i - 1].text == "record" and t.text == "{":
                    self.literal(inner)
                else:
                    binders = binder_group(inner)
                    if binders:
                        names, typ = binders
                        self.term(typ)
                        self.bound += names
                    elif t.text == "{" and len(inner) > 2 and inner[1].text == "=":
                        self.term(inner[2:])  # an implicit argument by name
                    else:
                        for part in split(inner, ","):
                            self.term(part)
                i = close + 1
                continue
            if t.text in ",;":
                del self.bound[start:]
                i += 1
                continue
            if t.text == "λ":
                i = self.binders(ts, i + 1)
                continue
            if t.text == "let":
                stop = i + 1
                while ts[stop].text not in ("=", ":"):
                    stop += 1
                pending.append([plain(x.text) for x in ts[i + 1 : stop] if is_name(x)])
                i = stop + 1
                continue
            if t.text == "in" and pending:
                self.bound += pending.pop()
                i += 1
                continue
            i = self.name(ts, i)
        del self.bound[start:]

    def name(self, ts, i):
        """A name, with what follows it tightly behind dots; a projection is skipped."""
        t = ts[i]
        if t.text == ".":
            return i + 2 if i + 1 < len(ts) and is_name(ts[i + 1]) else i + 1
        if not is_name(t):
            return i + 1
        path, line = [plain(t.text)], t.line
        while i + 2 < len(ts) and ts[i + 1].text == "." and ts[i + 1].tight and ts[i + 1].followed and is_name(ts[i + 2]):
            path.append(plain(ts[i + 2].text))
            i += 2
        self.meet(path, line)
        return i + 1

    def meet(self, path, line):
        word = path[0]
        if word in RESERVED or re.fullmatch(r"[0-9][0-9_a-fxob]*", word):
            return
        if self.is_bound(word):
            return  # a variable, or a field of one
        self.found.append((path, line))

    def binders(self, ts, i):
        """Binders of a λ up to its dot."""
        while not (ts[i].text == "." and ts[i].tight):
            if ts[i].text in "({":
                close = matching(ts, i)
                inner = ts[i + 1 : close]
                group = binder_group(inner)
                if group:
                    self.term(group[1])
                    self.bound += group[0]
                else:
                    self.bound += [plain(x.text) for x in inner if is_name(x) and x.text not in ("=", "record")]
                i = close + 1
                continue
            if is_name(ts[i]) and ts[i].text != "record":
                self.bound.append(plain(ts[i].text))
            i += 1
        return i + 1

    def literal(self, inner):
        """A record's value, whose labels name nothing, or a record type, whose labels are bound behind them."""
        start = len(self.bound)
        for part in split(inner, ";"):
            if len(part) > 1 and part[1].text == "=":
                self.term(part[2:])
            elif len(part) > 1 and part[1].text == ":":
                self.term(part[2:])
                self.bound.append(plain(part[0].text))
            elif part:
                raise Trouble(f"{shown(self.scope.file.path)}:{part[0].line}: a record of another form")
        del self.bound[start:]

    def clause(self, ts):
        """A clause: on its left what is no constructor is bound."""
        start = len(self.bound)
        stop = top_level(ts, "=")
        i = 1
        while i < stop:
            path, line = [plain(ts[i].text)], ts[i].line
            if is_name(ts[i]) and path[0] in self.scope.modules and ts[i + 1].text == ".":
                i = self.name(ts, i)  # a constructor behind its module
                continue
            if is_name(ts[i]) and path[0] not in RESERVED and not re.fullmatch(r"[0-9]+", path[0]):
                if self.scope.is_constructor(path[0]):
                    self.found.append((path, line))
                else:
                    self.bound.append(path[0])
            i += 1
        self.term(ts[stop + 1 :])
        del self.bound[start:]


def matching(ts, i):
    depth = 0
    for j in range(i, len(ts)):
        if ts[j].text in "({":
            depth += 1
        elif ts[j].text in ")}":
            depth -= 1
            if depth == 0:
                return j
    raise Trouble(f"a bracket of line {ts[i].line} is not closed")


def split(ts, mark):
    parts, depth, here = [], 0, []
    for t in ts:
        if t.text in "({":
            depth += 1
        elif t.text in ")}":
            depth -= 1
        if depth == 0 and t.text == mark:
            parts.append(here)
            here = []
        else:
            here.append(t)
    return parts + [here]


def binder_group(inner):
    """`x y : A` as its names and the tokens of its type; None where it is no such group."""
    for j, t in enumerate(inner):
        if t.text == ":":
            return ([plain(x.text) for x in inner[:j]], inner[j + 1 :]) if j else None
        if not is_name(t) or t.text in RESERVED:
            return None
    return None


def top_level(ts, mark):
    depth = 0
    for j, t in enumerate(ts):
        if t.text in "({":
            depth += 1
        elif t.text in ")}":
            depth -= 1
        elif depth == 0 and t.text == mark:
            return j
    raise Trouble(f"line {ts[0].line}: no `{mark}`")


def module_parameters(d):
    """What the modules around a declaration take, outermost first: names, and the tokens of their type."""
    for first, last in d.outer:
        groups, i = tokens(d.file.lines[first - 1 : last], first)[2:-1], 0  # module _ .. where
        while i < len(groups):
            close = matching(groups, i)
            group = binder_group(groups[i + 1 : close])
            if not group:
                raise Trouble(f"{shown(d.file.path)}:{first}: a module's parameter of another form")
            yield group
            i = close + 1


def names_of(d, statement_only=False):
    """The names (as paths, with lines) that a declaration's text has and does not bind. Of a law its statement alone is wanted."""
    reader = Reader(scope_of(d.file))
    outer = []
    for names, typ in module_parameters(d):
        reader.bound = list(outer)
        reader.term(typ)
        outer += names
    reader.bound = list(outer)
    if d.kind in ("record", "data"):
        _declared_type(d, reader)
    elif d.kind == "ruleset":
        reader.term(tokens(d.lines(), d.first)[3:])
    else:
        head = d.head_last()
        ts = tokens(d.file.lines[d.first - 1 : head], d.first)
        reader.term(ts[top_level_signature(ts) + 1 :])
        if not statement_only:
            _clauses(d, head, reader, outer)
    return reader.found


def top_level_signature(ts):
    for j, t in enumerate(ts):
        if t.text == ":":
            return j
    raise Trouble(f"line {ts[0].line}: no signature")


def _clauses(d, head, reader, outer):
    last, local = _local_declarations(d, head)
    bound = outer + [said.split()[0] for _, said in local if re.match(r"\S+ : ", said)]
    here = []
    blocks = []
    for number in range(head + 1, last + 1):
        line = d.file.lines[number - 1]
        text = without_comment(line)
        if not text.strip():
            continue
        if d.goes_on(line):
            if text.strip().startswith("unfolding "):
                here = None
                continue
            here = []
            blocks.append(here)
        if here is None:
            continue
        here += tokens([line], number)
    for ts in blocks:
        reader.bound = list(bound)
        reader.clause(ts)
    for number, said in local:
        ts = tokens([said], number)
        reader.bound = list(bound)
        if re.match(r"\S+ : ", said):
            reader.term(ts[top_level_signature(ts) + 1 :])
        else:
            reader.clause(ts)


def _local_declarations(d, head):
    """The last line before a `where` of its own, and the lines behind that, each a signature or a clause, with their numbers."""
    for number in range(head + 1, d.last + 1):
        if without_comment(d.file.lines[number - 1]).strip() == "where":
            said = [(n, without_comment(d.file.lines[n - 1]).strip()) for n in range(number + 1, d.last + 1)]
            return number - 1, [(n, text) for n, text in said if text]
    return d.last, []


def _declared_type(d, reader):
    ts = tokens(d.lines(), d.first)
    stop = next(j for j, t in enumerate(ts) if t.text == "where")
    head = ts[:stop]
    i = next(j for j, t in enumerate(head) if t.text in ("record", "data")) + 2
    start = len(reader.bound)
    while i < len(head):
        if head[i].text in "({":
            close = matching(head, i)
            names, typ = binder_group(head[i + 1 : close])
            reader.term(typ)
            reader.bound += names
            i = close + 1
        else:  # the colon
            reader.term(head[i + 1 :])
            break
    members, lines = [], {}
    for t in ts[stop + 1 :]:
        lines.setdefault(t.line, []).append(t)
    inner = None
    for number in sorted(lines):
        column = indent_of(d.file.lines[number - 1])
        inner = column if inner is None else inner
        if column == inner:
            members.append([])
        members[-1] += lines[number]
    for ts in members:
        ts = [t for t in ts if t.text != "pub"]
        colon = top_level_signature(ts)
        reader.term(ts[colon + 1 :])
        if d.kind == "record":
            reader.bound.append(plain(ts[0].text))
    del reader.bound[start:]


def meaning_of(scope, path, where):
    """What a path of names means in a file: a declaration, a type, a Library, or None for the prelude's."""
    word = path[0]
    found = scope.meaning(word)
    if len(path) > 1 and word in scope.modules:
        module = scope.modules[word]
        for step in path[1:]:
            below = in_module(module, step)
            if below is not None:
                return below
            deeper = module_of(f"{module.name}.{step}") if isinstance(module, Library) else None
            if deeper is None:
                raise Trouble(f"{where}: {'.'.join(path)} is not there")
            module = deeper
    if found is not None:
        return found
    if word in PRELUDE:
        return None
    if word == "Rattle" or word in LIBRARIES:
        found = in_module(module_of(".".join(path[:-1])), path[-1])
        if found is not None:
            return found
    raise Trouble(f"{where}: what is {'.'.join(path)}?")
