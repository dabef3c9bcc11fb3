#!/usr/bin/env python3
"""Writes the vectors that crates/replay replays: crates/replay/stdin, and the counts that it prints, crates/replay/stdout.

    vectors.py join [FOLDER]    from cases/*.txt here and html2text's answers, which stay as they are in stdin; with FOLDER
                                they are read from FOLDER/vectors, FOLDER/compile_vectors and FOLDER/style_vectors
    vectors.py split FOLDER     writes html2text's answers in stdin to those three files, for `compare replay`

README.md says how all of these are written."""
import itertools
import os
import re
import sys

import model

HERE = os.path.dirname(os.path.abspath(__file__))
CASES = os.path.join(HERE, "cases")
REPLAY = os.path.join(HERE, "..", "..", "crates", "replay")
LISTS = ["sheets", "lengths", "compiled sheets", "compiled bytes", "pages", "attributes", "classes", "styles", "runs", "long runs", "differences"]
RECORDED = {"vectors": "html2text's sheets, attributes and selectors", "compile_vectors": "html2text's compiled sheets", "style_vectors": "html2text's computed styles"}

IN_BOOK_ORDER = "computed styles in the book order"
BY_RUNS = "html2text's computed styles by runs"

# The calls, as crates/replay/src/calls.rt has them.
CALLS = {"read_sheet": 1, "compile": 2, "check_page": 3, "style": 4, "style_book": 5, "run": 6, "check_bytes": 7, "style_attribute": 8, "color_attribute": 9, "matches": 10, "rows": 11, "selector": 12, "height_length": 13}
BUFFERS = ["rules", "tokens", "brackets", "texts", "bytes", "out"]
RUN_BUFFERS = {"state": "bytes", "rows": "out"}  # what `bytes` and `out` are in a run
NUMBER_BUFFERS = ("rules", "tokens", "out")
OWN_ARGUMENTS = 1 + len(BUFFERS)  # those of every call stand before them
RESULTS = 6
ANY = None
NODE_WIDTH, ATTRIBUTE_WIDTH, COMPONENTS_OF_FIRST_RULE = 6, 4, 5
SLOT_NAMES = ["color", "background", "display", "space", "content", "visibility"]
PANIC, NO_ELEMENT, NO_SHEET, NO_ROOM, BAD_LENGTH = 4, 8, 9, 10, 12
LENGTH_KINDS = {"none": 0, "units": 1, "em": 2, "ex": 3}
MILLION = 10 ** 6  # an amount is told as millions and what is left
FULL = 255
ROOM = 4096
SLOT_WEIGHT = 6  # the numbers of a slot between whether it is filled and its value
STYLE_WIDTH = 5  # the numbers of a style's row
LEAST_RUN = 4
MORE = 100  # 'plenty' is what so many bytes more would need


# ---- bytes of vectors

def number(n):
    groups = [n & 127]
    while n > 127:
        n >>= 7
        groups.append((n & 127) | 128)
    return bytes(reversed(groups))


def text(t):
    return number(len(t)) + t


def numbers(xs):
    return number(len(xs)) + b"".join(map(number, xs))


def content(parts):
    """Parts of bytes or of numbers, each (total, pattern)."""
    write = lambda p: text(p) if isinstance(p, bytes) else numbers(p)
    return number(len(parts)) + b"".join(number(total) + write(pattern) for total, pattern in parts)


def whole(pattern):
    return [(len(pattern), pattern)] if pattern else []


def expected(value):
    return number(0 if value is ANY else value + 1)


class Question:
    """What is lent and asked, and what is expected; `after` has for a buffer its parts and what stands beyond them (ANY: anything), 'zero' or 'unchanged'."""

    def __init__(self, lent, filling, arguments, results=(), after=None):
        self.lent, self.filling, self.arguments, self.results, self.after = lent, filling, list(arguments), list(results), after or {}

    def left(self, name):
        after = self.after.get(name, self.after.get("all", "unchanged"))
        if after == "zero":
            return [], 0
        return ([], self.filling) if after == "unchanged" else after

    def bytes(self):
        lengths = [self.lent.get(name, 0) for name in BUFFERS]
        results = self.results + [0] * (RESULTS - len(self.results))
        out = numbers([self.filling] + lengths + self.arguments) + b"".join(map(expected, results))
        return out + b"".join(content(parts) + expected(beyond) for parts, beyond in map(self.left, BUFFERS))


class Vector:
    """A call, what is lent to read, and questions."""

    def __init__(self, words, call, read, rows, *questions):
        self.words, self.call, self.read, self.rows, self.questions = words, call, list(read), list(rows), questions

    def bytes(self):
        out = text(self.words.encode()) + number(CALLS[self.call]) + content(self.read) + content(self.rows)
        return out + number(len(self.questions)) + b"".join(q.bytes() for q in self.questions)


def list_bytes(words, vectors):
    return b"".join(vectors) + text(words.encode()) + number(0)


class Reader:
    """Numbers, texts and lists; `highest` group first as in vectors, or last as in the compiled sheet."""

    def __init__(self, data, highest=True):
        self.data, self.at, self.highest = data, 0, highest

    def number(self):
        groups = []
        while True:
            b = self.data[self.at]
            self.at += 1
            groups.append(b & 127)
            if b < 128:
                break
        value = 0
        for group in groups if self.highest else reversed(groups):
            value = value << 7 | group
        return value

    def text(self):
        n = self.number()
        self.at += n
        return self.data[self.at - n:self.at]

    def list(self):
        return [self.number() for _ in range(self.number())]

    def content(self, read):
        return [(self.number(), read()) for _ in range(self.number())]

    def question(self):
        """Arguments, results, and what is left in each buffer."""
        found = {"arguments": self.list(), "results": [self.number() - 1 for _ in range(RESULTS)]}
        for name in BUFFERS:
            found[name] = self.content(self.list if name in NUMBER_BUFFERS else self.text), self.number() - 1
        return found

    def vector(self):
        """Words, call, and for a call what is read, and the questions."""
        words, call = self.text().decode(), self.number()
        if call == 0:
            return words, call, None
        parts = {"read": self.content(self.text), "rows": self.content(self.list)}
        parts["questions"] = [self.question() for _ in range(self.number())]
        return words, call, parts

    def lists(self):
        """The words of each list, and the bytes of its vectors."""
        found, vectors = {}, []
        while self.at < len(self.data):
            start = self.at
            words, call, _ = self.vector()
            if call == 0:
                found[words], vectors = vectors, []
            else:
                vectors.append(self.data[start:self.at])
        return found


# ---- lengths and what a refusal leaves

def least(n):
    return {"rules": 8 * n + 64, "tokens": 8 * n + 64, "brackets": n, "texts": 2 * n + 12}


def left_by(refusal):
    return {"all": "zero" if refusal in (PANIC, NO_ROOM, BAD_LENGTH) else "unchanged"}


def runs(xs):
    """Numbers as parts, those that repeat one number apart."""
    parts = []
    for value, group in itertools.groupby(xs):
        n = len(list(group))
        if n < LEAST_RUN and parts and parts[-1][0] == len(parts[-1][1]):
            parts[-1] = (parts[-1][0] + n, parts[-1][1] + [value] * n)
        else:
            parts.append((n, [value] * n if n < LEAST_RUN else [value]))
    return parts


def style_left(row, texts):
    """What an answered style call leaves: its row, the parts of its texts, and zeros."""
    return {"all": "zero", "out": (runs(row), 0), "texts": (texts, 0), "bytes": "unchanged"}


LONGEST_PERIOD = 4


def row_parts(rows):
    """The rows of a page as parts; rows that come again and again, one or a few together, are written once."""
    parts, at = [], 0
    while at < len(rows):
        def coverage(period):
            end = at + period
            while end < len(rows) and rows[end] == rows[end - period]:
                end += 1
            return end - at
        best = max(range(1, LONGEST_PERIOD + 1), key=lambda p: (coverage(p), -p))
        if coverage(best) > LEAST_RUN * best:
            parts.append((model.ROW_WIDTH * coverage(best), sum(rows[at:at + best], [])))
            at += coverage(best)
        else:
            parts += runs(rows[at])
            at += 1
    return parts


def run_left(rows, texts):
    """What an answered run leaves: its rows, the parts of its texts, and zeros."""
    return {"all": "zero", "out": (row_parts(rows), 0), "texts": (texts, 0)}


# ---- html2text's answers

def recorded_sheet(r):
    sheet, refusal = r.text(), r.number()
    results, after = [refusal, ANY, ANY, ANY, ANY, ANY], left_by(refusal)
    if refusal == 0:
        count, stop, rows, texts = r.number(), r.number(), r.list(), r.text()
        results = [0, 0, count, stop, len(rows), len(texts)]
        after = {"all": "zero", "rules": (whole(rows), 0), "texts": (whole(texts), 0), "bytes": "unchanged"}
    return Vector("", "read_sheet", whole(sheet), [], Question(least(len(sheet)), FULL, [len(sheet)], results, after))


def recorded_style(r):
    value, rows, texts = r.text(), r.list(), r.text()
    after = {"tokens": (whole(rows), 0), "texts": (whole(texts), 0)}
    return Vector("", "style_attribute", whole(value), [], Question(least(len(value)), 0, [len(value)], [0, len(rows) // STYLE_WIDTH, len(texts)], after))


def recorded_colour(r):
    value, found, colour = r.text(), r.number(), r.number()
    return Vector("", "color_attribute", whole(value), [], Question(least(len(value)), 0, [len(value)], [0, found, colour]))


def recorded_selector(r):
    count, components, names, nodes, attributes, page = r.number(), r.list(), r.text(), r.list(), r.list(), r.text()
    counts, matches = r.list(), r.list()
    answers = []
    for row, match in enumerate(matches):
        answers += [0, match] + counts if nodes[row * NODE_WIDTH] == 1 else [NO_ELEMENT, 0, 0, 0, 0]
    # behind the row, which is not asked here, the counts, for a page without an element tells none
    arguments = [len(nodes), len(attributes), len(page), len(components), len(names), count, 0] + counts
    after = {"rules": (whole(answers), ANY)}
    asked = Question({"rules": len(answers)}, 0, arguments, [len(matches)], after)
    return Vector("", "rows", whole(page + names), whole(nodes + attributes + components), asked)


def recorded_compile(r):
    sheets, refusal = [r.text() for _ in range(3)], r.number()
    lengths = [len(s) for s in sheets]
    results, after = [refusal, ANY, ANY, ANY, ANY], left_by(refusal)
    if refusal == 0:
        compiled = r.text()
        results = [0, 0, 0, len(compiled), ANY]
        after = {"all": "zero", "texts": ([], ANY), "bytes": (whole(compiled), 0)}
    lent = dict(least(sum(lengths)), bytes=ROOM)
    return Vector("", "compile", whole(b"".join(sheets)), [], Question(lent, FULL, lengths, results, after))


def recorded_slots(r):
    """A record of a computed style: whether it is there, and what each slot holds, a content as its text."""
    present, slots = r.number(), [None] * model.SLOTS
    for _ in range(r.number()):
        slot = r.number()
        weight = [r.number() for _ in range(SLOT_WEIGHT)]
        slots[slot] = weight, r.text() if slot == model.CONTENT else r.number()
    return present, slots


def slots_of(row, texts, started=False):
    """The same of a row, whose starts are left aside; or with them, which html2text does not have."""
    records = []
    for record in range(model.RECORDS):
        present, *rest = row[record * model.RECORD_WIDTH:][:model.RECORD_WIDTH]
        slots = [rest[k * model.SLOT_WIDTH:][:model.SLOT_WIDTH] for k in range(model.SLOTS)]
        value = lambda k, s: texts[s[-3]:s[-3] + s[-2]] if k == model.CONTENT else s[-3]
        start = lambda s: s[-1:] if started else []
        records.append((present, [(s[1:1 + SLOT_WEIGHT] + start(s), value(k, s)) if s[0] else None for k, s in enumerate(slots)]))
    return records


def recorded_styles(r):
    """A question for each element; where contents lie and declarations start, the crate does not say, but model.py. A page without one is asked for row 0."""
    sheets, nodes, attributes, page, on = [r.text() for _ in range(3)], r.list(), r.list(), r.text(), r.number()
    lent = model.least_lengths(sheets, attributes, page)
    questions, arguments = [], [len(nodes), len(attributes), len(page)] + [len(s) for s in sheets]
    for row in range(len(nodes) // NODE_WIDTH):
        if nodes[row * NODE_WIDTH] == model.ELEMENT:
            records = [recorded_slots(r) for _ in range(model.RECORDS)]
            _, out, texts = model.style_call(sheets, nodes, attributes, page, row, on, False)
            assert slots_of(out, texts) == records, "model.py differs from html2text"
            questions.append(Question(lent, FULL, arguments + [row, on], [0, 0, 0, len(texts)], style_left(out, whole(texts))))
    none = Question(lent, FULL, arguments + [0, on], [NO_ELEMENT, 0, 0, 0], left_by(NO_ELEMENT))
    return Vector("", "style", whole(page + b"".join(sheets)), whole(nodes + attributes), *questions or [none])


def style_question(read, rows, question, book):
    """What model.py answers to a question of a style vector, and a question that expects it."""
    arguments = question["arguments"]
    nodes, attributes, page, agent, user, author, row, on = arguments[OWN_ARGUMENTS:]
    bounds = list(itertools.accumulate([page, agent, user, author]))
    sheets = [read[a:b] for a, b in itertools.pairwise(bounds)]
    answer = model.style_call(sheets, rows[:nodes], rows[nodes:nodes + attributes], read[:page], row, on, book)
    if answer[0]:
        return answer, None
    after = style_left(answer[1], whole(answer[2]))
    lent = dict(zip(BUFFERS, arguments[1:OWN_ARGUMENTS]))
    return answer, Question(lent, FULL, arguments[OWN_ARGUMENTS:], [0, 0, 0, len(answer[2])], after)


def in_book_order(data):
    """The questions of a style vector whose answer is another in the book order, with that answer."""
    _, _, v = Reader(data).vector()
    read, rows, questions = joined(v["read"], b""), joined(v["rows"], []), []
    for q in v["questions"]:
        answer, asked = style_question(read, rows, q, True)
        if answer != style_question(read, rows, q, False)[0]:
            questions.append(asked)
    return [Vector("", "style_book", v["read"], v["rows"], *questions).bytes()] if questions else []


def by_run(data):
    """The page of a style vector in one run over the compiled sheets, whose rows say of each element what the questions of the vector say."""
    _, _, v = Reader(data).vector()
    read, numbers_read = joined(v["read"], b""), joined(v["rows"], [])
    nodes, attributes, page, agent, user, author, _, on = v["questions"][0]["arguments"][OWN_ARGUMENTS:]
    bounds = list(itertools.accumulate([page, agent, user, author]))
    compiled = model.compile_sheets([read[a:b] for a, b in itertools.pairwise(bounds)])
    asked = numbers_read[:nodes], numbers_read[nodes:nodes + attributes], read[:page]
    number_, rows, texts = model.run_call(compiled, *asked, on)
    assert number_ == 0, "a run refuses what a style call answers"
    for q in v["questions"]:
        if q["results"][0] == 0:
            told = slots_of(joined(q["out"][0], []), joined(q["texts"][0], b""), started=True)
            assert slots_of(rows[q["arguments"][-2]], compiled + texts, started=True) == told, "a row of a run is another than the style call's"
    asking = Question(model.run_least(compiled, *asked), FULL, [nodes, attributes, page, len(compiled), on], [0, 0, len(texts)], run_left(rows, whole(texts)))
    return Vector("", "run", whole(read[:page] + compiled), v["rows"], asking).bytes()


RECORDED_KINDS = {1: recorded_sheet, 2: recorded_style, 3: recorded_colour, 4: recorded_selector, 5: recorded_compile, 6: recorded_styles}


def recorded(path):
    r = Reader(open(path, "rb").read(), highest=False)
    vectors = [RECORDED_KINDS[r.number()](r).bytes() for _ in range(r.number())]
    assert r.at == len(r.data), path + " goes on behind its last vector"
    return vectors


def is_cut(data):
    """Whether html2text panics since a sheet ends behind `=`, where this reads on (docs/DIFFERENCES.md): such an answer is not replayed."""
    _, call, v = Reader(data).vector()
    question = v["questions"][0]
    if call not in (CALLS["read_sheet"], CALLS["compile"]) or question["results"][0] != PANIC:
        return False
    read, bounds = joined(v["read"], b""), itertools.accumulate([0] + question["arguments"][OWN_ARGUMENTS:])
    return not any(model.panics(read[a:b].decode()) for a, b in itertools.pairwise(bounds))


# ---- html2text's answers back from vectors

def low_number(n):
    groups = []
    while n > 127:
        groups.append((n & 127) | 128)
        n >>= 7
    return bytes(groups + [n])


def low_text(t):
    return low_number(len(t)) + t


def low_list(xs):
    return low_number(len(xs)) + b"".join(map(low_number, xs))


def joined(parts, start):
    """All that parts stand for."""
    for n, pattern in parts:
        start = start + (pattern * n)[:n]
    return start


def unrecorded_styles(read, rows, questions):
    nodes, attributes, page, agent, user, _, _, on = questions[0]["arguments"][OWN_ARGUMENTS:]
    sheets = read[page:page + agent], read[page + agent:page + agent + user], read[page + agent + user:]
    out = low_number(6) + b"".join(map(low_text, sheets))
    out += low_list(rows[:nodes]) + low_list(rows[nodes:]) + low_text(read[:page]) + low_number(on)
    for q in questions:
        if q["results"][0] == 0:
            for present, slots in slots_of(joined(q["out"][0], []), joined(q["texts"][0], b"")):
                filled = [(k, s) for k, s in enumerate(slots) if s]
                out += low_number(present) + low_number(len(filled))
                for k, (weight, what) in filled:
                    out += low_number(k) + b"".join(map(low_number, weight)) + (low_text(what) if k == model.CONTENT else low_number(what))
    return out


def unrecorded(data):
    _, call, v = Reader(data).vector()
    read, rows, first = joined(v["read"], b""), joined(v["rows"], []), v["questions"][0]
    own, results = first["arguments"][OWN_ARGUMENTS:], first["results"]
    rules, tokens = joined(first["rules"][0], []), joined(first["tokens"][0], [])
    texts, compiled = joined(first["texts"][0], b""), joined(first["bytes"][0], b"")
    if call == CALLS["read_sheet"]:
        question = low_number(1) + low_text(read) + low_number(results[0])
        return question if results[0] else question + low_number(results[2]) + low_number(results[3]) + low_list(rules) + low_text(texts)
    if call == CALLS["style_attribute"]:
        return low_number(2) + low_text(read) + low_list(tokens) + low_text(texts)
    if call == CALLS["color_attribute"]:
        return low_number(3) + low_text(read) + low_number(results[1]) + low_number(results[2])
    if call == CALLS["compile"]:
        a, b = own[0], own[0] + own[1]
        sheets = low_text(read[:a]) + low_text(read[a:b]) + low_text(read[b:])
        return low_number(5) + sheets + low_number(results[0]) + (b"" if results[0] else low_text(compiled))
    if call == CALLS["style"]:
        return unrecorded_styles(read, rows, v["questions"])
    nodes, attributes, page, _, _, count, _, *counts = own
    answers = [rules[i:i + 5] for i in range(0, len(rules), 5)]
    question = low_number(count) + low_list(rows[nodes + attributes:]) + low_text(read[page:])
    on_page = low_list(rows[:nodes]) + low_list(rows[nodes:nodes + attributes]) + low_text(read[:page])
    return low_number(4) + question + on_page + low_list(counts) + low_list([a[1] for a in answers])


# ---- cases

class Field:
    """What stands behind a word, up to the next word of the call."""

    def __init__(self, value):
        self.value = value

    def texts(self):
        """`"p{}"*3 + "x"` as parts; a text in quotes with the escapes of Python's bytes, again and again with *TIMES or up to <BYTES."""
        parts = []
        for piece in re.finditer(r'"((?:[^"\\]|\\.)*)"(?:\*(\d+)|<(\d+))?', self.value):
            pattern = piece[1].encode().decode("unicode_escape").encode("latin-1") if "\\" in piece[1] else piece[1].encode()
            total = int(piece[3]) if piece[3] else len(pattern) * int(piece[2] or 1)
            if total:
                parts.append((total, pattern))
        return parts

    def hexadecimal(self):
        """`03 (01 [02 03]*5)*4` as parts; what is in square brackets is written out."""
        parts = []
        value = re.sub(r"\[([0-9a-f ]*)\]\*(\d+)", lambda m: " ".join([m[1]] * int(m[2])), self.value)
        for piece in re.finditer(r"\(([0-9a-f ]*)\)\*(\d+)|([0-9a-f][0-9a-f ]*)", value):
            pattern = bytes.fromhex(piece[1] or piece[3])
            parts.append((len(pattern) * int(piece[2] or 1), pattern))
        return parts

    def rows(self):
        """Rows of a digit for each number, each once or *TIMES; chain:DEPTH:KIND goes down to a depth, with a row of the kind there."""
        parts = []
        for row in self.value.split():
            if row.startswith("chain:"):
                depth, kind = map(int, row.split(":")[1:])
                below = [n for d in range(1, depth + 1) for n in (kind if d == depth else 1, d - 1, 0, 0, 0, 0)]
                parts += whole([0] * NODE_WIDTH + below)
                continue
            digits, _, times = row.partition("*")
            parts.append((len(digits) * int(times or 1), [int(d) for d in digits]))
        return parts

    def tree(self):
        """`1:div[id="i"] 2:p 3-5:a 2:#` as a page: depths and names, with attributes in brackets; `#` is a row that is no element."""
        nodes, attributes, page, line = [0] * NODE_WIDTH, [], b"", [0]
        for first, last, name, own in re.findall(r'(\d+)(?:-(\d+))?:([^\s\[]*)(?:\[((?:[^"\]]|"(?:[^"\\]|\\.)*")*)\])?', self.value):
            for depth in range(int(first), int(last or first) + 1):
                row, parent = len(nodes) // NODE_WIDTH, line[depth - 1]
                line = line[:depth] + [row]
                if name == "#":
                    nodes += [model.OTHER, parent, 0, 0, 0, 0]
                    continue
                found = re.findall(r'([^\s"=]+)=("(?:[^"\\]|\\.)*")', own)
                nodes += [model.ELEMENT, parent, len(page), len(name), len(attributes) // ATTRIBUTE_WIDTH, len(found)]
                page += name.encode()
                for word, value in found:
                    value = joined(Field(value).texts(), b"")
                    attributes += [len(page), len(word), len(page) + len(word), len(value)]
                    page += word.encode() + value
        return runs(nodes), runs(attributes), whole(page)

    def lengths(self, n, **own):
        """`least` or `plenty` for n bytes of text and for the call's own buffers, and then buffers with a length of their own."""
        first, *others = self.value.split()
        lent = {"least": dict(least(n), **own), "plenty": dict(least(n + MORE), **{name: length + MORE for name, length in own.items()}), "nothing": {}}[first]
        return dict(lent, **{RUN_BUFFERS.get(name, name): int(length) for name, length in (o.split("=") for o in others)})


def fields(line, words):
    """The words of a call with what stands behind each, texts in quotes kept together."""
    pattern = r'"(?:[^"\\]|\\.)*"|[^\s"]+\s*|\s+'
    found, word = {}, None
    for token in re.findall(pattern, line):
        if token.strip() in words:
            word = token.strip()
            found[word] = ""
        elif word:
            found[word] += token
        elif token.strip():
            sys.exit("no such word: " + token + " in " + line)
    return {word: Field(value.strip()) for word, value in found.items()}


WORDS = {"sheet", "agent", "user", "author", "lent", "filled", "nodes", "attributes", "text", "selector", "bytes", "value",
         "page", "row", "rows", "switch", "main", "before", "after", "refused", "in", "at", "rules", "stop", "numbers", "texts", "matches", "misses", "compiled", "accepted", "styles", "colour", "none", "units", "em", "ex"}


def total(parts):
    return sum(t for t, _ in parts)


def refusal(f):
    """Number, text and place."""
    if "refused" not in f:
        return 0, 0, 0
    at = f["at"].value if "at" in f else "0"
    return int(f["refused"].value), int(f["in"].value) if "in" in f else 0, ANY if at == "any" else int(at)


def said_numbers(field, width=1):
    """How many rows of a width there are, or all their numbers: the count of numbers, and their parts."""
    said = [int(n) for n in field.value.split()]
    taken = said[0] * width if len(said) == 1 else len(said)
    return taken, [(taken, said if len(said) > 1 else [])] if taken else []


def lent_to(f, n):
    return f.get("lent", Field("plenty")).lengths(n)


def filling(f):
    return int(f["filled"].value) if "filled" in f else FULL


def sheet_case(words, f):
    sheet = f["sheet"].texts()
    n = total(sheet)
    number_, _, place = refusal(f)
    if number_:
        return Vector(words, "read_sheet", sheet, [], Question(lent_to(f, n), filling(f), [n], [number_, place], left_by(number_)))
    (taken, rules), names = said_numbers(f["numbers"]), f["texts"].texts() if "texts" in f else []
    after = {"all": "zero", "rules": (rules, 0), "texts": (names, 0), "bytes": "unchanged"}
    results = [0, 0, int(f["rules"].value), int(f["stop"].value), taken, total(names)]
    return Vector(words, "read_sheet", sheet, [], Question(lent_to(f, n), filling(f), [n], results, after))


def length_case(words, f):
    """A height's value, and so many units, ten-thousandths of em or ex, or none. All four stores are work stores."""
    value = f["value"].texts()
    n, (number_, _, place) = total(value), refusal(f)
    results, after = [number_, place, 0, 0, 0], left_by(number_)
    if number_ == 0:
        kind = next(k for k in LENGTH_KINDS if k in f)
        results = [0, 0, LENGTH_KINDS[kind], *divmod(int(f[kind].value or 0), MILLION)]
        after = {"all": "zero"}
    return Vector(words, "height_length", value, [], Question(lent_to(f, n), filling(f), [n], results, after))


def compile_case(words, f):
    sheets = [f[word].texts() if word in f else [] for word in ("agent", "user", "author")]
    lengths = [total(s) for s in sheets]
    lent = {"bytes": 80000}
    lent.update(lent_to(f, sum(lengths)))
    number_, which, place = refusal(f)
    results, after = [number_, which, place], left_by(number_)
    if number_ == 0:
        compiled, names = f["compiled"].hexadecimal(), f["texts"].texts() if "texts" in f else []
        results = [0, 0, 0, total(compiled), total(names)]
        after = {"all": "zero", "bytes": (compiled, 0), "texts": (names, 0)}
    return Vector(words, "compile", sum(sheets, []), [], Question(lent, filling(f), lengths, results, after))


def style_attribute_case(words, f):
    """The call leaves what it does not use, so the buffers are filled with zeros."""
    value = f["value"].texts()
    number_, names = refusal(f)[0], f["texts"].texts() if "texts" in f else []
    taken, styles = said_numbers(f["styles"], STYLE_WIDTH) if "styles" in f else (0, [])
    after = {"tokens": (styles, 0), "texts": (names, 0)}
    return Vector(words, "style_attribute", value, [], Question(lent_to(f, total(value)), 0, [total(value)], [number_, taken // STYLE_WIDTH, total(names)], after))


def colour_case(words, f):
    value = f["value"].texts()
    found = int("colour" in f)
    results = [refusal(f)[0], found, int(f["colour"].value, 16) if found else 0]
    return Vector(words, "color_attribute", value, [], Question(lent_to(f, total(value)), 0, [total(value)], results))


def page_of(f):
    nodes = f["nodes"].rows()
    attributes = f["attributes"].rows() if "attributes" in f else []
    page = f["text"].texts() if "text" in f else []
    return nodes, attributes, page


def page_case(words, f):
    nodes, attributes, page = page_of(f)
    number_, _, place = refusal(f)
    return Vector(words, "check_page", page, nodes + attributes, Question({}, 0, map(total, (nodes, attributes, page)), [number_, place]))


def bytes_case(words, f):
    data = f["bytes"].hexadecimal()
    number_, _, place = refusal(f)
    return Vector(words, "check_bytes", data, [], Question({}, 0, [total(data)], [number_, place]))


def class_case(words, f):
    """The selector is read as that of a rule without declarations; the page is an element p with a class."""
    value, selector = f["value"].texts(), f["selector"].texts()
    sheet = selector + [(2, b"{}")]
    page = [(6, b"pclass")] + value
    nodes, attributes = whole([0] * 6 + [1, 0, 0, 1, 0, 1]), whole([1, 5, 6, total(value)])
    arguments = [total(nodes), total(attributes), total(page), COMPONENTS_OF_FIRST_RULE, total(sheet), 1, 1]
    asked = Question(least(total(sheet)), FULL, arguments, [0, 0, int("matches" in f), 0, 1, 0], {"all": ([], ANY)})
    return Vector(words, "selector", page + sheet, nodes + attributes, asked)


def prefixes_case(words, f):
    """Every proper prefix of the bytes is no sheet, whatever the place."""
    data = b"".join(pattern for _, pattern in f["bytes"].hexadecimal())
    name = words + ", its first bytes: "
    return [Vector(name + str(n), "check_bytes", whole(data[:n]), [], Question({}, 0, [n], [NO_SHEET, ANY])) for n in range(len(data))]


def style_rows(f):
    """The numbers of a row, by its records and the slots that are filled."""
    row = []
    for record in ("main", "before", "after"):
        slots = {}
        for word in f[record].value.split() if record in f else []:
            name, _, held = word.partition(":")
            held, _, start = held.partition("@")
            *weight, value = held.split(",")
            value = [int(n) for n in value.split("+")] if name == "content" else [int(value, 16), 0]
            slots[name] = [1] + [int(n) for n in weight] + value + [int(start)]
            assert len(slots[name]) == model.SLOT_WIDTH, word
        assert not slots.keys() - set(SLOT_NAMES), slots
        row.append(int(record == "main" or record in f))
        row += [n for name in SLOT_NAMES for n in slots.get(name, [0] * model.SLOT_WIDTH)]
    return row


def style_case(call):
    def case(words, f):
        nodes, attributes, page = f["page"].tree() if "page" in f else page_of(f)
        sheets = [f[word].texts() if word in f else [] for word in ("agent", "user", "author")]
        n = sum(map(total, sheets)) + total(page) + 2 * (total(attributes) // ATTRIBUTE_WIDTH)
        number_, which, place = refusal(f)
        results, after = [number_, which, place, 0], left_by(number_)
        if number_ == 0:
            names = f["texts"].texts() if "texts" in f else []
            results, after = [0, 0, 0, total(names)], style_left(style_rows(f), names)
        lengths = [total(p) for p in (nodes, attributes, page, *sheets)]
        arguments = lengths + [int(f["row"].value), int(f["switch"].value) if "switch" in f else 1]
        lent = f.get("lent", Field("plenty")).lengths(n, out=model.ROW_WIDTH)
        return Vector(words, call, page + sum(sheets, []), nodes + attributes, Question(lent, filling(f), arguments, results, after))
    return case


def both_case(words, f):
    return [style_case("style")(words, f), style_case("style_book")(words + ", in the book order", f)]


def said_rows(count, is_element, said):
    """`[1 color:.. / content:.. / -] [2-300:3 ..]`: of a row, or of some from the first to the last, the slots of main, of before and of after, `-` where there is
    none of the two; an element that is not named has an empty main."""
    rows = [[int(element)] + [0] * (model.ROW_WIDTH - 1) for element in is_element]
    for which, first, last, step, records in re.findall(r"\[((\d+)(?:-(\d+))?(?::(\d+))?)([^\]]*)\]", said):
        main, *others = records.split("/")
        told = {"main": Field(main)}
        told.update({name: Field(record) for name, record in zip(("before", "after"), others) if record.strip() != "-"})
        for row in range(int(first), int(last or first) + 1, int(step or 1)):
            rows[row] = style_rows(told)
    return rows


def run_case(words, f):
    nodes, attributes, page = f["page"].tree() if "page" in f else page_of(f)
    sheets = [joined(f[word].texts(), b"") if word in f else b"" for word in ("agent", "user", "author")]
    compiled = f["bytes"].hexadecimal() if "bytes" in f else whole(model.compile_sheets(sheets))
    n, rows = total(page) + 2 * (total(attributes) // ATTRIBUTE_WIDTH), total(nodes) // NODE_WIDTH
    number_, _, place = refusal(f)
    results, after = [number_, place, 0], left_by(number_)
    if number_ == 0:
        names, kinds = f["texts"].texts() if "texts" in f else [], joined(nodes, [])[::NODE_WIDTH]
        said = said_rows(rows, [kind == model.ELEMENT for kind in kinds], f["rows"].value)
        results, after = [0, 0, total(names)], run_left(said, names)
    arguments = [total(p) for p in (nodes, attributes, page, compiled)] + [int(f["switch"].value) if "switch" in f else 1]
    lent = f.get("lent", Field("plenty")).lengths(n, out=model.ROW_WIDTH * rows, bytes=(model.DEEPEST + 1) * (total(compiled) + 1))
    return Vector(words, "run", page + compiled, nodes + attributes, Question(lent, filling(f), arguments, results, after))


KINDS = {"read_sheet": sheet_case, "height_length": length_case, "compile": compile_case, "check_page": page_case, "check_bytes": bytes_case, "prefixes": prefixes_case,
         "style_attribute": style_attribute_case, "color_attribute": colour_case, "class": class_case, "style": style_case("style"),
         "style_book": style_case("style_book"), "both": both_case, "run": run_case}


def cases(name):
    """The lines of a file: name | call | inputs | what is expected. A line that starts with # says something to the reader."""
    vectors = []
    for line in open(os.path.join(CASES, name.replace(" ", "_") + ".txt"), encoding="utf-8"):
        if line.startswith("#") or not line.strip():
            continue
        words, call, rest = line.rstrip("\n").split(" | ", 2)
        inputs, _, result = rest.rpartition(" | ")
        made = KINDS[call](words, fields(inputs + " " + result, WORDS))
        vectors += [v.bytes() for v in (made if isinstance(made, list) else [made])]
    return vectors


# ---- files

def stdin_lists():
    with open(os.path.join(REPLAY, "stdin"), "rb") as file:
        return Reader(file.read()).lists()


def join(folder):
    lists = {name: cases(name) for name in LISTS}
    kept = stdin_lists() if folder is None else None
    for file, words in RECORDED.items():
        answers = recorded(os.path.join(folder, file)) if folder else kept[words]
        lists[words] = [data for data in answers if not is_cut(data)]
    lists[BY_RUNS] = [by_run(data) for data in lists[RECORDED["style_vectors"]]]
    lists[IN_BOOK_ORDER] = [made for data in lists[RECORDED["style_vectors"]] for made in in_book_order(data)]
    with open(os.path.join(REPLAY, "stdin"), "wb") as file:
        file.write(b"".join(list_bytes(words, vectors) for words, vectors in lists.items()))
    with open(os.path.join(REPLAY, "stdout"), "w", encoding="utf-8") as file:
        file.writelines(f"{words}: {len(vectors)} vectors, 0 differ\n" for words, vectors in lists.items())


def recorded_file(file):
    """A file of html2text's answers, from stdin."""
    vectors = stdin_lists()[RECORDED[file]]
    return low_number(len(vectors)) + b"".join(map(unrecorded, vectors))


def split(folder):
    for file in RECORDED:
        with open(os.path.join(folder, file), "wb") as out:
            out.write(recorded_file(file))


def main():
    if sys.argv[1:2] == ["join"] and len(sys.argv) <= 3:
        join(sys.argv[2] if len(sys.argv) == 3 else None)
    elif sys.argv[1:2] == ["split"] and len(sys.argv) == 3:
        split(sys.argv[2])
    else:
        sys.exit(__doc__)


if __name__ == "__main__":
    main()
