#!/usr/bin/env python3
"""A second writing of what the reader, the style call, the compiler and the run answer, in plain Python, from the papers and from html2text's text; nothing of this project's code is in it.

`style_call` gives all that a call leaves: the refusal with its text and place, or the numbers of the row and the bytes of the text store; `run_call` the refusal with its
place, or a row for each node and the store. vectors.py takes from it what html2text's answers do not say, the places of contents; and check_model.py holds it against
all that is written down elsewhere."""
import fractions

LONGEST_SHEET, LONGEST_COMPILED, MOST_NODES, MOST_ATTRIBUTES, MOST_NAME_BYTES, DEEPEST = 32768, 65536, 4096, 16384, 65536, 64
TOO_LONG, TOO_SHORT, NO_TEXT, PANIC, TOO_MANY, BAD_ROW, BAD_NAME, NO_ELEMENT, NO_SHEET = 1, 2, 3, 4, 5, 6, 7, 8, 9
DOCUMENT, ELEMENT, OTHER = 0, 1, 2
NODE_WIDTH, ATTRIBUTE_WIDTH = 6, 4
AGENT, USER, AUTHOR = 1, 2, 3
COLOUR, BACKGROUND, DISPLAY, WHITE_SPACE, CONTENT, VISIBILITY = range(6)
SLOTS, SLOT_WIDTH, RECORDS = 6, 10, 3
RECORD_WIDTH = 1 + SLOTS * SLOT_WIDTH
ROW_WIDTH = RECORDS * RECORD_WIDTH
GREATEST_NUMBER = 2 ** 31 - 1
ZERO_HEIGHT = fractions.Fraction(1, 2 ** 150)
BLANKS = " \t\r\n\x0c"
# the code points with the property White_Space
SPACES = "\t\n\x0b\x0c\r \x85\xa0\u1680" + "".join(map(chr, range(0x2000, 0x200b))) + "\u2028\u2029\u202f\u205f\u3000"
NAMES = {"aqua": 0x00ffff, "black": 0, "blue": 0x0000ff, "fuchsia": 0xff00ff, "gray": 0x808080, "green": 0x008000, "lime": 0x00ff00, "maroon": 0x800000,
         "navy": 0x000080, "olive": 0x808000, "orange": 0xffa500, "purple": 0x800080, "red": 0xff0000, "silver": 0xc0c0c0, "teal": 0x008080,
         "white": 0xffffff, "yellow": 0xffff00}
UNITS = ("in", "cm", "mm", "pt", "pc", "px", "em", "ex")


class Panic(Exception):
    """The place in the text where html2text panics."""


class Fail(Exception):
    """A reader that does not read."""


def attempt(reader, *arguments):
    try:
        return reader(*arguments)
    except Fail:
        return None


# ---- names. A reader takes a text and a place, and gives what it read and the place behind it.

def blanks(t, i):
    while i < len(t):
        if t[i] in BLANKS:
            i += 1
        elif t.startswith("/*", i) and t.find("*/", i + 2) >= 0:
            i = t.find("*/", i + 2) + 2
        else:
            break
    return i


def tag(t, i, word):
    if not t.startswith(word, i):
        raise Fail
    return i + len(word)


def is_hexadecimal(c):
    return c != "" and c in "0123456789abcdefABCDEF"


def escape(t, i):
    i = tag(t, i, "\\")
    if i == len(t):
        return "\ufffd", i
    if not is_hexadecimal(t[i]):
        return t[i], i + 1
    end = i
    while end < len(t) and end < i + 6 and is_hexadecimal(t[end]):
        end += 1
    if end == len(t):
        end = i + 1
    n = int(t[i:end], 16)
    return (chr(n) if n < 0x110000 and not 0xd800 <= n < 0xe000 else "\ufffd"), end


def name_character(t, i, others):
    c = t[i:i + 1]
    if c and (c.isascii() and c.isalpha() or c in others):
        return c.lower(), i + 1
    return escape(t, i)


def name_rest(t, i):
    name = ""
    while True:
        got = attempt(name_character, t, i, "_-0123456789")
        if got is None:
            return name, i
        name, i = name + got[0], got[1]


def identifier(t, i):
    i = blanks(t, i)
    dash = "-" if t.startswith("-", i) else ""
    start, i = name_character(t, i + len(dash), "_")
    rest, i = name_rest(t, i)
    return dash + start + rest, i


def identifier_string(t, i):
    name, i = name_rest(t, blanks(t, i))
    if not name:
        raise Fail
    return name, i


# ---- tokens: a kind with its texts

def digits(t, i):
    end = i
    while end < len(t) and t[end] in "0123456789":
        end += 1
    return end


def number(t, i):
    """The place behind a number, and its size."""
    i = blanks(t, i)
    if t[i:i + 1] in ("-", "+"):
        i += 1
    end = digits(t, i)
    if end > i:
        return end, fractions.Fraction(t[i:end])
    if t.startswith(".", i) and digits(t, i + 1) > i + 1:
        end = digits(t, i + 1)
        return end, fractions.Fraction("0" + t[i:end])
    raise Fail


def numeric(t, i):
    end, _ = number(t, i)
    if t.startswith("%", end):
        return ("percentage", t[i:end]), end + 1
    unit = attempt(identifier, t, end)
    if unit:
        return ("dimension", t[i:end], unit[0]), unit[1]
    return ("number", t[i:end]), end


def identifier_like(t, i):
    name, i = identifier(t, i)
    if t.startswith("(", i):
        return ("function", name), i + 1
    return ("ident", name), i


def string(t, i):
    quote, text = t[i], ""
    if quote not in "\"'":
        raise Fail
    i += 1
    while i < len(t):
        c = t[i]
        if c == quote:
            return ("string", text), i + 1
        if c == "\n":
            return ("bad string", text), i
        if c == "\\":
            i += 1
            if i == len(t):
                break
            c = "" if t[i] == "\n" else t[i]
        text, i = text + c, i + 1
    return ("string", text), len(t)


MARKS = {";": "semicolon", "(": "open round", ")": "close round", ",": "comma", ":": "colon", "[": "open square", "]": "close square", "{": "open brace", "}": "close brace"}


def token(t, i):
    i = blanks(t, i)
    if i == len(t):
        raise Fail
    c, got = t[i], None
    if c in "\"'":
        return string(t, i)
    if c in MARKS:
        return (MARKS[c],), i + 1
    if c == "#":
        name = attempt(identifier_string, t, i + 1)
        got = name and (("hash", name[0]), name[1])
    elif c == "+":
        got = attempt(numeric, t, i + 1)
    elif c == "-":
        got = attempt(numeric, t, i) or (t.startswith("-->", i) and (("close comment",), i + 3)) or attempt(identifier_like, t, i)
    elif c == ".":
        got = attempt(numeric, t, i)
    elif c == "<":
        got = t.startswith("<!--", i) and (("open comment",), i + 4)
    elif c == "\\":
        got = attempt(identifier_like, t, i)
    elif c.isascii() and c.isalpha() or c == "_" or ord(c) > 0x80:
        return identifier_like(t, i)
    elif c in "0123456789":
        return numeric(t, i)
    return got or (("delim", c), i + 1)


CLOSED_BY = {"function": "close round", "open round": "close round", "open comment": "close comment", "open square": "close square", "open brace": "close brace"}


def statement(t, i, with_semicolon):
    """The tokens to the end of a statement, and the place behind them."""
    tokens, stack = [], []
    while True:
        got = attempt(token, t, i)
        if got is None:
            return tokens, i
        one, behind = got
        kind = one[0]
        if kind in CLOSED_BY:
            stack.append(CLOSED_BY[kind])
        elif kind == "semicolon" and not stack:
            return (tokens + [one], behind) if with_semicolon else (tokens, i)
        elif kind == "close brace" and not stack:
            return tokens, i
        elif kind in CLOSED_BY.values():
            if stack[-1:] != [kind]:
                raise Fail
            stack.pop()
            if kind == "close brace" and not stack:
                return tokens + [one], behind
        tokens.append(one)
        i = behind


# ---- declarations

def value(t, i):
    tokens, i = statement(t, i, False)
    if tokens[-2:] == [("delim", "!"), ("ident", "important")]:
        return tokens[:-2], True, i
    return tokens, False, i


def unsigned(text, base):
    """A number as Rust reads it: digits, behind at most one plus."""
    plain = text[1:] if text.startswith("+") else text
    if not plain or not all(c.isascii() and c.isalnum() and int(c, 36) < base for c in plain):
        return None
    return int(plain, base)


def colour(tokens):
    """None where there is none."""
    kinds = [one[0] for one in tokens]
    if kinds == ["ident"]:
        return NAMES.get(tokens[0][1])
    if kinds == ["function", "number", "comma", "number", "comma", "number", "close round"] and tokens[0][1] == "rgb":
        parts = [unsigned(tokens[k][1], 10) for k in (1, 3, 5)]
        if any(p is None or p > 255 for p in parts):
            return None
        return parts[0] << 16 | parts[1] << 8 | parts[2]
    if kinds == ["hash"]:
        size, n = len(tokens[0][1].encode()), unsigned(tokens[0][1], 16)
        if size == 3 and n is not None:
            return (n >> 8) * 0x110000 + (n >> 4 & 15) * 0x1100 + (n & 15) * 0x11
        if size == 6:
            return n
    return None


def height(tokens):
    """Whether a height is zero; None where it is no height."""
    if len(tokens) != 1 or tokens[0][0] not in ("dimension", "number"):
        return None
    zero = number(tokens[0][1], 0)[1] <= ZERO_HEIGHT
    if tokens[0][0] == "dimension":
        return zero if tokens[0][2] in UNITS else None
    return True if zero else None


def first_word(tokens, words):
    return next((one[1] for one in tokens if one[0] == "ident" and one[1] in words), None)


def behind_last_comma(tokens):
    places = [k for k, one in enumerate(tokens) if one == ("comma",)]
    return tokens[places[-1] + 1:] if places else tokens


# words, each at its number
OVERFLOWS = ("visible", "hidden", "scroll", "auto")
WHITE_SPACES = ("normal", "pre", "pre-wrap")
VISIBILITIES = ("visible", "hidden")


def visibility(tokens):
    """The word of the one token. S-9: "any other word, or more than that one word, being unknown\"."""
    return next((word for word in VISIBILITIES if tokens == [("ident", word)]), None)


def meaning(name, tokens):
    """A kind of declaration with its value, or 'unknown' with its name."""
    if name in ("color", "background-color", "background"):
        c = colour(behind_last_comma(tokens) if name == "background" else tokens)
        found = c is not None and ("color" if name == "color" else "background", c)
    elif name in ("height", "max-height"):
        zero = height(tokens)
        found = zero is not None and (name, zero)
    elif name in ("overflow", "overflow-y"):
        word = first_word(tokens, OVERFLOWS)
        found = word and (name, word)
    elif name == "display":
        found = ("display", first_word(tokens, ("none",)) is not None)
    elif name == "white-space":
        found = ("white-space", first_word(tokens, WHITE_SPACES) or "normal")
    elif name == "content":
        found = all(one[0] == "string" for one in tokens) and ("content", "".join(one[1] for one in tokens))
    elif name == "visibility":
        word = visibility(tokens)
        found = word and ("visibility", word)
    else:
        found = None
    return found or ("unknown", name)


def declaration(t, i):
    """What it means, whether it is important, and the byte where its name starts."""
    start = byte_place(t, blanks(t, i))
    name, i = identifier(t, i)
    i = blanks(t, tag(t, blanks(t, i), ":"))
    tokens, important, i = value(t, i)
    return (meaning(name, tokens), important, start), i


def separated(t, i, mark, reader):
    """A list with a mark and blanks between its items; it stops before a mark that no item follows."""
    items, got = [], attempt(reader, t, i)
    while got:
        items.append(got[0])
        i = got[1]
        got = t.startswith(mark, i) and attempt(reader, t, blanks(t, i + len(mark)))
    return items, i


def declarations(t, i):
    return separated(t, i, ";", declaration)


def styles_of(found):
    """Slot, value, important and start of each style of a rule; a content's value is its text. The display that a height makes starts where the first zero height does."""
    styles, zeros, hidden = [], [], False
    for (kind, what), important, start in found:
        if kind == "color":
            styles.append((COLOUR, what, important, start))
        elif kind == "background":
            styles.append((BACKGROUND, what, important, start))
        elif kind == "display" and what:
            styles.append((DISPLAY, 0, important, start))
        elif kind == "white-space":
            styles.append((WHITE_SPACE, WHITE_SPACES.index(what), important, start))
        elif kind == "content":
            styles.append((CONTENT, what, important, start))
        elif kind == "visibility":
            styles.append((VISIBILITY, VISIBILITIES.index(what), important, start))
        if kind in ("height", "max-height") and what:
            zeros.append(start)
        hidden = hidden or kind in ("overflow", "overflow-y") and what == "hidden"
    return styles + [(DISPLAY, 0, False, zeros[0])] if zeros and hidden else styles


def color_attribute(t):
    got = attempt(value, t, 0)
    if got is None:
        return None
    c = colour(got[0])
    if c is not None:
        return c
    first = t.strip(SPACES).encode()[:6]
    parts = [unsigned(first[k:k + 2].decode("latin-1"), 16) if len(first) == 6 else None for k in (0, 2, 4)]
    return None if None in parts else parts[0] << 16 | parts[1] << 8 | parts[2]


# ---- rules

def converted(t, i, end):
    if int(t[i:end]) > GREATEST_NUMBER:
        raise Panic(i)
    return int(t[i:end])


def signed(t, i):
    return (-1 if t[i:i + 1] == "-" else 1), i + (t[i:i + 1] in ("-", "+"))


def nth(t, i):
    i = blanks(t, tag(t, i, "("))
    sign, start = signed(t, i)
    end = digits(t, start)
    if t.startswith("even", i):
        a, b, i = 2, 0, i + 4
    elif t.startswith("odd", i):
        a, b, i = 2, 1, i + 3
    elif t.startswith("n", end):
        second = blanks(t, end + 1)
        has_b = t[second:second + 1] in ("-", "+") and digits(t, second + 1) > second + 1
        a, b, i = sign * (converted(t, start, end) if end > start else 1), 0, end + 1
        if has_b:
            i = digits(t, second + 1)
            b = signed(t, second)[0] * converted(t, second + 1, i)
    elif end > start:
        a, b, i = 0, sign * converted(t, start, end), end
    else:
        raise Fail
    return ("nth", a, b), tag(t, blanks(t, i), ")")


def attribute(t, i):
    name, i = identifier(t, tag(t, i, "["))
    if t.startswith("]", i):
        return ("attribute", name), i + 1
    start = tag(t, i, "=")
    if start == len(t):
        raise Fail  # html2text panics there
    for reader in (string, identifier):
        got = attempt(reader, t, start)
        if got and reader is string:
            got = got[0][0] == "string" and (got[0][1], got[1])
        if got and t.startswith("]", got[1]):
            return ("equal", name, got[0]), got[1] + 1
    raise Fail


def component(t, i):
    behind = blanks(t, i)
    if t[behind:behind + 1] in (">", "*"):
        return ("child" if t[behind] == ">" else "star",), blanks(t, behind + 1)
    if behind > i:
        return ("descendant",), behind
    c = t[i:i + 1]
    if c == ".":
        name, i = identifier(t, i + 1)
        return ("class", name), i
    if c == "[":
        return attribute(t, i)
    if c == "#":
        name, i = identifier_string(t, i + 1)
        return ("hash", name), i
    if c == ":":
        name, i = identifier(t, i + 1)
        if name != "nth-child":
            raise Fail
        return nth(t, i)
    name, i = identifier(t, i)
    return ("element", name), i


def selector(t, i):
    """Components in reading order with the pseudo element's number."""
    components = []
    first = attempt(identifier, t, i)
    if first:
        components, i = [("element", first[0])], first[1]
    while True:
        got = attempt(component, t, i)
        if got is None:
            break
        components.append(got[0])
        i = got[1]
    if not components:
        raise Fail
    if components[-1] == ("descendant",):
        components.pop()
    if components[:1] == [("descendant",)]:
        components = components[1:]
    for k, word in ((1, "::before"), (2, "::after")):
        if t.startswith(word, i):
            return (components, k), i + len(word)
    return (components, 0), i


def rule(t, i):
    """Its first byte, selectors and declarations."""
    start = blanks(t, i)
    selectors, i = separated(t, start, ",", selector)
    i = blanks(t, tag(t, blanks(t, i), "{"))
    found, i = declarations(t, i)
    i = blanks(t, i)
    i = blanks(t, i + t.startswith(";", i))
    return (byte_place(t, start), selectors, found), blanks(t, tag(t, i, "}"))


def at_rule(t, i):
    i = tag(t, blanks(t, i), "@")
    _, i = identifier(t, i)
    return None, statement(t, i, True)[1]


def sheet(t):
    """The rules of a sheet, and the place of the first character not read."""
    rules, i = [], 0
    while True:
        got = attempt(rule, t, i) or attempt(at_rule, t, i)
        if got is None:
            return rules, i
        if got[0]:
            rules.append(got[0])
        i = got[1]


def panics(t):
    """Whether html2text panics at a number, and this refuses the sheet."""
    try:
        sheet(t)
    except Panic:
        return True
    return False


def byte_place(t, i):
    return len(t[:i].encode())


def texts_of(rules):
    """The texts that rules name, in reading order."""
    texts = []
    for _, selectors, found in rules:
        texts += [w for components, _ in selectors for c in components if c[0] != "nth" for w in c[1:]]
        texts += [what for (kind, what), _, _ in found if kind in ("content", "unknown")]
    return texts


# ---- rule rows

KINDS = ("star", "class", "element", "hash", "child", "descendant", "nth", "attribute", "equal")
# each at its number; none has 0
DECLARATION_KINDS = (None, "color", "background", "height", "max-height", "overflow", "overflow-y", "display", "white-space", "content", "unknown", "visibility")
WORDS = {"overflow": OVERFLOWS, "overflow-y": OVERFLOWS, "white-space": WHITE_SPACES, "visibility": VISIBILITIES}


def signed_number(v):
    return 2 * v if v >= 0 else -2 * v - 1


class RuleRows:
    """The numbers that rules take, and how many bytes their texts have so far."""

    def __init__(self):
        self.numbers, self.bytes = [], 0

    def text(self, *texts):
        """Where texts start, and the length of each."""
        start, lengths = self.bytes, [len(t.encode()) for t in texts]
        self.bytes += sum(lengths)
        return [start, *lengths]

    def component(self, kind, *rest):
        numbers = [self.bytes, *map(signed_number, rest)] if kind == "nth" else self.text(*rest)
        self.numbers += [KINDS.index(kind), *(numbers + [0, 0])[:3]]

    def declaration(self, kind, what, important, start):
        if kind in ("content", "unknown"):
            value = self.text(what)
        else:
            value = [WORDS[kind].index(what) if kind in WORDS else int(what), 0]
        self.numbers += [DECLARATION_KINDS.index(kind), int(important), start, *value]

    def rule(self, start, selectors, found):
        self.numbers += [start, len(selectors), len(found)]
        for components, pseudo in selectors:
            self.numbers += [len(components), pseudo]
            for c in components:
                self.component(*c)
        for meant, important, at in found:
            self.declaration(*meant, important, at)


def rule_numbers(rules):
    rows = RuleRows()
    for one in rules:
        rows.rule(*one)
    return rows.numbers


# ---- pages

def page_refusal(nodes, attributes, text):
    """Refusal and place, or None."""
    count, others = divmod(len(nodes), NODE_WIDTH)
    lent, rest = divmod(len(attributes), ATTRIBUTE_WIDTH)
    if others or rest or count > MOST_NODES or lent > MOST_ATTRIBUTES or len(text) > MOST_NAME_BYTES:
        return TOO_MANY, 0
    if count == 0:
        return BAD_ROW, 0
    bad_name, fill, taken = None, 0, 0
    for row in range(count):
        kind, parent, start, length, first, owned = nodes[row * NODE_WIDTH:][:NODE_WIDTH]
        if row == 0:
            if any(nodes[:NODE_WIDTH]):
                return BAD_ROW, 0
            continue
        if kind not in (ELEMENT, OTHER) or parent not in line_of(nodes, row - 1) or len(line_of(nodes, parent)) > DEEPEST:
            return BAD_ROW, row
        if parent and nodes[parent * NODE_WIDTH] != ELEMENT:
            return BAD_ROW, row
        if kind == OTHER:
            if start or length or first or owned:
                return BAD_ROW, row
            continue
        if start != fill or first != taken or taken + owned > lent:
            return BAD_ROW, row
        spans = [(start, length)]
        fill += length
        for k in range(first, first + owned):
            numbers = attributes[k * ATTRIBUTE_WIDTH:][:ATTRIBUTE_WIDTH]
            for at in (0, 2):
                if numbers[at] != fill:
                    return BAD_ROW, row
                spans.append((numbers[at], numbers[at + 1]))
                fill += numbers[at + 1]
        taken += owned
        if bad_name is None and any(s + n > len(text) or not is_text(text[s:s + n]) for s, n in spans):
            bad_name = row
    return None if bad_name is None else (BAD_NAME, bad_name)


def is_text(b):
    try:
        b.decode("utf-8")
        return True
    except UnicodeDecodeError:
        return False


def line_of(nodes, row):
    """The row and its ancestors, up to row 0."""
    line = [row]
    while line[-1]:
        line.append(nodes[line[-1] * NODE_WIDTH + 1])
    return line


class Page:
    """An accepted page."""

    def __init__(self, nodes, attributes, text):
        self.nodes, self.parents, self.names, self.attributes, self.places = [], [], [], [], []
        children = {}
        for row in range(len(nodes) // NODE_WIDTH):
            kind, parent, start, length, first, owned = nodes[row * NODE_WIDTH:][:NODE_WIDTH]
            self.nodes.append(kind)
            self.parents.append(parent if row else None)
            self.names.append(text[start:start + length].decode())
            own = [attributes[k * ATTRIBUTE_WIDTH:][:ATTRIBUTE_WIDTH] for k in range(first, first + owned)]
            self.attributes.append([(text[a:a + b].decode(), text[c:c + d].decode()) for a, b, c, d in own])
            if row and kind == ELEMENT:
                children[parent] = children.get(parent, 0) + 1
            self.places.append(children.get(parent, 0) if row else 0)


def split_at_spaces(t):
    for c in SPACES:
        t = t.replace(c, " ")
    return [w for w in t.split(" ") if w]


def hits(page, c, row):
    """Whether a simple component matches a row."""
    own = page.attributes[row]
    if c[0] == "star":
        return True
    if c[0] == "nth":
        if row == 0:
            return False
        offset = page.places[row] - c[2]
        return offset == 0 if c[1] == 0 else offset % c[1] == 0 and offset // c[1] >= 0
    if page.nodes[row] != ELEMENT:
        return False
    if c[0] == "class":
        return any(n == "class" and c[1] in split_at_spaces(v) for n, v in own)
    if c[0] == "hash":
        return ("id", c[1]) in own
    if c[0] == "element":
        return page.names[row] == c[1]
    first = next((v for n, v in own if n == c[1]), None)
    return first is not None and (c[0] == "attribute" or first == c[2])


def matches(page, components, row):
    """Components rightmost first, for each the rows at which what was read so far may end."""
    rows = {row}
    for c in components:
        if c[0] == "child":
            rows = {page.parents[r] for r in rows} - {None}
        elif c[0] == "descendant":
            above, now = set(), {page.parents[r] for r in rows} - {None}
            while now - above:
                above |= now
                now = {page.parents[r] for r in now} - {None}
            rows = above
        else:
            rows = {r for r in rows if hits(page, c, r)}
    return bool(rows)


def specificity(components):
    kinds = [c[0] for c in components]
    return sum(k == "hash" for k in kinds), sum(k in ("class", "attribute", "equal", "nth") for k in kinds), sum(k == "element" for k in kinds)


# ---- the two cascades. A slot is None, or origin, (inline, id, class, type), important, value, where a value is its two numbers and the start.

def crate_update(slot, new):
    if slot is None:
        return new
    if slot[2] and not new[2]:
        return slot
    if new[0] != slot[0] and (new[0] > slot[0] if new[2] else slot[0] > new[0]):
        return slot
    return slot if new[1] < slot[1] else new


def book_key(slot):
    origin, spec, important, _ = slot
    rank = {AGENT: 5, USER: 4, AUTHOR: 3}[origin] if important else origin - 1
    return (rank,) + spec


def book_update(slot, new):
    return new if slot is None or book_key(new) >= book_key(slot) else slot


# S-2: "Colour and white space inherit, with the parent's nine numbers; background, display and content do not." S-9, of visibility: "It inherits in book order."
INHERITED_IN_BOOK_ORDER = (COLOUR, WHITE_SPACE, VISIBILITY)


def default_from(slots, above):
    for k in INHERITED_IN_BOOK_ORDER:
        if slots[k] is None:
            slots[k] = above[k]


class Store:
    """The text store: the texts so far, and for each its place."""

    def __init__(self):
        self.bytes = b""

    def kept(self, styles):
        """Slot, value and important of styles, a value as it stands in a slot: of a content its place and length, of others a number and 0; and the start."""
        out = []
        for slot, what, important, start in styles:
            if slot == CONTENT:
                text = what.encode()
                out.append((slot, (len(self.bytes), len(text), start), important))
                self.bytes += text
            else:
                out.append((slot, (what, 0, start), important))
        return out


def element_style(page, row, parent, rules, inline, on, book):
    """Three records from the parent's: whether it is there, and its slots. In the book order what is declared comes first, and then what is inherited."""
    update = book_update if book else crate_update
    records = [[0, [None] * SLOTS] if book else [present, list(slots)] for present, slots in parent]
    records[0][0] = 1

    def merge(pseudo, slot, *new):
        records[pseudo][0] = 1
        records[pseudo][1][slot] = update(records[pseudo][1][slot], new)

    def attribute_colour(name, text, spec):
        c = color_attribute(text) if name in ("color", "bgcolor") else None
        if c is not None:
            merge(0, COLOUR if name == "color" else BACKGROUND, AUTHOR, spec, 0, (c, 0, 0))

    own = page.attributes[row] if on else []
    for origin, selectors, styles in rules:
        if book and origin == AUTHOR:
            break
        apply_rule(page, row, origin, selectors, styles, merge)
    if book:
        for name, text in own:
            attribute_colour(name, text, (0, 0, 0, 0))
        for origin, selectors, styles in rules:
            if origin == AUTHOR:
                apply_rule(page, row, origin, selectors, styles, merge)
    for k, (name, text) in enumerate(own):
        for slot, what, important in inline.get((row, k), ()):
            merge(0, slot, AUTHOR, (1, 0, 0, 0), int(important) if book else 0, what)
        if not book:
            attribute_colour(name, text, (1, 0, 0, 0))
    if book:
        (_, main), *pseudos = records
        default_from(main, parent[0][1])
        for present, slots in pseudos:
            if present:
                default_from(slots, main)
    return records


def apply_rule(page, row, origin, selectors, styles, merge):
    for components, pseudo in selectors:
        if matches(page, components[::-1], row):
            for slot, what, important in styles:
                merge(pseudo, slot, origin, (0,) + specificity(components), int(important), what)


def row_numbers(records):
    out = []
    for present, slots in records:
        out.append(present)
        for s in slots:
            out += [0] * SLOT_WIDTH if s is None else [1, s[0], *s[1], s[2], *s[3]]
    return out


def least_lengths(sheets, attributes, text):
    n = sum(map(len, sheets)) + len(text) + 2 * (len(attributes) // ATTRIBUTE_WIDTH)
    return {"rules": 8 * n + 64, "tokens": 8 * n + 64, "brackets": n, "texts": 2 * n + 12, "out": ROW_WIDTH}


def style_call(sheets, nodes, attributes, text, row, on, book, lent=None):
    """Refusal, text and place; or 0, the numbers of the row and the bytes of the store."""
    if any(len(s) > LONGEST_SHEET for s in sheets):
        return TOO_LONG, 0, 0
    if lent and any(lent.get(name, 0) < n for name, n in least_lengths(sheets, attributes, text).items()):
        return TOO_SHORT, 0, 0
    if not all(map(is_text, sheets)):
        return NO_TEXT, 0, 0
    refused = page_refusal(nodes, attributes, text)
    if refused:
        return refused[0], 0, refused[1]
    if row >= len(nodes) // NODE_WIDTH or nodes[row * NODE_WIDTH] != ELEMENT:
        return NO_ELEMENT, 0, 0
    rules, store = [], Store()
    for k, s in enumerate(sheets):
        t = s.decode()
        try:
            read = sheet(t)[0]
        except Panic as panic:
            return PANIC, k, byte_place(t, panic.args[0])
        rules += [(k + 1, selectors, store.kept(styles_of(found))) for _, selectors, found in read]
    page, inline, line = Page(nodes, attributes, text), {}, line_of(nodes, row)[-2::-1]
    for r in line if on else []:
        for k, (name, t) in enumerate(page.attributes[r]):
            if name == "style":
                inline[r, k] = store.kept(styles_of(declarations(t, 0)[0]))
    records = [[0, [None] * SLOTS] for _ in range(RECORDS)]
    for r in line:
        records = element_style(page, r, records, rules, inline, on, book)
    return 0, row_numbers(records), store.bytes


# ---- the compiled sheet

MOST_GROUPS, NUMBER_END, LAST_PSEUDO = 5, 2 ** 32, 2
# behind the last number of a slot that has one
VALUE_ENDS = {COLOUR: 2 ** 24, BACKGROUND: 2 ** 24, WHITE_SPACE: len(WHITE_SPACES), VISIBILITY: len(VISIBILITIES)}


class Fault(Exception):
    """The byte where what cannot be read starts."""


def number_bytes(n):
    out = b""
    while n > 127:
        out, n = out + bytes([n % 128 + 128]), n // 128
    return out + bytes([n])


def text_bytes(t):
    t = t.encode()
    return number_bytes(len(t)) + t


def component_bytes(c):
    rest = c[1:]
    if c[0] == "nth":
        return number_bytes(KINDS.index("nth")) + b"".join(number_bytes(signed_number(v)) for v in rest)
    return number_bytes(KINDS.index(c[0])) + b"".join(map(text_bytes, rest))


def style_bytes(style):
    slot, what, important, start = style
    value = b"" if slot == DISPLAY else text_bytes(what) if slot == CONTENT else number_bytes(what)
    return number_bytes(int(important)) + number_bytes(start) + number_bytes(slot) + value


def selector_bytes(origin, components, pseudo, styles):
    head = number_bytes(origin) + number_bytes(pseudo) + number_bytes(len(components))
    return head + b"".join(map(component_bytes, components[::-1])) + number_bytes(len(styles)) + b"".join(map(style_bytes, styles))


def compile_sheets(sheets):
    """The bytes of three sheets that read."""
    found = []
    for k, s in enumerate(sheets):
        for _, selectors, declared in sheet(s.decode())[0]:
            styles = styles_of(declared)
            if styles:
                found += [selector_bytes(k + 1, components, pseudo, styles) for components, pseudo in selectors]
    return number_bytes(len(found)) + b"".join(found)


class Compiled:
    """Reads compiled bytes from front to back."""

    def __init__(self, data):
        self.data, self.at = data, 0

    def number(self, least=0, end=NUMBER_END):
        start, value = self.at, 0
        for group in range(MOST_GROUPS):
            if self.at == len(self.data):
                raise Fault(start)
            b = self.data[self.at]
            self.at += 1
            value += (b % 128) << (7 * group)
            if b < 128:
                break
        else:
            raise Fault(start)
        if value >= NUMBER_END or not least <= value < end:
            raise Fault(start)
        return value

    def text(self):
        """Where the text starts, and its length."""
        start = self.at
        length = self.number()
        if self.at + length > len(self.data):
            raise Fault(start)
        self.at += length
        return self.at - length, length

    def name(self):
        start, length = self.text()
        # what is not UTF-8 is like no name of a page
        return self.data[start:start + length].decode("utf-8", "surrogateescape")

    def signed(self):
        n = self.number()
        return -(n + 1) // 2 if n % 2 else n // 2

    def component(self):
        kind = KINDS[self.number(0, len(KINDS))]
        if kind == "nth":
            return kind, self.signed(), self.signed()
        if kind in ("star", "child", "descendant"):
            return (kind,)
        return (kind, self.name(), self.name()) if kind == "equal" else (kind, self.name())

    def style(self):
        important, start, slot = self.number(0, 2), self.number(), self.number(0, SLOTS)
        if slot == CONTENT:
            what = self.text()
        else:
            what = self.number(0, VALUE_ENDS[slot]) if slot in VALUE_ENDS else 0, 0
        return slot, (*what, start), important

    def sheet(self):
        """For each selector what element_style takes: origin, components in reading order with the pseudo element, and styles, contents by their place in the bytes."""
        found, origin = [], AGENT
        for _ in range(self.number()):
            origin, pseudo = self.number(origin, AUTHOR + 1), self.number(0, LAST_PSEUDO + 1)
            components = [self.component() for _ in range(self.number())]
            found.append((origin, [(components[::-1], pseudo)], [self.style() for _ in range(self.number())]))
        if self.at < len(self.data):
            raise Fault(self.at)
        return found


def bytes_refusal(data):
    """Refusal and place, or None."""
    try:
        Compiled(data).sheet()
        return None
    except Fault as fault:
        return NO_SHEET, fault.args[0]


# ---- the run

def run_least(compiled, nodes, attributes, text):
    rows = ROW_WIDTH * (len(nodes) // NODE_WIDTH)
    return dict(least_lengths((), attributes, text), out=rows, bytes=(DEEPEST + 1) * (len(compiled) + 1))


def run_call(compiled, nodes, attributes, text, on, lent=None):
    """Refusal and place; or 0, the numbers of the row of each node, and the bytes of the store. `lent` has the state as `bytes` and the rows as `out`."""
    if len(compiled) > LONGEST_COMPILED:
        return TOO_LONG, 0
    if lent is not None and any(lent.get(name, 0) < n for name, n in run_least(compiled, nodes, attributes, text).items()):
        return TOO_SHORT, 0
    refused = page_refusal(nodes, attributes, text) or bytes_refusal(compiled)
    if refused:
        return refused
    rules, page, store = Compiled(compiled).sheet(), Page(nodes, attributes, text), Store()
    records = []
    for row, kind in enumerate(page.nodes):
        if kind != ELEMENT:
            records.append([[0, [None] * SLOTS] for _ in range(RECORDS)])
            continue
        inline = {}
        for k, (name, t) in enumerate(page.attributes[row]):
            if on and name == "style":
                kept = store.kept(styles_of(declarations(t, 0)[0]))
                placed = lambda slot, what: (what[0] + len(compiled), *what[1:]) if slot == CONTENT else what
                inline[row, k] = [(slot, placed(slot, what), important) for slot, what, important in kept]
        records.append(element_style(page, row, records[page.parents[row]], rules, inline, on, False))
    return 0, [row_numbers(r) for r in records], store.bytes
