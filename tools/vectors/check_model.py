#!/usr/bin/env python3
"""Holds model.py, a second writing of the calls, against every vector of crates/replay/stdin that it can answer; prints those where they differ.

    python3 tools/vectors/check_model.py

Of a refused compiler call it has nothing; rules, compiled bytes, pages, attributes, style calls and runs it has whole. What a vector leaves open is not held."""
import sys

import model
import vectors
from vectors import CALLS, OWN_ARGUMENTS, joined

NOT_MODELLED = (model.TOO_LONG, model.TOO_SHORT, model.NO_TEXT)


def agrees(expected, came):
    return all(e < 0 or e == c for e, c in zip(expected, came))


def sheet(read, rows, q):
    results, t = q["results"], None
    if results[0] in NOT_MODELLED:
        return True
    t = read.decode()
    try:
        rules, stop = model.sheet(t)
    except model.Panic as panic:
        return agrees(results[:2], [model.PANIC, model.byte_place(t, panic.args[0])])
    texts, numbers, seen = "".join(model.texts_of(rules)).encode(), model.rule_numbers(rules), joined(q["rules"][0], [])
    told = agrees(results, [0, 0, len(rules), model.byte_place(t, stop), len(numbers), len(texts)]) and texts == joined(q["texts"][0], b"")
    return told and (not seen or seen == numbers)


def page(read, rows, q):
    nodes, attributes, text = q["arguments"][OWN_ARGUMENTS:]
    return agrees(q["results"], model.page_refusal(rows[:nodes], rows[nodes:nodes + attributes], read[:text]) or (0, 0))


def style_attribute(read, rows, q):
    if q["results"][0] in NOT_MODELLED:
        return True
    store = model.Store()
    styles = store.kept(model.styles_of(model.declarations(read.decode(), 0)[0]))
    came = [n for slot, what, important in styles for n in (slot, int(important), *what)]  # a value ends with its start
    seen = joined(q["tokens"][0], [])
    return q["results"][1] == len(styles) and store.bytes == joined(q["texts"][0], b"") and (not seen or seen == came)


def color_attribute(read, rows, q):
    if q["results"][0] in NOT_MODELLED:
        return True
    colour = model.color_attribute(read.decode())
    return q["results"][1:3] == [int(colour is not None), colour or 0]


def style(book):
    def held(read, rows, q):
        nodes, attributes, text, agent, user, author, row, switch = q["arguments"][OWN_ARGUMENTS:]
        bounds = [text, text + agent, text + agent + user, text + agent + user + author]
        sheets = [read[a:b] for a, b in zip(bounds, bounds[1:])]
        lent = dict(zip(vectors.BUFFERS, q["arguments"][1:OWN_ARGUMENTS]))
        number, *came = model.style_call(sheets, rows[:nodes], rows[nodes:nodes + attributes], read[:text], row, switch != 0, book, lent)
        if number:
            return q["results"][:4] == [number, *came, 0]
        return q["results"][:4] == [0, 0, 0, len(came[1])] and came == [joined(q["out"][0], []), joined(q["texts"][0], b"")]
    return held


def compiled(read, rows, q):
    if q["results"][0]:
        return True  # refusals are those of reading, which sheets and styles ask for, and 10
    agent, user, author = q["arguments"][OWN_ARGUMENTS:]
    return model.compile_sheets([read[:agent], read[agent:agent + user], read[agent + user:agent + user + author]]) == joined(q["bytes"][0], b"")


def compiled_bytes(read, rows, q):
    if q["results"][0] in NOT_MODELLED:
        return True
    return agrees(q["results"], model.bytes_refusal(read[:q["arguments"][OWN_ARGUMENTS]]) or (0, 0))


def run(read, rows, q):
    nodes, attributes, text, sheet_bytes, switch = q["arguments"][OWN_ARGUMENTS:]
    lent = dict(zip(vectors.BUFFERS, q["arguments"][1:OWN_ARGUMENTS]))
    number, *came = model.run_call(read[text:text + sheet_bytes], rows[:nodes], rows[nodes:nodes + attributes], read[:text], switch != 0, lent)
    if number:
        return q["results"][:3] == [number, *came, 0]
    return q["results"][:3] == [0, 0, len(came[1])] and [sum(came[0], []), came[1]] == [joined(q["out"][0], []), joined(q["texts"][0], b"")]


HELD = {CALLS["read_sheet"]: sheet, CALLS["compile"]: compiled, CALLS["check_bytes"]: compiled_bytes, CALLS["run"]: run, CALLS["check_page"]: page, CALLS["style_attribute"]: style_attribute, CALLS["color_attribute"]: color_attribute,
        CALLS["style"]: style(False), CALLS["style_book"]: style(True)}


def main():
    differ = 0
    for words, found in vectors.stdin_lists().items():
        questions = 0
        for index, data in enumerate(found):
            name, call, v = vectors.Reader(data).vector()
            if call in HELD:
                read, rows = joined(v["read"], b""), joined(v["rows"], [])
                for k, q in enumerate(v["questions"]):
                    questions += 1
                    if not HELD[call](read, rows, q):
                        differ += 1
                        print(f"{words}, vector {index}, question {k} differs: {name}")
        print(f"{words}: {questions} questions")
    sys.exit(1 if differ else 0)


if __name__ == "__main__":
    main()
