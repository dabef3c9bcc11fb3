#!/usr/bin/env python3
"""Asks the engine's archive for the runs of cases/runs.txt and cases/long_runs.txt, and prints those where it answers or leaves something else.

    bash tools/staticlib.sh engine                      once
    python3 tools/vectors/ask_runs.py [ARCHIVE ..]      others than target/staticlib/libengine.a, the first of which has hicsolmab_run

crates/replay asks for both lists too; here what is linked is asked, and what stands behind each buffer is looked at."""
import ctypes
import os
import subprocess
import sys
import tempfile

import vectors
from vectors import OWN_ARGUMENTS, joined

ARCHIVE = os.path.join(vectors.HERE, "..", "..", "target", "staticlib", "libengine.a")
LISTS = ["runs", "long runs"]
# the buffers in the order of the call
LENT = ["out", "texts", "bytes", "rules", "tokens", "brackets"]
GUARD = 64  # bytes behind each buffer, which stay what they are


class Result(ctypes.Structure):
    _fields_ = [("refusal", ctypes.c_uint32), ("place", ctypes.c_size_t), ("texts", ctypes.c_size_t)]


def loaded(archives):
    """The function, from a shared object made of the archives."""
    with tempfile.TemporaryDirectory() as folder:
        shared = os.path.join(folder, "engine.so")
        subprocess.run(["gcc", "-shared", "-o", shared, "-Wl,--whole-archive", *archives, "-Wl,--no-whole-archive"], check=True)
        function = ctypes.CDLL(shared).hicsolmab_run
    function.restype = Result
    return function


def lent_bytes(b):
    return (ctypes.c_uint8 * len(b)).from_buffer_copy(b) if b else (ctypes.c_uint8 * 1)()


def lent_numbers(xs):
    return (ctypes.c_uint32 * max(len(xs), 1))(*xs)


class Buffer:
    """Bytes or numbers full of a value, with a guard behind them."""

    def __init__(self, name, length, value):
        self.kind = ctypes.c_uint32 if name in vectors.NUMBER_BUFFERS else ctypes.c_uint8
        self.length, self.value = length, value
        self.held = (self.kind * (length + GUARD))(*[value] * (length + GUARD))

    def arguments(self):
        return self.held, ctypes.c_size_t(self.length)

    def differs(self, parts, beyond, start):
        """From what is expected: the content and what stands beyond it, and the guard as it was."""
        content = list(joined(parts, start))
        expected = content + [beyond] * (self.length - len(content)) + [self.value] * GUARD
        return list(self.held) != expected


def differs(function, read, rows, q):
    nodes, attributes, text, sheet, switch = q["arguments"][OWN_ARGUMENTS:]
    value, *lengths = q["arguments"][:OWN_ARGUMENTS]
    lengths = dict(zip(vectors.BUFFERS, lengths))
    buffers = {name: Buffer(name, lengths[name], value) for name in LENT}
    arguments = [lent_bytes(read[text:text + sheet]), ctypes.c_size_t(sheet), lent_numbers(rows[:nodes]), ctypes.c_size_t(nodes),
                 lent_numbers(rows[nodes:nodes + attributes]), ctypes.c_size_t(attributes), lent_bytes(read[:text]), ctypes.c_size_t(text), ctypes.c_uint32(switch)]
    for name in LENT:
        arguments += buffers[name].arguments()
    came = function(*arguments)
    if [came.refusal, came.place, came.texts] != q["results"][:3]:
        return f"answers {came.refusal}, {came.place}, {came.texts} for {q['results'][:3]}"
    wrong = [name for name in LENT if buffers[name].differs(*q[name], [] if name in vectors.NUMBER_BUFFERS else b"")]
    return "leaves something else in " + ", ".join(wrong) if wrong else None


def main():
    function, failed = loaded(sys.argv[1:] or [ARCHIVE]), False
    for name in LISTS:
        differ, cases = 0, vectors.cases(name)
        for data in cases:
            words, _, v = vectors.Reader(data).vector()
            read, rows = joined(v["read"], b""), joined(v["rows"], [])
            how = next(filter(None, (differs(function, read, rows, q) for q in v["questions"])), None)
            if how:
                differ += 1
                print(f"{words}: {how}")
        print(f"{name}: {len(cases)} vectors, {differ} differ")
        failed = failed or differ > 0
    sys.exit(1 if failed else 0)


if __name__ == "__main__":
    main()
