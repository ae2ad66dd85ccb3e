#!/usr/bin/env python3
"""Microseconds of the processor that the Python module takes: to escape a text, beside markupsafe and beside encoding the text and
decoding what it is escaped to; and to set a document and to get it, beside json.dumps and json.loads.

usage: bench/border.py   (over the library of ./bindings/build; markupsafe with its part in C is wanted, and no other test runs)
"""
import json
import os
import sys
import time

sys.dont_write_bytecode = True  # no folder beside the sources
sys.path.insert(0, f"{os.path.dirname(os.path.dirname(os.path.abspath(__file__)))}/bindings/python")
import markupsafe
import markupsafe._speedups  # without it markupsafe is another thing
import tera

SIZES = {"10 KB": 10_000, "1 MB": 1_000_000}
TEXTS = {"ASCII": "<p>A & B, \"quoted\"</p> and words, words, words of a usual page; it's so. ",
         "Latin": "<p>Zürich & Genève, «quoted»</p> und Wörter und noch mehr Wörter. ",
         "wider": "<p>Zürich & Genève, «quoted»</p> und Wörter, 文字 und noch mehr Wörter. "}
RECORD = {"id": 12345, "title": "A usual <title> & more", "tags": ["a", "bc", "def"], "is_new": True, "owner": None}
ROUNDS = 21


def least(*calls):
    """The least time that each call took, in microseconds. They take turns, so that a busy moment meets all of them."""
    times = [[] for _ in calls]
    for _ in range(ROUNDS):
        for call, taken in zip(calls, times):
            call()
            began, count = time.process_time_ns(), 0
            while time.process_time_ns() - began < 3_000_000:
                call()
                count += 1
            taken.append((time.process_time_ns() - began) / count / 1000)
    return [min(taken) for taken in times]


def table(head, rows):
    """Prints a table as bench/README.md has it."""
    print(f"| {' | '.join(head)} |\n|{'---|' * len(head)}")
    for name, *figures in rows:
        print(f"| {' | '.join([name, *(f'{it:,.2f}' if it < 10 else f'{it:,.0f}' for it in figures)])} |")


def escaping():
    """A row of each text, at each size."""
    for kind, piece in TEXTS.items():
        for size, length in SIZES.items():
            text = (piece * (length // len(piece) + 1))[:length]
            escaped = str(tera.escape(text))
            assert escaped == str(markupsafe.escape(text)).replace("&#34;", "&quot;")
            known = escaped.encode()
            ours, theirs, codec = least(lambda: tera.escape(text), lambda: markupsafe.escape(text), lambda: (text.encode(), known.decode()))
            yield f"{size} of {kind}", ours, theirs, ours / theirs, codec, ours / codec


def values():
    """A row of each direction, at each size."""
    for size, length in SIZES.items():
        document = [RECORD] * (length // len(json.dumps(RECORD)))
        text = json.dumps(document)
        with tera.Session() as names:
            names["a"] = document
            assert names["a"] == document
            into, back, dumps, loads = least(lambda: names.__setitem__("a", document), lambda: names["a"], lambda: json.dumps(document),
                                             lambda: json.loads(text))
        yield f"a document of {size} goes in, beside `json.dumps`", into, dumps, into / dumps
        yield "it comes out, beside `json.loads`", back, loads, back / loads


if __name__ == "__main__":
    table(["microseconds", "`tera.escape`", "markupsafe", "ratio", "encoding and decoding", "ratio"], escaping())
    print()
    table(["microseconds", "session", "json", "ratio"], values())
