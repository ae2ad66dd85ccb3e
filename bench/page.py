#!/usr/bin/env python3
"""Milliseconds of the processor that a page takes, by tera_render and by jinja2. Each is run as a whole process, from the files to
the page, and so is tera_render with an empty template over the same names. jinja2 is timed within its process too: for reading the
template, and for showing the page over names that it holds. Each page loops over 1,000 items.

usage: bench/page.py [PROGRAM]   (the program of `./tera_render --prove`; jinja2 is wanted, and no other test runs)
"""
import json
import os
import resource
import subprocess
import sys
import tempfile
import time

import jinja2

sys.dont_write_bytecode = True  # no folder beside the sources
TOP = os.path.dirname(os.path.dirname(os.path.abspath(__file__)))
ROUNDS = 21
WHOLE = """
import json, sys, jinja2
page = jinja2.Environment(autoescape=True, keep_trailing_newline=True).from_string(open(sys.argv[1]).read())
sys.stdout.write(page.render(json.load(open(sys.argv[2]))))
"""
SHORT = "<ul>\n{% for x in items %}<i>{{ x }}</i>{% endfor %}</ul>\n"
LONG = """<table>
{% for x in items %}<tr title='{{ x.title }}'><td>{{ x.title }}</td><td>{% if x.left %}{{ x.price }} cents{% else %}sold out{% endif %}</td>
<td>{{ x.text }}</td></tr>
{% else %}<tr></tr>
{% endfor %}</table>
"""
PAGES = {"a short text an item": (SHORT, [f"{at:02x}<" if at % 10 == 0 else f"{at:03}" for at in range(1000)]),
         "a map of four an item": (LONG, [{"title": f"Tea & Co {at}", "price": 480 + at, "left": at % 3,
                                                  "text": "A usual text, with a few words that are shown in it."} for at in range(1000)])}


def took(*words):
    """The time of a process, in milliseconds, and what it wrote."""
    began = resource.getrusage(resource.RUSAGE_CHILDREN)
    page = subprocess.run(words, stdout=subprocess.PIPE, check=True).stdout
    ended = resource.getrusage(resource.RUSAGE_CHILDREN)
    return 1000 * (ended.ru_utime + ended.ru_stime - began.ru_utime - began.ru_stime), page


def least(call):
    """The least time that a call took, in milliseconds."""
    times = []
    for _ in range(ROUNDS):
        began = time.process_time_ns()
        call()
        times.append((time.process_time_ns() - began) / 1e6)
    return min(times)


def written(path, text):
    """Writes a file, and gives its path."""
    with open(path, "w", encoding="utf-8") as file:
        file.write(text)
    return path


def rows(program, folder):
    """A row of each page."""
    empty = written(f"{folder}/empty", "")
    for name, (template, items) in PAGES.items():
        page, names = written(f"{folder}/page", template), written(f"{folder}/names", json.dumps({"items": items}))
        runs = [(took(program, page, names), took(program, empty, names), took(sys.executable, "-c", WHOLE, page, names)) for _ in range(ROUNDS)]
        assert all(ours[1] == theirs[1] and ours[1].count(b"\n") > 1 for ours, _, theirs in runs)
        environment = jinja2.Environment(autoescape=True)
        read = environment.from_string(template)
        own = least(lambda: environment.from_string(template)), least(lambda: read.render(items=items))
        yield f"{name}, {len(runs[0][0][1]):,} bytes", *(min(time for time, _ in column) for column in zip(*runs)), *own


def main():
    """Prints the table, as bench/README.md has it."""
    program = os.path.abspath(sys.argv[1]) if len(sys.argv) > 1 else f"{TOP}/crates/tera_render/out/tera_render"
    head = ["milliseconds", "`tera_render`", "it over an empty template", "Python with jinja2", "jinja2 reads the template", "it shows the page"]
    print(f"| {' | '.join(head)} |\n|{'---|' * len(head)}")
    with tempfile.TemporaryDirectory(prefix="page-") as folder:
        for name, *figures in rows(program, folder):
            print(f"| {' | '.join([name, *(f'{it:.2f}' for it in figures)])} |")


if __name__ == "__main__":
    main()
