"""Pictures of the house, drawn by graphviz where it is there: what stands on what, and the way of one line."""
from __future__ import annotations

import re
import shutil
import subprocess

from .book import Book

# the way of a line of a script, from the bytes to the reply: the functions that it goes through
WAY = (("tera_replay::main", "reads standard input, buffers standard output"),
       ("tera_replies::replay", "reads up to 8 KB, cuts lines"),
       ("tera_script::read_line", "takes the word and the operands"), ("tera_context::answer", "answers the command over the context"),
       ("tera_values::Value.PartialEq.eq", "a call on values: here `==`"),
       ("tera_replies::answer_line", "puts the answer as one line"))
HEAD = """digraph { rankdir=%s; bgcolor="transparent"; edge [arrowsize=0.6];
node [shape=box, style="rounded", fontname="sans-serif", fontsize=11];"""


def drawn(source: str) -> str:
    """The picture as SVG, in the colours of the page; or nothing where graphviz is not there."""
    if not shutil.which("dot"):
        return ""
    made = subprocess.run(["dot", "-Tsvg"], input=source, capture_output=True, text=True, check=True).stdout
    made = made[made.index("<svg") :]
    made = re.sub(r'<svg width="(\d+)pt" height="\d+pt"', r'<svg class="graph" role="img" style="max-width:\1pt"', made)
    made = re.sub(r' id="[^"]*"', "", made)
    made = re.sub(r' (?:fill|stroke)="(?:black|none|transparent)"', "", made)
    return re.sub(r"<title>.*?</title>|<!--.*?-->", "", made, flags=re.DOTALL)


def house(book: Book) -> str:
    """Each crate above those that it stands on, without the ways that lead through another."""
    uses = {it.name: [low for low in it.uses if low.startswith("tera")] for it in book.repository.crates}
    lines = []
    for name, low in uses.items():
        lines.append(f'{name} [URL="crate.{name}.html"];')
        for one in low:
            if not any(one in uses.get(other, []) for other in low):
                lines.append(f"{name} -> {one};")
    return drawn(f'{HEAD % "TB"} {" ".join(lines)} }}')


def way(book: Book) -> str:
    """The way of one line through the crates."""
    lines = []
    for at, (name, what) in enumerate(WAY):
        item = book.repository.by_name[name]
        label = f'{item.crate}\\n{item.name}\\n{what}'
        lines.append(f'n{at} [label="{label}", URL="{item.href}"];')
    lines.append(" -> ".join(f"n{at}" for at in range(len(WAY))) + ";")
    return drawn(f'{HEAD % "TB"} {" ".join(lines)} }}')


def pictures(book: Book) -> tuple[str, str]:
    """Both pictures, and what is told where there are none."""
    first, second = house(book), way(book)
    if not first:
        told = "the pictures are left out: graphviz is not there"
        return f"<p>When the pages were made {told}.</p>", told
    return (f'<div class="pictures"><figure>{first}<figcaption>What stands on what</figcaption></figure>'
            f"<figure>{second}<figcaption>The way of one line</figcaption></figure></div>"), ""
