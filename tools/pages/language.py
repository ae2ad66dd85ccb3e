"""The page of the script language: its rules, and each example with its answers."""
from __future__ import annotations

import html
import os

import second

from .book import Book
from .shell import Page, contents, fold
from .sources import TOP, read
from .text import slug


def paired(script: str) -> list[tuple[str, str]]:
    """Each line of a script with its answer; a bad line has its report, and no line behind it has an answer."""
    names: dict[str, object] = {}
    rows: list[tuple[str, str]] = []
    is_ended = False
    for number, raw in enumerate(second.lines_of(script.encode()), 1):
        line = raw.decode(errors="replace")
        answer = ""
        if not is_ended and not second.is_skipped(raw):
            try:
                answer = second.step(names, line)
            except second.BadLine:
                answer, is_ended = second.report(number, raw).decode().rstrip("\n"), True
        rows.append((line, answer))
    return rows


def check_answers(name: str, rows: list[tuple[str, str]]) -> None:
    """That what is shown is what stands beside the script, by which the program is tested."""
    told = "".join(f"{answer}\n" for line, answer in rows if answer and not answer.startswith("error: bad line"))
    if told != read(f"examples/{name}.answers"):
        raise ValueError(f"examples/{name}.answers are not the answers to examples/{name}.replay")


def shown_script(name: str, folded: bool = False) -> str:
    """A script as a table: a line, and its answer beside it; and the command that runs it."""
    text = read(f"examples/{name}.replay")
    rows = paired(text)
    check_answers(name, rows)
    lines = "".join(f'<tr{" class=remark" if line.lstrip().startswith("#") else ""}><td><code>{html.escape(line)}</code></td>'
                    f"<td><code>{html.escape(answer)}</code></td></tr>" for line, answer in rows if line.strip())
    anchor = f"script-{slug(name)}"
    table = f'<table class="script"><tr><th>line</th><th>answer</th></tr>{lines}</table>'
    run = f"<p><code>./replay &lt; examples/{name}.replay</code></p>"
    if folded:
        return fold("script", f"examples/{name}.replay, with its answers", f'{run}<div class="wide">{table}</div>')
    button = f'<button class="copy" data-of="{anchor}-text">Copy the script</button>'
    button += f'<pre hidden id="{anchor}-text">{html.escape(text)}</pre>'
    return f'<section class="part" id="{anchor}"><h3>{name}</h3>{run}{button}<div class="wide">{table}</div></section>'


def scripts() -> list[str]:
    """The names of all scripts, the shortest way in first."""
    names = sorted(it.removesuffix(".replay") for it in os.listdir(f"{TOP}/examples") if it.endswith(".replay"))
    first = [it for it in ("first", "tour", "calls") if it in names]
    return first + [it for it in names if it not in first]


def language_page(book: Book) -> Page:
    rules = book.prose.markdown(read("docs/SCRIPT.md"))
    shown = "".join(shown_script(it) for it in scripts())
    how = "<p>Each script is a file of the repository. The program answers it as shown: each check runs it.</p>"
    headings = ["How a line is written", "What calls answer", "How a run ends"]
    side = contents("Language", [(slug(it), it) for it in headings if f"## {it}" in read("docs/SCRIPT.md")])
    side += contents("Examples", [(f"script-{slug(it)}", it) for it in scripts()])
    body = f'{rules}<h2 id="examples">Examples, with their answers</h2>{how}{shown}'
    return Page("language.html", "The script language", body, [], side)
