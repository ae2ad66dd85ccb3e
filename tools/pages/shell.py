"""What stands around each page, and the files that all pages share."""
from __future__ import annotations

import html
import json
import os
import re
from dataclasses import dataclass, field

HERE = os.path.dirname(os.path.abspath(__file__))
ASSETS = ("style.css", "search.js")
DOCS = os.path.join(HERE, "..", "..", "docs")
# the page on how the crates are called
CALLS = next(it for it in ("USE", "CALLING") if os.path.isfile(f"{DOCS}/{it}.md"))
TABS = (("index.html", "Claims"), ("crates.html", "Crates"), ("language.html", "Language"), (f"doc.{CALLS}.html", "Use"),
        ("glossary.html", "Glossary"), ("signs.html", "Signs"))


@dataclass
class Entry:
    """What the search finds: a name, what kind of thing it is, one line on it, and where it stands."""

    name: str
    kind: str
    line: str
    href: str


@dataclass
class Page:
    file: str
    title: str
    body: str
    trail: list[tuple[str, str]] = field(default_factory=list)
    side: str = ""


def fold(kind: str, summary: str, inner: str) -> str:
    """What is shown once it is asked for."""
    return f'<details class="{kind}"><summary>{summary}</summary>{inner}</details>'


def part(anchor: str, title: str, inner: str) -> str:
    return f'<section class="part" id="{html.escape(anchor)}"><h2>{html.escape(title)}</h2>{inner}</section>'


def contents(title: str, rows: list[tuple[str, str]]) -> str:
    """What stands on the page: each heading by its anchor."""
    links = "".join(f'<li><a href="#{html.escape(anchor)}">{html.escape(name)}</a></li>' for anchor, name in rows)
    return f"<b>{html.escape(title)}</b><ul>{links}</ul>"


def once(body: str) -> str:
    """The page with each word of the glossary a link where it first stands, and there alone."""
    seen: set[str] = set()

    def kept(it: re.Match[str]) -> str:
        is_new = it[1] not in seen
        seen.add(it[1])
        return it[0] if is_new else it[2]

    return re.sub(r'<a class="term" href="([^"]*)"[^>]*>(.*?)</a>', kept, body)


def shell(page: Page) -> str:
    """The whole page."""
    tabs = "".join(f'<a href="{href}"{" class=here" if href == page.file else ""}>{name}</a>' for href, name in TABS)
    trail = "".join(f'<a href="{href}">{html.escape(name)}</a> › ' for name, href in page.trail)
    side = f'<nav class="side" aria-label="On this page">{page.side}</nav>' if page.side else ""
    return f"""<!doctype html>
<html lang="en">
<head>
<meta charset="utf-8">
<meta name="viewport" content="width=device-width, initial-scale=1">
<meta name="color-scheme" content="light dark">
<title>{html.escape(page.title)} · Dithvong</title>
<link rel="icon" href="data:,">
<link rel="stylesheet" href="style.css">
<script src="index.js" defer></script>
<script src="search.js" defer></script>
</head>
<body>
<header>
<a class="home" href="index.html">Dithvong</a>
<div class="finder">
<input id="search" type="search" placeholder="Search calls, clauses, definitions" aria-label="Search" autocomplete="off">
<ol id="hits" hidden></ol></div>
<nav class="tabs" aria-label="Pages">{tabs}</nav>
</header>
<div class="frame{' with-side' if side else ''}">
{side}
<main>
<p class="trail">{trail}</p>
{once(page.body)}
</main>
</div>
<footer>Made from the sources by <code>./docs/build</code>. Words are told in the <a href="glossary.html">glossary</a>,
signs of clauses on <a href="signs.html">their page</a>, words of the kit on <a href="words.html">theirs</a>.</footer>
</body>
</html>
"""


def search_index(entries: list[Entry]) -> str:
    """The names for the search, as a script: so it is found without a server."""
    rows = [[it.name, it.kind, it.line[:110], it.href] for it in entries]
    return f"window.FOUND = {json.dumps(rows, ensure_ascii=False, separators=(',', ':'))};\n"


def write_all(folder: str, pages: list[Page], entries: list[Entry]) -> None:
    os.makedirs(folder, exist_ok=True)
    for name in os.listdir(folder):
        if name.endswith((".html", ".css", ".js")):
            os.remove(f"{folder}/{name}")
    for page in pages:
        write(folder, page.file, shell(page))
    write(folder, "index.js", search_index(entries))
    for name in ASSETS:
        with open(f"{HERE}/{name}", encoding="utf-8") as it:
            write(folder, name, it.read())


def write(folder: str, name: str, text: str) -> None:
    with open(f"{folder}/{name}", "w", encoding="utf-8") as it:
        it.write(text)
