"""The glossary: words of Rust, of Tera and of ours."""
from __future__ import annotations

import html
import tomllib

from .book import Book
from .shell import Entry, Page
from .sources import read
from .text import slug

FILE = "docs/glossary.toml"
# words so common that prose does not link them
QUIET = set("""value values none path answer answers state states step steps argument arguments result exact room definition kit
    definitions report attribute attributes law laws trait safe model lent reply replies clause clauses span undefined kind
    kinds""".split())
GROUPS = (("ours", "Ours"), ("tera", "Tera's"), ("rust", "Rust's and Rattle's"))


def words() -> dict[str, dict[str, str]]:
    return tomllib.loads(read(FILE))


def terms() -> dict[str, tuple[str, str]]:
    """Each spelling of a word that prose links, with its anchor and its meaning."""
    found = {}
    for group in words().values():
        for spellings, meaning in group.items():
            first, *others = spellings.split("|")
            for it in (first, *others):
                if it.lower() not in QUIET:
                    found[it.lower()] = (slug(first), meaning)
    return found


def glossary_page(book: Book) -> tuple[Page, list[Entry]]:
    body, entries = "<h1>Glossary</h1>", []
    for key, title in GROUPS:
        rows = ""
        for spellings, meaning in sorted(words()[key].items(), key=lambda it: it[0].lower()):
            name = spellings.partition("|")[0]
            rows += f'<dt id="{slug(name)}">{html.escape(name)}</dt><dd>{book.prose.inline(meaning)}</dd>'
            entries.append(Entry(name, "word", meaning, f"glossary.html#{slug(name)}"))
        body += f'<h2>{html.escape(title)}</h2><dl class="glossary">{rows}</dl>'
    return Page("glossary.html", "Glossary", body), entries
