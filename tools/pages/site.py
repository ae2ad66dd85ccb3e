"""All pages together."""
from __future__ import annotations

import os
import re

from . import glossary
from .book import Book, entries_of
from .claim_page import claim_page, index_page
from .claims import Broken, read_claims
from .crate_page import crate_page, crates_page
from .language import language_page
from .picture import pictures
from .shell import Entry, Page, write_all
from .sources import TOP, Repository, read
from .spec_page import module_page, signs_page, words_page


def documents() -> list[str]:
    """The documents of the repository, which the pages show too."""
    found = [it.removesuffix(".md") for it in sorted(os.listdir(f"{TOP}/docs")) if it.endswith(".md") and it != "SCRIPT.md"]
    return ["README", *found]


def fill_prose(book: Book) -> None:
    """Tells where names that stand as code lead: items by each way to say them, and definitions whose name is theirs alone."""
    prose = book.prose
    seen: dict[str, set[str]] = {}
    prose.documents, prose.terms = set(documents()), glossary.terms()
    for it in book.repository.items:
        if it.is_public and it.kind != "impl":
            owner = re.sub(r"<.*", "", it.block.owner or it.block.trait) if it.block else ""
            module = it.anchor.rpartition(".")[0] if not it.block else ""
            ways = {it.name, *(f"{at}::{it.name}" for at in (owner, module, it.crate) if at)}
            for way in ways:
                seen.setdefault(way, set()).add(it.href)
                prose.near.setdefault(it.crate, {}).setdefault(way, it.href)
    for definition in book.repository.definitions.values():
        if definition.kind != "lemma":
            seen.setdefault(definition.name, set()).add(definition.href)
    prose.places = {way: next(iter(found)) for way, found in seen.items() if len(found) == 1}
    prose.places.update((it.name, f"crate.{it.name}.html") for it in book.repository.crates)


def document_page(book: Book, name: str) -> Page:
    text = read("README.md" if name == "README" else f"docs/{name}.md")
    heading = re.search(r"(?m)^# (.*)$", text)
    return Page(f"doc.{name}.html", heading[1] if heading else name, book.prose.markdown(text), [("Claims", "index.html")])


def check_words(book: Book) -> None:
    """That each word of the kit that is cited has its line, and each line a word."""
    unknown = [f"{name} of {path}" for name, path in book.names.unknown.items()]
    if unknown:
        raise Broken(f"docs/words.toml: no line for {', '.join(sorted(unknown))}")
    unused = [it.key for it in book.names.words.values() if not it.paths]
    if unused:
        raise Broken(f"docs/words.toml: nothing cites {', '.join(unused)}")
    if book.repository.lost_edits:
        raise Broken(f"wrong bodies of no function: {', '.join(book.repository.lost_edits)}")


def build(folder: str) -> list[str]:
    """Makes the pages, and answers what is to be told."""
    book = Book(Repository())
    check_words(book)
    fill_prose(book)
    claims = read_claims(book)
    picture, told = pictures(book)
    words, entries = glossary.glossary_page(book)
    shown = [document_page(book, it) for it in documents()]
    pages = [index_page(book, claims, shown), *shown, crates_page(book, picture), language_page(book)]
    pages += [words, words_page(book), signs_page(book)]
    pages += [claim_page(book, it) for it in claims] + [crate_page(book, it) for it in book.repository.crates]
    pages += [page for module in book.repository.modules.values() if (page := module_page(book, module))]
    entries += entries_of(book) + [Entry(it.title, "claim", it.plain.split("\n")[0], it.page) for it in claims]
    entries += [Entry(it.name, "crate", it.comment.split("\n")[0], f"crate.{it.name}.html") for it in book.repository.crates]
    write_all(folder, pages, entries)
    return [it for it in [told, f"{len(pages)} pages in {os.path.relpath(folder)}"] if it]

