"""The parts of documents that are written from the sources: the ledger of clauses, and blocks of code.

A part stands between two comments, of which the first says what it is of:

    <!-- filled: claims -->                    the chief claims of docs/claims.toml: a row for each call that carries one
    <!-- filled: ledger -->                    a row for each public call and law that has clauses, crate by crate
    <!-- filled: crates -->                    the crates, with what they hold and what they stand on
    <!-- filled: script NAME -->               examples/NAME.replay, each line with its answer
    <!-- filled: FILE NAME .. -->              these functions of a file of Rattle, Rust or C, or definitions of a file of specs/ or
                                               proofs/; the whole file where none is named
    <!-- end -->
"""
from __future__ import annotations

import os
import re
from collections.abc import Iterable, Iterator

from .book import Book, item_name
from .claims import Broken, Claim
from .model import Definition, Item
from .sources import TOP, Repository, read

PART = re.compile(r"(?ms)^(<!-- filled: ([^\n]*?) -->\n)(.*?)^(<!-- end -->)$")
HEAD = "| call | clauses | their definitions | what it says | where |\n|---|---|---|---|---|\n"


def documents() -> list[str]:
    """The documents in which parts are filled."""
    pages = sorted(f"docs/{it}" for it in os.listdir(f"{TOP}/docs") if it.endswith(".md"))
    return ["README.md", *pages, "bench/README.md"]


def without_filled(text: str) -> str:
    """What is written by hand of a document."""
    return PART.sub("", text)


# ---- rows


def spelled(item: Item) -> str:
    """The call as a user names it, with the trait by which it is called."""
    name, _, trait = item_name(item).partition(" (")
    return f"`{name}`" + (f" by `{trait.removesuffix(')')}`" if trait else "")


def said(item: Item) -> str:
    """The comment of a call, or of the block in which it stands, on one line."""
    comment = item.comment or (item.block.comment if item.block else "")
    flat = re.sub(r"\s+", " ", comment).strip()
    kept = re.sub(r" ?\bMirrors `[^`]*`(?:(?:,| of| and)? `[^`]*`)*(?:, which [^.]*)?\.", "", flat)
    # a stroke would end the cell
    return kept.strip().replace("|", r"\|")


def where(item: Item) -> str:
    path = item.path.removeprefix("crates/")
    return f"[{path}:{item.line}](../{item.path}#L{item.line})"


def as_code(names: Iterable[str]) -> str:
    return ", ".join(f"`{it}`" for it in dict.fromkeys(names))


def row(book: Book, item: Item) -> str:
    """A call with its clauses, and the definitions of this repository that they cite."""
    cited = [it.name for it in book.cited_by(item) if isinstance(it, Definition) and it.kind != "lemma"]
    clauses = as_code(it.label for it in item.all_clauses)
    return f"| {spelled(item)} | {clauses} | {as_code(cited)} | {said(item)} | {where(item)} |\n"


def claim_rows(claims: list[Claim]) -> str:
    """A row for each call and law that carries a claim; the claim stands in the first of its rows."""
    made = "| claim | call | clauses | where |\n|---|---|---|---|\n"
    for claim in claims:
        title = claim.title
        for item, labels in [*claim.calls, *claim.laws]:
            made += f"| {title} | {spelled(item)} of `{item.crate}` | {as_code(labels)} | {where(item)} |\n"
            title = ""
    return made


def ledger(book: Book) -> str:
    made = []
    for crate in book.repository.crates:
        rows = [row(book, it) for it in crate.public if it.all_clauses and it.kind != "impl"]
        if rows:
            made.append(f"### {crate.name}\n\n{first_of(crate.comment)}\n\n{HEAD}{''.join(rows)}")
    return "\n".join(made)


def crate_rows(repository: Repository) -> str:
    """A row for each crate: what its comment says first, and what it stands on."""
    made = "| crate | what it holds | stands on |\n|---|---|---|\n"
    for crate in repository.crates:
        uses = ", ".join(f"`{it}`" for it in crate.uses if it.startswith("tera_")) if crate.name != "uses" else "all libraries"
        made += f"| `{crate.name}` | {first_of(crate.comment)} | {uses} |\n"
    return made


def first_of(comment: str) -> str:
    """The first paragraph of the comment of a crate."""
    return re.sub(r"\s+", " ", comment.split("\n\n")[0]).strip()


# ---- blocks of code


def code(path: str, names: list[str]) -> str:
    """These functions or definitions, as they stand in a file, with their comments."""
    text = read(path)
    sign = {".antt": "antt", ".c": "c"}.get(os.path.splitext(path)[1], "rust")
    if not names:
        return f"```{sign}\n{text}```\n"
    blocks = [block_of(text, it, sign) for it in names]
    missing = [name for name, block in zip(names, blocks) if block is None]
    if missing:
        raise Broken(f"{path}: there is no {', '.join(missing)}")
    return f"```{sign}\n" + "\n\n".join(it for it in blocks if it) + "\n```\n"


def block_of(text: str, name: str, sign: str) -> str | None:
    """A function, from its comment to its closing brace; or a definition, from its comment to the next blank line."""
    comment = "--[^\n]*\n" if sign == "antt" else "///[^\n]*\n"
    if sign == "c":
        found = re.search(rf"(?ms)^(?:/\*[^\n]*\*/\n)?\w[\w *]*\b{re.escape(name)}\([^\n]*\) \{{$.*?^\}}$", text)
    elif sign == "rust":
        found = re.search(rf"(?ms)^(?:{comment})*(?:pub )?fn {re.escape(name)}\b.*?^\}}$", text)
    else:
        head = r"(?:abbrev |pub |unfoldable )*"
        found = re.search(rf"(?m)^(?:{comment})*{head}{re.escape(name)} :(?:[^\n]|\n(?!\n))*", text)
    return found[0].rstrip() if found else None


def script(name: str) -> str:
    """A script of examples/, whose every line has one answer, with its answers beside it."""
    lines, answers = (read(f"examples/{name}.{it}").splitlines() for it in ("replay", "answers"))
    width = max(map(len, lines)) + 4
    return "".join(f"    {line.ljust(width)}{answer}\n" for line, answer in zip(lines, answers, strict=True))


# ---- documents


def filled(text: str, book: Book, claims: list[Claim]) -> str:
    """A document with each of its parts written anew."""

    def part(what: str) -> str:
        if what == "claims":
            return claim_rows(claims)
        if what == "ledger":
            return ledger(book)
        if what == "crates":
            return crate_rows(book.repository)
        path, *names = what.split()
        return script(names[0]) if path == "script" else code(path, names)

    return PART.sub(lambda it: f"{it[1]}{part(it[2])}{it[4]}", text)


def stale(book: Book, claims: list[Claim]) -> Iterator[tuple[str, str]]:
    """Each document whose parts are not as the sources have them, and what it should be."""
    for path in documents():
        text = read(path)
        wanted = filled(text, book, claims)
        if wanted != text:
            yield path, wanted


def fill(book: Book, claims: list[Claim]) -> list[str]:
    """Writes the parts of all documents anew, and answers what was written."""
    told = []
    for path, wanted in stale(book, claims):
        with open(f"{TOP}/{path}", "w", encoding="utf-8") as it:
            it.write(wanted)
        told.append(f"{path}: filled anew")
    return told or ["the documents are as the sources have them"]
