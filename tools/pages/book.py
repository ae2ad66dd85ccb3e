"""All clauses and definitions as HTML, with who cites what."""
from __future__ import annotations

import html
import re
from collections.abc import Sequence

from .model import Definition, Item
from .names import Names, Target, Word, scope_of_clause, scope_of_definition
from .shell import Entry
from .sources import Repository
from .text import Prose


class Book:
    """The repository, read through once: what is shown of each clause and definition, and where its words lead."""

    def __init__(self, repository: Repository):
        self.repository = repository
        self.names = Names(repository)
        self.prose = Prose()
        self.shown: dict[tuple[str, int], str] = {}
        self.cites: dict[str, list[Target]] = {}
        for item in repository.items:
            if item.is_public:
                self.read_item(item)
        left = [it for it in repository.definitions.values() if it.kind != "lemma"]
        while left:
            for it in left:
                self.read_definition(it)
            cited = [it for it in repository.definitions.values() if it.citers]
            left = [it for it in cited if (f"{it.module}.{it.name}", 0) not in self.shown]

    def read_item(self, item: Item) -> None:
        found: list[Target] = []
        for at, clause in enumerate(item.all_clauses):
            scope = scope_of_clause(self.names, item, clause)
            self.shown[item.full_name, at] = scope.html(clause.text)
            found += scope.targets
        self.cites[item.full_name] = unique(found)
        for target in unique(found):
            if isinstance(target, (Definition, Word)):
                target.citers.append(item)

    def read_definition(self, it: Definition) -> None:
        scope = scope_of_definition(self.names, it)
        self.shown[f"{it.module}.{it.name}", 0] = scope.html(it.text)
        found = [target for target in unique(scope.targets) if target is not it]
        self.cites[f"{it.module}.{it.name}"] = found
        for target in found:
            if isinstance(target, (Definition, Word)):
                target.citers.append(it)

    def cited_by(self, it: Item | Definition) -> list[Target]:
        return self.cites.get(it.full_name if isinstance(it, Item) else f"{it.module}.{it.name}", [])

    def all_below(self, start: Sequence[Target]) -> list[Target]:
        """All that these stand on, through whatever others, nearest first."""
        found: list[Target] = [*start]
        left = [*found]
        seen = {key_of(it) for it in start}
        while left:
            it = left.pop(0)
            for target in self.cited_by(it) if isinstance(it, (Item, Definition)) else []:
                if key_of(target) not in seen:
                    seen.add(key_of(target))
                    found.append(target)
                    left.append(target)
        return found

    def clause(self, item: Item, at: int) -> str:
        """A clause, set apart, with each of its words a link."""
        clause = item.all_clauses[at]
        name = f" <b>{html.escape(clause.name)}</b>" if clause.name else ""
        head = f'<span class="label">{html.escape(clause.kind)}{name}</span>'
        anchor = f'{item.anchor}.{"ghost." if clause.kind == "ghost" else ""}{clause.label}'
        return f'<div class="clause" id="{html.escape(anchor)}">{head}<pre>{dedented(self.shown[item.full_name, at])}</pre></div>'

    def clause_named(self, item: Item, label: str) -> str:
        found = [at for at, it in enumerate(item.all_clauses) if it.label == label]
        return re.sub(r' id="[^"]*"', "", "".join(self.clause(item, at) for at in found), count=1)


def key_of(target: Target) -> str:
    if isinstance(target, Item):
        return target.full_name
    if isinstance(target, Definition):
        return f"{target.module}.{target.name}"
    return target.href if isinstance(target, Word) else target


def unique(targets: list[Target]) -> list[Target]:
    return list({key_of(it): it for it in targets}.values())


def dedented(text: str) -> str:
    """The text with what all lines but the first are indented by taken away, so that they stand under the first."""
    first, *rest = text.split("\n")
    least = min((len(it) - len(it.lstrip()) for it in rest if it.strip()), default=0)
    return "\n".join([first, *("  " + it[least:] for it in rest)])


def name_of(target: Target) -> str:
    if isinstance(target, Item):
        return item_name(target)
    if isinstance(target, Word):
        return target.name
    return target if isinstance(target, str) else target.name


def item_name(item: Item) -> str:
    """A call as Rust's users name it: `Value::slice`, `number::add`, `PartialEq::eq of Value`."""
    if item.block:
        if item.kind == "impl":
            return f"{item.block.trait} for {item.block.owner}"
        if not item.block.owner:
            return f"{item.block.trait}::{item.name}"
        trait = f" ({item.block.trait})" if item.block.trait else ""
        return f"{item.block.owner}::{item.name}{trait}"
    return item.anchor.replace(".", "::")


def link_to(target: Target, is_told: bool = True) -> str:
    """A link with the name of what it leads to, and maybe what is told of it where the pointer rests."""
    kind = "kit" if isinstance(target, Word) else "own"
    line = target.meaning if isinstance(target, Word) else getattr(target, "comment", "").replace("\n", " ")
    href = target if isinstance(target, str) else target.href
    title = f' title="{html.escape(line)}"' if is_told and line else ""
    return f'<a class="{kind}" href="{html.escape(href)}"{title}>{html.escape(name_of(target))}</a>'


def first_line(comment: str) -> str:
    """The first sentence of a comment."""
    flat = re.sub(r"\s+", " ", comment).strip()
    found = re.match(r".*?[.](?=\s|$)", flat)
    return found[0] if found else flat


def entries_of(book: Book) -> list[Entry]:
    """What the search knows of items, definitions and words."""
    found = []
    for it in book.repository.items:
        if it.is_public and it.kind != "impl":
            comment = it.comment or (it.block.comment if it.block else "")
            kind = "law" if it.is_law else {"fn": "call", "struct": "type", "enum": "type"}.get(it.kind, it.kind)
            found.append(Entry(item_name(it), kind, first_line(comment), it.href))
    for definition in book.repository.definitions.values():
        if definition.kind != "lemma" or definition.citers:
            found.append(Entry(definition.name, definition.kind, first_line(definition.comment), definition.href))
    found += [Entry(it.key, "word of the kit", it.meaning, it.href) for it in book.names.words.values()]
    return found
