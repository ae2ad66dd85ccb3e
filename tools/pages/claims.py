"""The chief claims of docs/claims.toml, and what each chain has to name."""
from __future__ import annotations

import os
import re
import tomllib
from dataclasses import dataclass, field
from typing import Any

from .book import Book
from .model import Edit, Item
from .sources import TOP, below, read, read_edit

FILE = "docs/claims.toml"


class Broken(Exception):
    """A claim names what is not there, or no clause."""


@dataclass
class Claim:
    name: str
    title: str
    plain: str
    unsaid: str
    headline: bool = False
    calls: list[tuple[Item, list[str]]] = field(default_factory=list)
    laws: list[tuple[Item, list[str]]] = field(default_factory=list)
    worked: list[Item] = field(default_factory=list)
    scripts: list[str] = field(default_factory=list)
    wrong: list[tuple[str, list[Edit]]] = field(default_factory=list)
    tests: list[str] = field(default_factory=list)

    @property
    def page(self) -> str:
        return f"claim.{self.name}.html"


def item_at(book: Book, name: str, where: str) -> Item:
    found = book.repository.by_name.get(name)
    if not found or not found.is_public:
        raise Broken(f"{where}: `{name}` is no public call")
    return found


def links(book: Book, rows: list[str], where: str) -> list[tuple[Item, list[str]]]:
    """Each call with its clauses, all of which are there."""
    found = []
    for row in rows:
        name, *labels = row.split()
        item = item_at(book, name, where)
        own = [it.label for it in item.all_clauses]
        labels = labels or own
        for label in labels:
            if label not in own:
                raise Broken(f"{where}: `{name}` has no clause `{label}`; it has {', '.join(own) or 'none'}")
        found.append((item, labels))
    return found

# the first line of a test says what it shows, and names it
TEST = re.compile(r'def test_\w+\(self\)[^:]*:\n +"""(.*?)"""')


def edits_below(path: str, where: str) -> list[Edit]:
    """The wrong bodies of a folder, or of one file."""
    root = f"crates/{path}"
    files = [root] if os.path.isfile(f"{TOP}/{root}") else below(root, ".edit")
    if not files:
        raise Broken(f"{where}: no wrong body in {root}")
    return [read_edit(it) for it in files]


def home_of(path: str) -> str:
    """The function whose wrong body it is."""
    return path.rpartition("/")[0].partition("/wrong/")[2].rpartition("/")[2] or "definition"


def wrong_of(book: Book, claim: Claim, paths: list[str], where: str) -> list[tuple[str, list[Edit]]]:
    """The wrong bodies of a claim by function: those of its calls and laws first, and then those that it names."""
    edits = [edit for item, _ in [*claim.calls, *claim.laws] for edit in item.wrong]
    edits += [edit for path in paths for edit in edits_below(path, where)]
    groups: dict[str, list[Edit]] = {}
    for edit in {it.path: it for it in edits}.values():
        groups.setdefault(f"{edit.path.split('/')[1]} · {home_of(edit.path)}", []).append(edit)
    if not groups:
        raise Broken(f"{where}: no wrong body shows that its clauses say something")
    return list(groups.items())


def tests_named() -> str:
    """What names a test: the first lines of tests of tests/, and the test functions of crates."""
    named = "".join(f'"{name}"\n' for it in below("tests", ".py") for name in TEST.findall(read(it)))
    for path in below("crates", ".rt"):
        if "/src/" in path and path.split("/")[1].endswith(("checks", "calls")):
            crate = path.split("/")[1]
            named += "".join(f'"{crate}::{it}"\n' for it in re.findall(r"#\[test\]\s*fn (\w+)", read(path)))
    return named


def claim_of(book: Book, row: dict[str, Any], tests: str) -> Claim:
    where = f"{FILE}: {row.get('name', '?')}"
    missing = {"name", "title", "plain", "unsaid", "calls", "laws", "worked", "scripts", "wrong", "tests"} - set(row)
    if missing:
        raise Broken(f"{where}: it has no {', '.join(sorted(missing))}")
    claim = Claim(row["name"], row["title"], row["plain"].strip(), row["unsaid"], row.get("headline", False))
    claim.calls, claim.laws = links(book, row["calls"], where), links(book, row["laws"], where)
    if not any(labels for _, labels in [*claim.calls, *claim.laws]):
        raise Broken(f"{where}: it names no clause")
    claim.worked = [item_at(book, it, where) for it in row["worked"]]
    for it in row["scripts"]:
        if not os.path.isfile(f"{TOP}/examples/{it}.replay"):
            raise Broken(f"{where}: no script examples/{it}.replay")
    for it in row["tests"]:
        if f'"{it}"' not in tests:
            raise Broken(f"{where}: no test `{it}`")
    claim.scripts, claim.tests = row["scripts"], row["tests"]
    claim.wrong = wrong_of(book, claim, row["wrong"], where)
    return claim


def read_claims(book: Book) -> list[Claim]:
    rows = tomllib.loads(read(FILE))["claim"]
    tests = tests_named()
    return [claim_of(book, row, tests) for row in rows]
