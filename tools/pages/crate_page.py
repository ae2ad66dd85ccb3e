"""The page of a crate: each public call with its clauses, and what refused wrong bodies changed."""
from __future__ import annotations

import html
import re

from .book import Book, first_line, item_name, key_of, link_to
from .model import Block, Edit, Item
from .shell import Page, contents, fold, part
from .sources import Crate, read
from .text import slug

Section = tuple[str, str, str]


def difference(edit: Edit) -> str:
    """What a wrong body changes, as lines that go and lines that come."""
    rows = [f"<del>- {html.escape(old.strip())}</del><ins>+ {html.escape(new.strip())}</ins>" for old, new in edit.changes]
    return f'<pre class="difference">{"".join(rows)}</pre>'


def broken_by(edit: Edit) -> str:
    """The clauses that a wrong body breaks, as far as it names the goals that it leaves open."""
    found = dict.fromkeys(re.findall(r"-clause-(\w+)", " ".join(edit.goals)))
    return f'<small>breaks <code>{"</code>, <code>".join(found)}</code></small>' if found else ""


def wrong_rows(edits: list[Edit]) -> str:
    return "".join(f"<li><b>{html.escape(it.name)}</b> {broken_by(it)}{difference(it)}</li>" for it in edits)


def wrong_definitions(edits: list[Edit]) -> str:
    """The wrong definitions that make a law false, each with its difference."""
    rows = f"<ul>{wrong_rows(edits)}</ul>"
    return fold("wrong", f"Wrong in {len(edits)} way{'s' * (len(edits) > 1)}, and refused by a law", rows) if edits else ""


def wrong_bodies(edits: list[Edit]) -> str:
    """The wrong bodies of a function, each with its difference."""
    if not edits:
        return ""
    count = "1 wrong body" if len(edits) == 1 else f"{len(edits)} wrong bodies"
    return f'<details class="wrong"><summary>{count} that its contract refuses</summary><ul>{wrong_rows(edits)}</ul></details>'


def signature(book: Book, item: Item) -> str:
    """The signature as in Rust, with each type of ours a link."""
    made = html.escape(item.signature)
    for name in sorted({it for it in words_of(item.signature) if it[:1].isupper()}, key=len, reverse=True):
        href = book.prose.place(name, item.crate)
        if href and name != item.name:
            made = link_word(made, name, href)
    return f'<pre class="sig">{made}</pre>'


def words_of(text: str) -> set[str]:
    return set(re.findall(r"\w+", text))


def link_word(made: str, name: str, href: str) -> str:
    parts = re.split(rf"(<a .*?</a>|\b{name}\b)", made)
    return "".join(f'<a href="{href}">{name}</a>' if it == name else it for it in parts)


ONE = "tera"  # the crate that gives out what the libraries below it hold


def module_path(crate: str, name: str) -> str:
    """The path within its crate of what a public module of it declares or gives out; the bare name where none does."""
    for module in re.findall(r"(?m)^pub mod (\w+);", read(f"crates/{crate}/src/lib.rt")):
        if re.search(rf"(?m)^pub (?:use [^;]*|\w+ )\b{name}\b", read(f"crates/{crate}/src/{module}.rt")):
            return f"{module}::{name}"
    return name


def given_out_as(book: Book, crate: str, name: str) -> str:
    """The path by which a caller of the one crate names what a crate holds, or that of the crate itself, which is not below it."""
    for path in (name, module_path(crate, name)):
        # what stands below the name of a whole crate last
        for it in sorted(book.repository.crate(ONE).passed, key=lambda it: not it.path):
            module = "::".join(filter(None, (ONE, it.module)))
            if it.crate == crate and it.path.startswith(f"{path}::"):
                return module
            if it.crate == crate and f"{path}::".startswith(it.path and f"{it.path}::"):
                rest = path[len(it.path) :].removeprefix("::")
                return "::".join(filter(None, (module, it.called, rest)))
    return f"{crate}::{name}"


def specs_given_out(book: Book, path: str) -> str:
    """The path by which a caller of the one crate names a file of definitions, or what a type is to a clause."""
    for home in ("Lib", "types"):
        module = book.repository.modules[f"Rattle.{ONE}.specs.{home}"]
        folder = module.name.removesuffix(".Lib")
        for name, (known, _) in module.imports.items():
            if path == known or path.startswith(f"{known}."):
                return f"{folder}.{name}{path.removeprefix(known)}"
    return path


def import_lines(book: Book, item: Item) -> list[str]:
    """The lines by which a caller has the words of a call's clauses at hand."""
    cited = {key_of(it) for it in book.cited_by(item)}
    groups: dict[str, list[str]] = {}
    for name, (path, other) in item.imports.items():
        target = book.names.imported(path, other) if other else None
        if target and key_of(target) in cited and ".inner." not in path:
            groups.setdefault(specs_given_out(book, path), []).append(name)
    return [f"ghost use {path}.{{{', '.join(names)}}};" for path, names in sorted(groups.items())]


def taken_in(book: Book, item: Item) -> str:
    """What stands in a crate of one's own that makes the call."""
    module, _, last = item.anchor.replace(".", "::").rpartition("::")
    named = base(item.block) if item.block else module.partition("::")[0] or last
    said = [*import_lines(book, item), f"use {given_out_as(book, item.crate, named)};"]
    crates = {*re.findall(r"\buse (?:Rattle\.)?(\w+)", " ".join(said))}
    ordered = [it.name for it in book.repository.crates if it.name in crates]
    lines = [f"crates.txt    mine: {' '.join(ordered)}", "src/lib.rt    #![tactic(auto)]", *(f"              {it}" for it in said)]
    return f'<pre class="shown">{html.escape(chr(10).join(lines))}</pre>'


def callers(book: Book, item: Item) -> str:
    """How the call is made in a crate of one's own: what is named there, and functions of `uses` that make it."""
    if item.crate in ("uses", "tera_c", "tera_replay", "tera_cli", "tera_render") or item.block and item.block.trait:
        return ""
    said = f".{item.name}(" if item.block and "self" in item.signature else f"{item.name}("
    said = f"::{said}" if item.block and "self" not in item.signature else said
    found = [it for it in book.repository.crate("uses").items if it.kind == "fn" and said in it.body]
    links = ", ".join(link_to(it) for it in found[:6])
    shown = f"<p>Calls of this name that are proved: {links}</p>" if found else ""
    return f'<details class="callers"><summary>Called from a crate of one\'s own</summary>{taken_in(book, item)}{shown}</details>'


def function(book: Book, item: Item, with_comment: bool = True) -> str:
    """One call: its comment, its signature, its clauses."""
    own = range(len(item.clauses))
    clauses = "".join(book.clause(item, at) for at in own)
    comment = book.prose.paragraphs(item.comment, item.crate) if with_comment else ""
    place = f'<span class="place">{html.escape(item.path.partition("/src/")[2])}:{item.line}</span>'
    head = f'<h4><a href="#{item.anchor}">{html.escape(item_name(item))}</a>{place}</h4>'
    body = [head, signature(book, item), comment, clauses, wrong_bodies(item.wrong), callers(book, item)]
    if item.crate == "uses":
        body.append(f'<pre class="body">{html.escape(item.body)}</pre>')
    return f'<section class="item" id="{html.escape(item.anchor)}">{"".join(body)}</section>'


def ghosts(book: Book, item: Item) -> str:
    """The ghost members of the block in which an item stands."""
    first = len(item.clauses)
    return "".join(book.clause(item, at) for at in range(first, len(item.all_clauses)))


def implementation(book: Book, items: list[Item]) -> str:
    """An impl of a trait: its comment, its ghost members, its functions."""
    block = items[0].block
    assert block
    anchor = "" if items[0].kind == "impl" else ""
    parts = [f"<h4>{html.escape(block.head)}</h4>", book.prose.paragraphs(block.comment, items[0].crate), ghosts(book, items[0])]
    parts += [function(book, it) for it in items if it.kind == "fn"]
    own = f' id="{html.escape(items[0].anchor)}"' if items[0].kind == "impl" else anchor
    return f'<div class="impl"{own}>{"".join(parts)}</div>'


def by_block(items: list[Item]) -> list[list[Item]]:
    """The items of each impl, in the order in which these stand."""
    groups: dict[int, list[Item]] = {}
    for it in items:
        groups.setdefault(id(it.block), []).append(it)
    return list(groups.values())


def declared(book: Book, item: Item) -> str:
    place = f'<span class="place">{html.escape(item.path.partition("/src/")[2])}:{item.line}</span>'
    return place + signature(book, item) + book.prose.paragraphs(item.comment, item.crate)


def type_section(book: Book, crate: Crate, item: Item) -> Section:
    """A type with its calls and the traits that it has."""
    own = [it for it in crate.public if it.block and base(it.block) == item.name]
    methods = [it for it in own if it.block and not it.block.trait]
    traits = [it for it in own if it.block and it.block.trait]
    body = declared(book, item) + "".join(function(book, it) for it in methods)
    body += "".join(implementation(book, it) for it in by_block(traits))
    return item.name, item.anchor, body


def trait_section(book: Book, crate: Crate, item: Item) -> Section:
    """A trait with its members and who has it."""
    own = [it for it in crate.public if it.block and it.block.is_trait and it.block.trait == item.name]
    others = [it for it in crate.public if it.block and not it.block.is_trait and bare(it.block.trait) == item.name]
    types = {it.name for it in crate.public if it.kind in ("struct", "enum")}
    others = [it for it in others if it.block and base(it.block) not in types]
    body = declared(book, item) + (ghosts(book, own[0]) if own else "")
    body += "".join(function(book, it) for it in own)
    body += "".join(implementation(book, it) for it in by_block(others))
    return item.name, item.anchor, body


def bare(name: str) -> str:
    return name.partition("<")[0]


def base(block: Block) -> str:
    return bare(block.owner).lstrip("&").removeprefix("mut ")


def other(book: Book, item: Item) -> str:
    return f'<section class="item" id="{html.escape(item.anchor)}"><h4>{item.name}</h4>{declared(book, item)}</section>'


def other_sections(book: Book, crate: Crate) -> list[Section]:
    """Functions and laws by their modules, and impls for types that are not of the crate."""
    found = []
    free = [it for it in crate.public if it.kind in ("fn", "const", "type", "macro") and not it.block]
    for is_law, title in ((False, "Functions"), (True, "Laws")):
        groups: dict[str, list[Item]] = {}
        for it in free:
            if it.is_law == is_law:
                groups.setdefault(it.anchor.rpartition(".")[0], []).append(it)
        for module, items in sorted(groups.items()):
            name = f"{title} of {module}" if module else title
            body = "".join(function(book, it) if it.kind == "fn" else other(book, it) for it in items)
            found.append((name, slug(name), body))
    shown = {it.name for it in crate.public if it.kind in ("struct", "enum", "trait")}
    impls = [it for it in crate.public if it.block and not it.block.is_trait]
    left = [it for it in impls if it.block and not {base(it.block), bare(it.block.trait)} & shown]
    if left:
        found.append(("Traits of other types", "others", "".join(implementation(book, it) for it in by_block(left))))
    return found


def hidden_types(book: Book, crate: Crate) -> list[Section]:
    """Types that no caller names, but that definitions do."""
    cited = {it.full_name for found in book.cites.values() for it in found if isinstance(it, Item)}
    kinds = ("struct", "enum", "trait", "type")
    own = [it for it in crate.items if not it.is_public and it.full_name in cited and it.kind in kinds]
    body = "".join(other(book, it) for it in own)
    return [("Types that definitions look into", "inside", body)] if own else []


def passed_section(book: Book, crate: Crate) -> list[Section]:
    """What the crate gives out of other crates, by where it gives that out and who holds it."""
    groups: dict[tuple[str, str], list[str]] = {}
    for it in crate.passed:
        said = f"<code>{it.called}</code>"
        href = book.prose.place(it.path.rpartition("::")[2], it.crate) if it.path else f"crate.{it.crate}.html"
        groups.setdefault((it.module, it.crate), []).append(f'<a href="{html.escape(href)}">{said}</a>' if href else said)
    rows = "".join(f"<dt><code>{'::'.join(filter(None, (crate.name, module)))}</code>, of {link_crate(book, of)}</dt>"
                   f"<dd>{', '.join(said)}</dd>" for (module, of), said in groups.items())
    return [("Given out from other crates", "passed", f'<dl class="passed">{rows}</dl>')] if rows else []


def named_in(book: Book, crate: Crate) -> str:
    """What a caller names for a crate: where `tera` gives it out, that alone will do."""
    own = f"<code>{html.escape(crate.name)}</code>"
    return f"<code>{ONE}</code>, or {own} alone," if crate.name in book.repository.crate(ONE).uses else own


def facts(book: Book, crate: Crate) -> str:
    """What kind of crate it is, what it stands on, and how much there is."""
    below = ", ".join(link_crate(book, it) for it in crate.uses) or "std alone"
    calls = [it for it in crate.public if it.kind == "fn"]
    wrong = sum(len(it.wrong) for it in crate.items)
    clauses = sum(len(it.clauses) for it in calls)
    holds = f"{len(calls)} public functions with {clauses} clauses; {wrong} wrong bodies are refused"
    rows = [("kind", html.escape(crate.kind)), ("stands on", below),
            ("holds", holds if crate.items else "nothing of its own: all is given out from other crates"),
            ("in <code>crates.txt</code>", f"{named_in(book, crate)} on the line of your crate")]
    return f'<dl class="facts">{"".join(f"<dt>{name}</dt><dd>{value}</dd>" for name, value in rows)}</dl>'


def link_crate(book: Book, name: str) -> str:
    is_ours = any(it.name == name for it in book.repository.crates)
    return f'<a href="crate.{name}.html"><code>{name}</code></a>' if is_ours else f"<code>{html.escape(name)}</code>"


def crate_page(book: Book, crate: Crate) -> Page:
    types = [it for it in crate.public if it.kind in ("struct", "enum")]
    traits = [it for it in crate.public if it.kind == "trait"]
    sections = [type_section(book, crate, it) for it in types] + [trait_section(book, crate, it) for it in traits]
    sections += other_sections(book, crate) + hidden_types(book, crate) + passed_section(book, crate)
    body = [f"<h1><small>crate</small> {crate.name}</h1>", book.prose.paragraphs(crate.comment, crate.name), facts(book, crate)]
    specs = [it for it in crate.modules if it.definitions and ".specs." in it.name]
    if specs:
        rows = "".join(f'<li><a href="{it.definitions[0].page}">{it.name.partition(".specs.")[2]}</a> '
                       f"{book.prose.inline(first_line(it.comment), crate.name)}</li>" for it in specs)
        body.append(f'<details class="list"><summary>{len(specs)} files of definitions</summary><ul>{rows}</ul></details>')
    body += [part(anchor, name, inner) for name, anchor, inner in sections]
    side = contents(crate.name, [(anchor, name) for name, anchor, _ in sections])
    return Page(f"crate.{crate.name}.html", crate.name, "".join(body), [("Crates", "crates.html")], side)


def crates_page(book: Book, picture: str) -> Page:
    """The house: all crates, lowest first."""
    rows = "<tr><th>crate</th><th>what it holds</th><th>stands on</th></tr>"
    for it in book.repository.crates:
        uses = ", ".join(link_crate(book, low) for low in it.uses)
        cells = [link_crate(book, it.name), book.prose.inline(first_line(it.comment)), uses]
        rows += f"<tr>{''.join(f'<td>{cell}</td>' for cell in cells)}</tr>"
    table = f'<div class="wide"><table class="crates">{rows}</table></div>'
    return Page("crates.html", "Crates", f"<h1>The house</h1>{picture}{table}")

