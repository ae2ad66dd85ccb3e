"""The page of a claim: plain words, and the chain that carries it."""
from __future__ import annotations

import html

from .book import Book, item_name
from .claims import Claim
from .crate_page import wrong_rows
from .language import shown_script
from .model import Definition, Edit, Item
from .names import Word
from .shell import Page, contents, fold, part
from .spec_page import listed


def carried(book: Book, item: Item, labels: list[str]) -> str:
    """A call with just the clauses that carry the claim."""
    comment = item.comment or (item.block.comment if item.block else "")
    clauses = "".join(book.clause_named(item, label) for label in labels)
    crate = f'<a href="{item.page}"><code>{item.crate}</code></a>'
    text = book.prose.paragraphs(comment.split("\n\n")[0], item.crate) if comment else ""
    return f'<section class="item"><h4><a href="{html.escape(item.href)}">{html.escape(item_name(item))}</a>' \
           f'<span class="place">{crate}</span></h4>{text}{clauses}</section>'


def definitions(book: Book, claim: Claim) -> str:
    """What the clauses cite, and all below that."""
    first = []
    for item, labels in [*claim.calls, *claim.laws]:
        first += [it for it in book.cited_by(item) if it not in first]
    own = [it for it in first if isinstance(it, Definition)]
    below = [it for it in book.all_below(own) if isinstance(it, Definition) and it not in own]
    kit = [it for it in book.all_below(first) if isinstance(it, Word)]
    return listed(own, "The clauses cite") + listed(below, "These stand on") + listed(kit, "All end in these words of the kit")


def wrong_group(name: str, edits: list[Edit]) -> str:
    return fold("wrong", f"{html.escape(name)} <small>{len(edits)}</small>", f"<ul>{wrong_rows(edits)}</ul>")


def parts_of(book: Book, claim: Claim) -> list[tuple[str, str, str]]:
    """The links of the chain, each with its anchor and its heading."""
    calls = "".join(carried(book, item, labels) for item, labels in claim.calls)
    laws = "".join(carried(book, item, labels) for item, labels in claim.laws)
    worked = "".join(carried(book, item, [it.label for it in item.clauses]) for item in claim.worked)
    scripts = "".join(shown_script(it, folded=True) for it in claim.scripts)
    count = sum(len(edits) for _, edits in claim.wrong)
    wrong = "".join(wrong_group(name, edits) for name, edits in claim.wrong)
    tests = "".join(f"<li>{html.escape(it)}</li>" for it in claim.tests)
    refused = f"<p>The prover refuses each of these {count} changes, since a clause of the function is then false. " \
              "A line behind <code>-</code> is taken away, one behind <code>+</code> is put in its place.</p>"
    rows = "<p>Each row is a clause, so it is proved of the definitions. The scripts run in each check.</p>"
    unsaid = f"<p>{book.prose.inline(claim.unsaid)}</p><p>These tests stand beside the clauses:</p><ul>{tests}</ul>"
    return [("calls", "The calls and their clauses", calls), ("laws", "The laws", laws),
            ("definitions", "The definitions", definitions(book, claim)),
            ("worked", "Worked examples", rows + worked + scripts),
            ("wrong", "Wrong bodies that were refused", refused + wrong),
            ("tests", "What no clause says", unsaid)]


def claim_page(book: Book, claim: Claim) -> Page:
    parts = [it for it in parts_of(book, claim) if it[2]]
    plain = book.prose.paragraphs(claim.plain)
    body = f'<h1>{book.prose.inline(claim.title)}</h1><div class="plain">{plain}</div>'
    body += "".join(part(*it) for it in parts)
    side = contents("The chain", [(anchor, title) for anchor, title, _ in parts])
    return Page(claim.page, claim.title.replace("`", ""), body, [("Claims", "index.html")], side)


INTRO = """<p>The lowest layer of a template engine: the values that templates compute with, proved in Rattle, which is Rust with
contracts. Each claim below leads to the calls that carry it. From these it leads to the words of their clauses, and to the
definitions that these words stand for, down to the words of the kit.</p>
<p>Every function is safe and returns, the stack's depth aside: that is what the prover asks of each. A public one does so on
every input. How a clause is read is told on <a href="signs.html">one page</a>.</p>"""


def index_page(book: Book, claims: list[Claim], documents: list[Page]) -> Page:
    """The first page: what is claimed."""
    def card(it: Claim) -> str:
        line = it.plain.split("\n\n")[0]
        chain = f"{len(it.calls)} calls · {len(it.laws)} laws · {sum(len(edits) for _, edits in it.wrong)} wrong bodies"
        title, line = book.prose.inline(it.title), book.prose.inline(line)
        return f'<li><a href="{it.page}"><b>{title}</b></a><p>{line}</p><small>{chain}</small></li>'

    chief = "".join(card(it) for it in claims if it.headline)
    others = "".join(card(it) for it in claims if not it.headline)
    more = "".join(f'<li><a href="{it.file}">{html.escape(it.title)}</a></li>' for it in documents)
    body = f'<h1>What is proved</h1>{INTRO}<h2>The headline</h2><ul class="cards">{chief}</ul><h2>The other promises</h2>' \
           f'<ul class="cards">{others}</ul><h2>The documents</h2><ul>{more}</ul>'
    return Page("index.html", "What is proved", body)

