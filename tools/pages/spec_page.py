"""The page of a file of definitions, and that of the words of the kit."""
from __future__ import annotations

import html
from collections.abc import Sequence

from .book import Book, link_to
from .crate_page import wrong_definitions
from .kit import text_of_word
from .model import Definition, Item, Module
from .names import Target, Word, sign_anchor
from .shell import Page

FEW = 40
MANY = 120  # how many links are shown at most, of those that cite a word


def listed(targets: Sequence[Target], title: str) -> str:
    """Links in a row, behind a fold where they are many."""
    if not targets:
        return ""
    links = ", ".join(link_to(it, len(targets) <= FEW) for it in targets[:MANY])
    more = f", and {len(targets) - MANY} more" if len(targets) > MANY else ""
    if len(targets) <= FEW:
        return f"<p class=\"chain\"><b>{title}</b> {links}</p>"
    return f'<details class="chain"><summary><b>{title}</b> {len(targets)}</summary><p>{links}{more}</p></details>'


def definition(book: Book, it: Definition) -> str:
    """A definition: its comment, its text, what it stands on and who cites it."""
    around = f'<p class="around">for any <code>{html.escape(it.around)}</code></p>' if it.around else ""
    shown = book.shown[f"{it.module}.{it.name}", 0]
    cited = book.cited_by(it)
    ours = [target for target in cited if not isinstance(target, Word)]
    kit = [target for target in cited if isinstance(target, Word)]
    items = [target for target in it.citers if isinstance(target, Item)]
    others = [target for target in it.citers if isinstance(target, Definition)]
    below = [target for target in book.all_below(cited) if target not in cited and not isinstance(target, Word)]
    place = f'<span class="place">{html.escape(it.path)}:{it.line}</span>'
    lines = [f'<h3><a href="#{html.escape(it.name)}">{html.escape(it.name)}</a> <small>{it.kind}</small>{place}</h3>',
             book.prose.paragraphs(it.comment, it.crate), around, f'<pre class="definition">{shown}</pre>',
             listed(ours, "stands on"), listed(below, "and through these on"), listed(kit, "words of the kit"),
             listed(items, "cited by the calls"), listed(others, "cited by the definitions"), wrong_definitions(it.wrong)]
    return f'<section class="item" id="{html.escape(it.name)}">{"".join(lines)}</section>'


def module_page(book: Book, module: Module) -> Page | None:
    shown = [it for it in module.definitions if it.kind != "lemma" or it.citers]
    if not shown:
        return None
    name = module.name.rpartition("specs.")[2].rpartition("proofs.")[2]
    kind = "lemmas" if ".proofs." in module.name else "definitions"
    trail = [("Crates", "crates.html"), (module.crate, f"crate.{module.crate}.html")]
    line = f'<p class="import"><code>ghost use {html.escape(module.name)}.{{..}};</code></p>'
    body = f"<h1><small>{kind}</small> {html.escape(name)}</h1>{book.prose.paragraphs(module.comment, module.crate)}{line}"
    side = "".join(f'<li><a href="#{html.escape(it.name)}">{html.escape(it.name)}</a></li>' for it in shown)
    return Page(shown[0].page, f"{name} of {module.crate}", body + "".join(definition(book, it) for it in shown), trail,
                f"<b>{html.escape(name)}</b><ul>{side}</ul>")


def word(it: Word) -> str:
    paths = ", ".join(sorted({f"<code>{html.escape(path)}</code>" for path, _ in it.paths}))
    text = text_of_word(it.paths)
    shown = f'<pre class="definition">{html.escape(text)}</pre>' if text else ""
    citers = listed(it.citers, "cited by")
    return (f'<section class="item word" id="{html.escape(it.key)}"><h3>{html.escape(it.name)}</h3>'
            f"<p>{html.escape(it.meaning)} <small>{paths}</small></p>{shown}{citers}</section>")


def words_page(book: Book) -> Page:
    """The words of the kit, each with what it means in one line, its text, and who cites it."""
    words = [it for it in book.names.words.values() if it.paths]
    intro = "<p>Clauses end in these words. They are defined by Rattle's kit, below its <code>std</code>. Each has its meaning " \
            "in one line, and its text where the kit was there when the pages were made.</p>"
    return Page("words.html", "Words of the kit", f"<h1>Words of the kit</h1>{intro}{''.join(map(word, words))}")


READING = """<p>A clause stands behind <code>ensures</code>: the call is proved to make it true for every input.
<code>ensures ok</code> has the name <code>ok</code>. The prover checks it; nobody has to believe the body. A <b>ghost</b> member
is what a trait's impl says of itself to clauses. A <b>law</b> is a function that does nothing: its clauses hold wherever it is
called.</p>"""
EXAMPLE = """<p>Where <code>reverse</code> answers <code>Ok</code>, the definition <code>reversed</code> of the value's form gives
just this value. Each word leads to its definition.</p>"""


def signs_page(book: Book) -> Page:
    """How a clause is read."""
    rows = ""
    for sign, line in book.names.signs.items():
        code = f"<code>{html.escape(sign)}</code>"
        rows += f'<tr id="{sign_anchor(sign)}"><td>{code}</td><td>{book.prose.inline(line)}</td></tr>'
    example = book.repository.by_name.get("tera_values::Value.reverse")
    shown = f"<h2>An example</h2>{book.clause(example, 0)}{EXAMPLE}" if example else ""
    shown = shown.replace(" id=", " data-of=")
    return Page("signs.html", "How a clause is read", f'<h1>How a clause is read</h1>{READING}{shown}'
                f'<h2>Signs</h2><div class="wide"><table>{rows}</table></div>')
