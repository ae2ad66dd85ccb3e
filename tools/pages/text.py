"""Prose and Markdown as HTML, with what stands as code a link where it names something."""
from __future__ import annotations

import html
import re
from dataclasses import dataclass, field

CODE = re.compile(r"``\s?(.+?)\s?``|`([^`]+)`")
LINK = re.compile(r"(!?)\[([^\]]*)\]\(([^)]*)\)")
STRONG = re.compile(r"\*\*(.+?)\*\*")


@dataclass
class Prose:
    """Where names lead, and the words of the glossary."""

    places: dict[str, str] = field(default_factory=dict)
    near: dict[str, dict[str, str]] = field(default_factory=dict)
    terms: dict[str, tuple[str, str]] = field(default_factory=dict)
    documents: set[str] = field(default_factory=set)

    def place(self, code: str, crate: str = "") -> str:
        """Where what stands as code leads, if it names something: first in this crate, and then anywhere."""
        name = re.sub(r"\(.*|<.*|!$", "", code).replace(".", "::")
        return self.near.get(crate, {}).get(name, "") or self.places.get(name, "")

    def code(self, code: str, crate: str = "") -> str:
        href = self.place(code, crate)
        made = f"<code>{html.escape(code)}</code>"
        return f'<a href="{html.escape(href)}">{made}</a>' if href else made

    def target(self, href: str) -> str:
        """Where a link of a document leads on the pages: to the page of that document, if there is one."""
        name = href.rpartition("/")[2]
        if ":" in href or href.startswith("#"):
            return href
        return f"doc.{name.removesuffix('.md')}.html" if name.removesuffix(".md") in self.documents else ""

    def inline(self, text: str, crate: str = "", terms: bool = False) -> str:
        """A line of prose: code, links and strong words."""
        kept: list[str] = []

        def keep(made: str) -> str:
            kept.append(made)
            return f"\0{len(kept) - 1}\0"

        def linked(it: re.Match[str]) -> str:
            href = self.target(it[3])
            if it[1]:
                return html.escape(it[2])
            inner = self.inline(it[2], crate)
            return keep(f'<a href="{html.escape(href)}">{inner}</a>' if href else inner)

        made = CODE.sub(lambda it: keep(self.code(it[1] or it[2], crate)), text)
        made = html.escape(LINK.sub(linked, made), quote=False)
        made = STRONG.sub(r"<strong>\1</strong>", made)
        made = self.with_terms(made) if terms else made
        while "\0" in made:
            made = re.sub("\0(\\d+)\0", lambda it: kept[int(it[1])], made)
        return made

    def with_terms(self, text: str) -> str:
        """The first use of each word of the glossary as a link to it."""
        seen: set[str] = set()

        def linked(it: re.Match[str]) -> str:
            anchor, meaning = self.terms[it[0].lower()]
            if anchor in seen:
                return it[0]
            seen.add(anchor)
            return f'<a class="term" href="glossary.html#{anchor}" title="{html.escape(meaning)}">{it[0]}</a>'

        words = "|".join(re.escape(it) for it in sorted(self.terms, key=len, reverse=True))
        return re.sub(rf"(?i)\b(?:{words})\b", linked, text) if words else text

    def paragraphs(self, text: str, crate: str = "") -> str:
        """A comment: paragraphs, with the words of the glossary as links."""
        parts = [it.replace("\n", " ").strip() for it in re.split(r"\n\s*\n", text[:1].upper() + text[1:])]
        return "".join(f"<p>{self.inline(it, crate, True)}</p>" for it in parts if it)

    def markdown(self, text: str) -> str:
        """A document of the repository."""
        bare = re.sub(r"(?m)^<!--.*?-->\n", "", text)
        return "".join(self.block(it) for it in blocks_of(bare))

    def block(self, lines: list[str]) -> str:
        first = lines[0]
        if first.startswith("```") or first.startswith("    "):
            body = lines[1:-1] if first[0] == "`" else [it[4:] for it in lines]
            return f"<pre class=\"shown\">{html.escape(chr(10).join(body))}</pre>"
        if first.startswith("#"):
            level, words = len(first) - len(first.lstrip("#")), first.lstrip("# ")
            return f'<h{level} id="{slug(words)}">{self.inline(words)}</h{level}>'
        if first.startswith("|"):
            return self.table(lines)
        for sign, tag in (("- ", "ul"), (r"\d+\. ", "ol")):
            if re.match(sign, first):
                items = [re.sub(r"\n *", " ", it) for it in re.split(f"(?m)^{sign}", "\n".join(lines))[1:]]
                return f"<{tag}>{''.join(f'<li>{self.inline(it)}</li>' for it in items)}</{tag}>"
        return f"<p>{self.inline(' '.join(lines))}</p>"

    def table(self, lines: list[str]) -> str:
        rows = [cells_of(it) for it in lines if not re.fullmatch(r"\|[-| :]+\|?", it)]
        made = []
        for at, row in enumerate(rows):
            tag = "th" if at == 0 else "td"
            made.append("<tr>" + "".join(f"<{tag}>{self.inline(it)}</{tag}>" for it in row) + "</tr>")
        return f'<div class="wide"><table>{"".join(made)}</table></div>'


def cells_of(line: str) -> list[str]:
    """The cells of a row of a table; a stroke within code is no border."""
    hidden = CODE.sub(lambda it: it[0].replace("|", "\1"), line.strip().strip("|"))
    return [it.replace("\1", "|").strip() for it in hidden.split("|")]


def slug(words: str) -> str:
    return re.sub(r"[^a-z0-9]+", "-", words.lower()).strip("-")


def blocks_of(text: str) -> list[list[str]]:
    """The blocks of a document: headings, paragraphs, lists, tables and shown lines."""
    found: list[list[str]] = []
    block: list[str] = []
    is_shown = False
    for line in [*text.split("\n"), ""]:
        if is_shown:
            block.append(line)
            if line.startswith("```"):
                found.append(block)
                block, is_shown = [], False
            continue
        begins = line.startswith(("#", "```")) or bool(block) and block[0].startswith("#")
        begins = begins or bool(block) and line.startswith("|") != block[0].startswith("|") and not block[0].startswith("    ")
        if not line.strip() or begins:
            if block:
                found.append(block)
            block = []
        if line.startswith("```"):
            is_shown = True
        if line.strip():
            block.append(line)
    return found
