"""Reads files of definitions."""
from __future__ import annotations

import re

from source import imports_of

from .model import Definition, Module

HEAD = re.compile(r"^( *)((?:abbrev |unfoldable |opaque |pattern |pub )*)(data |record )?([^\s(){}:]+)(?: .*?)?? :(?=\s|$)")
OPENER = re.compile(r"^( *)(?:abbrev )?(?:mutual$|(module _ .*))")
SKIPPED = re.compile(r"^ *(?:pub )?(?:use|mod|infix\w*|open|ruleset)\b")
PART = re.compile(r"(?m)^ +(?:pub )?([^\s(){}:]+) :(?=\s)")


def is_head(found: re.Match[str] | None, level: int) -> bool:
    """Whether a line begins a definition: of what is no type, nothing stands between its name and the colon."""
    if not found or len(found[1]) != level:
        return False
    return bool(found[3]) or found[0].endswith(f"{found[4]} :")


class Reader:
    """Goes over the lines of a file, and keeps which block the next definition stands in."""

    def __init__(self, crate: str, module: str, path: str, text: str):
        self.lines = text.split("\n")
        self.module = Module(crate, module, path, self.file_comment(), imports_of(text))
        self.heads: list[tuple[int, re.Match[str], str]] = []
        self.marks: list[int] = []
        # of lemmas the statement alone is shown
        self.is_of_lemmas = ".proofs." in module

    def file_comment(self) -> str:
        found = []
        for line in self.lines:
            if not line.startswith("--"):
                break
            found.append(line.lstrip("-").strip())
        return "\n".join(found)

    def find_heads(self) -> None:
        """Each line that begins a definition, with the header of the module around it; and all lines that end one."""
        opened: list[tuple[int, str]] = [(0, "")]
        for at, line in enumerate(self.lines):
            if not line.strip() or line.lstrip().startswith("--"):
                continue
            indent = len(line) - len(line.lstrip())
            while indent < opened[-1][0]:
                opened.pop()
            opener = OPENER.match(line)
            head = HEAD.match(line)
            if opener and indent == opened[-1][0]:
                opened.append((indent + 2, self.whole_header(at) or opened[-1][1]))
                self.marks.append(at)
            elif SKIPPED.match(line):
                self.marks.append(at)
            elif head and is_head(head, opened[-1][0]):
                self.heads.append((at, head, opened[-1][1]))
                self.marks.append(at)

    def whole_header(self, at: int) -> str:
        """The parameters of a module, which may stand on several lines."""
        if "module _" not in self.lines[at]:
            return ""
        last = next(it for it in range(at, len(self.lines)) if self.lines[it].endswith("where"))
        return re.sub(r"\s+", " ", " ".join(self.lines[at : last + 1])).strip().removeprefix("module _ ").removesuffix(" where")

    def begin_of_comment(self, at: int, least: int) -> int:
        """The first line of the comment that ends above a line."""
        while at - 1 >= least and self.lines[at - 1].lstrip().startswith("--"):
            at -= 1
        return at

    def read(self) -> Module:
        self.find_heads()
        ends = sorted({*self.marks, len(self.lines)})
        for at, head, around in self.heads:
            end = next(it for it in ends if it > at)
            end = self.begin_of_comment(end, at + 1)
            first = self.begin_of_comment(at, 0)
            comment = "\n".join(it.strip().lstrip("-").strip() for it in self.lines[first:at])
            body = [it.removeprefix(head[1]) for it in self.lines[at:end]]
            self.module.definitions.append(self.definition(at, head, around, comment, body))
        return self.module

    def definition(self, at: int, head: re.Match[str], around: str, comment: str, body: list[str]) -> Definition:
        kind = (head[3] or "definition").strip()
        if self.is_of_lemmas:
            kind = "lemma"
            rest = [it for it in range(1, len(body)) if body[it].startswith((f"{head[4]} ", f"{head[4]}\n", "unfolding"))]
            body = body[: rest[0]] if rest else body
        text = "\n".join(body).rstrip()
        parts = PART.findall(text.partition("\n")[2]) if kind in ("data", "record") else []
        place = self.module
        return Definition(place.crate, place.name, place.path, at + 1, head[4], kind, text, comment, around, parts)


def read_specs(crate: str, module: str, path: str, text: str) -> Module:
    return Reader(crate, module, path, text).read()
