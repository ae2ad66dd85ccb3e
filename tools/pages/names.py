"""Where a word of a clause or of a definition leads: to a definition of ours, a type, a word of the kit, or a sign."""
from __future__ import annotations

import dataclasses
import html
import re
import tomllib
from dataclasses import dataclass

from .model import Clause, Definition, Imports, Item
from .sources import Repository, read

TOKEN = re.compile(
    r"(?P<comment>--.*)|(?P<string>\"(?:[^\"\\]|\\.)*\")|(?P<number>\d+)"
    r"|(?P<word>[^\W\d](?:[\w'-]*[\w'])?(?:\.(?:[^\W\d](?:[\w'-]*[\w'])?|\d+))*)"
    r"|(?P<space>\s+)|(?P<list>\[\])|(?P<bracket>[()\[\]{},;.])|(?P<sign>[^\s\w()\[\]{},;.\"']+ℤ?)|(?P<rest>.)")
BINDER = re.compile(r"[({]((?:[^\W\d][\w']*\s+)+):(?=\s)")
LAMBDA = re.compile(r"λ ((?:[\w']+ )*[\w']+)\.")
LOCAL = re.compile(r"\blet ([\w']+)|([\w']+) ←")
PARAMETER = re.compile(r"[(,]\s*(?:mut )?(\w+):")
SIGNS_FILE, WORDS_FILE = "docs/signs.toml", "docs/words.toml"
# what a clause says of a variable of the code, and what is told of on the page of signs
VIEWS = {"now", "old", "new", "entry", "result", "self"}


@dataclass(eq=False, repr=False)
class Word:
    """A word of the kit: what it means in one line, where it is imported from, and who cites it."""

    key: str
    meaning: str
    paths: set[tuple[str, str]] = dataclasses.field(default_factory=set)
    citers: list[Item | Definition] = dataclasses.field(default_factory=list)

    @property
    def name(self) -> str:
        """The word without its module; a sign between two sides without their places."""
        return self.key.rpartition(".")[2].replace("◌", " ").strip()

    @property
    def href(self) -> str:
        return f"words.html#{self.key}"


Target = Definition | Item | Word | str


class Names:
    def __init__(self, repository: Repository):
        self.repository = repository
        self.words = {key: Word(key, line) for key, line in tomllib.loads(read(WORDS_FILE)).items()}
        self.signs: dict[str, str] = tomllib.loads(read(SIGNS_FILE))
        self.unknown: dict[str, str] = {}
        self.fields: dict[str, list[Definition]] = {}
        for it in repository.definitions.values():
            for part in it.parts if it.kind == "record" else []:
                self.fields.setdefault(part, []).append(it)
        self.ghosts: dict[str, dict[str, str]] = {}
        for item in reversed(repository.items):
            for ghost in item.block.ghosts if item.block and item.block.is_trait else []:
                self.ghosts.setdefault(ghost.name, {})[item.crate] = f"{item.href}.ghost.{ghost.name}"

    def passed_on(self, path: str) -> str:
        """The path of the module that a crate passes on under a path, or that path, where it passes none on."""
        folder, _, last = path.rpartition(".")
        for home in (folder, f"{folder}.Lib"):
            module = self.repository.modules.get(home)
            again, name = module.imports.get(last, ("", None)) if module else ("", None)
            if again and not name:
                return again
        return path

    def imported(self, path: str, name: str, depth: int = 0) -> Target | None:
        """What a module of that path gives under a name."""
        path = self.passed_on(path)
        crate = [*path.split("."), ""][1]
        found = self.repository.definitions.get((path, name)) or self.repository.parts.get((path, name))
        if found:
            return found
        if ".declared." in path or ".contracts." in path:
            kind = path.removesuffix(".TheVariants").rpartition(".")[2]
            own = self.repository.type_of(crate, kind)
            if own:
                return own
        module = self.repository.modules.get(path)
        if module and name in module.imports and depth < 5:
            again, other = module.imports[name]
            return self.imported(again, other or name, depth + 1)
        return self.word_of(path, name)

    def word_of(self, path: str, name: str) -> Word | None:
        """A word of the kit; of two that are spelled alike each is told with its module: `FinMap.insert`."""
        last = path.removesuffix(".TheVariants").rpartition(".")[2]
        word = self.words.get(f"{last}.{name}") or self.words.get(name)
        if word:
            word.paths.add((path, name))
        else:
            self.unknown.setdefault(f"{last}.{name}", path)
        return word


@dataclass
class Scope:
    """What is in scope where a clause or a definition stands."""

    names: Names
    imports: Imports
    module: str = ""
    crate: str = ""
    bound: set[str] = dataclasses.field(default_factory=set)
    members: set[str] = dataclasses.field(default_factory=set)
    targets: list[Target] = dataclasses.field(default_factory=list)

    def __post_init__(self) -> None:
        self.operators: dict[str, str] = {}
        for name in self.imports:
            if "◌" in name:
                self.operators.update((part, name) for part in name.split("◌") if part)

    def target(self, word: str) -> Target | None:
        """Where the first part of a word leads, if it is no variable."""
        if word in self.bound:
            return None
        own = (self.module, word)
        found = self.names.repository.definitions.get(own) or self.names.repository.parts.get(own)
        if found:
            return found
        if word in self.operators:
            path, name = self.imports[self.operators[word]]
            return self.names.imported(path, name or word)
        if word in self.imports:
            path, name = self.imports[word]
            return self.names.imported(path, name) if name else None
        if word in self.members:
            return self.names.ghosts[word][self.crate]
        # what Rust's own prelude and `use` bring in
        return self.sign(word) or (self.names.words.get(word) if word[:1].isupper() else None) or self.field(word)

    def is_below(self, crate: str) -> bool:
        """Whether what is in scope stands on a crate; a document stands on all."""
        listed = {it.name: it.uses for it in self.names.repository.crates}
        own = {self.crate, *listed.get(self.crate, ())}
        return self.crate not in listed or crate not in listed or crate in own.union(*(listed.get(it, ()) for it in own))

    def sign(self, word: str) -> str | None:
        return f"signs.html#{sign_anchor(word)}" if word in self.names.signs else None

    def member(self, word: str, rest: str, before: Target | None) -> Target | None:
        """Where a part behind a dot leads: a name of a module, a ghost member, a field, or what is seen of a variable."""
        if word in self.imports and self.imports[word][1] is None and word not in self.bound:
            return self.names.imported(self.imports[word][0], rest)
        if rest in VIEWS:
            return self.sign(rest)
        if re.fullmatch(r"[A-Z]|Self", word) and rest in self.names.ghosts:
            found = self.names.ghosts[rest]
            return found.get(self.crate) or next((href for crate, href in found.items() if self.is_below(crate)), None)
        return self.field(rest) or self.sign(f".{rest}")

    def field(self, name: str) -> Definition | None:
        """The record with a field of that name: one that is at hand, or the only one."""
        fields = [it for it in self.names.fields.get(name, []) if self.is_below(it.crate)]
        near = [it for it in fields if it.module == self.module or it.name in self.imports]
        return next(iter(near or (fields if len(fields) == 1 else [])), None)

    def link(self, text: str, target: Target | None) -> str:
        if target is None:
            return html.escape(text)
        if not isinstance(target, str) and target not in self.targets:
            self.targets.append(target)
        href = target if isinstance(target, str) else target.href
        is_sign = isinstance(target, str) and target.startswith("signs.html")
        kind = "sign" if is_sign else "kit" if isinstance(target, Word) else "own"
        title = f' title="{html.escape(title_of(target))}"' if title_of(target) else ""
        return f'<a class="{kind}" href="{html.escape(href)}"{title}>{html.escape(text)}</a>'

    def word(self, text: str) -> str:
        first, *rest = text.split(".")
        target = self.target(first)
        made, before = "", first
        if not (rest and first in self.imports and self.imports[first][1] is None and first not in self.bound):
            made = self.link(first, target)
        else:
            made = html.escape(first)
        for part in rest:
            made += "." + self.link(part, self.member(before, part, target))
            before = part
        return made

    def html(self, text: str) -> str:
        """The text with each of its words a link."""
        made = []
        for it in TOKEN.finditer(text):
            if it.lastgroup == "comment":
                made.append(f'<i class="remark">{html.escape(it[0])}</i>')
            elif it.lastgroup == "string":
                made.append(f'<span class="text">{html.escape(it[0])}</span>')
            elif it.lastgroup == "word":
                made.append(self.word(it[0]))
            elif it.lastgroup in ("sign", "list"):
                made.append(self.link(it[0], self.target(it[0])))
            else:
                made.append(html.escape(it[0]))
        return "".join(made)


def title_of(target: Target) -> str:
    """What is told of a word where the pointer rests on it."""
    if isinstance(target, Word):
        return target.meaning
    return "" if isinstance(target, str) else target.comment.replace("\n", " ")


def sign_anchor(sign: str) -> str:
    return sign if re.fullmatch(r"\w+", sign) else "-".join(f"{ord(it):x}" for it in sign)


def binders(text: str) -> set[str]:
    """The variables that a text binds."""
    found = {word for group in [*BINDER.findall(text), *LAMBDA.findall(text)] for word in group.split()}
    return found | {word for pair in LOCAL.findall(text) for word in pair if word}


def scope_of_clause(names: Names, item: Item, clause: Clause) -> Scope:
    bound = binders(clause.text) | (set(PARAMETER.findall(item.signature)) if clause.kind != "ghost" else set())
    members = {it.name for it in item.block.ghosts} if item.block and item.block.is_trait else set()
    return Scope(names, item.imports, "", item.crate, bound, members)


def scope_of_definition(names: Names, it: Definition) -> Scope:
    module = names.repository.modules[it.module]
    scope = Scope(names, module.imports, it.module, it.crate, binders(it.text) | binders(it.around))
    scope.bound.discard(it.name)
    variables = set()
    for line in it.text.split("\n")[1:]:
        head, equals, _ = line.partition(" = ")
        if equals and head.startswith(f"{it.name} ") or head.startswith(f"{it.name} ") and line.endswith("="):
            variables |= {word for word in re.findall(r"[^\W\d][\w']*", head) if not is_constructor(scope, word)}
    scope.bound |= variables - {it.name}
    return scope


def is_constructor(scope: Scope, word: str) -> bool:
    """Whether a word of a pattern is a constructor, and so no variable."""
    target = scope.target(word)
    if isinstance(target, Definition):
        return target.kind == "data" and target.name != word
    if isinstance(target, Item):
        return target.kind == "enum"
    return isinstance(target, Word) and (target.key[:1].isupper() or target.key in CONSTRUCTORS)


CONSTRUCTORS = {"true", "false", "zero", "suc", "pos", "negsuc", "refl"}
