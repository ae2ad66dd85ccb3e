"""The whole repository, as the pages show it."""
from __future__ import annotations

import os
import re
from dataclasses import dataclass, field

from . import code, specs
from .model import Definition, Edit, Item, Module, Passed

TOP = os.path.dirname(os.path.dirname(os.path.dirname(os.path.abspath(__file__))))


def read(path: str) -> str:
    with open(f"{TOP}/{path}", encoding="utf-8") as it:
        return it.read()


def below(folder: str, end: str) -> list[str]:
    """The files below a folder whose names have this end, as paths of the repository."""
    found = [f"{at}/{name}" for at, _, names in os.walk(f"{TOP}/{folder}") for name in names if name.endswith(end)]
    return sorted(os.path.relpath(it, TOP) for it in found)


@dataclass
class Crate:
    name: str
    uses: list[str]
    kind: str
    comment: str = ""
    items: list[Item] = field(default_factory=list)
    modules: list[Module] = field(default_factory=list)
    passed: list[Passed] = field(default_factory=list)

    @property
    def public(self) -> list[Item]:
        return [it for it in self.items if it.is_public]


def crates_listed() -> list[Crate]:
    """The crates of crates.txt that the pages are of: all that a caller can use, and `uses`, which shows how."""
    found = []
    for line in read("crates.txt").splitlines():
        head, colon, uses = line.partition(":")
        name, *kind = head.split()
        if colon and line[0] != "#" and name.startswith(("tera_", "uses")) or name == "tera" and colon:
            found.append(Crate(name, uses.split(), " ".join(kind)))
    return found


def module_of(crate: str, path: str, folder: str) -> str:
    """The name by which a file of specs/ or proofs/ is imported."""
    inner = path.removeprefix(f"crates/{crate}/{folder}/").removesuffix(".antt")
    return f"Rattle.{crate}.{folder}.{inner.replace('/', '.')}"


def read_edit(path: str) -> Edit:
    text = read(path)
    changes = tuple(re.findall(r"(?m)^old: (.*)\nnew: ?(.*)$", text))
    goals = tuple(re.findall(r"(?m)^goal: (\S+)", text))
    return Edit(path, "".join(re.findall(r"(?m)^file: (\S+)", text)[:1]), changes, goals)


def passed_on(module: str, text: str) -> list[Passed]:
    """What a file gives out of other crates by `pub use`."""
    found = []
    for crate, path, names, other in re.findall(r"(?m)^pub use (tera_\w+)(?:::([\w:]+))?(?:::\{([^}]*)\})?(?: as (\w+))?;", text):
        if names:
            found += [Passed(module, it, crate, f"{path}::{it}" if path else it) for it in re.findall(r"\w+", names)]
        else:
            found.append(Passed(module, other or path.rpartition("::")[2], crate, path))
    return found


def read_crate(crate: Crate) -> None:
    """Fills in the items and the definitions of a crate."""
    root = f"crates/{crate.name}"
    texts = {}
    for path in below(f"{root}/src", ".rt"):
        module = path.removeprefix(f"{root}/src/").removesuffix(".rt").replace("/", "::")
        texts["" if module in ("lib", "main") else module] = (path, read(path))
    head = texts[""][1]
    crate.comment = "\n".join(it.removeprefix("//!").strip() for it in head.split("\n") if it.startswith("//!"))
    is_program = texts[""][0].endswith("main.rt")
    crate.kind = crate.kind or ("program" if is_program else "library")
    crate.items = code.read_crate(crate.name, texts, is_program or crate.name == "uses")
    crate.passed = [it for module in sorted(texts) for it in passed_on(module, texts[module][1])]
    for path in below(f"{root}/specs", ".antt"):
        crate.modules.append(specs.read_specs(crate.name, module_of(crate.name, path, "specs"), path, read(path)))
    for path in below(f"{root}/proofs", ".antt"):
        if re.fullmatch(rf"{root}/proofs/\w*Laws\.antt", path):
            name = module_of(crate.name, path, "proofs")
            crate.modules.append(specs.read_specs(crate.name, name, path, read(path)))


def attach_edits(crate: Crate) -> list[str]:
    """Hands each wrong body to its function, and answers those of none."""
    homes: dict[str, list[Item]] = {}
    for it in crate.items:
        if it.kind == "fn":
            homes.setdefault(code.folder_of(it), []).append(it)
    laws = {it.name: it for it in crate.items if it.kind == "fn"}
    lost = []
    for path in below(f"crates/{crate.name}/wrong", ".edit"):
        edit = read_edit(path)
        folder = os.path.dirname(path).partition("/wrong/")[2]
        found = homes.get(folder) or [laws[name] for name in [folder.rpartition("/")[2].rpartition(".")[2]] if name in laws]
        for it in found[:1]:
            it.wrong.append(edit)
        if not found:
            lost.append(path)
    return lost


def attach_definitions(crate: Crate) -> None:
    """Hands each edit of a definition to that definition too."""
    bodies = {it: re.sub(r"\s+", " ", it.text) for module in crate.modules for it in module.definitions}
    for path in [*below(f"crates/{crate.name}/must-fail", ".edit"), *below(f"crates/{crate.name}/wrong/specs", ".edit")]:
        edit = read_edit(path)
        for it, text in bodies.items():
            is_there = it.path == f"crates/{crate.name}/{edit.file}"
            if is_there and any(re.sub(r"\s+", " ", old).strip() in text for old, _ in edit.changes):
                it.wrong.append(edit)


class Repository:
    """All crates, and what can be looked up in them by its name."""

    def __init__(self) -> None:
        self.crates = crates_listed()
        self.lost_edits: list[str] = []
        for crate in self.crates:
            read_crate(crate)
            self.lost_edits += attach_edits(crate)
            attach_definitions(crate)
        self.items = [it for crate in self.crates for it in crate.items]
        self.by_name = {it.full_name: it for it in self.items}
        self.modules = {it.name: it for crate in self.crates for it in crate.modules}
        self.definitions: dict[tuple[str, str], Definition] = {}
        self.parts: dict[tuple[str, str], Definition] = {}
        for module in self.modules.values():
            for it in module.definitions:
                self.definitions[module.name, it.name] = it
                if it.kind == "data":
                    self.parts.update(((module.name, part), it) for part in it.parts)

    def crate(self, name: str) -> Crate:
        return next(it for it in self.crates if it.name == name)

    def type_of(self, crate: str, name: str) -> Item | None:
        """The type or the trait of that name which a crate declares."""
        kinds = ("struct", "enum", "trait", "type")
        return next((it for it in self.items if it.crate == crate and it.name == name and it.kind in kinds), None)
