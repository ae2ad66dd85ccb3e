"""The text of a word of the kit, where the kit is there."""
from __future__ import annotations

import functools
import os
import re
import shutil

from source import imports_of

ROOTS = {"mathlib": "antt/port/mathlib/src", "lib": "antt/lib/src"}


def root() -> str:
    """The folder of the kit's sources, or nothing."""
    command = shutil.which("rt")
    folder = os.path.join(os.path.dirname(os.path.dirname(os.path.realpath(command))), "rattle") if command else ""
    return folder if os.path.isdir(folder) else ""


def file_of(module: str) -> str:
    first, *rest = module.split(".")
    if first == "Rattle":
        return f"{root()}/{'/'.join(rest)}.antt"
    return f"{root()}/{ROOTS[first]}/{'/'.join(rest)}.antt" if first in ROOTS else ""


@functools.cache
def text_at(path: str) -> str:
    if not os.path.isfile(path):
        return ""
    with open(path, encoding="utf-8") as it:
        return it.read()


def passed_on(module: str) -> str:
    """The module that another gives out under the same last name."""
    parent, _, last = module.rpartition(".")
    found = re.search(rf"(?m)^pub use (\S+\.{last})$", text_at(file_of(f"{parent}.Lib")) or text_at(file_of(parent)))
    return found[1] if found else ""


@functools.cache
def definition(module: str, name: str, depth: int = 0) -> str:
    """The lines of a definition, through whatever modules pass it on."""
    if depth > 6 or not root():
        return ""
    text = text_at(file_of(module))
    if not text:
        other = passed_on(module)
        return definition(other, name, depth + 1) if other else ""
    said = r"(?:(?:abbrev|unfoldable|pub|opaque|pattern) )*(?:data |record )?"
    head = re.compile(rf"(?m)^( *){said}{re.escape(name)}(?: [^\n]*?)?? :(?=\s)")
    found = head.search(text)
    if found:
        return lines_from(text, found.start(), len(found[1]), name)
    where = imports_of(text).get(name)
    return definition(where[0], where[1] or name, depth + 1) if where and where[0] != module else ""


def lines_from(text: str, at: int, indent: int, name: str) -> str:
    """A definition's lines: its head, what is indented below it, and the lines that begin with its name."""
    kept: list[str] = []
    sign = name.replace("◌", "").strip()
    for line in text[at:].split("\n"):
        own = line[indent:]
        if kept and (not own.strip() or not (own.startswith((" ", name + " ")) or "◌" in name and sign in own and "=" in own)):
            break
        kept.append(own)
    return "\n".join(kept[:24])


def text_of_word(paths: set[tuple[str, str]]) -> str:
    return next((found for path, name in sorted(paths) if (found := definition(path, name))), "")
