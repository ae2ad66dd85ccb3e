"""Reads files of src/: functions with their clauses, types, traits and macros."""
from __future__ import annotations

import re

from source import CLAUSE, block_of, end_of, flat, imports_of

from .model import Block, Clause, Imports, Item

FUNCTION = re.compile(r'(?m)^( *)(pub(?:\([^)]*\))? )?(?:const )?(?:unsafe )?(?:extern \S+ )?fn (\w+)')
BLOCK = re.compile(r"(?m)^(?:pub(?:\([^)]*\))? )?(?:unsafe )?((?:impl|trait)\b[^{;]*)\{")
TYPE = re.compile(r"(?m)^(pub(?:\([^)]*\))? )?(struct|enum|type|const|trait) (\w+)")
MACRO = re.compile(r"(?m)^#\[macro_export\]\s*macro_rules! (\w+)")
GHOST = re.compile(r"(?m)^ +ghost (\w+) ?[:=] \{")
HIDDEN = re.compile(r'//[^\n]*|"(?:[^"\\]|\\.)*"|\'(?:[^\'\\\n]|\\[^\'\n]+)\'')


def masked(text: str) -> str:
    """The text with comments and what quotes hold blanked, each place where it was."""
    return HIDDEN.sub(lambda it: re.sub(r"[^\n]", " " if it[0][0] == "/" else "_", it[0]), text)


def comment_above(text: str, at: int) -> str:
    """The documentation that ends above the line of a place."""
    lines = text[:at].split("\n")[:-1]
    found: list[str] = []
    for line in map(str.strip, reversed(lines)):
        if line.startswith("//"):
            found.append(line.lstrip("/").removeprefix("!").removeprefix(" "))
        elif not line.startswith("#[") or found:
            break
    return "\n".join(reversed(found))


def plain_type(text: str) -> str:
    """A type without lifetimes: `&[Value]` of `&'k [Value]`."""
    bare = re.sub(r"'\w+ ?", "", re.sub(r"<(?:'\w+)(?:, )?", "<", text)).replace("<>", "")
    return re.sub(r"^(?:\w+::)+", "", bare.split(" where ")[0].strip())


def owner_and_trait(head: str) -> tuple[str, str]:
    """The type and the trait of a block: `('Value', 'PartialEq')` of `impl PartialEq for Value`."""
    if head.startswith("trait"):
        return "", re.search(r"trait (\w+)", head)[1]  # type: ignore[index]
    bare = re.sub(r"^impl(<(?:[^<>]|<[^<>]*>)*>)? ", "", head)
    trait, _, owner = bare.rpartition(" for ")
    return plain_type(owner), plain_type(trait)


def blocks_of(text: str, mask: str) -> list[Block]:
    """The blocks of a file, each with its ghost members."""
    found = []
    for it in BLOCK.finditer(mask):
        end = end_of(mask, it.end() - 1)
        head = flat(text[it.start(1) : it.end(1)])
        owner, trait = owner_and_trait(head)
        ghosts = []
        for member in GHOST.finditer(mask, it.end(), end):
            close = end_of(mask, member.end() - 1)
            ghosts.append(Clause("ghost", member[1], text[member.end() : close - 1].strip()))
        line = text.count("\n", 0, it.start()) + 1
        found.append(Block(head, owner, trait, comment_above(text, it.start()), ghosts, it.start(), end, line))
    return found


def contract_at(text: str, mask: str, at: int) -> tuple[list[Clause], int, int]:
    """The clauses behind a function's parameters, where they begin, and where its body does."""
    clauses, first = [], 0
    while at < len(text) and mask[at] not in "{;":
        clause = CLAUSE.match(mask, at)
        if clause:
            first, at = first or at, end_of(mask, clause.end() - 1)
            clauses.append(Clause(clause[1], clause[2], text[clause.end() : at - 1].strip()))
        else:
            at += 1
    return clauses, first or at, at


def function_at(text: str, mask: str, found: re.Match[str]) -> tuple[str, list[Clause], str]:
    """The signature of a function, its clauses and its body."""
    clauses, behind, body = contract_at(text, mask, end_of(mask, mask.index("(", found.end()), "()"))
    lines = text[found.start() : behind].rstrip().split("\n")
    signature = "\n".join(it.removeprefix(found[1]) for it in lines)
    return signature, clauses, text[body : end_of(mask, body)] if mask[body : body + 1] == "{" else ""


def bare_blocks(blocks: list[Block], items: list[Item], place: tuple[str, str, str], imports: Imports) -> list[Item]:
    """The impls that have ghost members alone, as `impl Eq`."""
    crate, path, module = place
    found = []
    for it in blocks:
        if not it.is_trait and it.ghosts and not any(item.block is it for item in items):
            item = Item(crate, path, it.line, module, re.sub(r"\W.*", "", it.trait), "impl", it.head, it.comment, [], imports, it)
            item.said_public = True
            found.append(item)
    return found


def functions_of(text: str, mask: str, place: tuple[str, str, str], imports: Imports) -> list[Item]:
    blocks, found = blocks_of(text, mask), []
    crate, path, module = place
    for it in FUNCTION.finditer(mask):
        signature, clauses, body = function_at(text, mask, it)
        around = [block for block in blocks if block.start < it.start() < block.end]
        line = text.count("\n", 0, it.start()) + 1
        item = Item(crate, path, line, module, it[3], "fn", signature, comment_above(text, it.start()), clauses, imports)
        item.block, item.body = around[-1] if around else None, body
        item.said_public = it[2] == "pub " or bool(around and around[-1].trait)
        item.is_law = body == "{}" and not around and signature.endswith("()")
        found.append(item)
    return found + bare_blocks(blocks, found, place, imports)


def types_of(text: str, mask: str, place: tuple[str, str, str], imports: Imports) -> list[Item]:
    """The types, traits, constants and macros of a file, with what they declare."""
    crate, path, module = place
    found = []
    for it in [*TYPE.finditer(mask), *MACRO.finditer(mask)]:
        is_macro = it.re is MACRO
        end = re.compile(r"[;{]").search(mask, it.end()).start()  # type: ignore[union-attr]
        if mask[end] == "{":
            end = it.end() if is_macro or it[2] == "trait" else end_of(mask, end) - 1
        name, kind = (it[1], "macro") if is_macro else (it[3], it[2])
        start = it.end() - len(name) - len("macro_rules! ") if is_macro else it.start()
        line = text.count("\n", 0, start) + 1
        said, comment = text[start : end + 1].rstrip("; {"), comment_above(text, it.start())
        item = Item(crate, path, line, module, name, kind, said, comment, [], imports)
        item.said_public = is_macro or it[1] == "pub "
        found.append(item)
    return found


def public_names(texts: dict[str, str]) -> tuple[set[str], set[str]]:
    """The public modules of a crate, and the names that it gives out, by the text of each of its modules."""
    modules, left = set(), [""]
    while left:
        module = left.pop()
        modules.add(module)
        inner = re.findall(r"(?m)^pub mod (\w+)", texts.get(module, ""))
        left += [f"{module}::{it}" if module else it for it in inner]
    names: set[str] = set()
    for module in modules & set(texts):
        for given in re.findall(r"(?ms)^pub use ([^;]*);", texts[module]):
            names.update(re.findall(r"\w+", given))
    return modules, names


def mark_public(items: list[Item], modules: set[str], names: set[str]) -> None:
    """Marks what a caller of the crate can name."""
    homes = {it.name: it for it in items if it.kind in ("struct", "enum", "trait", "type")}

    def is_seen(name: str) -> bool:
        home = homes.get(re.sub(r"<.*", "", name))
        return home is None or home.said_public and (home.module in modules or home.name in names)

    for it in items:
        if it.block:
            it.is_public = it.said_public and is_seen(it.block.owner) and is_seen(it.block.trait)
        else:
            # what C calls is reached by its name, whatever its module
            is_named = it.kind == "macro" or it.signature.startswith("pub extern ")
            it.is_public = it.said_public and (is_named or it.module in modules or it.name in names)


def set_anchors(items: list[Item], modules: set[str]) -> None:
    """Gives each item a name of its own on the page of its crate."""
    taken: set[str] = set()
    for it in sorted(items, key=lambda it: not it.is_public):
        around = [it.block.owner, it.block.trait] if it.block else [it.module if it.module in modules else ""]
        parts = [*filter(None, around), *([] if it.kind == "impl" else [it.name])]
        parts = [part.replace("::", ".") if not it.block else part for part in parts]
        anchor = ".".join(re.sub(r"[^\w.]+", "-", part.replace("()", "unit")).strip("-") for part in parts)
        number = 2
        while anchor in taken:
            anchor, number = f"{anchor}-{number}", number + 1
        taken.add(anchor)
        it.anchor = anchor


def read_crate(crate: str, texts: dict[str, tuple[str, str]], is_all_shown: bool) -> list[Item]:
    """All items of a crate, by the path and the text of each of its modules. Of a program, and of examples, all is shown."""
    items: list[Item] = []
    for module, (path, text) in texts.items():
        mask, imports = masked(text), imports_of(text)
        place = (crate, path, module)
        items += types_of(text, mask, place, imports) + functions_of(text, mask, place, imports)
    modules, names = public_names({module: text for module, (_, text) in texts.items()})
    mark_public(items, modules, names)
    if is_all_shown:
        for it in items:
            it.is_public = it.is_public or it.kind in ("fn", "trait")
    set_anchors(items, modules)
    return items


def folder_of(item: Item) -> str:
    """Where the wrong bodies of a function stand, below wrong/: as the prover spells it."""
    file = item.path.partition("/src/")[2].removesuffix(".rt")
    return f"{file}/{block_of(item.block.head)[0]}.{item.name}" if item.block else f"{file}/{item.name}"
