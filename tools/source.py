"""Reads files of src/: their functions, with what stands around them, their clauses, and how the prover names them."""
from __future__ import annotations

import pathlib
import re
from typing import Dict, Iterator, List, NamedTuple, Optional, Tuple

FUNCTION = re.compile(r'(?m)^( *)(pub(?:\([^)]*\))? )?(?:const )?(?:unsafe )?(?:extern \S+ )?fn (\w+)')
BLOCK = re.compile(r"(?m)^(?:pub(?:\([^)]*\))? )?(?:unsafe )?((?:impl|trait)\b[^{;]*)\{")
MACRO = re.compile(r"(?m)^macro_rules! \w+ \{")
CLAUSE = re.compile(r"(requires|ensures\*?|ensures|decreases)\s*([\w']*)\s*\{")
IMPL = re.compile(r"impl(<(?:[^<>]|<[^<>]*>)*>)? (?:(.*) for )?(.*)")
USE = re.compile(r"(?m)^ *(?:ghost )?(?:pub )?use (\w+\.[\w.]+?)(?:\.\{([^}]*)\})?(?: as (\w+))?;?$")
HIDDEN = re.compile(r'//[^\n]*|"(?:[^"\\]|\\[\s\S])*"|\'(?:[^\'\\\n]|\\[^\'\n]+)\'')
ATTRIBUTES = re.compile(r"(?:^ *(?:#\[.*|//.*)\n)*\Z", re.MULTILINE)

Imports = Dict[str, Tuple[str, Optional[str]]]  # of each name the crate and file, and the name there
Clause = Tuple[str, str]  # its word and name, and what it says


class Function(NamedTuple):
    """A function: the header of the impl or trait around it, its name, whether others may call it, its signature and clauses;
    and the places where its attributes begin, where it begins itself, where its body does, and where it ends."""

    block: str
    name: str
    is_public: bool
    signature: str
    clauses: List[Clause]
    top: int
    start: int
    body: int
    end: int

    @property
    def path(self) -> str:
        """Its name as the prover spells it, with its type and trait: 'Value::format', 'ValueFromU8::from'."""
        return f"{block_of(self.block)[0]}::{self.name}" if self.block else self.name

    @property
    def is_of_trait(self) -> bool:
        """Whether it stands in a trait, or in an impl of one."""
        return bool(self.block) and block_of(self.block)[1]


def read(path: str) -> str:
    """The text of a file."""
    return pathlib.Path(path).read_text(encoding="utf-8")


def flat(text: str) -> str:
    """The text on one line."""
    return re.sub(r"\s+", " ", text).strip()


def masked(text: str) -> str:
    """The text with comments and what quotes hold blanked, each place where it was."""
    return HIDDEN.sub(lambda it: re.sub(r"[^\n]", " " if it[0][0] == "/" else "_", it[0]), text)


def end_of(text: str, at: int, pairs: str = "{}") -> int:
    """The place behind the bracket that closes the one at this place."""
    depth = 0
    for place in re.finditer(f"[{re.escape(pairs)}]", text[at:]):
        depth += 1 if place[0] == pairs[0] else -1
        if depth == 0:
            return at + place.end()
    return len(text)


def imports_of(text: str) -> Imports:
    """Where the names that a file imports come from."""
    found: Imports = {}
    for path, names, called in USE.findall(text):
        for name, _, other in (it.partition(" as ") for it in map(str.strip, names.split(",")) if it):
            found[other or name] = (path, name)
        if not names:
            found[called or path.rpartition(".")[2]] = (path, None)
    return found


def clauses_at(text: str, mask: str, at: int) -> Tuple[List[Clause], int, int]:
    """The clauses behind a function's parameters, where they begin, and where its body does."""
    clauses: List[Clause] = []
    first = 0
    while at < len(mask) and mask[at] not in "{;":
        clause = CLAUSE.match(mask, at)
        if clause:
            first, at = first or at, end_of(mask, clause.end() - 1)
            clauses.append((f"{clause[1]} {clause[2]}".strip(), flat(text[clause.end() : at - 1])))
        else:
            at = end_of(mask, at, "[]") if mask[at] == "[" else at + 1
    return clauses, first or at, at


def functions_of(text: str) -> Iterator[Function]:
    """The functions of a file, but those that a macro writes."""
    mask = masked(text)
    macros = [range(it.start(), end_of(mask, it.end() - 1)) for it in MACRO.finditer(mask)]
    blocks = [(range(it.start(), end_of(mask, it.end() - 1)), flat(text[it.start(1) : it.end(1)])) for it in BLOCK.finditer(mask)]
    for head in FUNCTION.finditer(mask):
        start = head.start()
        if any(start in macro for macro in macros):
            continue
        block = next((header for place, header in blocks if start in place), "")
        clauses, behind, body = clauses_at(text, mask, end_of(mask, mask.index("(", head.end()), "()"))
        end = end_of(mask, body) if mask[body : body + 1] == "{" else body + 1
        above = ATTRIBUTES.search(text, 0, start)
        is_public = head[2] == "pub " or bool(block) and block_of(block)[1]
        yield Function(block, head[3], is_public, flat(text[start:behind]), clauses, above.start() if above else start, start, body, end)


def spelled(kind: str, parameters: List[str], joint: str = "") -> str:
    """A type as the prover spells it in an impl's name: 'FmtFormatter' of 'fmt::Formatter<W>', 'RefStr' of '&str',
    'ResultError' of 'Result<T, Error>'. Parameters and lifetimes behind the name are left out."""
    name, _, behind = kind.partition("<")
    bare = re.sub(r"'\w+|\bmut ", "", name).strip()
    if bare in parameters or bare == "()":
        return "Unit" if bare == "()" else "Any"
    words = [it for it in re.findall(r"&|\[|\w+", bare) if it not in ("crate", "self", "super")]
    own = "".join({"&": "Ref", "[": "Slice"}.get(it) or it[0].upper() + it[1:] for it in words)
    return joint.join([own, *arguments(behind, parameters)])


def arguments(behind: str, parameters: List[str]) -> List[str]:
    """The types between a name's angle brackets, as the prover spells them."""
    given = re.sub("<.*>", "", behind.strip().removesuffix(">")).split(",")
    return [spelled(it, parameters) for it in map(str.strip, given) if it not in ("", "'_", *parameters) and it[0] != "'"]


def block_of(header: str) -> Tuple[str, bool]:
    """A trait's or an impl's name as the prover spells it, and whether a trait's functions stand in it."""
    if not header.startswith("impl"):
        return "".join(re.findall(r"trait (\w+)", header)[:1]), True
    found = IMPL.match(header.replace("->", "").split(" where ")[0])
    generics, trait, kind = [part or "" for part in found.groups()] if found else ["", "", ""]
    parameters = re.findall(r"[<,] ?(\w+)(?=[:,>])", generics)
    name, _, behind = trait.partition("<")
    own = spelled(kind, parameters, "" if trait else "+")
    # a trait's argument that is the type itself is left out too
    return "".join([own, name.split("::")[-1], *(it for it in arguments(behind, parameters) if it != own)]), bool(trait)
