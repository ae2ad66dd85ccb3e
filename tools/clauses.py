#!/usr/bin/env python3
"""Lists what the libraries promise: each public function with its clauses, and the definitions that these cite.

    tools/clauses.py              prints the list
    tools/clauses.py --since REV  prints what has changed since a revision of git: clauses that went, came or changed,
                                  and the definitions cited by public clauses, through whatever others, that did

A public function is one that is `pub`, in whatever module, or that a trait asks for. Blanks and line breaks do not count,
nor does the file that a function or a definition stands in, so that what only moves is no change.
"""
import glob
import os
import re
import subprocess
import sys
import tempfile
from collections.abc import Iterator

sys.dont_write_bytecode = True  # no folder beside the sources
TOP = os.path.dirname(os.path.dirname(os.path.abspath(__file__)))
sys.path.insert(0, TOP)
from tools import parser
from tools.source import Function, Imports, flat, functions_of, imports_of, read

WORD = re.compile(r"[^\W\d][\w'-]*|◌[^\s.,{}()]*◌?")
DEFINITION = re.compile(
    r"(?m)^( {0,2})(?:abbrev |unfoldable |pattern )*(?:pub )?(?:abbrev |unfoldable |pattern )*"
    r"(data |record |mutual)?([^\W\d][\w'-]*)(?: .*?)? :(?= |$)")

Place = tuple[str, str]  # the file of a definition, as it is imported, and its name
Told = dict[str, dict[str, str]]  # of functions and definitions what each clause says


def definitions_in(text: str) -> Iterator[tuple[str, str]]:
    """Each definition of a file of specs: its name, and its text on one line."""
    bare = re.sub(r"(?m)^\s*--.*$|\s--\s.*$", "", text)
    heads = list[re.Match[str]]()
    for head in DEFINITION.finditer(bare):
        # the fields of a record, and the constructors of a type, are its own text
        if not (heads and heads[-1][2] in ("record ", "data ") and len(head[1]) > len(heads[-1][1])):
            heads.append(head)
    for head, end in zip(heads, [head.start() for head in heads[1:]] + [len(bare)]):
        yield head[3], flat(bare[head.start() : end].removesuffix("abbrev mutual"))


def named(text: str, imports: Imports, module: str | None) -> Iterator[Place]:
    """Where the words of a text may be defined: in what is imported, or in the text's own file."""
    for word in set(WORD.findall(text)):
        path, name = imports.get(word, (module, word))
        if path and name:
            yield path, name
        elif path:
            yield from ((path, inner) for inner in re.findall(rf"\b{word}\.([\w']+)", text))


class Repository:
    """The public functions and the definitions of a repository's libraries."""

    def __init__(self, top: str) -> None:
        self.definitions: dict[Place, str] = {}
        self.imports: dict[str, Imports] = {}
        self.functions: dict[str, Function] = {}
        self.cited_by: list[Place] = []
        for path in sorted(glob.glob(f"{top}/crates/tera_*/s*/**/*.*", recursive=True)):
            names = os.path.relpath(path, f"{top}/crates").removesuffix(".antt").split("/")
            module, text = ".".join(["Rattle", *names]), read(path)
            self.imports[module] = imports_of(text)
            if names[1] == "specs":
                for name, said in definitions_in(text):
                    self.definitions[module, name] = said
            for function in functions_of(text) if names[1] == "src" else ():
                self.add(names[0], function, self.imports[module])

    def add(self, crate: str, function: Function, imports: Imports) -> None:
        """Adds a function, if others may call it, with the definitions that its clauses cite."""
        name = " · ".join(filter(None, [function.block, function.signature]))
        if function.is_public:
            # two crates may each have a function of that name and kind
            self.functions[name if name not in self.functions else f"{crate} · {name}"] = function
            self.cited_by += named(" ".join(text for _, text in function.clauses), imports, None)

    def cited(self) -> dict[Place, str]:
        """The definitions that public clauses cite, through whatever others."""
        found: dict[Place, str] = {}
        left = [*self.cited_by]
        while left:
            place = left.pop()
            if place in self.definitions and place not in found:
                found[place] = self.definitions[place]
                left += named(found[place], self.imports[place[0]], place[0])
        return found

    def told(self) -> Told:
        """What is promised: of each function its clauses, and of each cited definition its text."""
        found = {name: dict(it.clauses) for name, it in sorted(self.functions.items())}
        for (module, name), text in sorted(self.cited().items()):
            title = f"definition {name}"
            found[title if title not in found else f"{title} of {module}"] = {"is": text}
        return found


def listed(told: Told) -> Iterator[str]:
    """The list, line by line."""
    for name, clauses in told.items():
        yield name
        yield from (f"    {head} {{ {text} }}" for head, text in clauses.items())


def changes(old: Told, new: Told) -> Iterator[str]:
    """What has changed, line by line."""
    for name in sorted({*old, *new}):
        before, after = old.get(name), new.get(name)
        if before is None or after is None:
            how = "came" if before is None else "went"
            yield from listed({f"{how}: {name}": before or after or {}})
            continue
        for head in dict.fromkeys([*before, *after]):
            was, now = before.get(head), after.get(head)
            if was != now:
                yield f"{name}\n  - {head} {{ {was} }}\n  + {head} {{ {now} }}"


def at_revision(revision: str) -> Repository:
    """The libraries at a revision of git."""
    with tempfile.TemporaryDirectory(prefix="clauses-") as room:
        words = ["git", "-C", TOP, "archive", revision, "crates"]
        made = subprocess.run(words, stdout=subprocess.PIPE, check=True)
        subprocess.run(["tar", "-x", "-C", room], input=made.stdout, check=True)
        return Repository(room)


def main() -> None:
    """Prints the list, or what has changed."""
    words = parser(__doc__)
    words.add_argument("--since", metavar="REV", help="a revision of git")
    given = words.parse_args()
    new = Repository(TOP).told()
    if given.since:
        lines = list(changes(at_revision(given.since).told(), new))
        print("\n".join([*lines, f"{len(lines)} changes"]))
    else:
        print("\n".join(listed(new)))


if __name__ == "__main__":
    main()
