"""The wrong bodies crates/NAME/wrong/SUBJECT/FUNCTION/EDIT.edit, and the functions of which they are, as the prover names these."""
from __future__ import annotations

import functools
import glob
import os
import re

from tools import kit
from tools.source import Function, functions_of, read

CUT = "unreachable!()"  # what stands where a body is cut off
CYCLE = re.compile(r" *#\[cycle\((\w+)\)\]\n")
# what an edit's file is made of
PART = re.compile(r"(?m)^(?:(file|only): (\S+)|goal: (\S+)|old: (.*)\nnew: ?(.*))(?:\n|\Z)")


class Home:
    """Where a function stands: its crate's folder, its file, and itself; and how the prover names it."""

    def __init__(self, crate: str, file: str, text: str, function: Function) -> None:
        self.crate, self.file, self.text, self.function = crate, file, text, function
        kind = function.path.rpartition("::")[0]
        # the path of a type's own begins with the type's module, maybe another than the file's
        is_inherent = bool(kind) and not function.is_of_trait
        before = "".join(f"{it}::" for it in modules_of(file))
        # its path for `--only`, or the end of it, and what the prover tells before that
        self.path = function.path if is_inherent else before + function.path
        self.before = r"(?:\w+::)*" if is_inherent else before
        # the folder of its proof by hand, and that of its cycle of calls, where it is in one
        modules = modules_of(declared(kind, crate) if is_inherent else file)
        self.folder = "/".join(["proofs", *modules, *filter(None, [kind]), function.name])
        self.attributes = text[function.top : function.start]
        self.named_cycle = "".join(CYCLE.findall(self.attributes)[:1])
        above, cycle = os.path.dirname(self.folder), f"+{self.named_cycle or function.name}"
        places = [f"{above}/{cycle}", *([f"proofs/**/{cycle}"] if self.named_cycle else [])]
        found = [it for place in places for it in glob.glob(place, root_dir=crate, recursive=True)]
        self.cycle, self.is_in_cycle = "".join(found[:1]), bool(found or self.named_cycle)
        # an impl of a trait takes no other function
        self.can_be_copied = not function.is_of_trait and bool(self.cycle or not self.named_cycle)

    def told_as(self, suffix: str) -> re.Pattern[str]:
        """The pattern of the paths by which the prover tells of it, or of its copy, and of its closures."""
        tail = re.escape(self.function.path + suffix)
        return re.compile(rf"{self.before}(?:{tail}|fn::{tail}::.*)$")


def modules_of(file: str) -> list[str]:
    """The modules above a file's items."""
    parts = file.removeprefix("src/").removesuffix(".rt").split("/")
    return [it for it in parts if it not in ("", "lib", "main")]


@functools.cache
def declared(kind: str, crate: str) -> str:
    """The file in which a type is declared."""
    name = kind.partition("+")[0]
    head = re.compile(rf"(?m)^(?:pub(?:\([^)]*\))? )?(?:struct|enum) {name}\b")
    return next((file for file, text in sources(crate).items() if head.search(text)), "")


@functools.cache
def sources(crate: str) -> dict[str, str]:
    """The files of a crate's code."""
    paths = sorted(glob.glob("src/**/*.*", root_dir=crate, recursive=True))
    return {it: read(f"{crate}/{it}") for it in paths}


@functools.cache
def homes(crate: str) -> list[Home]:
    """The functions of a crate."""
    files = sources(crate).items()
    return [Home(crate, file, text, it) for file, text in files for it in functions_of(text)]


class Edit:
    """A wrong body: what it changes of its function, or of a definition that its function, a law, stands on."""

    def __init__(self, path: str, crate: kit.Crate) -> None:
        self.path, self.text = path.removesuffix(".edit"), read(f"{crate.folder}/wrong/{path}")
        self.name, parts = f"{crate.name}/{self.path}", list(PART.finditer(self.text))
        files, only = ([it[2] for it in parts if it[1] == word] for word in ("file", "only"))
        self.file, self.is_of_law = "".join(files[:1]), bool(only)
        self.goals = [it[3] for it in parts if it[3]]  # that it leaves open
        # that its cut is never reached is a goal of no contract
        cut = f"{{ #[tactic(none)] {CUT} }}"
        self.changes = [(it[4], it[5].replace(CUT, cut)) for it in parts if it[4]]
        subject, _, name = os.path.dirname(self.path).rpartition("/")
        path = only[0] if only else name.replace(".", "::")
        self.homes = [it for it in homes(crate.folder) if f"::{path}".endswith(f"::{it.function.path}")
                      and (only or it.file == self.file)]
        unread = PART.sub("", self.text).splitlines() or files[1:] or only[1:]
        stem = os.path.splitext(self.file.removeprefix("src/"))[0]
        if unread or not self.changes:
            self.fault = f"this of it is not read: {unread[0]}" if unread else "it changes nothing"
        elif subject != stem or path.split("::")[-1] != name.split(".")[-1]:
            self.fault = f"it belongs into {stem}/{path.replace('::', '.')}"
        elif not self.homes:
            self.fault = f"{self.file} has no function {name}"
        else:
            own, text = self.home.function, read(f"{crate.folder}/{self.file}")
            text = text if self.is_of_law else text[own.top : own.end]
            counts = {old: text.count(old) for old, _ in self.changes}
            told = [f"this stands {many} times there: {old}" for old, many in counts.items() if many != 1]
            self.fault = "".join(told[:1])

    @property
    def home(self) -> Home:
        """Its function, or the law that it makes false."""
        return self.homes[0]


def edits_below(crate: kit.Crate) -> list[Edit]:
    """The edits of a crate, in order."""
    paths = glob.glob("**/*.edit", root_dir=f"{crate.folder}/wrong", recursive=True)
    return [Edit(it, crate) for it in sorted(paths)]
