"""All that the tools take of the kit beside its commands and what these are told to print, each with the reason.

`rt` is loaded as a module. tests/test_wrong_bodies.py says so where the kit has changed and this no longer fits.
"""
from __future__ import annotations

import functools
import os
import runpy
import shutil
import sys
import types
from typing import Any

# What is taken here of `rt`, of the module beside it that its commands share, and of its crates.
TAKEN = {
    "rt": ("processors", "free", "rtlib"),
    "rtlib": ("crates_below", "files_of", "guarded", "lock", "PARTS", "RATTLE"),
    "a crate": ("name", "folder", "rlib", "is_static", "below", "stamp", "words", "build_static")}
ROOM = 4_000_000_000  # the free memory, in bytes, that a check begins with


@functools.cache
def rt() -> Any:
    """The kit's `rt`, as a module."""
    path = os.path.realpath(shutil.which("rt") or "rt")
    sys.path.insert(0, os.path.dirname(path))
    return types.SimpleNamespace(**runpy.run_path(path, run_name="rt"))


def processors() -> int:
    """How many checks the gate would run side by side, of which no command tells."""
    return int(rt().processors())


def free() -> int:
    """The free memory in bytes, as the gate weighs it: under the limit of a container too."""
    return int(rt().free())


def lanes() -> int:
    """How many checks may run side by side: one a processor, or as many as the free memory has room for. `rt ci` looks at
    memory only where nobody tells it that number."""
    return max(1, min(processors(), free() // ROOM))


class Crate:
    """A crate of the repository, as the kit knows it."""

    def __init__(self, own: Any) -> None:
        # a static library is checked with all code below it, by which no edit is refused
        self.own = own
        own.is_static = False
        self.name, self.folder, self.library = str(own.name), str(own.folder), str(own.rlib)

    def below(self) -> list[Crate]:
        """The crates that it stands on, as the kit resolves them."""
        return [Crate(low) for low in self.own.below()]

    def stamp(self) -> str:
        """A sum of all that a verdict on it stands on, by which the gate tells whether one still holds."""
        return str(self.own.stamp())

    def folders(self) -> list[str]:
        """The folders that a check of it reads: those that a copy of it needs."""
        return [part for part in rt().rtlib.PARTS if os.path.isdir(f"{self.folder}/{part}")]

    def check(self, flags: list[str]) -> list[str]:
        """The words of a check of a copy of the crate, which no command checks."""
        # a copy declares a function of C's, which the crate does not
        words = [f"{it}never" if it == f"{self.name}=" else it for it in self.own.words(flags, keeps=False)]
        return [*rt().rtlib.guarded(), rt().rtlib.RATTLE, "check", *words]

    def is_current(self) -> bool:
        """Whether its library is there, and newer than what it is built from; no command asks that and proves nothing."""
        made_of = [*rt().rtlib.files_of(self.folder), *(low.library for low in self.below())]
        times = map(os.path.getmtime, made_of)  # asked once the library is there
        return os.path.isdir(self.library) and max(times) <= os.path.getmtime(self.library)

    def archive(self) -> bool:
        """Makes the static library over the libraries that the gate left; `rt lib` would prove the crate again."""
        os.makedirs(f"{self.folder}/out", exist_ok=True)
        self.own.is_static, self.own.out = True, sys.stderr
        self.own.held = rt().rtlib.lock([self.own])
        return not self.own.build_static(["--jobs", "1"])


def crates(top: str) -> dict[str, Crate]:
    """The crates of a repository by their names, lowest first."""
    rt().rtlib.guarded()
    return {str(own.name): Crate(own) for own in rt().rtlib.crates_below(top)}


def changes() -> list[str]:
    """Each part of the kit that is taken here and is there no more."""
    crate = rt().rtlib.Crate
    own = [*dir(crate), *crate.__init__.__code__.co_names]
    known = {"rt": dir(rt()), "rtlib": dir(rt().rtlib), "a crate": own}
    return [f"{it} has no {name}" for it in TAKEN for name in TAKEN[it] if name not in known[it]]
