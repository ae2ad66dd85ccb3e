"""The files beside the packages: their sums, and what each was proved with."""
from __future__ import annotations

import hashlib
import os
import shutil
import subprocess
from typing import Dict, List

from tools.packages.given import TOP, Given, read, write

# what `./check` leaves: the commit that it was of, and its last line
GATE = f"{TOP}/out/checked"


def sum_of(path: str) -> str:
    """The sum of a file, by SHA-256."""
    with open(path, "rb") as file:
        return hashlib.sha256(file.read()).hexdigest()


def said(*words: str) -> str:
    """What a command says in one line, or nothing where it fails or is not there."""
    if not shutil.which(words[0]):
        return ""
    return subprocess.run(words, cwd=TOP, stdin=subprocess.DEVNULL, capture_output=True, text=True).stdout.strip()


def commit() -> str:
    """The commit that stands here, with a word where files were changed since."""
    return said("git", "describe", "--always", "--dirty=-changed", "--abbrev=40", "--exclude=*") or "no-commit"


def gate() -> str:
    """The last line of the gate that was run here, and of which commit."""
    if not os.path.exists(GATE):
        return "not run here"
    of, _, line = read(GATE).strip().partition(" ")
    return f"{line}{'' if of == commit() else f', of the commit {of}'}"


def proved_with(given: Given, names: List[str]) -> str:
    """What the packages were proved with, for a person to read."""
    rows: Dict[str, str] = {
        "version": given.version, "commit": commit(), "kit": said("rt", "version") or "not here", "gate": gate(),
        "libtera.a": sum_of(f"{given.library}/libtera.a"), "libtera.so": sum_of(f"{given.library}/libtera.so"),
        "tera": f"{sum_of(given.program)} ({os.path.basename(given.program)})"}
    head = "What these packages were proved with, and the sums (SHA-256) of the library and the program in them.\n"
    return "\n".join([head, *(f"{name}: {row}" for name, row in rows.items()), "", *sorted(names), ""])


def make(given: Given, to: str, names: List[str]) -> List[str]:
    """Writes both files, and returns their names."""
    write(f"{to}/PROVED", proved_with(given, names))
    listed = sorted([*names, "PROVED"])
    write(f"{to}/SHA256SUMS", "".join(f"{sum_of(f'{to}/{name}')}  {name}\n" for name in listed))
    return ["PROVED", "SHA256SUMS"]
