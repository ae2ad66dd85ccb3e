"""What the packages are made of, and how a command is run for them."""
from __future__ import annotations

import os
import re
import shutil
import subprocess
import sys
from dataclasses import dataclass
from typing import Dict, List, Optional

TOP = os.path.dirname(os.path.dirname(os.path.dirname(os.path.abspath(__file__))))
# The crate whose program is installed as `tera`.
PROGRAM = "tera_cli"


class Failed(Exception):
    """Why a package is not made, in a line."""


@dataclass(frozen=True)
class Given:
    """The parts that are built: the folder of the library, and the program; a time for all files, in seconds; a folder to work in."""

    library: str
    program: str
    epoch: int
    work: str

    @property
    def version(self) -> str:
        """The version, as VERSION says it."""
        return read(f"{TOP}/VERSION").strip()

    @property
    def environment(self) -> Dict[str, str]:
        """The environment of the commands that make packages: one time for all files, and no index."""
        return dict(os.environ, SOURCE_DATE_EPOCH=str(self.epoch), PIP_NO_INDEX="1", CARGO_NET_OFFLINE="true")

    def run(self, words: List[str], folder: str) -> str:
        """What a command prints; it has to end with status 0."""
        done = subprocess.run(words, cwd=folder, env=self.environment, stdin=subprocess.DEVNULL, stdout=subprocess.PIPE,
                              stderr=subprocess.STDOUT, text=True, errors="replace")
        if done.returncode:
            raise Failed(f"`{' '.join(words)}` ended with status {done.returncode}:\n{done.stdout}")
        return done.stdout


def read(path: str) -> str:
    """The text of a file."""
    with open(path, encoding="utf-8") as file:
        return file.read()


def write(path: str, text: str) -> None:
    """Writes a file, with the folders above it."""
    os.makedirs(os.path.dirname(path), exist_ok=True)
    with open(path, "w", encoding="utf-8") as file:
        file.write(text)


def copy(source: str, to: str, mode: int = 0o644) -> None:
    """Copies a file, with the folders above it."""
    os.makedirs(os.path.dirname(to), exist_ok=True)
    shutil.copyfile(source, to)
    os.chmod(to, mode)


def filled(template: str, **words: str) -> str:
    """A template of bindings/, in which each @NAME@ is such a word."""
    return re.sub(r"@(\w+)@", lambda found: words[found[1]], read(f"{TOP}/bindings/{template}"))


def python_with(*modules: str) -> Optional[str]:
    """A Python that has these modules, of the one that runs this and of Debian's."""
    for python in (sys.executable, "/usr/bin/python3"):
        words = [python, "-c", f"import {', '.join(modules)}"]
        if os.path.exists(python) and subprocess.run(words, capture_output=True).returncode == 0:
            return python
    return None
