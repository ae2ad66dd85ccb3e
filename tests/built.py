#!/usr/bin/env python3
"""What tests stand on: the proved programs, the library for C, and the library that refuses memory.

    python3 tests/built.py library     makes out/libtera.a, out/libtera.so and out/tera.h, and prints their folder
    python3 tests/built.py program     makes the program that is installed as `tera`, and prints its path

Each is made where it is not there, or not newer than what it is made from, and else taken as it is. One test makes at a
time, and those beside it wait.
"""
from __future__ import annotations

import contextlib
import fcntl
import functools
import importlib.util
import os
import runpy
import shutil
import subprocess
import sys
import tempfile
import time
import unittest
from typing import Any, Callable, Iterator, Mapping, NamedTuple

sys.dont_write_bytecode = True  # no folder beside the sources
TOP = os.path.dirname(os.path.dirname(os.path.abspath(__file__)))
sys.path[:0] = [path for path in (TOP, f"{TOP}/bindings/python") if path not in sys.path]
sys.path.append(f"{TOP}/tools")  # where the pages' modules find what they read files with
from tools import kit, prove
from tools.packages.given import PROGRAM

# Debian's packages of commands that have another name
PACKAGES = {"cc": "gcc", "c++": "g++"}
# The library for C, and what it is made of.
MADE = ["libtera.a", "libtera.so", runpy.run_path(f"{TOP}/bindings/link.py")["SONAME"], "tera.h"]
MADE_OF = ["crates/tera_c/out/libtera_c.a", "include/tera.h", "bindings/build", "bindings/link.py"]
# What is no file of the repository.
NOT_OURS = ("out", ".git", ".qr", "__pycache__")
ROOM = tempfile.TemporaryDirectory(prefix="built-")


class NotMade(Exception):
    """What is not made, with the words of what was to make it."""


class Ran(NamedTuple):
    """What a program wrote, and its status."""

    out: bytes
    err: bytes
    status: int


class WithFolder(unittest.TestCase):
    """Files of a test, in a folder of its own."""

    def setUp(self) -> None:
        self.folder = tempfile.mkdtemp(prefix="test-")
        self.addCleanup(shutil.rmtree, self.folder, ignore_errors=True)

    def file(self, name: str, text: str) -> str:
        """Makes a file, with its line ends as they are given, and gives its path."""
        path = f"{self.folder}/{name}"
        with open(path, "w", encoding="utf-8", newline="") as file:
            file.write(text)
        return path


def ran(*words: str, **how: Any) -> subprocess.CompletedProcess[bytes]:
    """Runs a program in the repository's folder."""
    how = {"stdin": subprocess.DEVNULL, **how}
    return subprocess.run(words, capture_output=True, cwd=TOP, **how)


def heard(*words: str, given: bytes = b"", seconds: float = 600, env: Mapping[str, str] = {}) -> Ran:
    """What a program writes on a standard input, with more in its environment."""
    done = ran(*words, stdin=None, input=given, env={**os.environ, **env}, timeout=seconds)
    return Ran(done.stdout, done.stderr, done.returncode)


@contextlib.contextmanager
def alone() -> Iterator[None]:
    """Waits until no other test makes something. The lock ends with the process that holds it."""
    held = os.open(f"{TOP}/tests", os.O_RDONLY)
    try:
        fcntl.flock(held, fcntl.LOCK_EX)
        yield
    finally:
        os.close(held)


def install(*commands: str) -> bool:
    """Installs by apt-get those of these commands that are not there; says whether all are."""
    lacking = [PACKAGES.get(name, name) for name in commands if not shutil.which(name)]
    if lacking and shutil.which("apt-get"):
        with alone():
            ran("apt-get", "update", "-q")
            ran("apt-get", "install", "-q", "-y", *lacking)
    return all(map(shutil.which, commands))


def has_module(name: str, package: str) -> bool:
    """Whether Python has a module; where it lacks it, Debian's package is installed first."""
    if not importlib.util.find_spec(name) and shutil.which("apt-get"):
        with alone():
            ran("apt-get", "update", "-q")
            ran("apt-get", "install", "-q", "-y", package)
        importlib.invalidate_caches()
    return importlib.util.find_spec(name) is not None


def made(*words: str, env: Mapping[str, str] = {}) -> None:
    """Runs what makes something; a failure tells what it said."""
    done = heard(*words, seconds=7200, env=env)
    if done.status:
        said = (done.out + done.err).decode(errors="replace")
        raise NotMade(f"{' '.join(words)}: status {done.status}\n{said}")


def words_of(pid: int) -> list[str]:
    """The words of a process's command; none where it has ended."""
    with contextlib.suppress(OSError), open(f"/proc/{pid}/cmdline", encoding="utf-8", errors="replace") as file:
        return file.read().split("\0")[:-1]
    return []


def comes_true(seconds: float, holds: Callable[[], bool]) -> bool:
    """Whether it holds within so many seconds. Asks ten times a second."""
    until = time.monotonic() + seconds
    while time.monotonic() < until:
        if holds():
            return True
        time.sleep(0.1)
    return False


@functools.lru_cache(None)
def program(name: str) -> str:
    """The path of a crate's proved program."""
    path = f"{TOP}/crates/{name}/out/{name}"
    with alone():
        if not prove.is_fresh(path):
            made(sys.executable, f"{TOP}/tools/prove.py", name, "tests/built.py")
    return path


def installed_program() -> str:
    """The same of the program that is installed as `tera`."""
    return program(PROGRAM)


def is_library_made() -> bool:
    """Whether the library for C stands, newer than all that it is made from."""
    sources, files = [f"{TOP}/{path}" for path in MADE_OF], [f"{TOP}/out/{name}" for name in MADE]
    if not all(map(os.path.exists, [*sources, *files])):
        return False
    is_newest = max(map(os.path.getmtime, sources)) <= min(map(os.path.getmtime, files))
    return is_newest and prove.is_fresh(sources[0])


@functools.lru_cache(None)
def library() -> str:
    """The folder with the library for C as ./bindings/build makes it: libtera.a, libtera.so and tera.h."""
    install("cc", "c++", "valgrind")
    with alone():
        if not is_library_made():
            archive()
            made(f"{TOP}/bindings/build")
    return f"{TOP}/out"


def archive() -> None:
    """Makes the archive of tera_c where the gate left its libraries and no archive, so that nothing is proved twice."""
    crate = kit.crates(TOP)["tera_c"]
    is_there = prove.is_fresh(f"{crate.folder}/out/libtera_c.a")
    if not is_there and all(low.is_current() for low in crate.below()):
        crate.archive()


@functools.lru_cache(None)
def refusing() -> str:
    """The library that refuses memory (tests/refuse.c), which a program is told to load."""
    install("cc")
    made("cc", "-shared", "-fPIC", "-o", f"{ROOM.name}/refuse.so", f"{TOP}/tests/refuse.c", "-ldl")
    return f"{ROOM.name}/refuse.so"


def clone(to: str) -> str:
    """Copies the repository, without what was built in it."""
    return str(shutil.copytree(TOP, to, ignore=shutil.ignore_patterns(*NOT_OURS)))


def main() -> None:
    """Makes what the command line names."""
    makes = {"library": library, "program": installed_program}
    if len(sys.argv) != 2 or sys.argv[1] not in makes:
        sys.exit(f"built.py: it takes one of {', '.join(makes)}")
    try:
        print(makes[sys.argv[1]]())
    except NotMade as why:
        sys.exit(f"built.py: {why}")


if __name__ == "__main__":
    main()
