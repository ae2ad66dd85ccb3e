"""The wheel and its source twin, from bindings/python."""
from __future__ import annotations

import os
from typing import List

from tools.packages.given import TOP, Failed, Given, copy, python_with

FILES = ("pyproject.toml", "setup.py", "MANIFEST.in", "README.md")
# the module, a package of Python
MODULE = f"{TOP}/bindings/python/tera"
# how the build's own program makes one of the two, without an index
MAKES = "import sys; from setuptools import build_meta; print(build_meta.build_{0}(sys.argv[1]))"


def lay_out_module(folder: str) -> None:
    """Lays out the module."""
    for name in sorted(os.listdir(MODULE)):
        if name.endswith((".py", ".typed")):
            copy(f"{MODULE}/{name}", f"{folder}/{name}")


def lay_out(given: Given, folder: str) -> None:
    """Lays out the source of the package: the module, the archive and what links it."""
    for name in FILES:
        copy(f"{TOP}/bindings/python/{name}", f"{folder}/{name}")
    lay_out_module(f"{folder}/tera")
    copy(f"{TOP}/bindings/link.py", f"{folder}/link.py")
    copy(f"{TOP}/LICENSE", f"{folder}/LICENSE")
    for name in ("libtera.a", "tera.h"):
        copy(f"{given.library}/{name}", f"{folder}/{name}")


def lacks() -> str:
    """What it needs and is not here, or nothing."""
    return "" if python_with("setuptools", "wheel") else "Debian's python3-setuptools and python3-wheel"


def make(given: Given, to: str) -> List[str]:
    """Makes the source package, and the wheel out of what that holds; returns their names."""
    python = python_with("setuptools", "wheel")
    if python is None:
        raise Failed(f"it needs {lacks()}")
    folder = f"{given.work}/python"
    lay_out(given, folder)
    source = given.run([python, "-c", MAKES.format("sdist"), to], folder).split()[-1]
    unpacked = f"{given.work}/unpacked"
    os.makedirs(unpacked)
    given.run(["tar", "-xf", f"{to}/{source}", "--strip-components=1", "-C", unpacked], TOP)
    wheel = given.run([python, "-c", MAKES.format("wheel"), to], unpacked).split()[-1]
    return [wheel, source]
