"""The crate, from bindings/rust."""
from __future__ import annotations

import glob
import os
import shutil
from typing import List

from tools.packages.given import TOP, Failed, Given, copy


def sources() -> List[str]:
    """The files of Rust, its examples and its tests."""
    found = (glob.glob(f"{TOP}/bindings/rust/{part}/*.rs") for part in ("src", "examples", "tests"))
    return sorted(os.path.relpath(path, f"{TOP}/bindings/rust") for paths in found for path in paths)


def lacks() -> str:
    """What it needs and is not here, or nothing."""
    return "" if shutil.which("cargo") else "`cargo`"


def make(given: Given, to: str) -> List[str]:
    """Makes the crate, which `cargo package` builds from what it packed; returns its name."""
    if lacks():
        raise Failed(f"it needs {lacks()}")
    folder = f"{given.work}/rust"
    for name in ("Cargo.toml", "build.rs", "README.md", *sources()):
        copy(f"{TOP}/bindings/rust/{name}", f"{folder}/{name}")
    copy(f"{TOP}/LICENSE", f"{folder}/LICENSE")
    copy(f"{given.library}/libtera.a", f"{folder}/native/libtera.a")
    given.run(["cargo", "package", "-q", "--offline", "--target-dir", f"{given.work}/target"], folder)
    name = f"tera-values-{given.version}.crate"
    shutil.move(f"{given.work}/target/package/{name}", os.path.join(to, name))
    return [name]
