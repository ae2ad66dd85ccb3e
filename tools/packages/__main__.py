"""Makes the packages that need no kit, into out/packages. `./bindings/package` runs this with --prove.

  python   a wheel and its source package, by Debian's python3-setuptools and python3-wheel
  rust     a crate, by `cargo package`, which builds what it packed
  debian   a package for Debian, by `dpkg-deb`
  prefix   a tar of the same
"""
from __future__ import annotations

import argparse
import contextlib
import os
import subprocess
import sys
import tempfile
import time
from typing import Callable, Dict, List

from tools.packages import prefix, python, record, rust
from tools.packages.given import PROGRAM, TOP, Failed, Given, read
from tools.packages.record import said

KINDS: Dict[str, Callable[[Given, str], List[str]]] = {
    "python": python.make, "rust": rust.make, "debian": prefix.make_debian, "prefix": prefix.make_tar}
LACKS: Dict[str, Callable[[], str]] = {"python": python.lacks, "rust": rust.lacks, "debian": prefix.lacks}


def tell(line: str) -> None:
    """Says a line on standard error."""
    print(f"package: {line}", file=sys.stderr, flush=True)


def make(given: Given, to: str, kinds: List[str]) -> int:
    """Makes packages of these kinds in a folder, whose files they replace, and returns the status."""
    names: List[str] = []
    failed = 0
    for kind in kinds:
        try:
            names += KINDS[kind](given, to)
        except Failed as why:
            tell(f"{kind}: not made: {why}")
            failed = 1
    for name in [*names, *record.make(given, to, names)]:
        tell(f"made {os.path.relpath(to)}/{name}")
    return failed


def is_proved() -> bool:
    """Proves and builds the library and the program, as far as they are not; says whether they stand."""
    program = [sys.executable, "-B", f"{TOP}/tools/prove.py", PROGRAM, "./bindings/package"]
    return all(subprocess.run(words, stdin=subprocess.DEVNULL).returncode == 0 for words in ([f"{TOP}/bindings/build"], program))


def clear(to: str) -> None:
    """Removes from a folder the packages that an earlier run listed there."""
    os.makedirs(to, exist_ok=True)
    listed = f"{to}/SHA256SUMS"
    for line in read(listed).splitlines() if os.path.exists(listed) else ():
        with contextlib.suppress(FileNotFoundError):
            os.remove(f"{to}/{os.path.basename(line.split()[-1])}")


def main() -> int:
    """Makes what the command line names."""
    words = argparse.ArgumentParser(prog="./bindings/package", description=__doc__, formatter_class=argparse.RawDescriptionHelpFormatter)
    words.add_argument("--prove", action="store_true", help="prove and build first what is not proved")
    words.add_argument("--to", default=f"{TOP}/out/packages", help="the folder of the packages, where they replace those of an earlier run (out/packages)")
    words.add_argument("--library", default=f"{TOP}/out", help="the folder of libtera.a, libtera.so and tera.h (out)")
    words.add_argument("--program", default=f"{TOP}/crates/{PROGRAM}/out/{PROGRAM}", help="the program that is installed as `tera`")
    words.add_argument("kinds", metavar="KIND", nargs="*", help="what to make; all of these where none is named")
    asked = words.parse_args()
    unknown = [kind for kind in asked.kinds if kind not in KINDS]
    if unknown:
        words.error(f"the kinds are {', '.join(KINDS)}, and not {', '.join(unknown)}")
    kinds = asked.kinds or [*KINDS]
    for kind, lacked in [(kind, LACKS.get(kind, str)()) for kind in kinds]:
        if lacked:
            tell(f"{kind}: will not be made: it needs {lacked}")
    if asked.prove and not is_proved():
        return 1
    to = os.path.abspath(asked.to)
    clear(to)
    epoch = int(said("git", "log", "-1", "--format=%ct") or time.time())
    with tempfile.TemporaryDirectory() as work:
        return make(Given(asked.library, asked.program, epoch, work), to, kinds)


if __name__ == "__main__":
    sys.exit(main())
