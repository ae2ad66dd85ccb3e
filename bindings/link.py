#!/usr/bin/env python3
"""Links the archive of the library for C into its shared object, which exports the functions of the header and no more:
`link.py ARCHIVE HEADER TO`. It needs a C compiler: `cc`, or what the variable CC names."""
import os
import re
import subprocess
import sys
import tempfile
from typing import List

SONAME = "libtera.so.0.2"  # the parts of the version with which calls may change: before 1.0.0 the second too


def exports(header: str) -> List[str]:
    """The functions that a header declares."""
    with open(header, encoding="utf-8") as it:
        return re.findall(r"(?m)^\w+ (tera_\w+)\(", it.read())


def link(archive: str, header: str, to: str) -> None:
    """Makes the shared object at `to`."""
    names = exports(header)
    with tempfile.TemporaryDirectory() as folder:
        with open(f"{folder}/exports.map", "w", encoding="utf-8") as it:
            it.write(f"{{ global: {' '.join(f'{name};' for name in names)} local: *; }};\n")
        words = [os.environ.get("CC") or "cc", "-shared", "-o", to, f"-Wl,-soname,{SONAME}",
                 f"-Wl,--version-script={folder}/exports.map", *(f"-Wl,-u,{name}" for name in names), archive]
        subprocess.run(words, check=True)


if __name__ == "__main__":
    link(*sys.argv[1:])
