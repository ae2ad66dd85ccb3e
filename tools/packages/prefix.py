"""What is installed below a prefix, such as /usr: the package for Debian, and a tar of the same."""
from __future__ import annotations

import gzip
import hashlib
import os
import re
import runpy
import shutil
from typing import Iterator, List

from tools.packages import python
from tools.packages.given import TOP, Failed, Given, copy, filled, read, write

LIB = "lib/x86_64-linux-gnu"
MODULE = "lib/python3/dist-packages/tera"
DOCUMENTS = ("bindings/debian/README.md", "docs/SCRIPT.md", "docs/BORDER.md", "docs/PACKAGES.md")
EXAMPLES = ("bindings/c/escape.c", "bindings/c/session.c", "bindings/c/value.c", "bindings/python/page.py", "examples/first.replay", "examples/tour.replay")
# the manual pages
MANUAL = ("tera.1", "libtera.3")


def pack(text: str, to: str) -> None:
    """Writes a text compressed, with no time in it."""
    os.makedirs(os.path.dirname(to), exist_ok=True)
    with open(to, "wb") as file, gzip.GzipFile("", "wb", 9, file, 0) as packed:
        packed.write(text.encode())


def lay_out_library(given: Given, prefix: str) -> None:
    """Lays out the header, the archive, the shared object under its three names, and what pkg-config reads."""
    copy(f"{given.library}/tera.h", f"{prefix}/include/tera.h")
    copy(f"{given.library}/libtera.a", f"{prefix}/{LIB}/libtera.a")
    soname = runpy.run_path(f"{TOP}/bindings/link.py")["SONAME"]
    whole = f"libtera.so.{given.version}"
    copy(f"{given.library}/libtera.so", f"{prefix}/{LIB}/{whole}")
    os.symlink(whole, f"{prefix}/{LIB}/{soname}")
    os.symlink(soname, f"{prefix}/{LIB}/libtera.so")
    up = "/".join(".." for _ in f"{LIB}/pkgconfig".split("/"))
    write(f"{prefix}/{LIB}/pkgconfig/tera.pc", filled("c/tera.pc.in", UP=up, LIB=LIB, VERSION=given.version))


def lay_out_documents(given: Given, prefix: str) -> None:
    """Lays out the manual pages, the documents and the examples."""
    for page in MANUAL:
        pack(read(f"{TOP}/docs/man/{page}"), f"{prefix}/share/man/man{page[-1]}/{page}.gz")
    documents = f"{prefix}/share/doc/libtera"
    for path in DOCUMENTS:
        copy(f"{TOP}/{path}", f"{documents}/{os.path.basename(path)}")
    for path in EXAMPLES:
        copy(f"{TOP}/{path}", f"{documents}/examples/{os.path.basename(path)}")
    copy(f"{TOP}/LICENSE", f"{documents}/copyright")
    pack(read(f"{TOP}/CHANGELOG.md"), f"{documents}/changelog.gz")


def lay_out(given: Given, prefix: str) -> None:
    """Lays out all that is installed below a prefix."""
    lay_out_library(given, prefix)
    lay_out_documents(given, prefix)
    copy(given.program, f"{prefix}/bin/tera", 0o755)
    python.lay_out_module(f"{prefix}/{MODULE}")
    up = "/".join(".." for _ in MODULE.split("/"))
    os.symlink(f"{up}/{LIB}/{runpy.run_path(f'{TOP}/bindings/link.py')['SONAME']}", f"{prefix}/{MODULE}/libtera.so")


def files(folder: str) -> Iterator[str]:
    """The files below a folder, by their paths from there, in order."""
    for at, folders, names in os.walk(folder):
        folders.sort()
        yield from sorted(os.path.relpath(f"{at}/{name}", folder) for name in names)


def least_glibc(*paths: str) -> str:
    """The least version of glibc that has what these files take of it."""
    versions = {tuple(map(int, found.split(b"."))) for path in paths for found in re.findall(rb"GLIBC_(\d+\.\d+)", read_bytes(path))}
    return ".".join(map(str, max(versions, default=(2, 17))))


def read_bytes(path: str) -> bytes:
    """The bytes of a file."""
    with open(path, "rb") as file:
        return file.read()


def lacks() -> str:
    """What the package for Debian needs and is not here, or nothing."""
    return "" if shutil.which("dpkg-deb") else "`dpkg-deb`"


def make_debian(given: Given, to: str) -> List[str]:
    """Makes the package for Debian, and returns its name."""
    if lacks():
        raise Failed(f"it needs {lacks()}")
    root = f"{given.work}/debian"
    lay_out(given, f"{root}/usr")
    paths = [path for path in files(root) if not os.path.islink(f"{root}/{path}")]
    size = sum(os.path.getsize(f"{root}/{path}") for path in paths) // 1024 + 1
    sums = [f"{hashlib.md5(read_bytes(f'{root}/{path}')).hexdigest()}  {path}\n" for path in paths]
    glibc = least_glibc(f"{given.library}/libtera.so", given.program)
    write(f"{root}/DEBIAN/control", filled("debian/control.in", VERSION=given.version, SIZE=str(size), GLIBC=glibc))
    write(f"{root}/DEBIAN/md5sums", "".join(sums))
    write(f"{root}/DEBIAN/triggers", "activate-noawait ldconfig\n")
    copy(f"{TOP}/bindings/debian/prerm", f"{root}/DEBIAN/prerm", 0o755)
    name = f"libtera_{given.version}_amd64.deb"
    given.run(["dpkg-deb", "--root-owner-group", "--build", root, f"{to}/{name}"], TOP)
    return [name]


def make_tar(given: Given, to: str) -> List[str]:
    """Makes the tar of a prefix, and returns its name."""
    whole = f"tera-{given.version}-x86_64-linux"
    lay_out(given, f"{given.work}/tar/{whole}")
    words = ["tar", "--sort=name", f"--mtime=@{given.epoch}", "--owner=0", "--group=0", "--numeric-owner", "-cf"]
    given.run([*words, f"{to}/{whole}.tar", "-C", f"{given.work}/tar", whole], TOP)
    given.run(["gzip", "-n", "-9", "-f", f"{to}/{whole}.tar"], TOP)
    return [f"{whole}.tar.gz"]
