"""./docs/build [--to FOLDER] makes the pages into out/docs, or into another folder; ./docs/build --fill writes the ledger of
docs/PROVED.md anew, and the blocks of code that documents take from the sources."""
from __future__ import annotations

import argparse
import sys

from .book import Book
from .claims import Broken, read_claims
from .filled import fill
from .site import build
from .sources import TOP, Repository


def made(given: argparse.Namespace) -> list[str]:
    """Does what is asked for, and answers what is to be told."""
    if not given.fill:
        return build(given.to)
    book = Book(Repository())
    return fill(book, read_claims(book))


def main() -> int:
    words = argparse.ArgumentParser(prog="docs/build", description=__doc__)
    words.add_argument("--to", metavar="FOLDER", default=f"{TOP}/out/docs")
    words.add_argument("--fill", action="store_true", help="write the filled parts of the documents, and no page")
    given = words.parse_args()
    try:
        for line in made(given):
            print(line)
    except Broken as it:
        print(f"docs/build: {it}", file=sys.stderr)
        return 1
    return 0


if __name__ == "__main__":
    sys.exit(main())
