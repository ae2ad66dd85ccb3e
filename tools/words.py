#!/usr/bin/env python3
"""Counts the words of the documents that are written by hand, and finds their long sentences, which a rule of the house tells.

A word has a letter or a digit. What a script writes does not count: the parts that `./docs/build --fill` writes, and the tables
that `bench/suite.py` prints. The pages in APART are counted by themselves.
"""
import os
import re
from collections.abc import Iterator

TOP = os.path.dirname(os.path.dirname(os.path.abspath(__file__)))
MOST_WORDS, MOST_IN_SENTENCE = 13_000, 30
APART = ("docs/CONFORM.md", "docs/PACKAGES.md", "docs/PAGE.md")
SCRIPTED = re.compile(r"(?ms)^<!-- (?:filled|printed): [^\n]* -->\n.*?^<!-- end -->$")
BLOCK = re.compile(r"(?ms)^```.*?^```$|^(?:    [^\n]*\n)+")
CODE = re.compile(r'``.+?``|`[^`]+`|"[^"\n]+"')


def by_hand(path: str) -> str:
    """What is written by hand of a document."""
    with open(f"{TOP}/{path}", encoding="utf-8") as it:
        return SCRIPTED.sub("", it.read())


def count(text: str) -> int:
    """The words of a text."""
    return sum(1 for it in text.split() if re.search(r"\w", it))


def counts() -> dict[str, int]:
    """The words of each document: README.md, the pages of docs/ and bench/README.md."""
    pages = sorted(f"docs/{it}" for it in os.listdir(f"{TOP}/docs") if it.endswith(".md"))
    return {it: count(by_hand(it)) for it in ["README.md", *pages, "bench/README.md"]}


def total(counted: dict[str, int]) -> int:
    """The words of all documents but those that are counted apart."""
    return sum(words for path, words in counted.items() if path not in APART)


def paragraphs(text: str) -> Iterator[str]:
    """The paragraphs, the points of lists and the cells of tables, each on one line. What stands as code or in quotes is one word."""
    prose = CODE.sub("code", BLOCK.sub("\n\n", text))
    for block in re.split(r"\n\s*\n|\n(?=- |\d+\. |\||#)", prose):
        for cell in block.split("|") if block.lstrip().startswith("|") else [block]:
            yield re.sub(r"\s+", " ", cell).strip(" -#")


def long_sentences(path: str) -> list[str]:
    """The sentences of a document that have too many words. A semicolon ends none."""
    ends = r"(?<=[.?!])\)?\*{0,2} (?=[\[(*A-Z`\dc])"
    said = [sentence for block in paragraphs(by_hand(path)) for sentence in re.split(ends, block)]
    return [it for it in said if count(it) > MOST_IN_SENTENCE]


if __name__ == "__main__":
    for name, number in counts().items():
        print(f"{number:7,} {name}{' (apart)' if name in APART else ''}")
    print(f"{total(counts()):7,} in all, of {MOST_WORDS:,} at most")
