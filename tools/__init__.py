"""Tools of the repository, each run by its path: `ending` ends all that a command began, `timing` tells what parts of a
check cost, `prove` proves and builds a program, `unproved` runs one that is not proved, `clauses` lists what the libraries
promise, `testing` runs parts of the tests by name. tests/test_tools.py
tries them on small made-up crates."""
from argparse import ArgumentParser, RawDescriptionHelpFormatter


def parser(says: str) -> ArgumentParser:
    """The parser of a command line, whose help begins with the words that a tool begins with."""
    return ArgumentParser(description=says, formatter_class=RawDescriptionHelpFormatter)

