#!/usr/bin/env python3
"""Runs a program that is not proved, by `rt try`: `unproved.py CALLED GIVEN CRATE WORD ..`, where CALLED is the command that
runs this, and GIVEN what it calls its input.

All input is read first. The program runs in a folder of its own: each file among the words is copied there, under a name
that no other has, and what is told names the file that was given. The status is the program's, or 3 where there is no answer.
"""
from __future__ import annotations

import contextlib
import os
import re
import shutil
import subprocess
import sys
import tempfile
from typing import Dict, IO, List

sys.dont_write_bytecode = True  # no folder beside the sources
TOP = os.path.dirname(os.path.dirname(os.path.realpath(__file__)))
sys.path.insert(0, TOP)
from tools import ending

MOST = 1 << 26  # bytes of an input, of which `rt try` takes fewer
# by the status of `rt try`, or -1 where it has no answer
FAULTS = {
    -1: "the compiled program did not end", 1: "the sources do not compile",
    4: "the compiled program met a fault", 5: "two ways to run the program differ"}


class NoAnswer(Exception):
    """Why there is no answer."""


def say(text: str) -> None:
    """Writes to standard error, if that can be written."""
    with contextlib.suppress(OSError):
        os.write(2, os.fsencode(text))


class Trial:
    """A program, what it is given, and the names of the copies of files."""

    def __init__(self, called: str, given: str, crate: str, work: str) -> None:
        self.called, self.given, self.crate, self.work = called, given, crate, work
        self.makes = f"`./{called} --prove` makes the proved program"
        self.helps = f"{self.makes}, which has no such limit"
        self.names: Dict[str, str] = {}

    def copy(self, name: str, source: IO[bytes], to: str) -> None:
        """Copies an input of that name, of which a program that is not proved can take no more."""
        with open(to, "wb") as file:
            if file.write(source.read(MOST)) == MOST:
                raise NoAnswer(f"{name} has 64 MiB or more; {self.helps}")

    def copied(self, word: str) -> str:
        """The name of a copy of the file that a word names; any other word stays."""
        if word == "-" or not os.access(word, os.R_OK) or os.path.isdir(word):
            return word
        name = f"{os.path.basename(self.work)}.{len(self.names) + 1}"
        self.names[name] = word
        with open(word, "rb") as file:
            self.copy(word, file, f"{self.work}/{name}")
        return name

    def read_input(self) -> None:
        """Reads standard input."""
        try:
            self.copy(self.given, sys.stdin.buffer, f"{self.work}/in")
        except (AttributeError, OSError):  # it is closed, or cannot be read
            raise NoAnswer("standard input could not be read") from None

    def run(self, words: List[str]) -> int:
        """Runs the program on these words, and hands on what it writes and its status."""
        options = words[: words.index("--")] if "--" in words else words
        if self.crate == "tera_cli" and any(re.match("--interactive$|-(?!-).*i", it) for it in options):
            raise NoAnswer(f"a conversation needs the proved program; {self.makes}")
        told = [word if word[:1] == "-" and at < len(options) else self.copied(word) for at, word in enumerate(words)]
        say(f"{self.called}: these answers are not by the proved program, which `./{self.called} --prove` "
            "makes: all input is read first, and then compiled for about a minute\n")
        if not shutil.which("rt"):
            raise NoAnswer("Rattle's kit is needed, and no `rt` is on the path")
        with open(f"{self.work}/in", "wb"):
            if "-" in words or self.called == "replay" and words in ([], ["--"]):
                self.read_input()
        data = [word for it in self.names for word in ("--data", f"{it}={self.work}/{it}")]
        command = ["rt", "try", "--seconds", "300", *data, *(["--", *told] if told else [])]
        folder, work = f"{TOP}/crates/{self.crate}", self.work
        with open(f"{work}/in", "rb") as reads, open(f"{work}/out", "wb") as out, open(f"{work}/err", "wb") as err:
            return self.handed_on(ending.run(command, cwd=folder, stdin=reads, stdout=out, stderr=err))

    def handed_on(self, status: int) -> int:
        """Writes what the program wrote; tells where it did not come to its end."""
        with open(f"{self.work}/err", "rb") as file:
            said = os.fsdecode(file.read())
        last = said[:-1].rpartition("\n")[2]
        if not last.startswith(f"run=ended status={status} "):
            raise NoAnswer(self.fault(status, last, "".join(re.findall("(?m)^checked: no-answer: .*", said))))
        if subprocess.run(["cat", f"{self.work}/out"], stderr=subprocess.DEVNULL).returncode:
            raise NoAnswer("standard output could not be written")
        # the lines of `rt try` stand before and behind the program's, none of which begins so
        own = re.sub(r"(?m)^rt: .*\n|^(?:interpreter|checked): (?s:.*)", "", said)
        copies = re.compile(rf"{os.path.basename(self.work)}\.\d+\b")
        say(copies.sub(lambda it: self.names.get(it[0], it[0]), own))
        return status

    def fault(self, status: int, last: str, cause: str) -> str:
        """Why the program did not come to its end. Where the words of `rt try` say more, they are kept."""
        if " bytes to standard " in cause:
            return f"the answers or the report have more than 1 MiB; {self.helps}"
        if " time limit" in cause:
            return f"{self.given} ran for longer than five minutes; {self.helps}"
        log = f"{TOP}/crates/{self.crate}/out/try.log"
        os.makedirs(os.path.dirname(log), exist_ok=True)
        shutil.copy(f"{self.work}/err", log)
        why = FAULTS.get(-1 if last.startswith("run=no-answer") else status, "`rt try` failed")
        return f"{why}; {'' if why == FAULTS[1] else f'{self.makes}; '}the words of `rt try` are in {log}"


def main() -> int:
    """Runs what the command line names."""
    called, given, crate, *words = sys.argv[1:]
    try:
        ending.heed()
        with tempfile.TemporaryDirectory() as work:
            return Trial(called, given, crate, work).run(words)
    except NoAnswer as why:
        say(f"{called}: no answer: {why}\n")
        return 3
    except ending.Ended as came:
        return 128 + int(came.args[0])


if __name__ == "__main__":
    sys.exit(main())
