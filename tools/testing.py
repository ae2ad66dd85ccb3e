#!/usr/bin/env python3
"""Runs the tests, by name: `python3 tools/testing.py [--all [--but PART]] [--jobs N] [--junit FILE] PART[.TEST] ..`.

A part is tests/test_PART.py, whose tests are those of `unittest`; a word behind a dot names a class or a test of it. The
part `wrong` is tools/wrong_bodies.py. Prints a line 'pass ..', 'FAIL ..' or 'skip ..' for each test, what a failed one
says, what failed once more at the end, and a summary last. The status is 0 where all pass.
"""
import argparse
import glob
import json
import os
import subprocess
import sys
import tempfile
import time
import unittest
from concurrent.futures import ThreadPoolExecutor, as_completed
from typing import Any, NamedTuple
from xml.etree import ElementTree

sys.dont_write_bytecode = True  # no folder beside the sources
TOP = os.path.dirname(os.path.dirname(os.path.abspath(__file__)))
sys.path[:0] = [TOP, f"{TOP}/tests"]
from tools import parser

SCRIPTS = {"wrong": [sys.executable, f"{TOP}/tools/wrong_bodies.py"]}
# Parts that begin first where several run side by side, and the one that fills all processors.
LONG = {"hostile", "border", "packages", "cli", "pages", "program", "refused", "fuzz", "replay"}
LAST = "interrupt"


class Result(NamedTuple):
    """How a test ended: the part, its name, what a failed one says, or why it was skipped."""

    part: str
    name: str
    seconds: float
    failure: str = ""
    skipped: str = ""

    def __str__(self) -> str:
        how = "FAIL" if self.failure else "skip" if self.skipped else "pass"
        return f"{how} {self.part}: {self.name}{f' ({self.skipped})' if self.skipped else ''}"


def told(result: Result) -> Result:
    """Prints the line of a result, and what a failed test says."""
    print("\n     ".join([str(result), *result.failure.splitlines()]), flush=True)
    return result


class Told(unittest.TestResult):
    """Tells each test as it ends, and keeps the results."""

    def __init__(self, part: str) -> None:
        super().__init__()
        self.part, self.began, self.results = part, time.monotonic(), list[Result]()

    def addError(self, test: unittest.TestCase, err: Any) -> None:
        super().addError(test, err)
        self.end_whole(test)

    def addSkip(self, test: unittest.TestCase, reason: str) -> None:
        super().addSkip(test, reason)
        self.end_whole(test)

    def end_whole(self, test: unittest.TestCase) -> None:
        """Tells a class or a module of which no test begins."""
        if not isinstance(test, unittest.TestCase):
            self.stopTest(test)

    def stopTest(self, test: unittest.TestCase) -> None:
        super().stopTest(test)
        told_of = [*self.failures, *self.errors]
        said = "\n".join(text if which is test else f"{which}\n{text}" for which, text in told_of)
        own = test.id().partition(".")[2] if isinstance(test, unittest.TestCase) else test.id()
        why = "".join(reason for _, reason in self.skipped)
        self.failures, self.errors, self.skipped = [], [], []
        took, self.began = time.monotonic() - self.began, time.monotonic()
        self.results += [told(Result(self.part, test.shortDescription() or own, took, said, why))]


def results_of(word: str) -> list[Result]:
    """The results of a part, or of one class or test of it."""
    part, _, inner = word.partition(".")
    if part in SCRIPTS:
        status = subprocess.run(SCRIPTS[part], cwd=TOP).returncode
        said = f"its status is {status}" if status else ""
        return [told(Result(part, "all that it says passes", 0.0, said))]
    suite = unittest.defaultTestLoader.loadTestsFromName(f"test_{part}.{inner}".strip("."))
    result = Told(part)
    suite.run(result)
    return result.results


def apart(word: str, room: str, times: str) -> list[Result]:
    """The results of a part that runs in a process of its own, which notes what it took."""
    into = f"{room}/{word}"
    words = [sys.executable, os.path.abspath(__file__), "--into", into, word]
    if times:
        words = [sys.executable, f"{TOP}/tools/timing.py", "--part", word, "--in", times, *words]
    done = subprocess.run(words, cwd=TOP, stdin=subprocess.DEVNULL, capture_output=True)
    if not os.path.isfile(into):
        said = (done.stdout + done.stderr).decode(errors="replace")[-4000:]
        return [Result(word, "it comes to its end", 0.0, said or f"status {done.returncode}")]
    with open(into, encoding="utf-8") as file:
        return [Result(*row) for row in json.load(file)]


def side_by_side(words: list[str], jobs: int, times: str) -> list[Result]:
    """The results of several parts, so many at once, each part's told once it has ended."""
    with tempfile.TemporaryDirectory(prefix="testing-") as room, ThreadPoolExecutor(jobs) as pool:
        runs = [pool.submit(apart, word, room, times) for word in words]
        return [told(result) for done in as_completed(runs) for result in done.result()]


def names() -> list[str]:
    """The parts that are unittests, in the order in which they begin."""
    parts = [it[len("test_"):-len(".py")] for it in glob.glob("test_*.py", root_dir=f"{TOP}/tests")]
    return sorted(parts, key=lambda it: (it == LAST, it not in LONG, it))


def write_junit(results: list[Result], path: str) -> None:
    """Writes the results as CI reads them."""
    failed = sum(bool(result.failure) for result in results)
    counts = {"name": "check", "tests": str(len(results)), "failures": str(failed)}
    root = ElementTree.Element("testsuite", counts)
    for part, name, seconds, failure, skipped in results:
        own = {"classname": part, "name": name, "time": f"{seconds:.3f}"}
        case = ElementTree.SubElement(root, "testcase", own)
        if failure:
            ElementTree.SubElement(case, "failure").text = failure
        if skipped:
            ElementTree.SubElement(case, "skipped", message=skipped)
    ElementTree.ElementTree(root).write(path, "utf-8", xml_declaration=True)


def given() -> argparse.Namespace:
    """What the command line says."""
    words = parser(__doc__)
    words.add_argument("--all", action="store_true", help="runs all parts that are unittests")
    words.add_argument("--but", metavar="PART", action="append", default=[], help="leaves it out")
    words.add_argument("--jobs", type=int, default=1, help="so many parts side by side")
    words.add_argument("--times", metavar="FILE", default="", help="adds what each part took")
    words.add_argument("--junit", metavar="FILE", help="writes the results as CI reads them")
    words.add_argument("--into", metavar="FILE", help="writes the results for who runs this part")
    words.add_argument("parts", nargs="*", metavar="PART[.TEST]")
    said, known = words.parse_args(), [*names(), *SCRIPTS]
    unknown = [it for it in [*said.parts, *said.but] if it.partition(".")[0] not in known]
    if unknown or not (said.parts or said.all):
        words.error(f"the parts are {', '.join(known)}, and not {', '.join(unknown) or 'none'}")
    said.parts = [it for it in names() if it not in said.but] if said.all else said.parts
    return said


def summed(results: list[Result]) -> int:
    """Tells what failed once more, and how many there are; returns the status."""
    failed = [result for result in results if result.failure]
    skipped = sum(bool(result.skipped) and not result.failure for result in results)
    if len({result.part for result in results}) > 1:
        print("".join(f"{result}\n" for result in failed), end="")
    counts = f"{len(results) - len(failed) - skipped} passed, {len(failed)} failed"
    print(counts + (f", {skipped} skipped" if skipped else ""))
    return 1 if failed or not results else 0


def main() -> int:
    """Runs what the command line names."""
    said = given()
    if said.jobs > 1 or said.times:
        results = side_by_side(said.parts, said.jobs, said.times)
    else:
        results = [result for word in said.parts for result in results_of(word)]
    if said.junit:
        write_junit(results, said.junit)
    if said.into:
        with open(said.into, "w", encoding="utf-8") as file:
            json.dump(results, file)
    return summed(results)


if __name__ == "__main__":
    sys.exit(main())
