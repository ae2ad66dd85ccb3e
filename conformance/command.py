"""The command `conform`: examples, tables of cases and random scripts, given to an engine; docs/CONFORM.md tells more."""
from __future__ import annotations

import argparse
import os
import random
import re
import sys
import textwrap
from typing import AbstractSet, Iterator, List, NamedTuple, Optional, Sequence, Tuple

from . import engines, grids, reference
from .engines import Engine, Fault, Script
from .grids import Check
from .reference import Dialect
from .scripts import Maker
from .sentences import sentences

TOP = os.path.dirname(os.path.dirname(os.path.abspath(__file__)))
LONG, SHORT = (300, 20), 24  # a seed has one script of so many good lines and up to so many that may be bad, and so many short ones
WIDTH = 120  # of quoted sentences
MOST = 3  # differences of a check that are shown


class Section(NamedTuple):
    """Checks of one sort: what they are, and their checks."""

    name: str
    checks: List[Check]


# What is run.


def lines_in(script: bytes) -> List[bytes]:
    """The lines of a script with their ends."""
    return re.findall(rb"[^\n]*\n|[^\n]+", script)


def examples() -> Iterator[Check]:
    """The scripts of examples/."""
    folder = os.path.join(TOP, "examples")
    for name in sorted(os.listdir(folder)):
        if name.endswith(".replay"):
            with open(os.path.join(folder, name), "rb") as script:
                yield Check(f"example {name.removesuffix('.replay')}", [Script([], [lines_in(script.read())])])


def seed(number: int, left_out: AbstractSet[str]) -> Check:
    """Random scripts of one seed."""
    maker = Maker(random.Random(number), left_out)
    counts = [LONG, *((maker.chance.randint(0, 3), maker.chance.randint(1, 3)) for _ in range(SHORT))]
    return Check(f"seed {number}", [Script([], [maker.script(*count)[0]]) for count in counts])


def sections(left_out: AbstractSet[str], seeds: range) -> Iterator[Section]:
    """All that is run, but for the calls that are left out."""
    for name, checks in (("examples", examples()), ("grids", grids.grids())):
        kept = (grids.without(check, left_out) if left_out else check for check in checks)
        yield Section(name, [check for check in kept if check.scripts])
    yield Section("random scripts", [seed(number, left_out) for number in seeds])


# What differs.


class Difference(NamedTuple):
    """The least lines found that show a difference, and the first fault on them; None where it comes and goes."""

    lines: List[bytes]
    fault: Optional[Fault]


def differences(engine: Engine, check: Check) -> Iterator[Difference]:
    """Some differences of the engine in a check, made small."""
    left = 1 if check.name.startswith("seed ") else MOST
    for script in check.scripts:
        for lines in engines.failing(script, engine.differs, left):
            least = engines.smaller(engines.fewest(lines, engine.differs), engine.differs)
            heard = engine.heard(b"".join(least))
            is_steady = heard != reference.replay(b"".join(least), engine.dialect)
            yield Difference(least, engines.first_fault(least, heard, engine.dialect) if is_steady else None)
            left -= 1
        if left <= 0:
            return


def told(difference: Difference, dialect: Dialect) -> Iterator[str]:
    """A difference in lines of text."""
    for line in difference.lines:
        text = line.removesuffix(b"\n")
        yield f"    {engines.shown(text)}" + ("" if line.endswith(b"\n") else "   (without a line feed)")
    if difference.fault is None:
        yield "  the answers change from run to run"
        return
    fault = difference.fault
    where = "behind the last line" if fault.place is None else f"line {fault.place + 1}"
    yield f"  {where}, expected: {fault.expected}"
    yield f"  {where}, answered: {fault.answered}"
    if differs_by_switch(difference.lines, dialect):
        yield f"  so says {' and '.join(switches_of(dialect))}, where docs/SCRIPT.md says:"
    for words in sentences(fault):
        yield from textwrap.wrap(words, WIDTH, initial_indent="  docs/SCRIPT.md: ", subsequent_indent=" " * 18, break_long_words=False,
                                 break_on_hyphens=False)


def differs_by_switch(lines: List[bytes], dialect: Dialect) -> bool:
    """Whether what is expected of these lines is not what the page says."""
    script = b"".join(lines)
    return reference.replay(script, dialect) != reference.replay(script)


def switches_of(dialect: Dialect) -> List[str]:
    """The switches that are on."""
    return [f"--{name.replace('_', '-')}" for name, is_on in dialect._asdict().items() if is_on]


# How it is told.


class Told:
    """Tells of checks in plain lines."""

    def __init__(self) -> None:
        self.differing = 0

    def begin(self, parts: List[Section]) -> None:
        """Before the first check."""

    def check(self, name: str, lines: List[str]) -> None:
        """A check has ended; the lines tell what differs."""
        if lines:
            self.differing += 1
            print("\n".join([f"FAIL {name}", *lines]), flush=True)

    def end(self, part: Section, differing: int) -> None:
        """All checks of a section have ended."""
        count = sum(len(script.lines()) for check in part.checks for script in check.scripts)
        print(f"{part.name}: {len(part.checks)} checks, {count:,} lines, {differing} differ", flush=True)


class Tap(Told):
    """Tells of checks as the Test Anything Protocol has it."""

    def __init__(self) -> None:
        super().__init__()
        self.number = 0

    def begin(self, parts: List[Section]) -> None:
        print("TAP version 13")
        print(f"1..{sum(len(part.checks) for part in parts)}", flush=True)

    def check(self, name: str, lines: List[str]) -> None:
        self.number += 1
        self.differing += bool(lines)
        print("\n".join([f"{'not ok' if lines else 'ok'} {self.number} - {name}", *(f"# {line}" for line in lines)]), flush=True)

    def end(self, part: Section, differing: int) -> None:
        pass


def told_empty(engine: Engine) -> str:
    """What an engine does with the empty script."""
    return engines.first_fault([], engine.heard(b""), engine.dialect).answered


def run(engine: Engine, parts: List[Section], teller: Told) -> int:
    """Runs all checks; returns the status."""
    if engine.differs([]):
        print(f"conform: the empty script has no answer, no report and status 0; it was answered by {told_empty(engine)}")
        return 1
    teller.begin(parts)
    for part in parts:
        before = teller.differing
        for check in part.checks:
            found = differences(engine, check)
            teller.check(check.name, [line for one in found for line in told(one, engine.dialect)])
        teller.end(part, teller.differing - before)
    return 1 if teller.differing else 0


# Files in the place of a program.


def dump(folder: str, parts: List[Section], dialect: Dialect) -> int:
    """Writes each script, and beside it what is to come of it; returns how many."""
    count = 0
    for part in parts:
        into = os.path.join(folder, part.name.replace(" ", "-"))
        os.makedirs(into, exist_ok=True)
        for check in part.checks:
            for place, script in enumerate(check.scripts, 1):
                more = f"-{place:03}" if len(check.scripts) > 1 else ""
                write(os.path.join(into, file_name(check.name.removeprefix("example ")) + more), b"".join(script.lines()), dialect)
                count += 1
    return count


def file_name(name: str) -> str:
    """A name of a check as one of a file."""
    return re.sub(r"[^\w=-]+", "-", name.encode("ascii", "ignore").decode()).strip("-")


def write(path: str, script: bytes, dialect: Dialect) -> None:
    """Writes a script, its answers, its report where there is one, and its status."""
    out, err, status = reference.replay(script, dialect)
    contents = {"replay": script, "answers": out, "status": b"%d\n" % int(status), **({"report": err} if err else {})}
    for end, content in contents.items():
        with open(f"{path}.{end}", "wb") as file:
            file.write(content)


# The command line.


def calls_in(text: str) -> List[str]:
    """The calls of a list like `eq,cmp`."""
    words = text.split(",")
    unknown = [word for word in words if word not in reference.CALLS]
    if unknown:
        raise argparse.ArgumentTypeError(f"no call is named {', '.join(unknown)}; the calls are {', '.join(reference.CALLS)}")
    return words


def seeds_in(text: str) -> range:
    """The seeds of `A..B`, or one seed."""
    found = re.fullmatch(r"(\d+)(?:\.\.(\d+))?", text)
    if not found:
        raise argparse.ArgumentTypeError(f"seeds are a number, or A..B, and not {text}")
    return range(int(found[1]), int(found[2] or found[1]) + 1)


def parser() -> argparse.ArgumentParser:
    """The switches."""
    made = argparse.ArgumentParser(prog="conform", usage="conform [SWITCHES] -- PROGRAM ARGS..", description=(
        "Gives a program scripts on standard input, and shows where its answers, its reports and its statuses are not those"
        " of docs/SCRIPT.md. The status is 0 where nothing differs, and 1 where something does."))
    made.add_argument("--only", type=calls_in, metavar="CALL,..", help="these calls alone, and `set`")
    made.add_argument("--without", type=calls_in, metavar="CALL,..", default=[], help="all but these calls")
    made.add_argument("--tap", action="store_true", help="tell it as the Test Anything Protocol has it")
    made.add_argument("--seeds", type=seeds_in, metavar="A..B", default=range(1, 11), help="of the random scripts; 1..10 if not given")
    made.add_argument("--dump", metavar="DIR", help="write the scripts and what is to come of them as files")
    made.add_argument("--patience", type=float, default=60.0, metavar="SECONDS", help="in which a script is answered; 60 if not given")
    reference.add_switches(made)
    return made


def divided(words: Sequence[str]) -> Tuple[List[str], List[str]]:
    """The switches, and the program behind `--`."""
    at = list(words).index("--") if "--" in words else len(words)
    return list(words[:at]), list(words[at + 1:])


def left_out(only: Optional[List[str]], without: List[str]) -> AbstractSet[str]:
    """The calls of which no line is given."""
    return (set(reference.CALLS) - {"set", *only} if only else set()) | set(without)


def main(words: Optional[Sequence[str]] = None) -> int:
    """Does what the words of the command say; returns the status."""
    switches, command = divided(sys.argv[1:] if words is None else words)
    made = parser()
    given = made.parse_args(switches)
    if not command and not given.dump:
        made.error("the program stands behind `--`")
    dialect = Dialect(given.maps_by_key, given.maps_weigh_equal)
    parts = list(sections(left_out(given.only, given.without), given.seeds))
    try:
        if given.dump:
            print(f"conform: {dump(given.dump, parts, dialect)} scripts in {given.dump}", file=sys.stderr)
        return run(Engine(command, dialect, given.patience), parts, Tap() if given.tap else Told()) if command else 0
    except OSError as fault:
        print(f"conform: {fault}", file=sys.stderr)
        return 2
    except KeyboardInterrupt:
        return 130
