"""An engine under test: what it answers, where that is not what is expected, and the least script that shows it."""
from __future__ import annotations

import itertools
import subprocess
from typing import Any, Callable, Iterator, List, NamedTuple, Optional, Sequence

from . import reference
from .reference import LANGUAGE, BadLine, Dialect, Number, Replay, Session, Text, Value

Differs = Callable[[List[bytes]], bool]
TRIES = 300  # runs in which the values of a script are made smaller


class Engine:
    """A program that reads a script from standard input, held against the reference in a dialect."""

    def __init__(self, command: Sequence[str], dialect: Dialect = LANGUAGE, patience: float = 60.0) -> None:
        self.command = list(command)
        self.dialect = dialect
        self.patience = patience

    def heard(self, script: bytes) -> Replay:
        """What the program does with a script."""
        try:
            ran = subprocess.run(self.command, input=script, capture_output=True, timeout=self.patience)
        except subprocess.TimeoutExpired:
            return Replay(b"", b"", f"no end within {self.patience:g} s")
        return Replay(ran.stdout, ran.stderr, ran.returncode)

    def differs(self, lines: List[bytes]) -> bool:
        """Whether the program answers the lines, which have their ends, otherwise than is expected."""
        script = b"".join(lines)
        return self.heard(script) != reference.replay(script, self.dialect)


# The least script.


def fewest(lines: List[bytes], differs: Differs) -> List[bytes]:
    """The lines up to the first that shows the difference, without those that it does without."""
    low, high = 0, len(lines)
    while high - low > 1:
        middle = (low + high) // 2
        low, high = (low, middle) if differs(lines[:middle]) else (middle, high)
    lines, part = lines[:high], high
    while part > 0:
        for place in range(len(lines) - part, -1, -part):
            if differs(lines[:place] + lines[place + part:]):
                lines = lines[:place] + lines[place + part:]
        part //= 2
    return lines


def smaller(lines: List[bytes], differs: Differs, tries: int = TRIES) -> List[bytes]:
    """The lines with smaller values, plainly written, where they still show a difference."""
    lines, place = list(lines), 0
    while place < len(lines):
        for line in simpler_lines(lines[place]):
            if tries == 0:
                return lines
            tries -= 1
            if differs(lines[:place] + [line] + lines[place + 1:]):
                lines[place] = line
                break
        else:
            place += 1
    return lines


def simpler_lines(line: bytes) -> Iterator[bytes]:
    """Lines that are shorter than this one and say nearly the same."""
    text = line.rstrip(b"\r\n")
    for other in lines_near(text):
        if (len(other), other) < (len(text), text):
            yield other + b"\n"
    if line != text + b"\n":
        yield text + b"\n"


def lines_near(line: bytes) -> Iterator[bytes]:
    """The line plainly written, and with one operand made simpler; a bad line without some of its bytes."""
    try:
        word, operands, into = reference.read_call(line.decode())
    except (BadLine, UnicodeDecodeError):
        yield from parts_left_out(line)
        return
    form = reference.CALLS[word][0].strip("C>")
    arrow = ["->", into] if into else []
    yield " ".join([word, *map(spelled_operand, form, operands), *arrow]).encode()
    for place, letter in enumerate(form):
        for simple in simpler_operands(letter, operands[place]):
            others = [*operands[:place], simple, *operands[place + 1:]]
            yield " ".join([word, *map(spelled_operand, form, others), *arrow]).encode()


def spelled_operand(letter: str, operand: Any) -> str:
    """An operand as it is written, by its letter in the table of calls."""
    if letter == "b":
        return "_" if operand is None else str(operand)
    if letter == "m":
        return reference.spelled({(2, name): value for name, value in operand.items()})
    if letter == "l":
        return reference.spelled(operand)
    return reference.spelled_text(operand) if letter == "t" else str(operand)


def simpler_operands(letter: str, operand: Any) -> Iterator[Any]:
    """Operands of the same sort that say less."""
    if letter == "l":
        yield from simpler(operand)
    elif letter == "t":
        yield from parts_left_out(operand)
    elif letter == "b" and operand is not None:
        yield from (None, *(int(operand / 2**bits) for bits in (64, 4, 1)))
    elif letter == "m":
        yield from ({name: operand[name] for name in operand if name != left_out} for left_out in operand)
        yield from (operand | {name: simple} for name in operand for simple in simpler(operand[name]))


def parts_left_out(whole: Any) -> Iterator[Any]:
    """A text, bytes or an array without some of its parts: first without many, and of them without few."""
    part = len(whole)
    while part > 0:
        for place in range(0, len(whole), part):
            yield whole[:place] + whole[place + part:]
        part //= 2


def simpler(value: Value) -> Iterator[Value]:
    """Values that say less than this one."""
    if isinstance(value, Text):
        yield from (Text(text, value.safe) for text in parts_left_out(value.text))
        if value.safe:
            yield Text(value.text, False)
    elif isinstance(value, Number):
        yield from (Number(value.kind, number) for number in (0, 1, int(value.number / 2**32), int(value.number / 2)))
    elif isinstance(value, bytes):
        yield from parts_left_out(value)
    elif isinstance(value, dict):
        yield from value.values()
        yield from ({key: value[key] for key in value if key != left_out} for left_out in value)
        yield from ({**value, key: simple} for key in value for simple in simpler(value[key]))
    elif reference.is_array(value):
        yield from value
        yield from parts_left_out(value)
        for place, item in enumerate(value):
            yield from (value[:place] + (simple,) + value[place + 1:] for simple in simpler(item))


# The first difference in a script.


class Fault(NamedTuple):
    """Where an engine answered otherwise: the place of the line, or None behind all of them; what was expected and what
    came, as an answer or as the end of the run; the line and the values of names before it; the rule of the page."""

    place: Optional[int]
    expected: str
    answered: str
    line: str
    names: reference.Names
    rule: str


def told_end(replay: Replay) -> str:
    """How a run ended, in words."""
    status = f"status {replay.status}" if isinstance(replay.status, int) else replay.status
    report = f", and on standard error {shown(replay.err)}" if replay.err else ""
    return status + report


def shown(given: bytes) -> str:
    """Bytes as they are where they can be shown, and else as Python writes them."""
    try:
        text = given.decode()
    except UnicodeDecodeError:
        return repr(given)
    return text if all(char.isprintable() or char == "\t" for char in text) else repr(given)


def first_fault(lines: List[bytes], heard: Replay, dialect: Dialect = LANGUAGE) -> Fault:
    """The first difference between what an engine did with these lines and what is expected."""
    script, at, session = b"".join(lines), 0, Session(dialect)
    expected = reference.replay(script, dialect)
    for place, line in enumerate(reference.lines_of(script)):
        names, said = dict(session.names), line.decode(errors="replace")
        try:
            answer = session.answer(line)
        except BadLine as bad:
            more = f"{shown(next_answer(heard.out, at, 1))}, and " if heard.out[at:] else ""
            rule = "report" if (heard.out, heard.status) == (expected.out, 2) else str(bad)
            return Fault(place, told_end(expected), more + told_end(heard), said, names, rule)
        wanted = b"" if answer is None else answer.encode() + b"\n"
        if heard.out[at:at + len(wanted)] != wanted:
            came = next_answer(heard.out, at, wanted.count(b"\n"))
            answered = shown(came) if came else f"nothing, and {told_end(heard)}"
            rule = "answer" if came or heard.status != 2 else "end" if has_return(script, place) else "good"
            return Fault(place, shown(wanted.removesuffix(b"\n")), answered, said, names, rule)
        at += len(wanted)
    more = f"{shown(next_answer(heard.out, at, 1))}, and " if heard.out[at:] else ""
    return Fault(None, told_end(expected), more + told_end(heard), "", session.names, "status")


def has_return(script: bytes, place: int) -> bool:
    """Whether a carriage return stands at the end of this line."""
    return script.split(b"\n")[place].endswith(b"\r")


def next_answer(out: bytes, at: int, lines: int) -> bytes:
    """So many lines of what is answered from a place on, without the last line feed."""
    return b"\n".join(out[at:].split(b"\n")[:max(lines, 1)])


# Cases.


class Script(NamedTuple):
    """Lines that come first, and cases of one or more lines each; all lines have their ends."""

    setup: List[bytes]
    cases: List[List[bytes]]

    def lines(self) -> List[bytes]:
        """All its lines."""
        return [*self.setup, *itertools.chain.from_iterable(self.cases)]


def failing(script: Script, differs: Differs, most: int) -> List[List[bytes]]:
    """The lines of those cases that show a difference by themselves, at most so many; where none does, all lines."""
    found: List[List[bytes]] = []

    def search(cases: List[List[bytes]]) -> None:
        lines = Script(script.setup, cases).lines()
        if len(found) < most and differs(lines):
            if len(cases) <= 1:
                found.append(lines)
                return
            before, middle = len(found), len(cases) // 2
            search(cases[:middle])
            search(cases[middle:])
            if len(found) == before and before < most:
                found.append(lines)

    search(script.cases)
    return found
