#!/usr/bin/env python3
"""Tries the wrong bodies crates/NAME/wrong/SUBJECT/FUNCTION/EDIT.edit: the prover must refuse each by the contract.

An edit is written as those of must-fail/ are: a line 'file: src/SUBJECT.rt', and pairs of lines 'old: TEXT' and
'new: TEXT', where each old text stands in that function exactly once. FUNCTION is the name of its function, with its type
and trait as the prover spells them ('Value.format', 'ValueFromU8.from'). An edit of a definition has a line 'only: PATH'
too: the law that it makes false. Its file may stand in specs/, where each old text stands exactly once, FUNCTION is
PATH's, and it is tried by itself; a lemma that the law's proof stands on may refuse it too. An edit with a line that is
none of these, or with a second file, is not tried, and told.

A line 'goal: NAME' names a goal that the edit leaves open: one that has an answer by hand, or that one search proves of
the right body, or would if that had its path (docs/DECISIONS.md). The edit is tried by these goals first, each with its
answer or else with that search, while no goal without an answer is searched, but where the function has a tactic of its
own: the prover tries each such goal in seven ways, and one that stays open in vain. What is not refused so is tried once
more, with all goals searched; but only a goal that the edit names counts.

A check takes an edit of each of many functions. A function is proved over the contracts of what it calls, so the bodies
of the others are never reached. Each further edit of a function is made to a copy of it, which stands behind it, with its
attributes, its contract and its proof by hand; but a further edit of a trait's function waits for another check. To a
copy is made too each edit of a function that stands in a cycle of calls: the copy calls the others, and so is in no
cycle, and of the cycle's proof by hand it has its own part. An edit is refused where a goal of its function's contract is
not proved: a return's, or an invariant's, but not that a sum fits, that a call is allowed or that a loop ends. What a
shared check does not show is tried alone. Where a proof by hand names what the edit took away, it is tried without that
part; a goal that is then open counts only where the prover finds values at which it is false, or where it is proved of
the right body without that part.

Prints a line 'pass ..' or 'FAIL ..' for each edit, and 'N passed, M failed'. It uses the libraries that `rt ci` built.
With `--gate LOG` it runs beside an `rt ci` that writes LOG: a crate's edits are tried once the log says that the crates
below it are proved. `--right` is the control: of each edit it tries the right body in the same way, and no goal of it may
be open.

As `rt ci` keeps what it proved, this keeps on the machine which edits were refused, by a sum of all that the answer
stands on: the kit, these tools, the crate's files and those of all crates below it, and the edit. Such an edit is not
tried again, and its line says so. `--anew` tries all.
"""
from __future__ import annotations

import argparse
import collections
import hashlib
import os
import pathlib
import re
import shutil
import subprocess
import sys
import tempfile
import time
from collections.abc import Iterable
from concurrent.futures import ThreadPoolExecutor
from typing import NamedTuple

sys.dont_write_bytecode = True  # no folder beside the sources
sys.path.insert(0, os.path.dirname(os.path.dirname(os.path.abspath(__file__))))
from tools import edits as edits_module, kit, parser, source
from tools.edits import CUT, CYCLE, Edit, Home, edits_below, homes, sources
from tools.source import FUNCTION, functions_of, read

Texts = dict[str, str]  # of the files that a check changes, by their paths

# what the prover says: of a goal in src/, of a proof by hand, of a lemma, of a whole function
OPEN = re.compile(r"(?:note: )?(?:\./)?(src/\S+?):(\d+):\d+: it is not proved .*?\(`([^`]+)`\)(.*)")
ERROR = re.compile(r"(?:\./)?(?:src|specs)/\S+?:\d+:\d+: error")
BY_HAND = re.compile(r"\./proofs/(\S+)/\w+\.antt:\d+:\d+: error: (?:`([^`]*)`)?(.*)")
LEMMA = re.compile(r"\./proofs/(?:\w+/)*\w+\.antt:\d+:\d+: error: `([^`]+)`:(.*)")
STATUS = re.compile(r"(?:fn|struct|enum|impl|trait) \w+::(\S+?): (.*)")
# what a proof by hand says that names what the edit took away: no word on the contract
MISSES = re.compile(r"has no field|is not in scope|has no `|was not admitted")
# a contract's goals, which a cycle's proof begins with the function's, and those that none asks for
RETURNS = re.compile(r"(?:[\w:]+-)?returns(?:-|$)")
KEPT = re.compile(r"-(?:init|preserved)(?:-|$)|(?:^|-)invariant_of-")
SAFE = re.compile(r"(?:^|-)(?:overflow_|nonzero_|(?:slice_|offset_)?bounds-)|-(?:requires|smaller)(?:-|$)")
MANY = 60  # the most edits of a check
# A lemma that is false: beside it the prover prints no form of a proof for the function, which is a
# sixth of a check's time, and tries the function's goals where a callee is not proved too.
NO_FORM = "no_form"
FALSE_LEMMA = f"\n{NO_FORM} : Type 0\n{NO_FORM} = Type 0\n"
# what is taken to be C's, and never returns
NEVER = """// What stands for a body that a check does not look at.
unsafe extern "C" {
    pub safe fn never() ensures { ⊥ };
}
"""


def say(line: str) -> None:
    """Prints a line in one piece, whichever crates are tried beside."""
    print(f"{line}\n", end="", flush=True)


def is_of_contract(goal: str) -> bool:
    """Whether a goal is one that a contract asks for."""
    return bool(RETURNS.match(goal) or KEPT.search(goal) and not SAFE.search(goal))


def is_within(goal: str, other: str) -> bool:
    """Whether a goal is this one, or one within it."""
    return f"{goal}-".startswith(f"{other}-")


def own_part(text: str, name: str) -> str:
    """Of a cycle's proof by hand the part of one function, as that of a function in no cycle: its goals do not begin with
    its name, and a call is not to be smaller than it, so that another goal, or none, says that it is allowed. Where it is
    the only function of its cycle, the name is empty."""
    head, *told = re.split(r"(?m)^(?=(?:abbrev )?pub )", text)
    begins = rf"(?:invariant-|decreases-)?{re.escape(name)}-" if name else r"(?!decreases-\w+ :)"
    own = [it for it in told if re.match(rf"(?:abbrev )?pub {begins}(?!\S*-requires)", it)]
    found = "".join(own).replace(f"{name}-", "") if name else "".join(own)
    return head + re.sub(r"(?m)^(\S+(?: g)?) t (?=[^=\n]*=)", r"\1 ", found)


def left_out(text: str, goals: Iterable[str]) -> str:
    """A proof by hand without its answers to these goals, or nothing where one is no goal's."""
    for goal in goals:
        answer = rf"(?ms)^(?:pub )?{re.escape(goal)} :.*?(?=^(?:pub |-- |\S+ : )|\Z)"
        text = re.sub(answer, "", text) if goal else ""
    return text


def changed(text: str, changes: Iterable[tuple[str, str]]) -> str:
    """A text with some of its parts changed, all at once: what stands for one of them is none of the others."""
    news = dict(changes)
    return re.sub("|".join(map(re.escape, news)), lambda it: news[it[0]], text) if news else text


class Try(NamedTuple):
    """A try of an edit: in its place, or in the copy of its function with that number; by the goals that it names, or by
    all; of the right body; or without the answers by hand to some goals, where "" stands for all."""

    edit: Edit
    number: int = 0
    is_named: bool = True
    is_right: bool = False
    gone: frozenset[str] = frozenset()

    @property
    def suffix(self) -> str:
        """What stands behind the function's name."""
        return f"_copy{self.number}" if self.number else ""

    @property
    def is_by_names(self) -> bool:
        """Whether no goal is searched but those that the edit names; a tactic of the function's own searches all."""
        return self.is_named and bool(self.edit.goals) and "using(" not in self.edit.home.attributes

    def body(self) -> str:
        """The function, with the edit in it where that is the function's own."""
        home, is_right = self.edit.home, self.is_right or self.edit.is_of_law
        text = home.text[home.function.top : home.function.end]
        text = changed(text, [] if is_right else self.edit.changes)
        if self.number:
            name = rf"\b(fn {home.function.name})\b"
            text = re.sub(name, rf"\1{self.suffix}", CYCLE.sub("", text), count=1)
        if self.is_by_names and "#[tactic(" not in home.attributes:
            text = FUNCTION.sub(lambda it: f"{it[1]}#[tactic(none)] {it[0][len(it[1]):]}", text, count=1)
        return text

    def proofs(self) -> Texts:
        """The files of the function's proof by hand, or of the same for its copy, with a search at each named goal that
        has no answer, and with the lemma that is false."""
        home = self.edit.home
        own = home.cycle or home.folder
        to = f"{home.folder}{self.suffix}" if self.number else own
        answers, found = f"{to}/Answers.antt", {f"{to}/Answers.antt": ""}
        for path in pathlib.Path(home.crate, own).glob("*" if self.number else "Answers.antt"):
            text = read(str(path))
            if home.cycle and self.number:
                inner = os.path.relpath(home.folder, os.path.dirname(home.cycle))
                text = own_part(text, inner.replace("/", "::") if home.named_cycle else "")
            text = text.replace(f".{own}.".replace("/", "."), f".{to}.".replace("/", "."))
            found[f"{to}/{path.name}"] = left_out(text, self.gone)
        return {**found, answers: self.answered(found[answers], to) + FALSE_LEMMA}

    def answered(self, text: str, to: str) -> str:
        """An Answers file with one way, and no more, at each named goal that the file does not answer: at a goal without
        an answer the prover tries six ways more."""
        goals = self.edit.goals if self.is_by_names else []
        goals = [it for it in goals if not re.search(rf"(?m)^pub {re.escape(it)} :", text)]
        module = f"Rattle.{os.path.basename(self.edit.home.crate)}.{to}.Goals as goal".replace("/", ".")
        uses = [] if re.search(r"(?m)^use .*\brules\b", text) else ["Rattle.std.proofs.Common.{rules}"]
        uses += [] if module in text else [module]
        told = [f"\npub {it} : goal.{it}\n{it} = search rules\n" for it in goals]
        return "".join([*(f"use {it}\n" for it in uses), text, *told]) if goals else text


def emptied(home: Home) -> str:
    """A function whose body is never reached."""
    attributes = re.sub(r" *#\[(?:tactic|cycle)\(.*\n", "", home.attributes)
    return f"{attributes}{home.text[home.function.start : home.function.body]}{{ crate::never::never(); {CUT} }}"


def is_emptied(home: Home, tries: list[Try]) -> bool:
    """Whether a function that no edit of a check is for has its body emptied: not where that is of a line, nor of a
    `drop`, without whose proof no goal of a function that ends such a value is tried, nor where its cycle has a type in
    it, or an edit in its place."""
    own, edited = home.function, [it.edit.home.cycle for it in tries if not it.number]
    is_kept = "Drop for" in own.block or "const fn" in own.signature or home.named_cycle and not home.cycle
    return not (is_kept or home.cycle and home.cycle in edited) and home.text.count("\n", own.body, own.end) > 1


def texts_of(crate: kit.Crate, tries: list[Try]) -> Texts:
    """The files that a check of these tries changes; an empty text is that of a folder that goes."""
    found: Texts = {}
    for home in reversed(homes(crate.folder)):
        text, own = found.get(home.file, home.text), home.function
        some = {it.number: it.body() for it in tries if it.edit.home is home}
        if 0 not in some and is_emptied(home, tries):
            some[0] = emptied(home)
            found.update({it: "" for it in (home.folder, home.cycle) if it and os.path.isdir(f"{crate.folder}/{it}")})
        bodies = [some.pop(0, text[own.top : own.end]), *some.values()]
        found[home.file] = text[: own.top] + "\n".join(bodies) + text[own.end :]
    for one in tries:
        file = one.edit.file
        if one.edit.is_of_law and not one.is_right:
            found[file] = changed(found.get(file) or read(f"{crate.folder}/{file}"), one.edit.changes)
        found.update(one.proofs())
    root = next(it for it in ("src/lib.rt", "src/main.rt") if it in sources(crate.folder))
    return {**found, root: f"{found.get(root) or sources(crate.folder)[root]}\nmod never;\n", "src/never.rt": NEVER}


class Said:
    """What a check said of a try."""

    def __init__(self, one: Try, lines: list[str], texts: Texts) -> None:
        self.edit, self.lines, self.is_by_names = one.edit, lines, one.is_by_names
        home = one.edit.home
        own, places = home.told_as(one.suffix), places_of(home, one.suffix, texts[home.file])
        self.statuses = [it[2] for it in map(STATUS.match, lines) if it and own.match(it[1])]
        opened = [it for it in map(OPEN.match, lines) if it and (it[1], int(it[2])) in places]
        self.open = {it[3]: "values at which this goal is false" in it[4] for it in opened}
        by_hand = [(it[2] or "", it[3], it[1]) for it in map(BY_HAND.match, lines) if it and it[2] != NO_FORM]
        by_hand = [it for it in by_hand if own.match(path_of(it[2], it[0]))]
        self.by_hand = [goal for goal, why, _ in by_hand if not MISSES.search(why)]
        self.lost = {goal for goal, why, _ in by_hand if MISSES.search(why)}
        is_of_law = one.edit.is_of_law and {*self.statuses} - {"proved"}
        lemmas = [it for it in map(LEMMA.match, lines) if it and is_of_law and it[1] != NO_FORM]
        self.lemmas = [f"the lemma {it[1]}" for it in lemmas if not MISSES.search(it[2])]

    def refused_by(self) -> list[str]:
        """The goals of the contract that are not proved, but those whose proof by hand lost a name. Of an edit that names
        goals, these alone: another goal's proof by hand may fail for the form of the text."""
        lost = {it for it in self.open if any(goal and is_within(it, goal) for goal in self.lost)}
        opened = [] if self.is_by_names else [it for it in self.open if self.open[it] or it not in lost]
        found = filter(is_of_contract, [*self.by_hand, *opened])
        return [*(it for it in found if it in (self.edit.goals or [it])), *self.lemmas]

    def is_right(self) -> bool:
        """Whether no goal of the contract is open."""
        is_open = self.lost - {*self.edit.goals} or any(map(is_of_contract, [*self.by_hand, *self.open]))
        return bool(self.statuses) and not is_open

    def cause(self) -> str:
        """Why the edit is not refused."""
        if not any(it.startswith(("logic=", "only=")) for it in self.lines):
            return f"it does not compile: {next(filter(ERROR.match, self.lines), self.lines[0])[:200]}"
        lost = [f"{it or 'all'}, whose proof names what is gone" for it in self.lost]
        told = ", ".join([*dict.fromkeys([*self.by_hand, *self.open]), *lost]) or "none"
        return f"no goal of its contract is open, of these: {told}"


def places_of(home: Home, suffix: str, text: str) -> set[tuple[str, int]]:
    """The lines of a function, or of its copy, in the text of its file, each with the file."""
    own = [it for it in functions_of(text) if it.path == home.function.path + suffix]
    spans = [(text.count("\n", 0, it.top) + 1, text.count("\n", 0, it.end) + 2) for it in own]
    return {(home.file, line) for first, end in spans for line in range(first, end)}


def path_of(folder: str, goal: str) -> str:
    """The path of the function whose proof by hand stands in a folder. A goal of a cycle's begins with its function, but
    where that is the only one."""
    *modules, last = folder.split("/")
    first = goal.split("-")[0]
    if last.startswith("+"):
        last = last[1:] if first in ("returns", "loop") else first
    return "::".join([*modules, last])


class Trial:
    """The trial of a crate's edits: which were refused before, and the tries of the others by checks."""

    def __init__(self, crate: kit.Crate, given: argparse.Namespace) -> None:
        self.crate, self.given, self.stamp = crate, given, crate.stamp()
        self.edits = [it for it in edits_below(crate) if given.edit in it.path]
        is_anew = given.anew or given.right
        self.earlier = {it for it in self.edits if not (is_anew or it.fault) and self.kept(it).is_file()}

    def kept(self, edit: Edit) -> pathlib.Path:
        """The file that is there once an edit is refused: its name is the sum of all that this stands on."""
        judge = [read(it) for it in (__file__, edits_module.__file__, source.__file__)]
        told = repr((judge, self.stamp, edit.name, edit.text))
        cache = os.environ.get("XDG_CACHE_HOME") or os.path.expanduser("~/.cache")
        return pathlib.Path(cache, "dithvong", "wrong", hashlib.sha256(told.encode()).hexdigest())

    def checks(self) -> list[list[Try]]:
        """The tries of each check. The first edit of a function is made in its place, and the others to copies; where
        that cannot be, each is made in its place, in another check. An edit of a definition has its own."""
        shared, alone, seen = list[list[Try]](), list[list[Try]](), collections.Counter[Home]()
        for edit in self.edits:
            if edit.fault or edit in self.earlier:
                continue
            own = edit.home
            one = Try(edit, seen[own] + own.is_in_cycle if own.can_be_copied else 0, is_right=self.given.right)
            seen[own] += 1
            taken = [{(it.edit.home, it.number) for it in tries} for tries in shared]
            room = [it for it, homed in zip(shared, taken) if len(it) < MANY and (own, one.number) not in homed]
            if edit.is_of_law:
                alone.append([one])
            elif room:
                room[0].append(one)
            else:
                shared.append([one])
        return shared + alone

    def checked(self, tries: list[Try]) -> list[Said]:
        """What a check of these tries says of each, once there is memory for it."""
        texts = texts_of(self.crate, tries)
        with tempfile.TemporaryDirectory(prefix="wrong-") as room:
            for part in self.crate.folders():
                shutil.copytree(f"{self.crate.folder}/{part}", f"{room}/{part}")
            for place, text in ((pathlib.Path(room, path), text) for path, text in texts.items()):
                if text:
                    place.parent.mkdir(parents=True, exist_ok=True)
                    place.write_text(text, encoding="utf-8")
                else:
                    shutil.rmtree(place)
            while kit.free() < kit.ROOM:
                time.sleep(2)
            only = [f"--only={it.edit.home.path}{it.suffix}" for it in tries]
            words = self.crate.check(["--jobs", "1", "--short-goals", *only])
            none, pipe, both = subprocess.DEVNULL, subprocess.PIPE, subprocess.STDOUT
            done = subprocess.run(words, cwd=room, stdin=none, stdout=pipe, stderr=both)
        printed = done.stdout.decode(errors="replace")
        if self.given.told:
            with open(self.given.told, "a", encoding="utf-8") as file:
                file.write(f"== {' '.join(it.edit.name for it in tries)}\n{printed}\n")
        # what a line says goes on in the lines below that stand in from the margin
        lines = re.sub(r"\n +", " ", printed.rstrip("\n")).split("\n")
        return [Said(it, lines, texts) for it in tries]

    def alone(self, edit: Edit) -> tuple[list[str], Said]:
        """The goals that refuse an edit, tried by all goals, that of a cycle of calls in a copy first. Where its proof by
        hand names what it took away, it is tried without that part: by the goals that are false by values that the
        prover finds, or proved of the right body without that part."""
        for number in [1, 0] if edit.home.is_in_cycle and edit.home.can_be_copied else [0]:
            one = Try(edit, number, is_named=False)
            said = self.checked([one])[0]
            while said.lost - one.gone and not said.refused_by():
                one = one._replace(gone=one.gone | said.lost)
                said = self.checked([one])[0]
            goals = said.refused_by()
            if goals and one.gone and not any(said.open.get(it) for it in goals):
                right = self.checked([one._replace(is_right=True)])[0].open
                goals = [it for it in goals if not any(is_within(it, goal) or is_within(goal, it) for goal in right)]
            if goals:
                break
        return goals, said

    def is_refused(self, one: Try, said: Said) -> bool:
        """Says whether an edit is refused, or of a right body whether it is not."""
        name, goals = one.edit.name, said.refused_by()
        if one.is_right:
            say(f"pass {name}, as it was" if said.is_right() else f"FAIL {name}, as it was: {said.cause()}")
            return said.is_right()
        if not goals:
            goals, said = self.alone(one.edit)
        say(f"pass {name} is refused by {goals[0]}" if goals else f"FAIL {name}: {said.cause()}")
        if goals and self.crate.stamp() == self.stamp:
            self.kept(one.edit).parent.mkdir(0o700, parents=True, exist_ok=True)
            self.kept(one.edit).touch()
        return bool(goals)

    def run(self, tries: list[Try]) -> list[bool]:
        """Tries edits in one check, and by itself what that does not show; says of each whether all is well."""
        if not is_proved_below(self.crate, self.given.gate):
            say(f"FAIL {self.crate.name}: a crate below it is not proved, so {len(tries)} edits were not tried")
            return [False for _ in tries]
        return [self.is_refused(one, said) for one, said in zip(tries, self.checked(tries))]

    def settled(self) -> list[bool]:
        """Tells of the edits that are not tried, since they cannot be or were refused before."""
        told = [it for it in self.edits if it.fault or it in self.earlier]
        for it in told:
            earlier = f"pass {it.name} is refused, as an earlier run on this machine saw"
            say(f"FAIL {it.name}: {it.fault}" if it.fault else earlier)
        return [not it.fault for it in told]


def is_proved_below(crate: kit.Crate, log: str) -> bool:
    """Waits until the gate that writes this log has proved the crates below one, or has ended; says whether it has."""
    below = {low.name for low in crate.below()}
    while log:
        text = read(log) if os.path.isfile(log) else ""
        if below <= {*re.findall(r"(?m)^rt: (\S+) (?:proved$|is kept: )", text)}:
            break
        if re.search(r"(?m)^\d+ passed, \d+ failed", text):
            return False
        time.sleep(2)
    return True


def said() -> argparse.Namespace:
    """What the command line says."""
    words = parser(__doc__)
    words.add_argument("names", nargs="*", metavar="NAME", help="the crates; without names all")
    words.add_argument("--edit", default="", metavar="WORD", help="just edits whose paths have it")
    words.add_argument("--gate", metavar="LOG", default="", help="what `rt ci` beside this prints")
    words.add_argument("--anew", action="store_true", help="try what was refused before, too")
    words.add_argument("--right", action="store_true", help="try right bodies: none may be refused")
    words.add_argument("--told", help="a file to which what the prover said is appended")
    return words.parse_args()


def main() -> int:
    """Tries the wrong bodies of the crates that the command line names, the lowest first, as the gate proves them."""
    given = said()
    os.chdir(os.path.dirname(os.path.dirname(os.path.abspath(__file__))))
    crates = [it for it in kit.crates(os.getcwd()).values() if not given.names or it.name in given.names]
    trials = [Trial(it, given) for it in crates]
    checks = [(trial, tries) for trial in trials for tries in trial.checks()]
    stale = [low.name for trial, _ in checks for low in trial.crate.below() if not (given.gate or low.is_current())]
    if stale:
        names = ", ".join(dict.fromkeys(stale))
        sys.exit(f"not proved, or older than what they are made of: {names}; `rt ci` proves them")
    with ThreadPoolExecutor(kit.processors()) as pool:
        runs = [pool.submit(trial.run, tries) for trial, tries in checks]
        tried = [is_well for trial in trials for is_well in trial.settled()]
        tried += [is_well for run in runs for is_well in run.result()]
    say(f"{tried.count(True)} passed, {tried.count(False)} failed")
    return 0 if all(tried) else 1


if __name__ == "__main__":
    sys.exit(main())
