"""Tests of tools/wrong_bodies.py on a small made-up crate, by the kit's prover, and of tools/kit.py on the kit."""
from __future__ import annotations

import os
import shutil
import subprocess
import sys
import tempfile
import unittest
from typing import Dict, List, Tuple

from built import TOP
from tools import kit
from tools.wrong_bodies import changed

FILES = {
    "crates.txt": "low:\n",
    "crates/low/src/lib.rt": """// A library of two functions, of which one calls the other.
#![tactic(auto)]

ghost use Rattle.low.specs.Double.{double};
ghost use Rattle.std.specs.Prelude.{◌≡◌, ◌+◌, ℕ};

pub fn echo(x: usize) -> usize
    ensures { result ≡ x }
{
    let answer = x;
    answer
}

pub fn twice(x: usize) -> usize
    ensures { result ≡ x }
{
    let once = echo(x);
    echo(once)
}

pub trait Counts {
    fn count(&self) -> u8
        ensures { result ≡ 7 };
}

pub struct Week {}

impl Counts for Week {
    fn count(&self) -> u8 {
        let days = 7;
        days
    }
}

pub fn doubles_are_sums()
    ensures { (n : ℕ) → double n ≡ n + n }
{}

pub fn sums_are_doubles()
    ensures sums { (n : ℕ) → n + n ≡ double n }
    ensures none { double 0 ≡ 0 }
{}
""",
    # it names what is not there, as where an edit takes that away
    "crates/low/proofs/twice/Answers.antt": "use Rattle.low.proofs.twice.Goals as goal\n\npub returns : goal.returns\nreturns c = c.nowhere\n",
    # it stands on a lemma with a hyphen in its name
    "crates/low/proofs/sums_are_doubles/Answers.antt": """use Rattle.low.proofs.Sums.{double-sum}
use Rattle.low.proofs.sums_are_doubles.Goals as goal

pub returns : goal.returns
returns c = record { sums = double-sum; none = double-sum 0 }
""",
    "crates/low/proofs/Lib.antt": "pub mod Sums\n",
    "crates/low/proofs/Sums.antt": """use Rattle.std.specs.Prelude.{◌≡◌, ◌+◌, ℕ, refl}
use Rattle.low.specs.Double.{double}

pub double-sum : (n : ℕ) → n + n ≡ double n
double-sum n = refl
""",
    "crates/low/specs/Lib.antt": "pub mod Double\n",
    "crates/low/specs/Double.antt": """-- Twice a number.
use Rattle.std.specs.Prelude.{ℕ, ◌+◌}

abbrev pub double : ℕ → ℕ
double n = n + n
"""}
ANSWER = "file: src/lib.rt\nold: let answer = x;\n"
EDITS = {
    "lib/echo/gives-seven": f"{ANSWER}new: let answer = 7;\ngoal: returns\n",
    "lib/echo/gives-eight": f"{ANSWER}new: let answer = 8;\n",
    "lib/echo/says-it-otherwise": f"{ANSWER}new: let other = x; let answer = other;\n",
    "lib/echo/does-not-compile": f"{ANSWER}new: let answer = nowhere;\n",
    "lib/echo/is-nowhere": "file: src/lib.rt\nold: let nothing = x;\nnew: let answer = 7;\n",
    "lib/echo/has-two-new-texts": f"{ANSWER}new: let answer =\nnew: 7;\n",
    "lib/echo/has-no-new-text": f"{ANSWER}new: let answer = 7;\nold: answer\n",
    "lib/echo/has-two-files": f"{ANSWER}new: let answer = 7;\nfile: src/main.rt\n",
    "lib/echo/has-another-line": f"{ANSWER}new: let answer = 7;\ngoal: returns by force\n",
    "lib/twice/gives-nine": "file: src/lib.rt\nold: echo(once)\nnew: 9\n",
    "lib/twice/in-the-wrong-folder": f"{ANSWER}new: let answer = 7;\n",
    "lib/WeekCounts.count/has-six-days": "file: src/lib.rt\nold: let days = 7;\nnew: let days = 6;\n",
    "lib/WeekCounts.count/has-eight-days": "file: src/lib.rt\nold: let days = 7;\nnew: let days = 8;\n",
    "specs/Double/doubles_are_sums/is-the-number": "file: specs/Double.antt\nonly: doubles_are_sums\nold: double n = n + n\nnew: double n = n\n",
    "specs/Double/sums_are_doubles/is-the-number": "file: specs/Double.antt\nonly: sums_are_doubles\nold: double n = n + n\nnew: double n = n\n"}


class Changes(unittest.TestCase):
    """What an edit makes of a text."""

    def test_changed(self) -> None:
        """what stands for one part of a text is not taken for another part that is changed"""
        arms = "            None => 1,\n        None => 2,\n"
        changes = [("            None => 1,", "            None => 2,"), ("\n        None => 2,", "\n        None => 3,")]
        self.assertEqual(changed(arms, changes), "            None => 2,\n        None => 3,\n")
        self.assertEqual(changed("one two", [("one", "two"), ("two", "one")]), "two one")
        self.assertEqual(changed("one", []), "one")


@unittest.skipUnless(shutil.which("rt"), "no kit: there is no `rt` on the path")
class WrongBodies(unittest.TestCase):
    """Edits of a crate, and what is told of each."""

    def tried(self, edits: Dict[str, str], *words: str) -> Tuple[int, List[str]]:
        """The status, and the lines that are told, in order."""
        with tempfile.TemporaryDirectory(prefix="edits-") as room:
            shutil.copytree(f"{TOP}/tools", f"{room}/tools")
            given = {f"crates/low/wrong/{name}.edit": text for name, text in edits.items()}
            for path, text in {**FILES, **given}.items():
                os.makedirs(os.path.dirname(f"{room}/{path}"), exist_ok=True)
                with open(f"{room}/{path}", "w", encoding="utf-8") as file:
                    file.write(text)
            env = {**os.environ, "XDG_CACHE_HOME": f"{room}/kept"}
            script = [sys.executable, f"{room}/tools/wrong_bodies.py", *words]
            done = [subprocess.run(script, env=env, capture_output=True, text=True) for _ in range(2)]
            self.assertEqual(done[0].stderr, "")
            self.again = done[1].stdout
            return done[0].returncode, sorted(done[0].stdout.splitlines())

    def test_edits(self) -> None:
        """an edit is refused by its own function's contract, and what is not refused or cannot be tried is told"""
        status, lines = self.tried(EDITS)
        told = {line.split(":")[0].split(" is refused")[0]: line for line in lines}
        self.assertEqual((status, "7 passed, 8 failed" in lines), (1, True), lines)
        refused = ("lib/echo/gives-seven", "lib/echo/gives-eight", "lib/twice/gives-nine", "lib/WeekCounts.count/has-six-days",
                   "lib/WeekCounts.count/has-eight-days", "specs/Double/doubles_are_sums/is-the-number")
        for name in refused:
            self.assertRegex(told[f"pass low/{name}"], "is refused by returns")
        by_lemma = "specs/Double/sums_are_doubles/is-the-number"
        self.assertRegex(told[f"pass low/{by_lemma}"], "is refused by the lemma double-sum")
        for name, why in {"lib/echo/says-it-otherwise": "no goal of its contract is open", "lib/echo/does-not-compile": "it does not compile",
                          "lib/echo/is-nowhere": "this stands 0 times",
                          "lib/echo/has-two-new-texts": "not read: new: 7;", "lib/echo/has-no-new-text": "not read: old: answer",
                          "lib/echo/has-two-files": "not read: src/main.rt", "lib/echo/has-another-line": "not read: goal: returns by force",
                          "lib/twice/in-the-wrong-folder": "this stands 0 times there"}.items():
            self.assertIn(why, told[f"FAIL low/{name}"])
        self.assertEqual(self.again.count("as an earlier run on this machine saw"), len(refused) + 1)

    def test_right_bodies(self) -> None:
        """right bodies that are tried as wrong ones leave no goal open"""
        status, lines = self.tried({"lib/echo/gives-seven": EDITS["lib/echo/gives-seven"]}, "--right")
        self.assertEqual((status, lines[0]), (0, "1 passed, 0 failed"), lines)


@unittest.skipUnless(shutil.which("rt"), "no kit: there is no `rt` on the path")
class Kit(unittest.TestCase):
    """What is taken of the kit beside its commands."""

    def test_kit(self) -> None:
        """the kit has all that tools/kit.py takes of it"""
        self.assertEqual(kit.changes(), [], "the kit has changed: tools/kit.py does not fit")

    def test_crates(self) -> None:
        """the crates are those of crates.txt, each after those that it stands on"""
        crates = kit.crates(TOP)
        with open(f"{TOP}/crates.txt", encoding="utf-8") as file:
            listed = {line.split(":")[0].split()[0] for line in file if ":" in line and line[0] != "#"}
        self.assertEqual({*crates}, listed)
        for crate in crates.values():
            self.assertIn("--crate-name", crate.check(["--jobs", "1"]))
            self.assertLess({low.name for low in crate.below()}, listed)
        self.assertGreaterEqual(kit.lanes(), 1)


if __name__ == "__main__":
    unittest.main()
