"""`./replay` where nothing is proved yet, in copies of the repository, and `./replay --prove` with a kit that is made up."""
from __future__ import annotations

import os
import subprocess
import tempfile
import time
import unittest
from typing import IO, List, Optional

import built
from built import Ran
from tools import prove

# In the place of the kit: says what `rt try` says where it has no answer, and notes each crate that is to be proved.
KIT = """#!/bin/sh
crate=${PWD##*/}
case $1 in
    try)
        cat "$SAYS" >&2
        exit "$ENDS"
        ;;
esac
[ "$crate" != "$FAILS" ] || exit 1
mkdir -p out/rlib
echo "$crate" >>"$NOTES"
[ "$1" = lib ] || { printf '#!/bin/sh\\necho proved\\n' >"out/$crate" && chmod +x "out/$crate"; }
"""
TOO_MUCH = """the end of the program's standard output:
| ok
checked: no-answer: the program wrote more than 1048576 bytes to standard output or to standard error, the limit on each
run=no-answer proved=no
"""
NO_EXPRESSION = "error: expected an expression\nrun=none proved=no\n"


def written(path: str, text: str) -> str:
    """Writes a file; answers its path."""
    with open(path, "w", encoding="utf-8") as file:
        file.write(text)
    return path


def read(path: str) -> str:
    """What a file holds."""
    with open(path, encoding="utf-8") as file:
        return file.read()


class Unproved(unittest.TestCase):
    """A copy of the repository in which nothing is built."""

    def setUp(self) -> None:
        room = tempfile.TemporaryDirectory(prefix="replay-")
        self.addCleanup(room.cleanup)
        self.room, self.top = room.name, built.clone(f"{room.name}/copy")
        self.notes = written(f"{self.room}/notes", "")
        os.mkdir(f"{self.room}/kit")
        os.chmod(written(f"{self.room}/kit/rt", KIT), 0o755)

    def replay(self, *words: str, given: Optional[IO[bytes]] = None, says: Optional[str] = None, ends: int = 6,
               fails: str = "") -> Ran:
        """What `./replay` answers, by a kit that says this or by the own one."""
        env = {**os.environ, "NOTES": self.notes, "ENDS": str(ends), "FAILS": fails, "SAYS": f"{self.room}/says"}
        if says is not None:
            written(env["SAYS"], says)
            env["PATH"] = f"{self.room}/kit:{env['PATH']}"
        done = subprocess.run([f"{self.top}/replay", *words], stdin=given or subprocess.DEVNULL, capture_output=True, env=env,
                              timeout=600)
        return Ran(done.stdout, done.stderr, done.returncode)

    def has_no_answer(self, done: Ran, words: str) -> None:
        """There is no answer, and one line behind the first tells why, by these words."""
        lines = done.err.decode().splitlines()
        self.assertEqual((done.out, done.status, len(lines)), (b"", 3, 2), done.err)
        self.assertRegex(lines[1], f"^replay: no answer: .*{words}")

    def test_long_script(self) -> None:
        """unproved, a script of 64 MiB is told to be too long"""
        with tempfile.TemporaryFile() as script:
            script.truncate(64 << 20)
            self.has_no_answer(self.replay(given=script), "64 MiB.*./replay --prove")

    def test_folder(self) -> None:
        """unproved, a folder for standard input has no answer"""
        done = built.heard("sh", "-c", 'exec "$0" <"$1"', f"{self.top}/replay", self.room)
        self.has_no_answer(done, "standard input could not be read")

    def test_many_answers(self) -> None:
        """unproved, too many answers are told"""
        self.has_no_answer(self.replay(says=TOO_MUCH), "1 MiB.*./replay --prove")

    def test_no_sources(self) -> None:
        """unproved, sources that do not compile are told"""
        log = f"{self.top}/crates/tera_replay/out/try.log"
        done = self.replay(says=NO_EXPRESSION, ends=1)
        self.has_no_answer(done, f"the sources do not compile; the words of .rt try. are in {log}")
        self.assertEqual(read(log), NO_EXPRESSION)

    def test_unproved_crate(self) -> None:
        """a crate that is not proved is told, with its log"""
        done = self.replay("--prove", says="", fails="tera_values")
        self.assertEqual((done.out, done.status), (b"", 1))
        log = f"{self.top}/crates/tera_replay/out/prove/tera_values.log"
        self.assertRegex(done.err.decode().splitlines()[-1], f"^replay: tera_values: not proved, .*; see {log}$")

    def test_order(self) -> None:
        """crates are proved after those that they stand on, and ./replay is then the program"""
        self.assertEqual(self.replay("--prove", says="")[::2], (b"", 0))
        crates, proved = prove.Crates(self.top), read(self.notes).split()
        self.assertEqual(proved[-1], "tera_cli")
        for at, crate in enumerate(proved):
            self.assertLessEqual({*crates.below(crate)}, {*proved[:at]})
        self.assertEqual(self.replay(), (b"proved\n", b"", 0))

    def test_first_answer(self) -> None:
        """the first answer of a fresh clone, with its status and both streams"""
        pipe = subprocess.PIPE
        with subprocess.Popen([f"{self.top}/replay"], stdin=pipe, stdout=pipe, stderr=pipe, bufsize=0) as running:
            assert running.stdin
            running.stdin.write(b"set a 1u64\nkind a\n")
            time.sleep(3)  # a pipe that is silent for two seconds has not ended
            out, err = running.communicate(b"frob\nkind a\n", timeout=600)
        lines: List[str] = err.decode().split("\n")
        self.assertEqual((out, running.returncode), (b"ok\nkind u64\n", 2))
        self.assertRegex(lines[0], "^replay: .* not by the proved program, which `./replay --prove` makes")
        self.assertEqual(lines[1:], ["error: bad line", " --> line 3:1:1", "  |", "1 | frob", "  | ^^^^", ""])


class Proved(unittest.TestCase):
    """The repository itself."""

    def test_made(self) -> None:
        """./replay --prove makes the proved programs"""
        programs = [built.program("tera_replay"), built.program("tera_cli")]
        done = built.heard(f"{built.TOP}/replay", "--prove")
        self.assertEqual((done.out, done.status), (b"", 0))
        self.assertTrue(all(map(prove.is_fresh, programs)))


if __name__ == "__main__":
    unittest.main()
