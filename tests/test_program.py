"""The built program on what the gate cannot give it: a full device, long scripts, scripts of examples/, and readers
that go away. What refuses memory is in tests/test_refused.py."""
from __future__ import annotations

import glob
import os
import subprocess
import sys
import tempfile
import unittest
from typing import List

import ample
import built
import second
from built import TOP, Ran
from talk import kept_back

FULL = "/dev/full"
FAILED_WRITE, FAILED_READ = b"error: writing failed\n", b"error: reading failed\n"
# No line of the language is any of these,
BAD = r"""set 1a 1
set a
set a 1 2
set a "x
set a "\q"
set a "\u{d800}"
set a "\u{}"
set a x"0"
set a [1,]
set a -1u64
set a 340282366920938463463374607431768211456
set a -170141183460469231731687303715884105729
slice a 1 2
slice a _ _ 170141183460469231731687303715884105728
eq a b -> c
walk a -> b
walk
get a ->
path a s"x"
""".splitlines()
# no literal is written so,
LITERALS = r"""18446744073709551616u64
{1}
{none: 1}
{undefined: 1}
{s"k": 1}
{x"6b": 1}
{[]: 1}
{{}: 1}
{"a": 1,}
{, "a": 1}
{,}
{"a" 1}
{"a":}
{"a":: 1}
{"a": 1 "b": 2}
{"a": 1; "b": 2}
{"a": 1
{"a": 1]
["a": 1]
{"a": 1}}
{"a": 1} 2
{a: 1}
{-1u64: 1}
{256u8: 1}
{"a: 1}
{"\x": 1}
{true1: 1}
{truefalse: 1}
""".splitlines()
# and no map of texts.
SOURCES = r"""{1: 2}
{"a": 1, true: 2}
{"1": 1, 1: 2}
{s"a": 1}
[]
"a"
none
{"a": 1} -> b
{"a": 1} {}
a {"a": 1}
{"a": 1
""".splitlines()


def replayed(script: str) -> Ran:
    """What the program writes on a script."""
    return built.heard(built.program("tera_replay"), given=script.encode())


def report(number: int, line: str) -> bytes:
    """The report of a bad line, which has a caret for each of its characters."""
    return f"error: bad line\n --> line {number}:1:1\n  |\n1 | {line}\n  | {'^' * max(len(line), 1)}\n".encode()


def redirected(script: bytes, to: str) -> Ran:
    """The same where streams are files: `to` is said as a shell says it."""
    return built.heard("sh", "-c", f'exec "$0" {to}', built.program("tera_replay"), given=script)


def said(path: str) -> bytes:
    """What a file holds; nothing where it is not there."""
    if not os.path.exists(path):
        return b""
    with open(path, "rb") as file:
        return file.read()


class Streams(unittest.TestCase):
    """Full devices, folders, readers that go away, and answers that are waited for."""

    def test_empty(self) -> None:
        """the empty script ends with status 0"""
        self.assertEqual(replayed(""), (b"", b"", 0))

    def test_full_device(self) -> None:
        """a full device is a failed write"""
        script = said(f"{TOP}/examples/first.replay")
        self.assertEqual(redirected(script, f">{FULL}"), (b"", FAILED_WRITE, 1))

    def test_unwritten_report(self) -> None:
        """a report that cannot be written changes nothing"""
        self.assertEqual(redirected(b"eq a b\nfrob\n", f"2>{FULL}"), (b"true\n", b"", 2))

    def test_unread(self) -> None:
        """a folder for standard input is a failed read"""
        self.assertEqual(redirected(b"", f"<{TOP}/tests"), (b"", FAILED_READ, 1))

    def test_both_full(self) -> None:
        """both streams on a full device end with status 1"""
        script = said(f"{TOP}/examples/first.replay")
        self.assertEqual(redirected(script, f">{FULL} 2>{FULL}"), (b"", b"", 1))

    def test_unread_and_full(self) -> None:
        """a failed read is no other where standard error fails"""
        self.assertEqual(redirected(b"", f"<{TOP}/tests 2>{FULL}"), (b"", b"", 1))

    def test_closed(self) -> None:
        """a reader of the answers that closes early is a failed write"""
        pipe = subprocess.PIPE
        with tempfile.TemporaryFile() as script:
            script.write(said_by("bench/scalars.py", "400000"))
            script.seek(0)
            running = subprocess.Popen([built.program("tera_replay")], stdin=script, stdout=pipe, stderr=pipe)
        with running:
            assert running.stdout and running.stderr
            self.assertEqual(running.stdout.readline(), b"ok\n")
            running.stdout.close()
            self.assertEqual((running.stderr.read(), running.wait()), (FAILED_WRITE, 1))

    def test_talk(self) -> None:
        """each answer of 10,000 lines is out before more input is asked for"""
        self.assertEqual(kept_back([built.program("tera_replay")], 10000), "")


def said_by(*words: str) -> bytes:
    """What a script of this repository prints."""
    done = built.heard(sys.executable, *words)
    assert done.status == 0, done.err
    return done.out


class BadLines(unittest.TestCase):
    """Lines that say no call."""

    def are_bad(self, lines: List[str], before: str = "") -> None:
        """Each line, behind this word, has no answer, and a report."""
        for line in lines:
            with self.subTest(line):
                self.assertEqual(replayed(f"{before}{line}\n"), (b"", report(1, before + line), 2))

    def test_lines(self) -> None:
        """bad lines have their reports"""
        self.are_bad(BAD)

    def test_literals(self) -> None:
        """what is no literal is a bad line"""
        self.are_bad(LITERALS, "set a ")

    def test_sources(self) -> None:
        """what is no map of texts is no source"""
        self.are_bad(SOURCES, "extend ")

    def test_end(self) -> None:
        """a bad line ends the run"""
        self.assertEqual(replayed("eq a b\nfrob\neq a b\n"), (b"true\n", report(2, "frob"), 2))

    def test_past_ascii(self) -> None:
        """bad lines past ASCII have their reports"""
        self.assertEqual(replayed("frob \u00e9"), (b"", report(1, "frob \u00e9"), 2))
        # what is no UTF-8 is shown as an empty line
        self.assertEqual(redirected(b"\377", ""), (b"", report(1, ""), 2))


class Answers(unittest.TestCase):
    """Scripts with the answers that they are to have."""

    def test_examples(self) -> None:
        """each script of examples/ has its answers and its status"""
        scripts = sorted(glob.glob(f"{TOP}/examples/*.replay"))
        self.assertTrue(scripts)
        built.program("tera_replay")
        for script in scripts:
            with self.subTest(os.path.basename(script)):
                name = script.removesuffix(".replay")
                done = built.heard(f"{TOP}/replay", given=said(script))
                self.assertEqual((done.out, done.status), (said(f"{name}.answers"), int(said(f"{name}.status") or 0)))
                self.assertNotIn("replay: ", done.err.decode())

    def answers(self, script: bytes, wanted: bytes) -> None:
        """The program gives these answers, and nothing else."""
        done = redirected(script, "")
        self.assertEqual((done.err, done.status), (b"", 0))
        self.assertTrue(done.out == wanted, f"{len(done.out)} bytes in the place of {len(wanted)}")

    def test_short_lines(self) -> None:
        """400,000 short lines"""
        self.answers(said_by("bench/scalars.py", "400000"), said_by("bench/scalars.py", "400000", "--answers"))

    def test_long_text(self) -> None:
        """a text of a megabyte"""
        text = b"long text, " * 100000
        self.answers(b'set t "%s"\nprint t\n' % text, b"ok\ntext %s\n" % text)

    def test_long_path(self) -> None:
        """a path of 10,000 elements"""
        self.answers(b'set l [0]\npath l "%s"\n' % b".".join([b"0"] * 10000), b"ok\nnothing\n")

    def test_each_line(self) -> None:
        """each line on operands of 0, 1 and 1,000 parts, with ample memory"""
        script = "".join(f"{line}\n" for line in ample.script())
        wanted = second.replay(script.encode())
        self.assertEqual(wanted[1:], (b"", 0))
        self.assertNotIn(b"error: Out of memory\n", wanted[0])
        self.answers(script.encode(), wanted[0])

    def test_conform(self) -> None:
        """tables of cases and random scripts are answered as docs/SCRIPT.md says"""
        done = built.heard(f"{TOP}/conform", "--seeds", "1..3", "--", built.program("tera_replay"))
        self.assertEqual(done.status, 0, done.out.decode(errors="replace")[-4000:])


if __name__ == "__main__":
    unittest.main()
