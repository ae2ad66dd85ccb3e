"""Random scripts (tests/fuzz.py, tests/storm.py), and keys and names that collide (tests/flood.py), by the built program."""
from __future__ import annotations

import sys
import tempfile
import unittest

import built
import flood


class Scripts(unittest.TestCase):
    """Scripts by a seed are answered as by a second implementation."""

    def fuzz(self, *words: str) -> None:
        """Runs tests/fuzz.py, which tells a script on which the two differ."""
        done = built.heard(sys.executable, f"{built.TOP}/tests/fuzz.py", *words, "--", built.program("tera_replay"), seconds=1200)
        self.assertEqual(done.status, 0, (done.out + done.err).decode(errors="replace")[-4000:])
        self.assertIn(b"fuzz: end, ", done.out)

    def test_lines(self) -> None:
        """a second implementation answers 20,000 lines in the same way"""
        self.fuzz("--seed", "1", "--lines", "20000")

    def test_storm(self) -> None:
        """sixty seconds of large scripts, cut and in pieces, answered as by a second implementation"""
        with tempfile.TemporaryDirectory(prefix="fuzz-") as room:
            self.fuzz("--seconds", "60", "--seed", "2", "--keep", room)


class Floods(unittest.TestCase):
    """Keys and names that collide under std's seed take at most twice the instructions of random ones."""

    def test_floods(self) -> None:
        """floods of keys that collide end"""
        self.assertTrue(built.install("valgrind"))
        for holds, row in flood.rows(built.program("tera_replay"), "the program"):
            with self.subTest(row):
                self.assertTrue(holds, row)


if __name__ == "__main__":
    unittest.main()
