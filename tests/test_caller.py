"""Follows docs/USE.md: makes a repository of a caller's own by the lines of the page, and runs its program and its test,
unproved."""
from __future__ import annotations

import re
import subprocess
import tempfile
import unittest
from typing import List, Tuple

from built import TOP

LIMIT = 600  # seconds, of which a machine that is busy takes some 60


def page() -> Tuple[List[str], str, str]:
    """The scripts of the page, its program, and what it says that the program prints."""
    with open(f"{TOP}/docs/USE.md", encoding="utf-8") as file:
        text = file.read().partition("\n## The programs\n")[0]
    scripts = re.findall(r"(?ms)^```sh\n(.*?)^```", text)
    program = re.findall(r"(?ms)^```rust\n(.*?)^```", text)
    return scripts, program[0], re.findall(r"prints `([^`]*)`", text)[0]


class Caller(unittest.TestCase):
    """A repository of a caller's own."""

    def says(self, script: str, folder: str) -> str:
        """What a script of the page says in a folder, where it ends well."""
        words = ["sh", "-ec", script]
        done = subprocess.run(words, cwd=folder, stdin=subprocess.DEVNULL, capture_output=True, text=True, timeout=LIMIT)
        self.assertEqual(done.returncode, 0, done.stdout + done.stderr)
        return done.stdout + done.stderr

    def test_page(self) -> None:
        """the lines of docs/USE.md make a repository, and its program and its test answer as it says"""
        (makes, tries), program, printed = page()
        with tempfile.TemporaryDirectory(prefix="caller-") as room:
            self.says(makes.replace("/path/to/dithvong", TOP), room)
            folder = f"{room}/mine/crates/page"
            with open(f"{folder}/src/main.rt", "w", encoding="utf-8") as file:
                file.write(program)
            for line in tries.splitlines():
                with self.subTest(line):
                    self.assertIn("1 passed" if "--test" in line else printed, self.says(line, folder))


if __name__ == "__main__":
    unittest.main()
