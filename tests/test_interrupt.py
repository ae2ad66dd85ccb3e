"""An interrupted `./check` leaves nothing behind. A signal comes at three places: at its start, while crates are proved with
wrong bodies beside them, and in the tests of what is built. Within five seconds no process is left that it began."""
from __future__ import annotations

import glob
import os
import shutil
import signal
import subprocess
import tempfile
import unittest
import uuid
from typing import List

import built

WAITS = 120  # seconds until the place is reached
ENDS = 5  # seconds until all has ended
# in the place of the kit's command: its gate passes at once
STUB = '#!/bin/sh\n[ "$1" != ci ] || exec echo "1 passed, 0 failed"\nexec {rt} "$@"\n'


def begun(mark: str) -> List[str]:
    """The words of each process that carries the mark in its environment."""
    found = []
    for folder in glob.glob("/proc/[0-9]*"):
        try:
            with open(f"{folder}/environ", "rb") as file:
                if mark.encode() in file.read():
                    found.append(" ".join(built.words_of(int(os.path.basename(folder)))))
        except OSError:
            pass
    return found


class Interrupted(unittest.TestCase):
    """A check of a copy of the repository."""

    def setUp(self) -> None:
        room = tempfile.TemporaryDirectory(prefix="interrupt-")
        self.addCleanup(room.cleanup)
        self.room, self.copy = room.name, built.clone(f"{room.name}/copy")

    def ends(self, number: int, sign: str, path: str = "") -> None:
        """All ends by the signal that comes once a process runs whose words have this sign."""
        mark = str(uuid.uuid4())
        env = {**os.environ, "CHECK_TRIAL": mark, "PATH": path + os.environ["PATH"]}
        env.pop("CHECK_ENDS", None)
        with open(f"{self.room}/log", "wb") as log:
            run = subprocess.Popen([f"{self.copy}/check"], env=env, stdout=log, stderr=log, start_new_session=True)
        is_there = built.comes_true(WAITS, lambda: any(sign in words for words in begun(mark)) or run.poll() is not None)
        run.send_signal(number)
        self.assertTrue(is_there, f"no process with {sign}")
        self.assertTrue(built.comes_true(ENDS, lambda: run.poll() is not None and not begun(mark)), begun(mark))
        self.assertEqual(run.returncode, 128 + number)

    def test_start(self) -> None:
        """a check that is ended at its start leaves nothing behind"""
        self.ends(signal.SIGINT, "tools/testing.py")

    def test_proofs(self) -> None:
        """a check that is ended while crates are proved leaves nothing behind"""
        self.ends(signal.SIGTERM, "rattle ")

    def test_tests(self) -> None:
        """a check that is ended in the tests of what is built leaves nothing behind"""
        os.mkdir(f"{self.room}/bin")
        with open(f"{self.room}/bin/rt", "w", encoding="utf-8") as file:
            file.write(STUB.format(rt=shutil.which("rt")))
        os.chmod(f"{self.room}/bin/rt", 0o755)
        self.ends(signal.SIGHUP, "testing.py --all", f"{self.room}/bin:")


if __name__ == "__main__":
    unittest.main()
