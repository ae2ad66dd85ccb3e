#!/usr/bin/env python3
"""Runs a command, and ends with it all that it began: `python3 tools/ending.py COMMAND ..`.

Where an interrupt, TERM or HUP comes, the command and all below it are told to end, and are killed two seconds later. So
nothing is left that runs, waits or holds a lock, and the status is 128 and the signal's number.
"""
import contextlib
import ctypes
import glob
import os
import signal
import subprocess
import sys
import time
from typing import Any

ADOPTS_ORPHANS = 36  # PR_SET_CHILD_SUBREAPER: what a process below left becomes a child of this one
PATIENCE = 2  # seconds
SIGNALS = signal.SIGINT, signal.SIGTERM, signal.SIGHUP


def below(pid: int) -> list[int]:
    """The processes that a process began, and those below them, as far as the kernel tells them."""
    found = list[int]()
    for path in glob.glob(f"/proc/{pid}/task/*/children"):
        with contextlib.suppress(OSError), open(path, encoding="utf-8") as file:
            found += map(int, file.read().split())
    return found + [inner for child in found for inner in below(child)]


class Ended(Exception):
    """A signal came: its number."""


def ended(number: int, _: object) -> None:
    """Stops what this waits for, as a signal came."""
    raise Ended(number)


def heed(handler: Any = ended) -> None:
    """From now on a signal is raised as `Ended`, or handled so."""
    for number in SIGNALS:
        signal.signal(number, handler)


def end_all() -> None:
    """Ends all below, politely first, and heeds no signal any more."""
    heed(signal.SIG_IGN)
    until, told = time.monotonic() + PATIENCE, set[int]()
    while living := {*below(os.getpid())}:
        is_late = time.monotonic() > until
        for pid in living if is_late else living - told:
            with contextlib.suppress(ProcessLookupError):
                os.kill(pid, signal.SIGKILL if is_late else signal.SIGTERM)
        told |= living
        with contextlib.suppress(ChildProcessError):
            while os.waitpid(-1, os.WNOHANG)[0]:
                pass
        time.sleep(0.05)


def run(command: list[str], **how: Any) -> int:
    """Runs the command, with what `Popen` is told beside, and returns its status. A signal ends it with all that it began, and is
    raised."""
    ctypes.CDLL(None).prctl(ADOPTS_ORPHANS, 1, 0, 0, 0)
    heed()
    try:
        # in a group of its own, lest an interrupt at a terminal ends some of it alone
        status = subprocess.Popen(command, process_group=0, **how).wait()
    except Ended:
        end_all()
        raise
    return status if status >= 0 else 128 - status


def main() -> int:
    """Runs the command of the command line, and ends all that is left of it."""
    try:
        status = run(sys.argv[1:])
    except Ended as came:
        status = 128 + int(came.args[0])
    end_all()
    return status


if __name__ == "__main__":
    sys.exit(main())
