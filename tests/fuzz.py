"""Gives random scripts to a program and to the reference, whose outputs, errors and statuses must be the same.

    python3 tests/fuzz.py [--seed N] [--lines N] [--no-extend] [--] PROGRAM ARGS..
    python3 tests/fuzz.py --seconds N [--seed N] [--first N] [--size X] [--keep FOLDER] [--] PROGRAM ARGS..

With `--seconds` it goes on for so long, with large scripts among the small ones (tests/storm.py); a failing script is kept
in the folder. The same seed makes the same scripts. Long scripts are of good lines up to near their end, short ones of lines of which
many were changed by a byte or two. Where the two differ, the least lines found that show it are told as `./conform`
tells them, and the status is 1; else the one line 'fuzz: end, N lines', where N counts the lines up to the bad ones.
"""
import argparse
import random
import sys

sys.dont_write_bytecode = True  # no folder beside this file
import second  # it finds the package
from conformance import command
from conformance.engines import Engine, Script, fewest
from conformance.grids import Check
from conformance.scripts import PLAIN, Maker

__all__ = ["PLAIN", "Engine", "Maker", "fewest"]


def tell(engine, lines, seed):
    print(f"fuzz: the program and the reference differ, with seed {seed}, on the script of these lines:")
    for difference in command.differences(engine, Check(f"seed {seed}", [Script([], [lines])])):
        print("\n".join(command.told(difference, second.LANGUAGE)))


def parser():
    made = argparse.ArgumentParser()
    made.add_argument("program", nargs="+")
    made.add_argument("--seed", type=int, default=1)
    made.add_argument("--lines", type=int, default=5000)
    made.add_argument("--no-extend", action="store_true")
    made.add_argument("--seconds", type=float)
    made.add_argument("--first", type=int, default=0)
    made.add_argument("--size", type=float, default=1.0)
    made.add_argument("--keep", default=".")
    return made


def main():
    given = parser().parse_args()
    left_out = {"extend"} if given.no_extend else set()
    if given.seconds:
        import storm

        return storm.storm(given.program, given, left_out)
    maker, count, scripts, engine = Maker(random.Random(given.seed), left_out), 0, 0, Engine(given.program)
    while count < given.lines:
        good, doubtful = (300, 20) if scripts % 48 == 0 else (maker.chance.randint(0, 3), maker.chance.randint(1, 3))
        lines, read = maker.script(good, doubtful)
        if engine.differs(lines):
            tell(engine, lines, given.seed)
            return 1
        count, scripts = count + read, scripts + 1
    print(f"fuzz: end, {count} lines")
    return 0


if __name__ == "__main__":
    try:
        sys.exit(main())
    except OSError as fault:
        sys.exit(f"fuzz: {fault}")
