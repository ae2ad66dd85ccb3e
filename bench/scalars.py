#!/usr/bin/env python3
"""Writes a script of short lines on scalars, or with --answers what it must answer.

usage: scalars.py LINES [--answers]

The lines go round through `set`, `eq`, `cmp` and `print` over eight names. The answers come from
Python's own numbers and texts, not from the program.
"""
import sys


def value(turn):
    """The literal, what it prints, and its place in the order of values."""
    kind = turn % 8
    if kind == 0:
        return "true", "true", (0, 1)
    if kind == 1:
        return f"{turn}", f"{turn}", (1, turn)
    if kind == 2:
        return f"-{turn}i64", f"-{turn}", (1, -turn)
    if kind == 3:
        return f"{turn}u128", f"{turn}", (1, turn)
    if kind == 4:
        return f'"t{turn}"', f"t{turn}", (2, f"t{turn}".encode())
    if kind == 5:
        return f's"<{turn}>"', f"<{turn}>", (2, f"<{turn}>".encode())
    if kind == 6:
        return "none", "", (3, 0)
    return f"{turn}i128", f"{turn}", (1, turn)


def main():
    lines = int(sys.argv[1])
    answers = "--answers" in sys.argv
    held = {}
    absent = ("", (4, 0))
    out = []
    for turn in range(lines):
        name = f"n{turn // 4 % 8}"
        other = f"n{(turn // 4 + 3) % 8}"
        printed, place = held.get(name, absent)
        other_place = held.get(other, absent)[1]
        if turn % 4 == 0:
            literal, shown, rank = value(turn // 4)
            held[name] = (shown, rank)
            line, answer = f"set {name} {literal}", "ok"
        elif turn % 4 == 1:
            line, answer = f"eq {name} {other}", "true" if place == other_place else "false"
        elif turn % 4 == 2:
            order = "less" if place < other_place else "equal" if place == other_place else "greater"
            line, answer = f"cmp {name} {other}", order
        else:
            line, answer = f"print {name}", f"text {printed}"
        out.append(answer if answers else line)
    sys.stdout.write("".join(line + "\n" for line in out))


if __name__ == "__main__":
    main()
