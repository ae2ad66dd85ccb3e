#!/usr/bin/env python3
"""Replay programs beside one another, row by row of the suite: the last one against the best of the others.

usage: suite.py [--only PREFIX,..] [--instructions] [--seconds] [--runs N] [--jobs N] [--keep FILE] [--plot FILE.svg]
                PROGRAM [PROGRAM ..]
       suite.py --memory [--only PREFIX,..] [--jobs N] PROGRAM [PROGRAM ..]
       suite.py --list [--only PREFIX,..]

A PROGRAM reads a script on standard input and answers on standard output; NAME=PROGRAM says how tables call it. First
all answers are compared, byte by byte: a program whose answers differ from the last one's is out of that row.

--only PREFIX,..  rows whose names begin so
--instructions    what `valgrind --tool=callgrind` counts; done where --seconds is not asked for
--seconds         processor seconds over ten times the lines, the least of --runs N (5); the programs take turns
--memory          the peak of the heap in bytes, by `valgrind --tool=dhat`, over a tenth of the lines and over all
--jobs N          how many programs are counted at a time: as many as there are processors; seconds go one by one
--keep FILE       counts are written there, and one that stands there for the same program and script is taken
--plot FILE.svg   draws the ratios of instructions, and what an item costs by the size of its operand

Prints Markdown, the rows that miss the bar first. It needs valgrind, and installs Debian's package where it is missing.
"""
import argparse
import functools
import hashlib
import os
import re
import shutil
import statistics
import subprocess
import sys
import tempfile
from concurrent.futures import ThreadPoolExecutor
from dataclasses import dataclass, field

sys.dont_write_bytecode = True  # no folder beside this file
import suite_plot
import suite_rows

LEAST_SECONDS = 0.05  # a ratio of seconds counts where the best other takes so many
TIMED_SHARE = 10
CHANCES = 8  # how often a row is counted whose cost hangs on a seed
MEMORY_ROWS = "a_small b_reverse_10k c_set_100 c_eq_100 d_slice_1000 e_arith".split()


# ---- one run of one program


def answers(program, script):
    """The status, and a digest of the answers."""
    with open(script, "rb") as lines, subprocess.Popen([program], stdin=lines, stdout=subprocess.PIPE) as run:
        made = hashlib.file_digest(run.stdout, "sha256").hexdigest()
    return run.returncode, made


def valgrind(program, script, told, *options):
    """The number that valgrind tells of a run, by the expression that finds it."""
    command = ["valgrind", *options, program]
    with open(script, "rb") as lines:
        run = subprocess.run(command, stdin=lines, stdout=subprocess.DEVNULL, stderr=subprocess.PIPE, text=True)
    found = re.search(told, run.stderr)
    if not found:
        raise SystemExit(f"{' '.join(command)}: no figure\n{run.stderr}")
    return int(found[1].replace(",", ""))


def instructions(program, script):
    return valgrind(program, script, r"Collected : (\d+)", "--tool=callgrind", "--callgrind-out-file=/dev/null")


def peak(program, script):
    return valgrind(program, script, r"At t-gmax: ([\d,]+) bytes", "--tool=dhat", "--dhat-out-file=/dev/null")


def seconds(program, script):
    """User and system time together: the sum is exact where each of the two goes by the clock's ticks."""
    with open(script, "rb") as lines:
        run = subprocess.Popen([program], stdin=lines, stdout=subprocess.DEVNULL)
        _, status, used = os.wait4(run.pid, 0)
        run.returncode = os.waitstatus_to_exitcode(status)
    return used.ru_utime + used.ru_stime


# ---- one row


@dataclass
class Result:
    """The figures of a row, one for each program in turn, or None where it does not answer as the last one does."""

    row: suite_rows.Row
    lines: int
    same: list
    instructions: list = field(default_factory=list)
    setting: list = field(default_factory=list)  # what the lines before those that are measured take of them
    seconds: list = field(default_factory=list)

    def best(self, figures):
        """The best figure of those that are compared with the last program."""
        return min((it for it in figures[:-1] if it is not None), default=None)

    def ratio(self, figures):
        best = self.best(figures)
        return figures[-1] / best if best and figures[-1] else None

    def misses(self):
        """Whether the last program takes more than it may."""
        if self.row.bar is None or len(self.same) == 1:
            return False
        if not self.same[-1] or not any(self.same[:-1]):
            return True
        counted, timed = self.ratio(self.instructions), self.ratio(self.seconds)
        slow = timed and timed > 1 and self.best(self.seconds) >= LEAST_SECONDS
        return bool(slow or counted and counted > self.row.bar)

    def distance(self):
        """How many times the bar it takes."""
        ratio = self.ratio(self.instructions or self.seconds)
        return ratio / self.row.bar if ratio else float("inf")

    def costs(self):
        """The instructions for one item, of the last program and of the best other, where both are known."""
        if not self.setting or not self.ratio(self.instructions):
            return None
        net = [it and it - before for it, before in zip(self.instructions, self.setting)]
        return [it / self.row.turns / self.row.items for it in (net[-1], self.best(net))]


class Suite:
    def __init__(self, asked):
        self.asked = asked
        named = [it.partition("=") if "=" in it else (os.path.basename(it), "", it) for it in asked.programs]
        self.names = [name for name, _, _ in named]
        self.programs = [shutil.which(path) or sys.exit(f"{path}: no program") for _, _, path in named]
        self.folder = tempfile.TemporaryDirectory()
        self.kept = {known: float(figure) for figure, known in map(str.split, read_lines(asked.keep))}

    def script(self, row, share=1):
        """Writes the script of a row, where that was not done, and counts its lines."""
        path = os.path.join(self.folder.name, f"{row.name}-{share}")
        if not os.path.exists(path):
            with open(path, "w", encoding="utf-8") as it:
                it.writelines(line + "\n" for line in row.script(share))
        return path, sum(1 for _ in read_lines(path))

    def counted(self, measure, program, script, runs=1):
        """The mean of some runs, taken from the file of kept figures where it stands there."""
        known = f"{measure.__name__}-{runs}-{mark(program)}-{mark(script)}"
        if known not in self.kept:
            self.kept[known] = statistics.mean(measure(program, script) for _ in range(runs))
            if self.asked.keep:
                with open(self.asked.keep, "a", encoding="utf-8") as it:
                    it.write(f"{self.kept[known]} {known}\n")
        return self.kept[known]

    def counts(self, same, script, runs=1):
        return [self.counted(instructions, it, script, runs) if ok else None for it, ok in zip(self.programs, same)]

    def compare(self, row):
        """Whether answers agree, and what callgrind counts."""
        script, lines = self.script(row)
        made = [answers(it, script) for it in self.programs]
        result = Result(row, lines, [it == (0, made[-1][1]) for it in made])
        if self.asked.instructions:
            result.instructions = self.counts(result.same, script, CHANCES if row.by_chance else 1)
        if self.asked.plot and suite_plot.draws_cost(row):
            result.setting = self.counts(result.same, self.script(row, 0)[0])
        print(f"{row.name}: {told_ratio(result.ratio(result.instructions))}", file=sys.stderr)
        return result

    def time(self, result):
        """Adds seconds. The mean counts where chance decides what a run takes, and else the least."""
        script, _ = self.script(result.row, TIMED_SHARE)
        runs = [[seconds(it, script) for it in self.programs] for _ in range(self.asked.runs)]
        os.remove(script)
        of = statistics.mean if result.row.by_chance else min
        result.seconds = [of(times) if ok else None for times, ok in zip(zip(*runs), result.same)]

    def run(self, rows):
        with ThreadPoolExecutor(self.asked.jobs) as pool:
            results = list(pool.map(self.compare, rows))
        for result in results if self.asked.seconds else []:
            self.time(result)
        return results

    def heap(self, row):
        """The cells of a row: the lines of a script and the peak of each program, and those of a longer one."""
        cells = [row.name]
        for script, lines in (self.script(row, share) for share in (0.1, 1)):
            cells += [f"{lines}", *(f"{self.counted(peak, it, script):.0f}" for it in self.programs)]
        return cells


def read_lines(path):
    if path and os.path.exists(path):
        with open(path, encoding="utf-8") as it:
            yield from it


@functools.lru_cache(maxsize=1000)
def mark(path):
    """A short digest of a file."""
    with open(path, "rb") as it:
        return hashlib.file_digest(it, "sha256").hexdigest()[:16]


# ---- tables


def table(head, rows):
    return "\n".join("| " + " | ".join(it) + " |" for it in (head, ["---"] * len(head), *rows)) + "\n"


def told_ratio(ratio):
    return f"{ratio:.3f}" if ratio else "-"


def told(result, figures, form, scale=1):
    cells = [form.format(it / scale) if it is not None else "differs" for it in figures]
    return [*cells, told_ratio(result.ratio(figures))]


def cells_of(result):
    counted = told(result, result.instructions, "{:.1f}", 1e6) if result.instructions else []
    timed = told(result, result.seconds, "{:.3f}") if result.seconds else []
    return [result.row.name, str(result.lines), *counted, *timed]


def show(results, names):
    head = ["row", "lines"]
    for unit, figures in ("Mi", results[0].instructions), ("s", results[0].seconds):
        head += [*(f"{it}, {unit}" for it in names), "ratio"] if figures else []
    missing = sorted((it for it in results if it.misses()), key=Result.distance, reverse=True)
    rest = [it for it in results if not it.misses()]
    print(f"{len(missing)} of {len(results)} rows miss the bar.\n")
    for part in filter(None, (missing, rest)):
        print(table(head, map(cells_of, part)))


def show_memory(suite, rows):
    with ThreadPoolExecutor(suite.asked.jobs) as pool:
        print(table(["row", *["lines", *suite.names] * 2], pool.map(suite.heap, rows)))


def arguments():
    parser = argparse.ArgumentParser(usage=__doc__.partition("usage: ")[2])
    for name in ("--list", "--instructions", "--seconds", "--memory"):
        parser.add_argument(name, action="store_true")
    for name in ("--only", "--keep", "--plot"):
        parser.add_argument(name, default="")
    parser.add_argument("--runs", type=int, default=5)
    parser.add_argument("--jobs", type=int, default=os.cpu_count())
    parser.add_argument("programs", nargs="*", metavar="PROGRAM")
    asked = parser.parse_args()
    asked.instructions |= bool(asked.plot) or not asked.seconds
    if not asked.programs and not asked.list:
        parser.error("no program")
    return asked


def main():
    asked = arguments()
    rows = [it for it in suite_rows.rows() if it.name.startswith(tuple(asked.only.split(",")))]
    if asked.list:
        print("\n".join(f"{it.name:22} {it.what}" for it in rows))
        return
    if not shutil.which("valgrind"):
        subprocess.run("apt-get update && apt-get install -y valgrind", shell=True, check=True, stdout=sys.stderr)
    suite = Suite(asked)
    if asked.memory:
        show_memory(suite, [it for it in rows if asked.only or it.name in MEMORY_ROWS])
        return
    results = suite.run(rows)
    show(results, suite.names)
    if asked.plot:
        suite_plot.draw(asked.plot, results, suite.names)


if __name__ == "__main__":
    main()
