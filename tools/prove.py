"""Proves the libraries that a program or a static library stands on, and then proves and builds it: `prove.py NAME COMMAND`,
where COMMAND is what runs this.

Crates are proved one after another, each after all that it stands on, as crates.txt says. What is proved stays so: nothing
of it is proved again, and after an interrupt it goes on where it was.
"""
import os
import re
import shutil
import subprocess
import sys
import time

sys.dont_write_bytecode = True  # no folder beside the sources
TOP = os.path.dirname(os.path.dirname(os.path.realpath(__file__)))
sys.path.insert(0, TOP)
from tools import ending, parser
from tools.source import read


def is_fresh(made: str) -> bool:
    """Whether a program or an archive is there, and newer than its sources, as `./replay` asks."""
    words = ["sh", "-c", 'top=$1; . "$top/tests/fresh.sh"; is_fresh "$2"', "", TOP, made]
    return subprocess.run(words).returncode == 0


class Crates:
    """The crates of a repository, as crates.txt says what each stands on."""

    def __init__(self, top: str) -> None:
        self.folder = f"{top}/crates"
        said = re.findall(r"(?m)^(\w+)(.*?):(.*)", read(f"{top}/crates.txt"))
        self.listed = {name: (kind.split(), uses.split()) for name, kind, uses in said}

    def below(self, name: str) -> list[str]:
        """The crates that a crate stands on, each after those that it stands on itself."""
        used = [it for it in self.listed[name][1] if it in self.listed]
        return list(dict.fromkeys(low for it in used for low in [*self.below(it), it]))


class Target:
    """What is to be made, and the command that makes it."""

    def __init__(self, crates: Crates, name: str, command: str) -> None:
        self.crates, self.name, self.command = crates, name, command
        self.out = f"{crates.folder}/{name}/out"
        self.kind = "library" if "staticlib" in crates.listed[name][0] else "program"
        self.made = f"{self.out}/lib{name}.a" if self.kind == "library" else f"{self.out}/{name}"

    def tell(self, line: str) -> None:
        """Says a line on standard error."""
        name = os.path.basename(self.command.split()[0])
        print(f"{name}: {line}", file=sys.stderr, flush=True)

    def prove(self, name: str, left: int) -> bool:
        """Proves a crate, and builds the program; says whether it is proved."""
        began, log = time.monotonic(), f"{self.out}/prove/{name}.log"
        is_own = name == self.name
        words = ["rt", "run" if is_own and self.kind == "program" else "lib"]
        self.tell(f"{name}: being proved{' and built' if is_own else ''}; {left} left")
        with open(log, "wb") as file:
            folder, none = f"{self.crates.folder}/{name}", subprocess.DEVNULL
            status = ending.run(words, cwd=folder, stdin=none, stdout=file, stderr=file)
        said, see = ("not proved", f"; see {log}") if status else ("proved", "")
        self.tell(f"{name}: {said}, after {time.monotonic() - began:.0f} s{see}")
        return not status

    def make(self) -> int:
        """Makes what is not made or not newer than its sources, and returns the status."""
        began, left = time.time(), [*self.crates.below(self.name), self.name]
        os.makedirs(f"{self.out}/prove", exist_ok=True)
        self.tell(
            f"{len(left)} crates to prove, each of one to five minutes on an idle core of 2.7 GHz "
            f"where nothing of it is proved; the prover's words are in {self.out}/prove")
        if not all(map(self.prove, left, range(len(left), 0, -1))):
            return 1
        # a source that was edited meanwhile is newer than what was built, which may not have it
        os.utime(self.made, (began, began))
        if not is_fresh(self.made):
            self.tell(f"a source changed meanwhile: `{self.command}` again makes the {self.kind}")
            return 1
        self.tell(f"the proved {self.kind} stands, after {time.time() - began:.0f} s")
        return 0


def main() -> int:
    """Makes what the command line names."""
    words = parser(__doc__)
    words.add_argument("name", help="the crate of a program or of a static library")
    words.add_argument("command", help="what runs this")
    given = words.parse_args()
    target = Target(Crates(TOP), given.name, given.command)
    if not shutil.which("rt"):
        target.tell("Rattle's kit is needed, and no `rt` is on the path")
        return 1
    if is_fresh(target.made):
        target.tell(f"the proved {target.kind} stands")
        return 0
    try:
        return target.make()
    except ending.Ended as came:
        target.tell(f"stopped; what is proved stays so, and `{target.command}` goes on from there")
        return 128 + int(came.args[0])


if __name__ == "__main__":
    sys.exit(main())
