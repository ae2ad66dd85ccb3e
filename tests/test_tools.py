#!/usr/bin/env python3
"""Tests of tools/ on small made-up crates and programs. They need no kit; tests/test_wrong_bodies.py does."""
import ast
import contextlib
import glob
import io
import os
import re
import shutil
import signal
import subprocess
import sys
import unittest
from xml.etree import ElementTree

sys.dont_write_bytecode = True  # no folder beside the sources
TOP = os.path.dirname(os.path.dirname(os.path.abspath(__file__)))
sys.path.insert(0, TOP)
import built
from built import WithFolder
from tools import clauses, prove, timing

CRATES = "# a note\ntera_low: core\ntera_left: tera_low\ntera_right: tera_low\ntera_top: tera_left tera_right core\nhelper: core\n"
SOURCE = """pub fn shown(alloc: Global) -> u8
    requires { fits alloc }
    ensures told { result = low 1 }
    ensures whole { Whole 1 }
{ 1 }
fn hidden() -> u8 { 2 }
impl Told for Low {
    fn told(&self) -> u8 ensures { result = self } { 3 }
}
impl Low {
    pub fn own(&self) -> u8
        ensures* { other }
    { 4 }
}
"""
SPEC = """abbrev low : Nat -> Nat
low n = deeper n

deeper : Nat -> Nat
deeper n = n

uncited : Nat
uncited = 0

pub record Whole (n : Nat) : Type 0 where
  pub first : low n
  pub second : n
"""
# in the place of the kit's command: notes the crate, and makes what `rt` makes
STUB = """#!/bin/sh
crate=${PWD##*/}
echo "$crate $*" >>"$NOTES"
[ "$crate" != "$FAILS" ] || { echo no; exit 1; }
[ "$crate" != "$WAITS" ] || sleep 60
mkdir -p out/rlib
[ "$1" = lib ] || { echo made >"out/$crate" && chmod +x "out/$crate"; }
"""


def written(folder, files):
    """Writes files below a folder."""
    for name, text in files.items():
        os.makedirs(os.path.dirname(f"{folder}/{name}"), exist_ok=True)
        with open(f"{folder}/{name}", "w", encoding="utf-8") as file:
            file.write(text)


def read(path):
    with open(path, encoding="utf-8") as file:
        return file.read()


class Clauses(WithFolder):
    def repository(self, name="one", source=SOURCE, spec=SPEC, path="src/lib.rt"):
        top = f"{self.folder}/{name}"
        imports = "use Rattle.tera_low.specs.Low.{low, Whole}\n"
        written(top, {"crates.txt": CRATES, f"crates/tera_low/{path}": imports + source, "crates/tera_low/specs/Low.antt": spec,
                      "crates/helper/src/lib.rt": "pub fn not_of_a_library() {}\n"})
        return clauses.Repository(top)

    def changes(self, **given):
        old, new = self.repository(), self.repository("two", **given)
        return list(clauses.changes(old.told(), new.told()))

    def test_public_functions_and_what_they_cite_are_listed(self):
        lines = list(clauses.listed(self.repository().told()))
        self.assertEqual([line for line in lines if "fn " in line], [
            "impl Low · pub fn own(&self) -> u8", "impl Told for Low · fn told(&self) -> u8", "pub fn shown(alloc: Global) -> u8"])
        self.assertIn("    ensures told { result = low 1 }", lines)
        self.assertIn("    ensures* { other }", lines)
        self.assertEqual(lines[-6:], ["definition Whole", "    is { pub record Whole (n : Nat) : Type 0 where pub first : low n pub second : n }", "definition deeper", "    is { deeper : Nat -> Nat deeper n = n }",
                                      "definition low", "    is { abbrev low : Nat -> Nat low n = deeper n }"])

    def test_what_only_moves_is_no_change(self):
        self.assertEqual(self.changes(path="src/inner/other.rt", source=SOURCE.replace("{ 1 }", "{ 5 }").replace("requires { fits", "requires  {\n  fits")), [])

    def test_changes_are_told(self):
        self.assertEqual(self.changes(source=SOURCE.replace("low 1", "low 2")),
                         ["pub fn shown(alloc: Global) -> u8\n  - ensures told { result = low 1 }\n  + ensures told { result = low 2 }"])
        self.assertEqual(self.changes(source=SOURCE.replace("pub fn own", "fn own")), ["went: impl Low · pub fn own(&self) -> u8", "    ensures* { other }"])
        self.assertEqual(self.changes(spec=SPEC.replace("deeper n = n", "deeper n = 1")),
                         ["definition deeper\n  - is { deeper : Nat -> Nat deeper n = n }\n  + is { deeper : Nat -> Nat deeper n = 1 }"])
        self.assertEqual(self.changes(spec=SPEC.replace("uncited = 0", "uncited = 1")), [])
        self.assertEqual(self.changes(spec=SPEC.replace("second : n", "second : 1"))[0].splitlines()[0], "definition Whole")


class Ending(WithFolder):
    def test_all_that_a_command_began_ends(self):
        """all that a command began ends by a signal"""
        script = f"""
            sh -c 'trap "" TERM HUP; echo $$ >{self.folder}/deaf; while :; do sleep 1; done' &
            (setsid sh -c 'echo $$ >{self.folder}/orphan; sleep 60' &)
            echo $$ >{self.folder}/own; wait"""
        for number in (signal.SIGTERM, signal.SIGINT, signal.SIGHUP):
            with self.subTest(number):
                run = subprocess.Popen([sys.executable, f"{TOP}/tools/ending.py", "sh", "-c", script])
                names = [f"{self.folder}/{name}" for name in ("deaf", "orphan", "own")]
                self.assertTrue(built.comes_true(20, lambda: all(os.path.exists(name) and read(name) for name in names)))
                began = [int(read(name)) for name in names]
                self.addCleanup(kill_all, began)
                run.send_signal(number)
                self.assertEqual(run.wait(timeout=20), 128 + number)
                self.assertTrue(built.comes_true(5, lambda: not any(map(built.words_of, began))))
                for name in names:
                    os.remove(name)

    def test_a_status_is_handed_on(self):
        for command, status in (("exit 0", 0), ("exit 3", 3), ("kill -KILL $$", 128 + 9)):
            self.assertEqual(subprocess.run([sys.executable, f"{TOP}/tools/ending.py", "sh", "-c", command]).returncode, status)


def kill_all(pids):
    """Ends what a test that failed has left."""
    for pid in pids:
        with contextlib.suppress(ProcessLookupError):
            os.kill(pid, signal.SIGKILL)


class Timing(WithFolder):
    def test_a_part_is_told(self):
        file = f"{self.folder}/times"
        busy = "import time\nwhile time.process_time() < 1: pass"
        self.assertEqual(timing.run("a part", file, ["sh", "-c", '"$@"; exit 3', "sh", sys.executable, "-c", busy]), 3)
        [row] = timing.read_rows(file)
        self.assertEqual((row.part, row.used >= 1, row.ended - row.began >= 1), ("a part", True, True))

    def test_costs_are_added_and_the_dearest_is_first(self):
        written(self.folder, {"times": "low\t0\t60\t30\nhigh\t30\t120\t90\n"})
        made = io.StringIO()
        with contextlib.redirect_stdout(made):
            timing.table(f"{self.folder}/times")
        lines = [" ".join(line.split()) for line in made.getvalue().splitlines() if line]
        self.assertEqual(lines, ["processor wall part", "90 s 90 s high", "30 s 60 s low", "in all 2 processor minutes, 2 minutes of wall time"])


class Prove(WithFolder):
    def setUp(self):
        super().setUp()
        self.top = f"{self.folder}/top"
        shutil.copytree(f"{TOP}/tools", f"{self.top}/tools")
        crates = {f"crates/{name}/src/lib.rt": "" for name in ("tera_low", "tera_left", "tera_right", "tera_top", "helper")}
        written(self.top, {"crates.txt": CRATES, "tests/fresh.sh": read(f"{TOP}/tests/fresh.sh"), **crates})
        written(self.folder, {"bin/rt": STUB})
        os.chmod(f"{self.folder}/bin/rt", 0o755)

    def words(self):
        return [sys.executable, f"{self.top}/tools/prove.py", "tera_top", "./make it"]

    def environment(self, **more):
        return {**os.environ, "PATH": f"{self.folder}/bin:{os.environ['PATH']}", "NOTES": f"{self.folder}/notes", "FAILS": "", "WAITS": "", **more}

    def proved(self, **more):
        """The status, the words on standard error, and the crates in the order in which they were proved."""
        written(self.folder, {"notes": ""})
        ran = subprocess.run(self.words(), env=self.environment(**more), capture_output=True, text=True, timeout=120)
        self.assertEqual(ran.stdout, "")
        return ran.returncode, ran.stderr, [line.split()[:2] for line in read(f"{self.folder}/notes").splitlines()]

    def test_crates_are_proved_after_those_below(self):
        status, err, notes = self.proved()
        self.assertEqual((status, notes[0], sorted(notes[1:3]), notes[3:]), (
            0, ["tera_low", "lib"], [["tera_left", "lib"], ["tera_right", "lib"]], [["tera_top", "run"]]))
        self.assertIn("make: 4 crates to prove, each of one to five minutes on an idle core", err)
        self.assertIn("make: the proved program stands, after", err)
        self.assertTrue(all(os.path.isdir(f"{self.top}/crates/{name}/out/rlib") for name in ("tera_low", "tera_left", "tera_right")))
        status, err, notes = self.proved()
        self.assertEqual((status, err, notes), (0, "make: the proved program stands\n", []))

    def test_a_crate_that_is_not_proved_is_told(self):
        status, err, notes = self.proved(FAILS="tera_low")
        self.assertEqual((status, notes), (1, [["tera_low", "lib"]]))
        log = f"{self.top}/crates/tera_top/out/prove/tera_low.log"
        self.assertRegex(err.splitlines()[-1], f"^make: tera_low: not proved, after .*; see {log}$")
        self.assertEqual(read(log), "no\n")

    def test_a_signal_stops_it_and_it_goes_on_from_there(self):
        written(self.folder, {"notes": ""})
        run = subprocess.Popen(self.words(), env=self.environment(WAITS="tera_top"), stderr=subprocess.PIPE, text=True)
        self.assertTrue(built.comes_true(60, lambda: "tera_top" in read(f"{self.folder}/notes")))
        run.send_signal(signal.SIGTERM)
        self.assertIn("make: stopped; what is proved stays so", run.communicate(timeout=20)[1])
        self.assertEqual(run.returncode, 128 + signal.SIGTERM)

    def test_what_stands_below_comes_first(self):
        crates = prove.Crates(self.top)
        self.assertEqual(crates.below("tera_top"), ["tera_low", "tera_left", "tera_right"])
        self.assertEqual(prove.Target(crates, "tera_top", "x").kind, "program")


SAMPLE = """
import unittest

class Good(unittest.TestCase):
    def test_holds(self):
        pass

    @unittest.skip("no machine")
    def test_skipped(self):
        pass

class Bad(unittest.TestCase):
    def test_breaks(self):
        "What a test says"
        for number in range(3):
            with self.subTest(number):
                self.assertNotEqual(number, 1)

    def test_raises(self):
        raise OSError("a fault")

class Unmade(unittest.TestCase):
    @classmethod
    def setUpClass(cls):
        raise OSError("not made")

    def test_never(self):
        pass

class Lacking(unittest.TestCase):
    @classmethod
    def setUpClass(cls):
        raise unittest.SkipTest("no tool")

    def test_never(self):
        pass
"""


GOOD = """
import unittest

class Good(unittest.TestCase):
    def test_holds(self):
        pass
"""


class Testing(WithFolder):
    """The runner of parts, on parts that are made up."""

    def setUp(self):
        super().setUp()
        shutil.copytree(f"{TOP}/tools", f"{self.folder}/tools")
        written(self.folder, {"tests/test_sample.py": SAMPLE, "tests/test_broken.py": "import nowhere_at_all\n",
                              "tests/test_good.py": GOOD, "tests/test_ended.py": "import os\nos._exit(7)\n",
                              "tools/wrong_bodies.py": "print('FAIL one')\nraise SystemExit(1)\n"})

    def ran(self, *words):
        """The status, the lines at the margin, and all that is printed."""
        done = subprocess.run([sys.executable, f"{self.folder}/tools/testing.py", *words], capture_output=True, text=True)
        return done.returncode, [line for line in done.stdout.splitlines() if line[:1] != " "], done.stdout + done.stderr

    def test_each_result_is_told_and_counted(self):
        status, lines, text = self.ran("sample")
        self.assertEqual((status, sorted(lines[:-1]), lines[-1]), (1, [
            "FAIL sample: Bad.test_raises", "FAIL sample: What a test says", "FAIL sample: setUpClass (test_sample.Unmade)",
            "pass sample: Good.test_holds", "skip sample: Good.test_skipped (no machine)",
            "skip sample: setUpClass (test_sample.Lacking) (no tool)"], "1 passed, 3 failed, 2 skipped"))
        for said in ("a fault", "not made", "[1]"):
            self.assertIn(said, text)

    def test_one_test_is_run_alone(self):
        self.assertEqual(self.ran("sample.Good.test_holds")[:2], (0, ["pass sample: Good.test_holds", "1 passed, 0 failed"]))
        self.assertEqual(self.ran("good", "sample.Good")[1], ["pass good: Good.test_holds", "pass sample: Good.test_holds", "skip sample: Good.test_skipped (no machine)", "2 passed, 0 failed, 1 skipped"])

    def test_wrong_bodies_are_a_part(self):
        status, lines, _ = self.ran("wrong")
        self.assertEqual((status, lines), (1, ["FAIL one", "FAIL wrong: all that it says passes", "0 passed, 1 failed"]))

    def test_parts_run_side_by_side(self):
        status, lines, text = self.ran("--all", "--but", "broken", "--jobs", "3", "--times", f"{self.folder}/times")
        told = [line for line in lines[:-1] if line.startswith("FAIL ")]
        self.assertEqual((status, lines[-1]), (1, "2 passed, 4 failed, 2 skipped"))
        self.assertIn("FAIL ended: it comes to its end", told)
        self.assertEqual(lines[-5:-1], [line for line in told[:4]])
        self.assertIn("a fault", text)
        self.assertEqual({row.part for row in timing.read_rows(f"{self.folder}/times")}, {"sample", "good", "ended"})

    def test_what_is_no_part_or_cannot_be_read_fails(self):
        status, lines, text = self.ran("frob")
        self.assertEqual((status, lines), (2, []))
        self.assertIn("and not frob", text)
        status, lines, text = self.ran("broken")
        self.assertEqual((status, lines[-1]), (1, "0 passed, 1 failed"))
        self.assertIn("nowhere_at_all", text)
        self.assertEqual(self.ran("sample.Nobody")[0], 1)

    def test_ci_reads_the_results(self):
        self.ran("--junit", f"{self.folder}/results.xml", "sample", "good")
        root = ElementTree.parse(f"{self.folder}/results.xml").getroot()
        self.assertEqual((root.get("tests"), root.get("failures")), ("7", "3"))
        self.assertEqual(sorted(case.get("name") for case in root if case.find("failure") is not None), ["Bad.test_raises", "What a test says", "setUpClass (test_sample.Unmade)"])
        self.assertEqual([case.get("classname") for case in root if case.find("skipped") is not None], ["sample", "sample"])


class Typed(unittest.TestCase):
    """The packages are typed, what they name is used, and the shell has no traps."""

    def says_nothing(self, name, *words):
        """A linter, which Debian's package of that name brings, finds nothing."""
        if not built.install(name):
            self.skipTest(f"no {name} is on the path, and none could be installed")
        ran = subprocess.run([name, *words], cwd=TOP, capture_output=True, text=True)
        self.assertEqual(ran.returncode, 0, ran.stdout)

    def test_types(self):
        """tools and conformance are typed"""
        tools = [f"tools.{name.removesuffix('.py')}" for name in os.listdir(f"{TOP}/tools") if re.fullmatch(r"[a-z]\w*\.py", name)]
        typed = [word for name in sorted(tools) for word in ("-m", name)]
        packages = [word for name in ("tools.packages", "conformance") for word in ("-p", name)]
        self.says_nothing("mypy", "--strict", "--cache-dir=/dev/null", *typed, *packages)

    def test_names(self):
        """each name in Python is there, and used"""
        self.says_nothing("pyflakes3", "tools", "conformance", "conform", "tests")

    def test_shell(self):
        """the shell has no traps"""
        scripts = [path for path in git_files() if read(path).startswith("#!/bin/sh")]
        self.assertIn(f"{TOP}/check", scripts)
        # handlers of signals are reached by no path that it sees, and scripts in quotes are other programs' words
        self.says_nothing("shellcheck", "-x", "-P", f"SCRIPTDIR:{TOP}", "-e", "SC2317,SC2016", *scripts, f"{TOP}/tests/fresh.sh")

    def test_functions(self):
        """each function of tools has under 30 lines, and says what it does"""
        for path in [*glob.glob(f"{TOP}/tools/*.py"), *glob.glob(f"{TOP}/tools/packages/*.py")]:
            for node in ast.walk(ast.parse(read(path))):
                if isinstance(node, ast.FunctionDef):
                    with self.subTest(f"{os.path.basename(path)}: {node.name}"):
                        self.assertLess(node.end_lineno - node.lineno, 30)
                        self.assertTrue(ast.get_docstring(node) or node.name in [*dir(unittest.TestResult), "__init__"])


def git_files():
    """The files at the top, and those of folders with scripts."""
    folders = ("", ".ci/", "bench/", "bindings/", "docs/", "tests/", "tools/")
    found = [path for folder in folders for path in glob.glob(f"{TOP}/{folder}*")]
    return [path for path in found if os.path.isfile(path) and not path.endswith((".svg", ".png"))]


if __name__ == "__main__":
    unittest.main()
