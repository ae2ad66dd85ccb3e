"""Tests of the packages that ./bindings/package makes (docs/PACKAGES.md), each used as a person would, away from this repository.

A test is skipped, and says so, where a tool is not there: python3-venv, setuptools and wheel, `cargo`, `dpkg-deb`, `pkg-config`,
a C or a C++ compiler, `mandoc`, `man`.
"""
import ctypes
import functools
import glob
import hashlib
import os
import re
import shutil
import subprocess
import sys
import tempfile
import tomllib
import unittest
import unittest.mock

sys.dont_write_bytecode = True  # no folder beside the sources
TOP = os.path.dirname(os.path.dirname(os.path.abspath(__file__)))
sys.path[:0] = [it for it in (TOP, f"{TOP}/tests", f"{TOP}/bindings") if it not in sys.path]
import built
import link
from tools.packages import record
from tools.packages.given import python_with

ESCAPED = "&lt;b&gt;A &amp; B&lt;/b&gt;\n"
LANGUAGES = {"C": ["cc", "-std=c11", "-x", "c"], "C++": ["c++", "-std=c++17", "-x", "c++"]}
NO_SETUPTOOLS = "there is no python3-setuptools with python3-wheel"
STRICT = ["-Wall", "-Wextra", "-Werror", "-pedantic"]
WORK = os.path.join(tempfile.gettempdir(), f"packages-{os.getpid()}")


def setUpModule():
    os.makedirs(WORK)
    unittest.addModuleCleanup(shutil.rmtree, WORK)
    unittest.addModuleCleanup(packages.cache_clear)


def read(*path):
    with open("/".join([TOP, *path]), encoding="utf-8") as it:
        return it.read()


def needs(*commands):
    """Skips a test where one of these commands is not there."""
    for it in commands:
        if not shutil.which(it):
            raise unittest.SkipTest(f"there is no `{it}`")


def needing(*commands):
    """Skips each test of a class where one of these commands is not there."""
    lacking = " and ".join(f"no `{it}`" for it in commands if not shutil.which(it))
    return unittest.skipIf(lacking, f"there is {lacking}")


def environment(**more):
    """The environment of whoever gets the packages: nothing of this repository in it, and no index."""
    kept = {name: os.environ[name] for name in ("PATH", "RUSTUP_HOME", "CARGO_HOME", "HOME", "LANG") if name in os.environ}
    return {**kept, "PIP_NO_INDEX": "1", "PIP_DISABLE_PIP_VERSION_CHECK": "1", "CARGO_NET_OFFLINE": "true", **more}


def said(*words, folder=WORK, status=0, **more):
    """What a command prints on both streams; a test fails where its status is another."""
    done = subprocess.run(words, cwd=folder, env=environment(**more), stdin=subprocess.DEVNULL, stdout=subprocess.PIPE,
                          stderr=subprocess.STDOUT, text=True, errors="replace")
    if done.returncode != status:
        raise AssertionError(f"`{' '.join(words)}` ended with status {done.returncode}:\n{done.stdout}")
    return done.stdout


@functools.lru_cache(maxsize=None)
def packages(kind):
    """The folder of the packages of a kind, made of what is built."""
    to = f"{WORK}/made/{kind}"
    done = built.ran(sys.executable, "-B", "-m", "tools.packages", "--to", to, "--library", built.library(), "--program",
                     built.installed_program(), kind)
    if done.returncode:
        raise AssertionError(done.stderr.decode())
    return to


def package(kind, pattern):
    """The one package of a kind whose name is so."""
    found = glob.glob(f"{packages(kind)}/{pattern}")
    if len(found) != 1:
        raise AssertionError(f"{pattern}: {found}")
    return found[0]


def folder(name):
    """A new folder."""
    os.makedirs(f"{WORK}/{name}")
    return f"{WORK}/{name}"


def number_of(version):
    """A version as one number."""
    major, minor, patch = map(int, version.split("."))
    return major * 65536 + minor * 256 + patch


class Versions(unittest.TestCase):
    VERSION = read("VERSION").strip()

    def test_the_sources_say_one_version(self):
        self.assertEqual(re.search(r"define TERA_VERSION (\d+)", read("include/tera.h"))[1], str(number_of(self.VERSION)))
        self.assertIn(f"this header, {self.VERSION}:", read("include/tera.h"))
        self.assertIn(f'__version__ = "{self.VERSION}"', read("bindings/python/tera/_version.py"))
        self.assertEqual(tomllib.loads(read("bindings/rust/Cargo.toml"))["package"]["version"], self.VERSION)
        self.assertEqual(re.search(r"(?m)^## (\S+)$", read("CHANGELOG.md"))[1], self.VERSION)
        parts = re.findall(r": u32 = (\d+);", read("crates/tera_c/src/version.rt"))
        self.assertEqual(".".join(parts), self.VERSION)
        self.assertIn(f"version_number {self.VERSION.replace('.', ' ')} }}", read("crates/tera_c/src/lib.rt"))
        major, minor, _ = self.VERSION.split(".")
        self.assertEqual(link.SONAME, f"libtera.so.{major}" if int(major) else f"libtera.so.0.{minor}")

    def test_the_library_says_it(self):
        library = ctypes.CDLL(f"{built.library()}/libtera.so")
        library.tera_version.restype = ctypes.c_uint32
        self.assertEqual(library.tera_version(), number_of(self.VERSION))

    def test_the_module_refuses_a_library_of_another_version(self):
        needs("cc")
        others = [it for it in link.exports(f"{TOP}/include/tera.h") if it != "tera_version"]
        with open(f"{WORK}/other.c", "w", encoding="utf-8") as it:
            it.write("".join(f"void {name}(void) {{}}\n" for name in others) + "unsigned tera_version(void) { return 513; }\n")
        said("cc", "-shared", "-fPIC", "-o", "other.so", "other.c")
        told = said("python3", "-B", "-c", "import tera", status=1, PYTHONPATH=f"{TOP}/bindings/python", TERA_LIBRARY=f"{WORK}/other.so")
        self.assertIn(f"ImportError: the library {WORK}/other.so is of version 0.2.1, and this module of {self.VERSION}", told)

    def test_the_program_says_it(self):
        self.assertEqual(said(built.installed_program(), "--version"), f"tera {self.VERSION}\n")


class Symbols(unittest.TestCase):
    def setUp(self):
        needs("nm")
        self.functions = sorted(link.exports(f"{TOP}/include/tera.h"))
        self.assertIn("tera_escape", self.functions)

    def defined(self, file, *words):
        """The global symbols that a file defines."""
        lines = said("nm", "-g", "--defined-only", *words, f"{built.library()}/{file}").splitlines()
        return sorted({it.split()[-1] for it in lines if len(it.split()) == 3})

    def test_the_shared_object_exports_the_functions_of_the_header(self):
        self.assertEqual(self.defined("libtera.so", "-D"), self.functions)

    def test_the_archive_has_no_other_symbols_than_are_listed(self):
        listed = [it for it in read("tests/symbols.txt").splitlines() if it and not it.startswith("#")]
        self.assertEqual(self.defined("libtera.a"), sorted([*listed, *self.functions]))

    def test_the_shared_object_has_its_name(self):
        needs("objdump")
        self.assertIn(f"SONAME               {link.SONAME}\n", said("objdump", "-p", f"{built.library()}/libtera.so"))


@unittest.skipUnless(python_with("setuptools", "wheel"), NO_SETUPTOOLS)
class Python(unittest.TestCase):
    SHOWN = """import doctest, tera
runner = doctest.DocTestRunner()
for each in doctest.DocTestFinder().find(tera, "tera", False, vars(tera)):
    runner.run(each)
print(tera.__file__, tera.__version__, runner.failures, runner.tries > 5)"""

    def environment_of(self, name, *words):
        """A new environment of Python, and its folder."""
        made = subprocess.run([python_with("setuptools", "wheel"), "-m", "venv", *words, f"{WORK}/{name}"], capture_output=True)
        if made.returncode:
            raise unittest.SkipTest("there is no python3-venv")
        return f"{WORK}/{name}"

    def shows(self, venv):
        """Whether the module's examples run in this environment, from what was installed there."""
        file, *rest = said(f"{venv}/bin/python3", "-c", self.SHOWN).split()
        self.assertTrue(file.startswith(f"{venv}/lib"))
        self.assertEqual(rest, [Versions.VERSION, "0", "True"])

    def test_the_wheel_is_installed_without_an_index_and_its_examples_run(self):
        venv = self.environment_of("venv")
        said(f"{venv}/bin/pip", "install", "--no-index", package("python", "*.whl"))
        self.shows(venv)
        page = shutil.copy(f"{TOP}/bindings/python/page.py", WORK)
        self.assertEqual(said(f"{venv}/bin/python3", page), ESCAPED)

    def test_the_source_package_is_built_where_it_is_installed(self):
        needs("cc")
        venv = self.environment_of("venv-of-source", "--system-site-packages")
        said(f"{venv}/bin/pip", "install", "--no-index", "--no-build-isolation", package("python", "*.tar.gz"))
        self.shows(venv)

    def test_the_wheel_is_of_its_platform(self):
        self.assertRegex(os.path.basename(package("python", "*.whl")), rf"^tera_values-{Versions.VERSION}-py3-none-linux_x86_64\.whl$")


@needing("cargo")
class Rust(unittest.TestCase):
    @classmethod
    def setUpClass(cls):
        cls.folder = folder("crate")
        said("tar", "-xf", package("rust", "*.crate"), "--strip-components=1", folder=cls.folder)

    def test_its_tests_and_those_of_its_pages_pass_without_an_index(self):
        told = said("cargo", "test", "--offline", folder=self.folder)
        self.assertEqual(len(re.findall(r"test result: ok", told)), 3, told)
        self.assertIn("the_archive_is_of_this_version ... ok", told)

    def test_its_pages_are_made_without_a_warning(self):
        said("cargo", "doc", "--offline", "--no-deps", folder=self.folder, RUSTDOCFLAGS="-D warnings")

    def test_its_example_runs(self):
        self.assertEqual(said("cargo", "run", "-q", "--offline", "--example", "page", folder=self.folder), ESCAPED)


@needing("dpkg-deb", "pkg-config", "cc", "c++")
class Debian(unittest.TestCase):
    @classmethod
    def setUpClass(cls):
        cls.root = folder("debian")
        said("dpkg", "-x", package("debian", "*.deb"), cls.root)
        cls.prefix = f"{cls.root}/usr"
        cls.lib = f"{cls.prefix}/lib/x86_64-linux-gnu"

    def asked(self, *words):
        """What pkg-config says of the package."""
        return said("pkg-config", *words, "tera", PKG_CONFIG_PATH=f"{self.lib}/pkgconfig").split()

    def compiled(self, language, *words):
        """README's example in C, compiled by these words behind it."""
        program = f"{WORK}/escape"
        said(*LANGUAGES[language], *STRICT, f"{self.prefix}/share/doc/libtera/examples/escape.c", "-x", "none",
             *self.asked("--cflags"), *words, "-o", program)
        return program

    def test_the_example_is_built_with_the_shared_object(self):
        for language in LANGUAGES:
            with self.subTest(language):
                program = self.compiled(language, *self.asked("--libs"))
                self.assertIn(link.SONAME, said(program, status=127))
                self.assertEqual(said(program, LD_LIBRARY_PATH=self.lib), ESCAPED)
                self.assertEqual(said(self.compiled(language, *self.asked("--libs"), f"-Wl,-rpath,{self.lib}")), ESCAPED)

    def test_the_example_is_built_with_the_archive(self):
        for language in LANGUAGES:
            with self.subTest(language):
                self.assertEqual(said(self.compiled(language, *self.asked("--variable=archive"))), ESCAPED)
                self.assertEqual(said(self.compiled(language, "-static", *self.asked("--static", "--libs"))), ESCAPED)

    def test_the_manual_page_compiles_a_program_by_its_lines(self):
        lines = re.findall(r"(?m)^cc page\.c .*", read("docs/man/libtera.3"))
        self.assertEqual(len(lines), 2)
        shutil.copy(f"{self.prefix}/share/doc/libtera/examples/escape.c", f"{WORK}/page.c")
        for line in lines:
            with self.subTest(line):
                said("sh", "-c", f"{line} -Wl,-rpath,{self.lib} -o page", PKG_CONFIG_PATH=f"{self.lib}/pkgconfig")
                self.assertEqual(said(f"{WORK}/page"), ESCAPED)

    def test_what_is_installed_is_of_this_version(self):
        self.assertEqual(self.asked("--modversion"), [Versions.VERSION])
        self.assertEqual(said("dpkg-deb", "-f", package("debian", "*.deb"), "Package", "Version"),
                         f"Package: libtera\nVersion: {Versions.VERSION}\n")

    def test_the_program_answers_a_script(self):
        script = f"{self.prefix}/share/doc/libtera/examples/first.replay"
        with open(script, "rb") as given:
            done = subprocess.run([f"{self.prefix}/bin/tera"], stdin=given, capture_output=True, env=environment())
        self.assertEqual((done.returncode, done.stdout.decode(), done.stderr), (0, read("examples/first.answers"), b""))

    def test_the_module_finds_the_library(self):
        module = f"{self.prefix}/lib/python3/dist-packages"
        file, *rest = said("python3", "-B", "-c", Python.SHOWN, PYTHONPATH=module).split()
        self.assertEqual((file, rest), (f"{module}/tera/__init__.py", [Versions.VERSION, "0", "True"]))

    def test_the_tar_has_the_same_files(self):
        said("tar", "-xf", package("prefix", "*.tar.gz"), "--strip-components=1", folder=folder("prefix"))
        said("diff", "-r", "--no-dereference", self.prefix, f"{WORK}/prefix")

    def test_the_tar_is_used_as_its_page_says(self):
        home = folder("home")
        said("tar", "-xf", package("prefix", "*.tar.gz"), "--strip-components=1", folder=home)
        page = f"{home}/share/doc/libtera"
        runs, names = re.findall(r"(?ms)^```sh\n(.*?)^```", read_at(f"{page}/README.md"))
        told = said("sh", "-e", "-c", names + runs.replace("/tmp/value", f"{home}/value"), folder=page)
        self.assertEqual(told, f'{read("examples/first.answers")}"<b>A & B</b>"\n{ESCAPED}')
        others = re.findall(r"\b[A-Z]+\.md", "".join(read_at(f"{page}/{name}") for name in ("README.md", "BORDER.md", "SCRIPT.md")))
        self.assertEqual([name for name in others if not os.path.exists(f"{page}/{name}")], [])

    def test_each_file_has_its_sum(self):
        control = folder("control")
        said("dpkg", "-e", package("debian", "*.deb"), control)
        said("md5sum", "--quiet", "-c", f"{control}/md5sums", folder=self.root)

    def test_what_python_keeps_goes_with_the_package(self):
        control, root = folder("control-of-removal"), folder("removed")
        said("dpkg", "-e", package("debian", "*.deb"), control)
        os.makedirs(f"{root}/usr/lib/python3/dist-packages/tera/__pycache__")
        said(f"{control}/prerm", "remove", DPKG_ROOT=root)
        self.assertEqual(os.listdir(f"{root}/usr/lib/python3/dist-packages/tera"), [])

    def test_the_manual_pages_have_no_warning(self):
        pages = sorted(glob.glob(f"{self.prefix}/share/man/man*/*.gz"))
        self.assertEqual([*map(os.path.basename, pages)], ["tera.1.gz", "libtera.3.gz"])
        checks = {"man": ["man", "--warnings", "-l"], "mandoc": ["mandoc", "-T", "lint", "-W", "warning"]}
        there = [words for command, words in checks.items() if shutil.which(command)]
        if not there:
            raise unittest.SkipTest("there is no `man` and no `mandoc`")
        for page in pages:
            for words in there:
                done = subprocess.run([*words, page], stdin=subprocess.DEVNULL, stdout=subprocess.PIPE, stderr=subprocess.PIPE,
                                      env=environment(LC_ALL="C.UTF-8", MANPAGER="cat"))
                told = done.stderr if words[0] == "man" else done.stdout
                self.assertEqual((done.returncode, told.decode()), (0, ""), page)


class WithoutTheKit(unittest.TestCase):
    """README's examples, in a folder that has the packages and the files that they name alone: with an empty home and no `rt` on
    the path, and where `unshare` can, with no kit, no repository and no net."""

    FILES = ("README.md", "bindings/c/value.c", "bindings/python/page.py", "bindings/rust/examples/page.rs", "examples/first.replay")

    @classmethod
    def setUpClass(cls):
        cls.folder = folder("stranger")
        for name in cls.FILES:
            os.makedirs(os.path.dirname(f"{cls.folder}/{name}"), exist_ok=True)
            shutil.copyfile(f"{TOP}/{name}", f"{cls.folder}/{name}")
        os.makedirs(f"{cls.folder}/out/packages")
        os.makedirs(f"{cls.folder}/home/bin")
        for name in filter(shutil.which, ("cargo", "rustc")):
            os.symlink(shutil.which(name), f"{cls.folder}/home/bin/{name}")

    @functools.cached_property
    def hidden(self):
        """The words that hide the kit, the repository and the net from a command, where that can be done."""
        own = [] if os.geteuid() == 0 else ["--map-root-user"]
        kit = shutil.which("rt") and os.path.dirname(os.path.dirname(os.path.realpath(shutil.which("rt"))))
        hides = " && ".join(f"mount -t tmpfs none '{it}'" for it in (kit, TOP) if it)
        words = ["unshare", *own, "--mount", "--net", "sh", "-c", f'{hides} && exec "$@"', ""]
        can = shutil.which("unshare") and subprocess.run([*words, "true"], capture_output=True).returncode == 0
        return words if can else []

    def follows(self, name, kind, wanted):
        """Whether README's lines under that name print this."""
        for path in glob.glob(f"{packages(kind)}/*"):
            shutil.copy(path, f"{self.folder}/out/packages")
        block = read("README.md").partition("\n## From Python, C and Rust\n")[2].partition("```sh\n")[2].partition("```")[0]
        lines = re.search(rf"(?m)^# {name}\b.*\n((?:[^#].*\n)*)", block)[1]
        home = f"{self.folder}/home"
        found = {"PATH": f"{home}/bin:/usr/bin:/bin", "HOME": home, "CARGO_NET_OFFLINE": "true", "PIP_NO_INDEX": "1"}
        found["RUSTUP_HOME"] = os.environ.get("RUSTUP_HOME") or os.path.expanduser("~/.rustup")
        steps = "".join(f"{line} || exit\n" for line in lines.splitlines())
        script = f"exec 2>&1; if command -v rt; then exit 9; fi\n{steps}"
        done = subprocess.run([*self.hidden, "sh", "-c", script], cwd=self.folder, env=found, stdin=subprocess.DEVNULL,
                              capture_output=True, text=True)
        self.assertEqual(done.returncode, 0, done.stdout + done.stderr)
        self.assertTrue(done.stdout.endswith(wanted), done.stdout)

    def test_python(self):
        if not python_with("setuptools", "wheel"):
            raise unittest.SkipTest(NO_SETUPTOOLS)
        if subprocess.run(["/usr/bin/env", "PATH=/usr/bin:/bin", "python3", "-c", "import ensurepip"], capture_output=True).returncode:
            raise unittest.SkipTest("there is no python3-venv")
        self.follows("Python", "python", ESCAPED)

    def test_c(self):
        needs("dpkg-deb", "pkg-config", "cc")
        self.follows("C", "debian", '"<b>A & B</b>"\n' + read("examples/first.answers"))

    def test_rust(self):
        needs("cargo")
        self.follows("Rust", "rust", ESCAPED)


class Beside(unittest.TestCase):
    def test_each_package_has_its_sum(self):
        needs("sha256sum")
        to = packages("prefix")
        said("sha256sum", "--quiet", "--strict", "-c", "SHA256SUMS", folder=to)
        listed = {it.split()[-1] for it in read_at(f"{to}/SHA256SUMS").splitlines()}
        self.assertEqual(listed | {"SHA256SUMS"}, {*os.listdir(to)})

    def test_what_they_were_proved_with_is_told(self):
        told = dict(it.split(": ", 1) for it in read_at(f"{packages('prefix')}/PROVED").splitlines() if ": " in it)
        self.assertEqual(told["version"], Versions.VERSION)
        with open(f"{built.library()}/libtera.a", "rb") as it:
            self.assertEqual(told["libtera.a"], hashlib.sha256(it.read()).hexdigest())
        if shutil.which("rt"):
            self.assertEqual(told["kit"], subprocess.run(["rt", "version"], capture_output=True, text=True).stdout.strip())
        self.assertEqual(told["commit"], record.commit())

    def test_the_last_line_of_the_gate_is_told(self):
        with unittest.mock.patch.object(record, "GATE", f"{WORK}/checked"):
            self.assertEqual(record.gate(), "not run here")
            for of, more in ((record.commit(), ""), ("another", ", of the commit another")):
                with open(record.GATE, "w", encoding="utf-8") as it:
                    it.write(f"{of} 7 passed, 0 failed\n")
                self.assertEqual(record.gate(), f"7 passed, 0 failed{more}")


def read_at(path):
    with open(path, encoding="utf-8") as it:
        return it.read()


class Built(unittest.TestCase):
    """What tests stand on is made once, and anew where it is older than its parts."""

    def test_what_is_older_than_its_parts_is_made_anew(self):
        part, made = f"{WORK}/part", f"{WORK}/out/made-of-part"
        os.makedirs(f"{WORK}/out")
        for path in (part, made):
            with open(path, "w", encoding="utf-8"):
                pass
        with unittest.mock.patch.multiple(built, TOP=WORK, MADE=["made-of-part"], MADE_OF=["part"]):
            self.is_made_of(part, made)

    def is_made_of(self, part, made):
        """What is made stands where it is no older than its part, where that is current, and where it is there."""
        with unittest.mock.patch.object(built.prove, "is_fresh", lambda path: True):
            for then, holds in ((20, True), (10, True), (9, False)):
                os.utime(part, (10, 10))
                os.utime(made, (then, then))
                self.assertEqual(built.is_library_made(), holds)
        os.utime(made, (20, 20))
        with unittest.mock.patch.object(built.prove, "is_fresh", lambda path: False):
            self.assertFalse(built.is_library_made())
        os.remove(made)
        self.assertFalse(built.is_library_made())

    def test_one_makes_something_at_a_time(self):
        script = f"import sys; sys.path.insert(0, {f'{TOP}/tests'!r}); import built\nwith built.alone(): print('in')"
        with built.alone():
            other = subprocess.Popen([sys.executable, "-B", "-c", script], stdout=subprocess.PIPE, text=True)
            with self.assertRaises(subprocess.TimeoutExpired):
                other.wait(timeout=2)
        self.assertEqual(other.communicate(timeout=60)[0], "in\n")


class Arguments(unittest.TestCase):
    def test_an_argument_that_is_not_known_is_an_error(self):
        for command in ("build", "package"):
            for words in (["--frob"], ["frob"]):
                done = built.ran(f"{TOP}/bindings/{command}", *words)
                self.assertEqual((done.returncode, done.stdout), (2, b""))
                self.assertIn(b"frob", done.stderr)

    def test_what_a_package_lacks_is_named_first(self):
        done = built.ran(sys.executable, "-B", "-m", "tools.packages", "--to", f"{WORK}/none", "--library", built.library(),
                         "--program", built.installed_program(), "rust", env={"PATH": folder("without-cargo")})
        self.assertEqual((done.returncode, done.stderr.splitlines()[:2]),
                         (1, [b"package: rust: will not be made: it needs `cargo`", b"package: rust: not made: it needs `cargo`"]))

    def test_what_is_not_here_is_named_and_not_installed(self):
        bare = folder("bare")
        for name in ("sh", "dirname", "sed"):
            os.symlink(shutil.which(name), f"{bare}/{name}")
        done = built.ran(f"{TOP}/bindings/build", env={"PATH": bare})
        self.assertEqual((done.returncode, done.stdout), (1, b""))
        self.assertEqual(done.stderr, b"build: what is needed is not here: apt-get install libc6-dev gcc binutils\n")


if __name__ == "__main__":
    unittest.main()
