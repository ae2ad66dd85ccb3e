"""The library for C, C++, Python and Rust (docs/BORDER.md), as ./bindings/build makes it.

What a session answers is that of the reference, line by line; what it holds is counted by tests/counted.c and by valgrind.
"""
import ctypes
import os
import random
import re
import shutil
import threading
import unittest

import built
import flood
import fuzz
import refused
import second
from built import TOP, heard

built.library()
import tera  # over the library that is made above

STRICT = ["-Wall", "-Wextra", "-Werror", "-pedantic", f"-I{TOP}/out"]
LANGUAGES = {"C": ["cc", "-std=c11", "-x", "c"], "C++": ["c++", "-std=c++17", "-x", "c++"]}
WRAP = [f"-Wl,--wrap={name}" for name in ("malloc", "realloc", "free")]
CHECKED = ["valgrind", "-q", "--leak-check=full", "--show-leak-kinds=all", "--errors-for-leak-kinds=all", "--error-exitcode=9"]
EVERY = 2**32 - 1
# what stands behind a line that a session is given: a carriage return alone is a part of it
ENDS = b"", b"", b"", b"\n", b"\n", b"\r\n", b"\r\n", b"\r"
EXTEND = 'extend {"t": "another text, longer than twenty bytes", "n2": [2, s"x"], "n1": [1, s"x"]}'


def compiled(language, source, *words):
    """The program that a source is in a language, compiled without a warning."""
    to = f"{built.ROOM.name}/{os.path.basename(source)}.{language}"
    source = [f"{TOP}/{source}", "-x", "none", f"{TOP}/out/libtera.a"]
    built.made(*LANGUAGES[language], *STRICT, *words, *source, "-o", to)
    return to


def pairs(number):
    """The pairs of a map of so many keys."""
    return ", ".join(f'"key {place * number % 101}": {place}' for place in range(number))


class InC(unittest.TestCase):
    """Programs in C and in C++, each compiled without a warning."""

    def in_each(self, source, said, *checked):
        """A program in each language writes this to standard output, and ends with status 0."""
        for language in LANGUAGES:
            with self.subTest(language):
                self.assertEqual(heard(*checked, compiled(language, source)), (said, b"", 0))

    def test_rooms(self):
        """rooms of every size: none is overrun, and no block is lost"""
        self.in_each("tests/rooms.c", b"", *CHECKED)

    def test_session(self):
        """the example of a session, with no error and no leak"""
        self.in_each("bindings/c/session.c", b'ok\nvalue "A & B"\n', *CHECKED)

    def test_stacks(self):
        """every call on 64 levels, on a thread with the stack that tera.h names"""
        self.in_each("tests/stack.c", b"")

    def test_closed(self):
        """closed sessions of the library for C hold no block"""
        program = compiled("C", "tests/closed.c", *WRAP, "-x", "c", f"{TOP}/tests/counted.c")
        self.assertEqual(heard(*CHECKED, program), (b"", b"", 0))


class Seeds(unittest.TestCase):
    """Sessions and scripts under seeds."""

    def test_floods(self):
        """keys and names that collide, in a session under a seed"""
        for holds, row in flood.rows(compiled("C", "tests/flood.c"), "a session"):
            with self.subTest(row):
                self.assertTrue(holds, row)

    def test_seeds(self):
        """a script answers the same under eight seeds"""
        turns = [f"set n{number % 40} {{{pairs(number)}}}\nwalk n{number % 40}\n" for number in range(60)]
        self.assertEqual(len({tera.replay("".join(turns).encode()) for _ in range(8)}), 1)


# ---- memory that is refused


def counted():
    """The library with tests/counted.c below it."""
    to = f"{built.ROOM.name}/libcounted.so"
    archive = ["-Wl,--whole-archive", f"{built.library()}/libtera.a", "-Wl,--no-whole-archive"]
    built.made("cc", "-shared", "-fPIC", "-O1", *WRAP, f"{TOP}/tests/counted.c", *archive, "-o", to)
    library = tera.load(to)
    library.refuse.argtypes = (ctypes.c_size_t, ctypes.c_size_t)
    library.blocks.restype = library.requests.restype = ctypes.c_size_t
    return library


def call(library, name, *words):
    """A call that delivers a text into a room that is large enough: its status, and the text."""
    room, told = ctypes.create_string_buffer(4096), ctypes.c_size_t()
    status = getattr(library, name)(*words, room, len(room), told)
    return status, room.raw[: told.value]


def broken(first):
    """What is reported of a line feed inside a line, where this stands before it."""
    try:
        text = first.decode()
    except UnicodeDecodeError:
        text = ""
    under = "".join("\t" if it == "\t" else " " for it in text)
    return (f"error: bad line: a line feed stands inside it\n --> line 1:1:{len(text) + 1}\n  |\n1 | {text}\n  | {under}^\n").encode()


def answer(names, given):
    """What the second implementation says of what is given as a line over these names, which it changes: the status, and the
    reply."""
    line = given[:-1].removesuffix(b"\r") if given.endswith(b"\n") else given
    first, feed, _ = line.partition(b"\n")
    if feed:
        return tera.BAD, broken(first)
    if second.is_skipped(line):
        return tera.DONE, b""
    try:
        return tera.DONE, second.step(names, line.decode()).encode() + b"\n"
    except (second.BadLine, UnicodeDecodeError):
        return tera.BAD, second.report(1, line)


def after(states, line, status, reply):
    """The states in which the session may be after this outcome of a line, where it may have been in these before."""
    stepped = [(answer(state, line), state) for state in map(dict, states)]
    if status == tera.NO_MEMORY:
        return states if reply == b"" else []
    if status == tera.WANTED:
        return states if reply == refused.WANT.encode() + b"\n" else []
    if status == tera.NO_REPLY:
        return [*states, *(state for _, state in stepped)] if reply == b"" else []
    return [state for told, state in stepped if told == (status, reply)]


class Session:
    """A session that takes lines while memory is refused, and the states that it may be in by the second implementation."""

    def __init__(self, library):
        self.library, self.handle, self.states = library, ctypes.c_void_p(), [{}]

    def opens(self):
        status = self.library.tera_open(self.handle)
        return status == (tera.DONE if self.handle else tera.NO_MEMORY)

    def takes(self, line):
        told = ctypes.c_size_t()
        status = self.library.tera_line(self.handle, line, len(line), told)
        delivered, reply = call(self.library, "tera_reply", self.handle)
        states = after(self.states, line, status, reply)
        self.states = list({repr(it): it for it in states}.values()) if len(states) > 1 else states
        return self.states and (delivered, told.value) == (tera.DONE, len(reply))

    def closes(self):
        self.library.tera_close(self.handle)
        return not self.handle and self.library.blocks() == 0


def in_turn(library, run, last):
    """Runs with the first, second, .. request for memory refused, up to the request that `last` gives for it, until a run
    meets no refusal. How many met one, or None where a run was not as it should be."""
    for number in range(1, 100_000):
        library.refuse(number, last(number))
        if not run():
            return None
        if library.requests() < number:
            return number - 1


def in_a_session(library, last):
    """Each line of every call again and again, with its first, second, .. request refused."""
    calls = [EXTEND if it.startswith("extend") else it for it in refused.every_call()]
    lines = [*(it.encode() for it in refused.with_questions(calls)), b"frob", b"# says nothing", b"\xff", b"get l\r\n", b"# hides\nset l 1"]
    session = Session(library)
    runs = [session.opens, *(lambda it=it: session.takes(it) for it in lines)]
    counts = [in_turn(library, run, last) for run in runs]
    return None if None in counts or not session.closes() else sum(counts)


def replays(library):
    """A script whose answers are all there; or an answer wants memory; or some answers are there, and the report says that the
    script found no memory; or none was found for the answers or the report, and nothing is told."""
    script, rooms, told = b'set a "no less than twenty bytes"\nget a\n', [], []
    for _ in range(2):
        rooms.append(ctypes.create_string_buffer(4096))
        told.append(ctypes.c_size_t())
    status = library.tera_replay(script, len(script), rooms[0], 4096, told[0], rooms[1], 4096, told[1])
    answers, report = (room.raw[: it.value] for room, it in zip(rooms, told))
    whole, want = second.replay(script)[0], refused.WANT.encode() + b"\n"
    holds = status == tera.DONE and (answers, report) == (whole, b"")
    if status == tera.WANTED and report == b"":
        holds = answers in (want + b"nothing\n", b"ok\n" + want, want + want)
    elif status == tera.WANTED:
        holds = answers in (b"", b"ok\n") and report == want
    elif status == tera.NO_MEMORY:
        holds = (answers, report) == (b"", b"") and not any(it.raw.strip(b"\0") for it in rooms)
    return holds and library.blocks() == 0


# ---- Python


def good_and_bad(count):
    """Lines that tests/fuzz.py makes, of which every tenth may be bad: as they are, with either end of line, with a carriage
    return, and some with a line feed inside."""
    maker, lines = fuzz.Maker(random.Random(7)), []
    maker.names = {}
    while len(lines) < count:
        lines += [maker.doubtful(it) if maker.often(10) else it for it in maker.lines()]
    return [with_feed(maker, it) if maker.often(5) else it + maker.pick(*ENDS) for it in lines]


def with_feed(maker, line):
    """The line with a line feed somewhere, and maybe another behind it."""
    at = maker.chance.randrange(len(line) + 1)
    return line[:at] + b"\n" + line[at:] + maker.pick(b"", b"\n", b"\r\n")


def in_one_session(lines):
    """How many of these lines are bad, or None where a reply or a report in one session is not the second implementation's."""
    names, bad = {}, 0
    with tera.Session() as session:
        for line in lines:
            try:
                given = tera.DONE, session.line_bytes(line)
            except tera.BadLine as fault:
                given, bad = (tera.BAD, fault.report.encode()), bad + 1
            if given != answer(names, line):
                return None
    return bad


def on_threads(lines):
    """Whether sessions on four threads are answered as one."""
    told = []
    threads = [threading.Thread(target=lambda: told.append(in_one_session(lines))) for _ in range(4)]
    for it in threads:
        it.start()
    for it in threads:
        it.join()
    return len(told) == 4 and None not in told


def on_a_later_thread():
    """Whether a session refuses a line on a thread that has the number of the one that opened it, and has ended."""
    held, told = [], []

    def tries():
        if threading.get_ident() == first.ident:
            try:
                told.append(held[0].line("get a"))
            except RuntimeError:
                told.append(None)

    first = threading.Thread(target=lambda: held.append(tera.Session()))
    first.start()
    first.join()
    for _ in range(1000):
        later = threading.Thread(target=tries)
        later.start()
        later.join()
        if told:
            break
    return told == [None]


class Want(unittest.TestCase):
    """Memory that is refused, in turn or from a request on."""

    LASTS = {"each in turn": lambda number: number, "all from one on": lambda number: EVERY}

    def test_session(self):
        """a session of every call with requests for memory of a line refused: it goes on, and no block is lost"""
        for what, last in self.LASTS.items():
            with self.subTest(what):
                self.assertTrue(in_a_session(counted(), last))

    def test_script(self):
        """a script with requests for memory refused: no block is lost"""
        library = counted()
        for what, last in self.LASTS.items():
            with self.subTest(what):
                self.assertTrue(in_turn(library, lambda: replays(library), last))

    def test_escape(self):
        """a text is escaped where all memory is refused"""
        library = counted()
        for text in (b"", b"<b>", b"<b> & more, " * 100):
            library.refuse(1, EVERY)
            escaped = text.replace(b"&", b"&amp;").replace(b"<", b"&lt;").replace(b">", b"&gt;")
            self.assertEqual(call(library, "tera_escape", text, len(text)), (tera.DONE, escaped))
            self.assertEqual(library.requests(), 0)


class InPython(unittest.TestCase):
    """The Python module."""

    def test_lines(self):
        """5,000 lines, good and bad ones, in one session are answered as by the second implementation"""
        self.assertTrue(in_one_session(good_and_bad(5000)))

    def test_threads(self):
        """sessions on four threads share nothing"""
        self.assertTrue(on_threads(good_and_bad(5000)[:1000]))

    def test_later_thread(self):
        """a session goes by its thread, not by a number that a later thread has"""
        self.assertTrue(on_a_later_thread())


def shown():
    """The examples of docs/USE.md: of each its language, its command, and its lines."""
    with open(f"{TOP}/docs/USE.md", encoding="utf-8") as file:
        section = file.read().partition("\n## From C, Python, Rust\n")[2].partition("\n## ")[0]
    return re.findall(r"(?m)^```(c|python|rust)\n(?://|#) (.*)\n((?:.*\n)*?)```", section)


def bare(text):
    """A text without the blanks at its margin."""
    return re.sub(r"(?m)^\s+", "", text)


class Shown(unittest.TestCase):
    """The examples of docs/USE.md, by the commands that stand there."""

    CARGO = {"CARGO_TARGET_DIR": f"{built.ROOM.name}/cargo", "CARGO_NET_OFFLINE": "true"}

    def test_examples(self):
        """the examples of docs/USE.md in C, in Python and in Rust"""
        self.assertEqual([language for language, *_ in shown()], ["c", "python", "rust"])
        for language, command, lines in shown():
            with self.subTest(language):
                if language == "rust" and not shutil.which("cargo"):
                    self.skipTest("there is no `cargo`")
                path = re.search(r"bindings/[\w/.]*\.(?:c|py)|bindings/rust", command)[0]
                with open(f"{TOP}/{path}" if "." in path else f"{TOP}/{path}/examples/page.rs", encoding="utf-8") as file:
                    self.assertIn(bare(lines), bare(file.read()))
                done = heard("sh", "-c", command, env=self.CARGO)
                self.assertEqual((done.status, done.out), (0, b"&lt;b&gt;A &amp; B&lt;/b&gt;\n"), done.err)


if __name__ == "__main__":
    unittest.main()
