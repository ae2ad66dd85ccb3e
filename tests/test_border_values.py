"""Values that go into a session of the library for C and come out of it (docs/BORDER.md), by its exports alone.

What a literal says, and which literal a value has, is the reference's; of JSON it is Python's `json`.
"""
import ctypes
import json
import random
import unittest

import built
import fuzz
import second
from built import heard
from test_border import CHECKED, EVERY, compiled, counted

built.library()
import tera  # over the library that is made above

MISSING, REFUSED = 8, 9
DEEP = "[" * 65 + "]" * 65
PLAIN = '"' + "x" * 30 + '"'
NO_NAMES = [b"", b"1a", b"a b", b" a", b"a ", b"a-b", b"a.b", "é".encode(), b"\xff", b"a\n", b"a\0", b"a # b", b'a "x"']
NO_LITERALS = [b"", b" ", b"1 2", b"1,", b"#", b"1 -> b", b"[1", b'"', b'"a" "b"', b"'a'", b'"\xff"', b"1\n", b"1\r", b"1.5", b"nil", b"256u8",
               b"{[1]: 2}", b"s x", b'x"f"', DEEP.encode(), b'"\\q"', b"340282366920938463463374607431768211456"]
NO_JSON = {b"": "The text is not JSON", b"{": "The text is not JSON", b"1 2": "The text is not JSON", b"nul": "The text is not JSON",
           b"'a'": "The text is not JSON", b'"\n"': "The text is not JSON",
           b"[1.5]": "Number `1.5` at `/0` is not an integer from -2^127 to 2^128 - 1",
           b'{"a": 1e2}': "Number `1e2` at `/a` is not an integer from -2^127 to 2^128 - 1",
           b"340282366920938463463374607431768211456":
               "Number `340282366920938463463374607431768211456` at `` is not an integer from -2^127 to 2^128 - 1",
           DEEP.encode(): "More than 64 levels at `" + "/0" * 64 + "`"}
NOT_AS_JSON = {'[1, x"00"]': "Value of type `bytes` at `/1` has no JSON", '{"k": undefined}': "Value of type `undefined` at `/k` has no JSON",
               '{1: 2, "1": 3}': "Key at `/1` is written as another key is"}


class Session:
    """A session of a library, by its exports."""

    def __init__(self, library=None):
        self.library, self.handle = library or ctypes.CDLL(f"{built.library()}/libtera.so"), ctypes.c_void_p()

    def __enter__(self):
        self.by("tera_open")
        return self

    def __exit__(self, *_):
        self.by("tera_close")

    def by(self, name, *given):
        """The status of an export, by texts of bytes and by numbers."""
        words = []
        for it in given:
            words += [ctypes.c_char_p(it), ctypes.c_size_t(len(it))] if isinstance(it, bytes) else [it]
        return (getattr(self.library, name)(ctypes.byref(self.handle), *words) or 0) & 255

    def text(self, name, *given, size=200):
        """The status of an export, and what it delivers, into a room that is made anew where one of that size is too small; or
        the length that it tells where it delivers nothing."""
        room, told = ctypes.create_string_buffer(b"\xa5" * size, size + 1), ctypes.c_size_t(77)
        status = self.by(name, *given, room, ctypes.c_size_t(size), ctypes.byref(told))
        written = told.value if status == tera.DONE else 0
        assert room.raw[written:size].strip(b"\xa5") == b"", "a byte is written behind"
        if status == tera.SMALL and told.value > size:
            return self.text(name, *given, size=told.value)
        return status, room.raw[:written] if status == tera.DONE else told.value

    def all(self):
        """The names with their values, and the reply."""
        return self.text("tera_save"), self.text("tera_reply")


def with_names(lines=()):
    """An open session that took these lines."""
    session = Session().__enter__()
    for line in lines:
        assert session.by("tera_line", line.encode(), ctypes.byref(ctypes.c_size_t())) in (tera.DONE, tera.BAD), line
    return session


def values(count):
    """Random values of the reference."""
    maker = fuzz.Maker(random.Random(63))
    return [second.read_literal(second.spelled(maker.value()), 0)[0] for _ in range(count)]


def texts(count):
    """Random texts: quotes and escapes, control characters, and all of Unicode."""
    chance = random.Random(64)
    some = [*map(chr, range(0x250)), *'"\\\n\r\t\0{}[],:#\'' * 20, *(chr(chance.choice((0x7FF, 0x800, 0xFFFD, 0x10000, 0x10FFFF))) for _ in range(80))]
    return ["", *("".join(chance.choices(some, k=chance.randint(0, 40))) for _ in range(count))]


def document(chance, depth=4):
    """A random document of JSON."""
    if depth == 0 or chance.random() < 0.4:
        number = chance.choice((0, -1, 2**63, -2**63 - 1, 2**127, 2**128 - 1, -2**127, chance.getrandbits(40)))
        return chance.choice((None, True, False, number, "".join(chance.choices('ab"\\\n/é\U00010000', k=4))))
    if chance.random() < 0.5:
        return [document(chance, depth - 1) for _ in range(chance.randint(0, 4))]
    return {"".join(chance.choices("ab~/\"é", k=3)): document(chance, depth - 1) for _ in range(chance.randint(0, 4))}


class Values(unittest.TestCase):
    """Values that are set and got."""

    def test_literals(self):
        """a hundred thousand random values go in and come out the same, in ASCII, and their literals stay what they are"""
        with Session() as session:
            for value in values(100_000):
                self.assertEqual(session.by("tera_set", b"a", second.spelled(value).encode()), tera.DONE)
                status, literal = session.text("tera_get", b"a")
                self.assertEqual((status, second.read_literal(literal.decode("ascii"), 0)), (tera.DONE, (value, len(literal))))
                self.assertEqual(session.by("tera_set", b"b", literal), tera.DONE)
                self.assertEqual(session.text("tera_get", b"b"), (tera.DONE, literal))

    def test_texts(self):
        """2,000 random texts go in as they are, with their flags, and come out the same"""
        with Session() as session:
            for text in texts(2000):
                for safe in (0, 1, 2, 255):
                    self.assertEqual(session.by("tera_set_text", b"a", text.encode(), safe), tera.DONE)
                    literal = session.text("tera_get", b"a")[1].decode("ascii")
                    self.assertEqual(second.read_literal(literal, 0)[0], second.Text(text, safe != 0))
                self.assertEqual(json.loads(session.text("tera_get_json", b"a")[1]), text)

    def test_documents(self):
        """2,000 random documents of JSON go in and come out the same, and so do their literals"""
        chance = random.Random(65)
        with Session() as session:
            for _ in range(2000):
                given = document(chance)
                self.assertEqual(session.by("tera_set_json", b"a", json.dumps(given, ensure_ascii=chance.random() < 0.5).encode()), tera.DONE)
                made = session.text("tera_get_json", b"a")[1].decode()
                self.assertEqual(json.loads(made, object_pairs_hook=list), json.loads(json.dumps(given), object_pairs_hook=list))
                self.assertEqual(session.by("tera_set", b"b", session.text("tera_get", b"a")[1]), tera.DONE)
                self.assertEqual(session.text("tera_get_json", b"b")[1].decode(), made)

    def test_lines_see_them(self):
        """what is set is what lines find, and what lines set is got"""
        with with_names(['set c {"k": s"x"}', "add n n"]) as session:
            self.assertEqual(session.by("tera_set_text", b"n", b"a \"b\"", 0), tera.DONE)
            told = ctypes.c_size_t()
            self.assertEqual(session.by("tera_line", b"print n", ctypes.byref(told)), tera.DONE)
            self.assertEqual(session.text("tera_reply"), (tera.DONE, b'text a "b"\n'))
            self.assertEqual(session.text("tera_get", b"c"), (tera.DONE, b'{"k": s"x"}'))
            self.assertEqual(session.text("tera_reply"), (tera.DONE, b'text a "b"\n'))

    def test_nothing_found(self):
        """a name that is not there is told apart from none and undefined, and may be any text"""
        with with_names(['extend {"": 1, "a b": 2, "n": none, "u": undefined}']) as session:
            for name, literal in ((b"", b"1"), (b"a b", b"2"), (b"n", b"none"), (b"u", b"undefined")):
                self.assertEqual((session.by("tera_has", name), session.text("tera_get", name)), (tera.DONE, (tera.DONE, literal)))
                self.assertEqual((session.by("tera_remove", name), session.by("tera_remove", name)), (tera.DONE, MISSING))
                self.assertEqual((session.by("tera_has", name), session.text("tera_get", name)), (MISSING, (MISSING, 0)))
                self.assertEqual(session.text("tera_get_json", name), (MISSING, 0))

    def test_names(self):
        """the names are one a line, in the order of their bytes, and a name with a line feed is told"""
        with with_names(['extend {"b": 1, "é": 2, "a": 3, "B": 4, "": 5, "aa": 6, "\\u{10000}": 7}']) as session:
            self.assertEqual(session.text("tera_names"), (tera.DONE, "\nB\na\naa\nb\né\n\U00010000\n".encode()))
            session.by("tera_line", b'extend {"a\\nb": 1}', ctypes.byref(ctypes.c_size_t()))
            self.assertEqual(session.text("tera_names"), (REFUSED, 0))
            self.assertEqual(session.text("tera_reply"), (tera.DONE, b"error: A line feed stands inside the name a\nb\n"))

    def test_saved(self):
        """a session is saved and made again; one that no script makes is refused"""
        with Session() as session, Session() as other:
            for number, value in enumerate(values(300)):
                self.assertEqual(session.by("tera_set", f"n{number % 200}".encode(), second.spelled(value).encode()), tera.DONE)
            script = session.text("tera_save")
            for line in script[1].splitlines():
                self.assertEqual(other.by("tera_line", line, ctypes.byref(ctypes.c_size_t())), tera.DONE)
            self.assertEqual(other.text("tera_save"), script)
            session.by("tera_line", b'extend {"a b": 1}', ctypes.byref(ctypes.c_size_t()))
            self.assertEqual(session.text("tera_save"), (REFUSED, 0))
            self.assertEqual(session.text("tera_reply"), (tera.DONE, b"error: No script can say the name a b\n"))


class Refused(unittest.TestCase):
    """Bad input. Nothing has changed behind it."""

    def same(self, session, status, name, *given):
        """An export answers that status, and leaves the names and the reply as they were."""
        before = session.all()
        with self.subTest(name, given=given):
            self.assertEqual((session.by(name, *given), session.all()), (status, before))

    def told(self, session, reason, name, *given):
        """An export refuses for that reason, which is the reply, and leaves the names as they were."""
        names = session.text("tera_save")
        with self.subTest(name, given=given):
            self.assertEqual(session.by(name, *given), REFUSED)
            self.assertEqual((session.text("tera_reply"), session.text("tera_save")), ((tera.DONE, f"error: {reason}\n".encode()), names))

    def test_names(self):
        """what is no name is not set, nor got where it is no text"""
        with with_names(["set a 1", "get a"]) as session:
            for name in NO_NAMES:
                for export, *given in (("tera_set", b"1"), ("tera_set_text", b"x", 1), ("tera_set_json", b"1"), ("tera_set_json", b"{")):
                    self.same(session, tera.BAD, export, name, *given)
            for export in ("tera_has", "tera_remove"):
                self.same(session, tera.BAD, export, b"a\xff")
            for export in ("tera_get", "tera_get_json"):
                self.assertEqual(session.text(export, b"a\xff"), (tera.BAD, 0))

    def test_values(self):
        """what is no literal, no text or no JSON is not set"""
        with with_names(["set a 1", "get a"]) as session:
            for literal in NO_LITERALS:
                self.same(session, tera.BAD, "tera_set", b"a", literal)
            for bad in (b"\xff", b"\xed\xa0\x80", b"a\xc3"):
                self.same(session, tera.BAD, "tera_set_text", b"a", bad, 0)
                self.same(session, tera.BAD, "tera_set_json", b"a", b'"' + bad + b'"')
            for bad, reason in NO_JSON.items():
                self.told(session, reason, "tera_set_json", b"a", bad)

    def test_what_has_no_json(self):
        """what JSON has no word for is not got, and the reply says what and where"""
        for literal, reason in NOT_AS_JSON.items():
            with with_names([f"set a {literal}"]) as session:
                self.assertEqual(session.text("tera_get_json", b"a"), (REFUSED, 0))
                self.assertEqual(session.text("tera_reply"), (tera.DONE, f"error: {reason}\n".encode()))
                self.assertEqual(session.text("tera_get", b"a"), (tera.DONE, literal.encode()))

    def test_blanks(self):
        """blanks may stand around a literal, as in a line"""
        with Session() as session:
            self.assertEqual(session.by("tera_set", b"a", b" \t[1 ,2]\t "), tera.DONE)
            self.assertEqual(session.text("tera_get", b"a"), (tera.DONE, b"[1, 2]"))

    def test_closed(self):
        """each export answers that a session is closed"""
        session = Session()
        for export, *given in (("tera_set", b"a", b"1"), ("tera_set_text", b"a", b"1", 0), ("tera_set_json", b"a", b"1"), ("tera_has", b"a"),
                               ("tera_remove", b"a")):
            self.assertEqual((session.by(export, *given), session.handle.value), (tera.CLOSED, None))
        for export, *given in (("tera_get", b"a"), ("tera_get_json", b"a"), ("tera_names",), ("tera_save",)):
            self.assertEqual((session.text(export, *given), session.handle.value), ((tera.CLOSED, 0), None))


class Want(unittest.TestCase):
    """Memory that is refused."""

    SETS = ("tera_set", b"a", f"[{PLAIN}, s{PLAIN}]".encode()), ("tera_set_text", b"b", PLAIN.encode(), 1), ("tera_set_json", b"c", f"[{PLAIN}]".encode())
    REFUSES = ("tera_set_json", b"c", b"[1.5]"), ("tera_set_json", b"c", b"{"), ("tera_has", b"a"), ("tera_remove", b"z")
    GIVES = ("tera_get", b"a"), ("tera_get_json", b"a"), ("tera_get_json", b"b"), ("tera_names",), ("tera_save",)

    def test_each(self):
        """each export with its requests refused, in turn or from one on: nothing has changed, and no block is lost"""
        library = counted()
        for last in (lambda number: number, lambda number: EVERY):
            library.refuse(0, 0)
            with Session(library) as session:
                for export, *given in (*self.SETS, *self.REFUSES):
                    self.in_turn(session, last, lambda: session.by(export, *given))
                for export, *given in self.GIVES:
                    self.in_turn(session, last, lambda: session.text(export, *given)[0])
            self.assertEqual(library.blocks(), 0)

    def in_turn(self, session, last, run):
        """Calls with the first, second, .. request refused, until a call meets no refusal: all stays but where it is done."""
        library = session.library
        for number in range(1, 1000):
            before = session.all()
            library.refuse(number, last(number))
            status = run()
            met = library.requests() >= number
            library.refuse(0, 0)
            self.assertIn(status, (tera.DONE, MISSING, REFUSED, *[tera.NO_MEMORY] * met))
            if status == tera.NO_MEMORY:
                self.assertEqual(session.all(), before)
            if not met:
                return
        self.fail("each call met a refusal")


class InC(unittest.TestCase):
    """Programs in C and in C++."""

    def test_rooms(self):
        """rooms of every size for a value, as a literal and as JSON, for names and for a script"""
        for language in ("C", "C++"):
            with self.subTest(language):
                self.assertEqual(heard(*CHECKED, compiled(language, "tests/values.c")), (b"", b"", 0))


if __name__ == "__main__":
    unittest.main()
