"""The interface has one description, include/tera.h, from which bindings/interface.py writes and checks the others; and values go
in and come out by it alone, as from C."""
import ctypes
import random
import sys
import unittest
import unittest.mock

import built
import second
from built import TOP

built.library()
sys.path[:0] = [it for it in (f"{TOP}/bindings",) if it not in sys.path]
import interface
import link
import tera

VALUES = 100_000
# edits of the header, each with what tells it
PARTED = {
    "a status has another number": ("TERA_SMALL = 3,", "TERA_SMALL = 13,", "`SMALL` is 3"),
    "a status goes": ("TERA_OPEN = 7,", "", "`OPEN` is 7"),
    "a function goes": ("uint32_t tera_version(void);", "", "it exports `tera_version`"),
    "a function comes": ("#ifdef __cplusplus\n}", "uint8_t tera_more(void);\n#ifdef __cplusplus\n}", "it exports no `tera_more`"),
    "a function answers another type": ("uint32_t tera_version(void);", "uint8_t tera_version(void);", "`tera_version` is of"),
    "a parameter has another type": ("size_t text_len, uint8_t *room", "uint8_t text_len, uint8_t *room", "`tera_escape` is of"),
    "a parameter is read and not written": ("uint8_t *room, size_t room_len, size_t *reply_len", "const uint8_t *room, size_t room_len, size_t *reply_len",
                                            "`tera_reply` is of"),
    "two parameters change places": ("const uint8_t *line, size_t line_len", "size_t line_len, const uint8_t *line", "`tera_line` is of"),
}


class Interface(unittest.TestCase):
    """What the modules declare, and what the crate exports."""

    HEADER = interface.read(interface.HEADER)

    def test_one_description(self):
        """they are as the header says"""
        self.assertEqual(list(interface.faults()), [])

    def test_whole(self):
        """no function of the header is left out"""
        functions = interface.parsed(self.HEADER).functions
        self.assertEqual([*functions], link.exports(f"{TOP}/{interface.HEADER}"))
        self.assertEqual({*functions}, {*tera._interface.FUNCTIONS})

    def test_parted(self):
        """where they part from it, each is told"""
        read = interface.read
        for what, (old, new, told) in PARTED.items():
            with self.subTest(what):
                self.assertEqual(self.HEADER.count(old), 1)
                edited = self.HEADER.replace(old, new)
                with unittest.mock.patch.object(interface, "read", lambda path: edited if path == interface.HEADER else read(path)):
                    found = list(interface.faults())
                for path in interface.WRITES:
                    self.assertTrue(any(it.startswith(path) for it in found), found)
                self.assertTrue(any(told in it for it in found), found)


class Drawn:
    """Values of the reference at random, of every kind."""

    EDGES = [0, 1, 2**63 - 1, 2**63, 2**64 - 1, 2**127 - 1, 2**128 - 1, -1, -2**63, -2**127]
    CHARS = list("ab &<'\"\\{}[],: \t\n\r\0\x01\x7fé中\u0301\u2028😀") + ["u{41}", "s\""]

    def __init__(self, seed):
        self.chance = random.Random(seed)

    def number(self):
        kind = self.chance.choice(second.KINDS)
        low, high = second.TYPES[kind]
        return second.Number(kind, min(max(self.chance.choice(self.EDGES) + self.chance.randint(-2, 2), low), high))

    def text(self):
        return "".join(self.chance.choice(self.CHARS) for _ in range(self.chance.randint(0, 6)))

    def plain(self):
        text = self.text()
        return self.chance.choice([second.UNDEFINED, second.NONE, True, False, self.number(), self.number(), second.Text(text, False),
                                   second.Text(text, True), text.encode()])

    def value(self, levels=3):
        if levels == 0 or self.chance.random() < 0.6:
            return self.plain()
        parts = [self.value(levels - 1) for _ in range(self.chance.randint(0, 4))]
        if self.chance.random() < 0.5:
            return tuple(parts)
        keys = (self.chance.choice([True, self.number(), second.Text(self.text(), False)]) for _ in parts)
        return {second.key_of(key): it for key, it in zip(keys, parts)}


class FromC(unittest.TestCase):
    """Values by the calls of the header alone."""

    def setUp(self):
        self.library = tera.load(f"{built.library()}/libtera.so")
        self.session = ctypes.c_void_p()
        self.assertEqual(self.library.tera_open(self.session), tera.DONE)
        self.addCleanup(self.library.tera_close, self.session)
        self.room, self.len = ctypes.create_string_buffer(1 << 16), ctypes.c_size_t()

    def test_round_trip(self):
        """a hundred thousand values at random come out as they went in: kinds, marks and the order of pairs"""
        drawn = Drawn(1)
        for _ in range(VALUES):
            value = drawn.value()
            literal = second.spelled(value)
            given = literal.encode()
            self.assertEqual(self.library.tera_set(self.session, b"a", 1, given, len(given)), tera.DONE)
            self.assertEqual(self.library.tera_get(self.session, b"a", 1, self.room, len(self.room), self.len), tera.DONE)
            said = self.room[: self.len.value]
            if said != given:  # it is written in ASCII
                read, at = second.read_literal(said.decode("ascii"), 0)
                self.assertEqual((second.spelled(read), at), (literal, self.len.value))


if __name__ == "__main__":
    unittest.main()
