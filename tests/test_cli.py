"""The program `tera` as people use it, and `./replay` with arguments: `python3 tools/testing.py cli[.CLASS.TEST]`.

Each test runs it on words, files, streams and terminals of its own.
"""
from __future__ import annotations

import os
import pty
import re
import select
import shutil
import subprocess
import termios
import unittest
from typing import List, Optional, Sequence, Tuple, Union

import built
from built import TOP, WithFolder
from talk import PATIENCE, kept_back

PAGE = f"{TOP}/docs/man/tera.help"
PROMPT = b"tera> "
NO_MEMORY = b"error: Out of memory\n"
NO_WORD = b"error: no such word; there are :help, :load FILE, :names, :quit and :save FILE\n"
Word = Union[str, bytes]
Ended = Tuple[int, bytes, bytes]


def report(number: int, line: str) -> bytes:
    """The report of a bad line of ASCII characters."""
    carets = "^" * max(1, len(line))
    return f"error: bad line\n --> line {number}:1:1\n  |\n1 | {line}\n  | {carets}\n".encode()


def tera() -> str:
    """The program."""
    return built.installed_program()


def ran(words: Sequence[Word], given: bytes = b"", program: Optional[str] = None, seconds: float = 120, **more: object) -> Ended:
    """The status and both streams of the program on these words, or of another program."""
    done = subprocess.run([program or tera(), *words], input=given, capture_output=True, timeout=seconds, **more)  # type: ignore[call-overload]
    return done.returncode, done.stdout, done.stderr


class Words(WithFolder):
    """What the words of the command line ask for."""

    def test_no_words_replay_standard_input_as_the_other_program_does(self) -> None:
        for script in (b"", b"set a 1\nget a\n", b"set a 1\nfrob\nget a\n", b"get a", b"\xff\n", b"eq a b\r\n# note\n"):
            with self.subTest(script):
                self.assertEqual(ran([], script), ran([], script, built.program("tera_replay")))

    def test_two_hyphens_alone_replay_standard_input(self) -> None:
        self.assertEqual(ran(["--"], b"set a 1\nget a\n"), (0, b"ok\nvalue 1\n", b""))

    def test_help_is_the_page_that_stands(self) -> None:
        with open(PAGE, "rb") as file:
            page = file.read()
        for word in ("--help", "-h"):
            with self.subTest(word):
                self.assertEqual(ran([word]), (0, page, b""))
        self.assertIn(b"\nUsage: tera [OPTIONS] [FILE]...\n", page)

    def test_the_version_is_that_of_the_file(self) -> None:
        with open(f"{TOP}/VERSION", encoding="utf-8") as file:
            version = file.read().strip()
        for word in ("--version", "-V"):
            with self.subTest(word):
                self.assertEqual(ran([word]), (0, f"tera {version}\n".encode(), b""))

    def test_what_is_asked_for_cannot_be_written(self) -> None:
        for word in ("--help", "--version"):
            with self.subTest(word), open("/dev/full", "wb") as full:
                done = subprocess.run([tera(), word], stdout=full, stderr=subprocess.PIPE)
                self.assertEqual((done.returncode, done.stderr), (1, b"error: writing failed\n"))

    def test_words_that_are_not_known_are_refused(self) -> None:
        script = self.file("a.replay", "get a\n")
        for words in (["--frob"], ["-x"], ["-ix"], ["--version=1"], ["--interactive=yes"], ["-i", script], [script, "-i"], [script, "--frob"], ["-i", "-i"]):
            with self.subTest(words):
                status, out, err = ran(words, b"get a\n")
                self.assertEqual((status, out), (3, b""))
                self.assertRegex(err.decode(), r"\Aerror: [^\n]+\n(.*\n)*Usage: tera [^\n]+\n")

    def test_a_word_that_is_no_utf_8_is_refused(self) -> None:
        script = self.file("a.replay", "get a\n")
        for words in ([b"\xff"], [script.encode(), b"a\xc3"], [b"--\xff"]):
            with self.subTest(words):
                status, out, err = ran(words)
                self.assertEqual((status, out), (3, b""))
                self.assertRegex(err, rb"\Aerror: an argument is no UTF-8\n\nUsage: tera [^\n]+\n")


class Files(WithFolder):
    """Scripts of files."""

    def test_each_file_is_a_script_of_its_own(self) -> None:
        first, second = self.file("1", "set a 1\nget a\n"), self.file("2", "get a\nset a 2\nget a")
        self.assertEqual(ran([first, second, first]), (0, b"ok\nvalue 1\nnothing\nok\nvalue 2\nok\nvalue 1\n", b""))

    def test_the_first_that_ends_otherwise_is_the_last(self) -> None:
        good, bad = self.file("good", "set a 1\n"), self.file("bad", "set a 1\n\nfrob\nget a\n")
        self.assertEqual(ran([good, bad, good]), (2, b"ok\nok\n", report(3, "frob")))

    def test_a_hyphen_is_standard_input(self) -> None:
        first = self.file("1", "set a 1\n")
        self.assertEqual(ran([first, "-", first], b"get a\n"), (0, b"ok\nnothing\nok\n", b""))
        self.assertEqual(ran(["-"], b"get a\n"), (0, b"nothing\n", b""))

    def test_what_cannot_be_read_is_told_and_ends_the_run(self) -> None:
        good = self.file("good", "set a 1\n")
        for name in (f"{self.folder}/none", self.folder, f"{good}/within", "", "-" * 300 + "/", "a\nb"):
            with self.subTest(name):
                told = f"error: cannot read {name}\n".encode()
                self.assertEqual(ran([good, "--", name, good]), (1, b"ok\n", told))
                self.assertEqual(ran(["--", name], b"get a\n"), (1, b"", told))

    @unittest.skipIf(os.geteuid() == 0, "root reads each file")
    def test_a_file_without_leave_is_told(self) -> None:
        closed = self.file("closed", "get a\n")
        os.chmod(closed, 0)
        self.assertEqual(ran([closed]), (1, b"", f"error: cannot read {closed}\n".encode()))

    def test_a_read_that_fails_later_is_told(self) -> None:
        self.assertEqual(ran(["/proc/self/mem"]), (1, b"", b"error: reading failed\n"))

    def test_a_name_that_looks_like_a_choice_stands_behind_two_hyphens(self) -> None:
        self.file("--help", "get a\n")
        self.assertEqual(ran(["--", "--help"], cwd=self.folder), (0, b"nothing\n", b""))

    def test_what_cannot_be_written_ends_the_run(self) -> None:
        good = self.file("good", "get a\n")
        with open("/dev/full", "wb") as full:
            done = subprocess.run([tera(), good, good], stdout=full, stderr=subprocess.PIPE)
        self.assertEqual((done.returncode, done.stderr), (1, b"error: writing failed\n"))

    def test_each_example_is_answered(self) -> None:
        names = sorted(name[:-len(".replay")] for name in os.listdir(f"{TOP}/examples") if name.endswith(".replay"))
        for name in names:
            with self.subTest(name):
                path = f"{TOP}/examples/{name}.replay"
                with open(path, "rb") as script:
                    self.assertEqual(ran([path]), ran([], script.read(), built.program("tera_replay")))


class Talks(WithFolder):
    """Conversations whose input is no terminal."""

    def test_a_bad_line_is_told_and_the_names_stay(self) -> None:
        said = b"set a 1\nfrob\nget a\n\n# note\n1\nget a\n"
        told = report(2, "frob") + report(6, "1")
        self.assertEqual(ran(["-i"], said), (0, b"ok\nvalue 1\nvalue 1\n", told))
        self.assertEqual(ran(["--interactive"], said), (0, b"ok\nvalue 1\nvalue 1\n", told))

    def test_quit_ends_it(self) -> None:
        for quit in (b":quit\n", b"  :quit\t \r\n", b":quit"):
            with self.subTest(quit):
                self.assertEqual(ran(["-i"], b"get a\n" + quit + (b"get a\n" if quit.endswith(b"\n") else b"")), (0, b"nothing\n", b""))
        self.assertEqual(ran(["-i"], b"quit\nget a\n"), (0, b"nothing\n", report(1, "quit")))

    def test_another_word_tells_which_there_are(self) -> None:
        for line in (b":quit now", b":Quit", b": quit", b":", b":help a", b":load\xc3", b":names a", b":name", b":saved", b" :frob"):
            with self.subTest(line):
                self.assertEqual(ran(["-i"], line + b"\nget a\n"), (0, b"nothing\n", NO_WORD))

    def test_a_word_without_a_file_tells_how_it_is_used(self) -> None:
        for word in ("load", "save"):
            told = f"error: no file is named; it is :{word} FILE\n".encode()
            for line in (f":{word}", f" :{word} \t", f":{word} \r"):
                with self.subTest(line):
                    self.assertEqual(ran(["-i"], f"{line}\nget a\n".encode()), (0, b"nothing\n", told))
            with self.subTest(word):
                told = b"error: the name of the file is no UTF-8\n"
                self.assertEqual(ran(["-i"], f":{word} a".encode() + b"\xff\nget a\n", cwd=self.folder), (0, b"nothing\n", told))
                self.assertEqual(os.listdir(self.folder), [])

    def test_help_has_each_word(self) -> None:
        status, out, err = ran(["-i"], b":help\n")
        self.assertEqual((status, err, [line.split()[0] for line in out.splitlines()]), (0, b"", [b":help", b":load", b":names", b":quit", b":save"]))

    def test_names_are_shown_in_the_order_of_their_bytes(self) -> None:
        said = b":names\nset b 1\nset a 2\nset a1 3\nset Z 4\nset _ 5\nset aa 6\n:names\nremove a\nset b 7\n:names\n"
        shown = b"Z\n_\na\na1\naa\nb\n"
        self.assertEqual(ran(["-i"], said), (0, b"ok\n" * 6 + shown + b"value 2\nok\n" + shown.replace(b"a\n", b"", 1), b""))

    def test_a_name_that_no_line_sets_is_shown_as_a_text(self) -> None:
        said = b'extend {"b": 1, "a b": 2, "": 3, "a\\nb": 4, "1": 5, "a\\"": 6, "a-": 7, "a": 8}\n:names\n'
        self.assertEqual(ran(["-i"], said), (0, b'ok\n""\n"1"\na\n"a\\nb"\n"a b"\n"a\\""\n"a-"\nb\n', b""))

    def test_what_is_saved_and_loaded_has_the_same_names_and_values(self) -> None:
        literals = ["1", "1u64", "-1i128", "none", "undefined", "true", '"a\\n\\"\u00e9"', 's"<b>"', 'x"00ff"', '[1, [], {"k": {2u64: none}}]', "[" * 64 + "]" * 64]
        names = [f"n{number}" for number in range(len(literals))]
        sets = "".join(f"set {name} {literal}\n" for name, literal in zip(names, literals))
        asks = "".join(f"get {name}\nkind {name}\nis_safe {name}\n" for name in names) + ":names\n"
        path = self.file("kept script", "# of no use\n" * 1000)
        saved = ran(["-i"], f"{sets}:save  {path} \n{asks}".encode())
        self.assertEqual((saved[0], saved[2], saved[1].count(b"ok\n")), (0, b"", len(names)))
        self.assertEqual(ran(["-i"], f":load {path}\n{asks}".encode()), saved)
        with open(path, "rb") as file:
            script = file.read()
        self.assertEqual(ran(["-i"], f":load {path}\n:save -\n".encode()), (0, b"ok\n" * len(names) + script, b""))
        self.assertEqual(ran([path]), (0, b"ok\n" * len(names), b""))

    def test_no_names_are_an_empty_script(self) -> None:
        path = self.file("a", "set a 1\n")
        self.assertEqual(ran(["-i"], f":save {path}\n".encode()), (0, b"", b""))
        self.assertEqual(os.path.getsize(path), 0)

    def test_nothing_is_written_where_no_script_says_a_name(self) -> None:
        path = self.file("a", "set a 1\n")
        told = b"error: No script can say the name b c\n"
        for name in (path, f"{self.folder}/b", "-"):
            with self.subTest(name):
                self.assertEqual(ran(["-i"], f'extend {{"b": 1, "b c": 2, "d e": 3}}\n:save {name}\nget b\n'.encode()), (0, b"ok\nvalue 1\n", told))
        with open(path, encoding="utf-8") as file:
            self.assertEqual(file.read(), "set a 1\n")
        self.assertEqual(os.listdir(self.folder), ["a"])

    def test_a_file_that_cannot_be_written_does_not_end_it(self) -> None:
        for name in (self.folder, f"{self.folder}/none/a", f"{self.file('a', '')}/b", "/dev/full", "-" * 300):
            with self.subTest(name):
                told = f"error: cannot write {name}\n".encode()
                self.assertEqual(ran(["-i"], f"set a 1\n:save {name}\nget a\n".encode()), (0, b"ok\nvalue 1\n", told))

    @unittest.skipIf(os.geteuid() == 0, "root writes each file")
    def test_a_file_without_leave_is_not_written(self) -> None:
        closed = self.file("closed", "get a\n")
        os.chmod(closed, 0o400)
        self.assertEqual(ran(["-i"], f":save {closed}\n".encode()), (0, b"", f"error: cannot write {closed}\n".encode()))

    def test_what_is_loaded_is_answered_over_the_names_that_stand(self) -> None:
        path = self.file("a b", 'set a {"k": none}\nset b [1u64]')
        said = f"set c 1\nset a 2\n:load  {path} \nget a\nget c\nget b\n".encode()
        self.assertEqual(ran(["-i"], said), (0, b"ok\n" * 4 + b'value {"k": }\nvalue 1\nvalue [1]\n', b""))

    def test_a_bad_line_ends_what_is_loaded_and_what_was_done_stands(self) -> None:
        path = self.file("a", "set a 1\n# note\nfrob\nset a 2\n")
        for words, more in ((["-i"], b""), (["-i", "--why"], b"expected the word of a call at character 1\n")):
            self.assertEqual(ran(words, f":load {path}\nget a\n".encode()), (0, b"ok\nvalue 1\n", report(3, "frob") + more))
        self.assertEqual(ran(["-i"], f":load {self.file('b', ':quit')}\nget a\n".encode()), (0, b"nothing\n", report(1, ":quit")))

    def test_a_file_that_cannot_be_read_does_not_end_it(self) -> None:
        for name in (self.folder, f"{self.folder}/none"):
            with self.subTest(name):
                told = f"error: cannot read {name}\n".encode()
                self.assertEqual(ran(["-i"], f"set a 1\n:load {name}\nget a\n".encode()), (0, b"ok\nvalue 1\n", told))
        self.assertEqual(ran(["-i"], b":load /proc/self/mem\nget a\n"), (0, b"nothing\n", b"error: reading failed\n"))

    def test_lines_end_as_those_of_scripts_do(self) -> None:
        said = b"set a 1\r\nget a\r\n"
        self.assertEqual(ran(["-i"], said), ran([], said))
        self.assertEqual(ran(["-i"], b"set a 1\nget a"), (0, b"ok\nvalue 1\n", b""))
        status, out, err = ran(["-i"], b"\xff\nget a\r")
        self.assertEqual((status, out), (0, b""))
        self.assertEqual(err[:len(report(1, ""))], report(1, ""))
        self.assertIn(b" --> line 2:1:1\n", err)

    def test_a_long_line_and_many(self) -> None:
        long = b'set t "' + b"x" * 3_000_000 + b'"\nlen t\n'
        self.assertEqual(ran(["-i"], long + b"frob\n" * 2000 + b"len t\n"), (0, b"ok\nsize 3000000\nsize 3000000\n", b"".join(report(number, "frob") for number in range(3, 2003))))

    def test_each_answer_is_out_before_more_is_asked_for(self) -> None:
        self.assertEqual(kept_back([tera(), "-i"], 1000), "")

    def test_an_answer_that_cannot_be_written_ends_it(self) -> None:
        path = self.file("a", "set a 1\n")
        for line in (b"get a", b":help", f":load {path}".encode()):
            with self.subTest(line), open("/dev/full", "wb") as full:
                done = subprocess.run([tera(), "-i"], input=line + b"\nfrob\n", stdout=full, stderr=subprocess.PIPE)
                self.assertEqual((done.returncode, done.stderr), (1, b"error: writing failed\n"))

    def test_a_report_that_cannot_be_written_changes_nothing(self) -> None:
        with open("/dev/full", "wb") as full:
            done = subprocess.run([tera(), "-i"], input=b"frob\nget a\n", stdout=subprocess.PIPE, stderr=full)
        self.assertEqual((done.returncode, done.stdout), (0, b"nothing\n"))

    def test_input_that_cannot_be_read_is_told(self) -> None:
        folder = os.open(self.folder, os.O_RDONLY)
        self.addCleanup(os.close, folder)
        done = subprocess.run([tera(), "-i"], stdin=folder, capture_output=True)
        self.assertEqual((done.returncode, done.stdout, done.stderr), (1, b"", b"error: reading failed\n"))


class Reasons(WithFolder):
    """What was expected of a bad line, beside its report."""

    # a line, the number of a character in it, and what was expected there
    ROWS = (
        ("frob", 1, "the word of a call"),
        ("1", 1, "the word of a call"),
        ("get", 4, "a name"),
        ("len 1", 5, "a name"),
        ("len$", 4, "a blank"),
        ("eq a", 5, "a name"),
        ("len a b", 7, "the end of the line"),
        ("get a b", 7, "'->' behind a blank, or the end of the line"),
        ("get a-> b", 6, "'->' behind a blank, or the end of the line"),
        ("get a ->", 9, "a name"),
        ("get a ->b", 9, "a blank"),
        ("get a -> b c", 12, "the end of the line"),
        ("set x", 6, "a value"),
        ("set x foo", 7, "a value"),
        ("set x 1 -> b", 9, "the end of the line"),
        ("set x 5u9", 8, "u64, i64, u128, i128 or nothing behind the number"),
        ("set x -", 8, "a digit"),
        ("set x -1u64", 7, "a number that its kind holds"),
        ("set x 18446744073709551616u64", 7, "a number that its kind holds"),
        ("set x " + "9" * 40, 7, "a number that its kind holds"),
        ("set a [1,]", 10, "a value behind ','"),
        ("set a [", 8, "a value or ']'"),
        ("set a [1 2]", 10, "',' or ']'"),
        ("set a [1", 9, "',' or ']'"),
        ("set a [1, [2, [3, !]]]", 19, "a value behind ','"),
        ("set a {", 8, "a key or '}'"),
        ("set a {none: 1}", 8, "a key or '}'"),
        ('set a {"k" 1}', 12, "':'"),
        ('set a {"k": }', 13, "a value behind ':'"),
        ('set a {"k": 1,}', 15, "a key behind ','"),
        ('set a {"k": 1 2', 15, "',' or '}'"),
        ('set a {5u9: 1}', 9, "u64, i64, u128, i128 or nothing behind the number"),
        ("set a " + "[" * 65, 71, "no more than 64 arrays and maps one inside another"),
        ("set a " + '{"\u00e9":' * 64 + "{", 7 + 64 * 5, "no more than 64 arrays and maps one inside another"),
        ('set x "abc', 11, "'\"' at the end of the text"),
        ('set x s"abc\\"', 14, "'\"' at the end of the text"),
        ('set x "\u00e9\\q"', 9, 'one of the escapes \\", \\\\, \\n, \\r, \\t, \\0 and \\u{..}'),
        ('set x "\\u{d800}"', 8, 'one of the escapes \\", \\\\, \\n, \\r, \\t, \\0 and \\u{..}'),
        ('set x x"0', 9, "two hexadecimal digits or '\"'"),
        ('set x x"00gg"', 11, "two hexadecimal digits or '\"'"),
        ("path a b", 8, "a text"),
        ('path a s"b"', 8, "a text"),
        ("slice a 1 _", 12, "'_' or an integer"),
        ("slice a 1 2u8 3", 11, "'_' or an integer"),
        ("read u9 a", 6, "an integer type, as u8 or i128"),
        ("extend [1]", 8, "a map"),
        ('extend {"a": 1, 2: 3}', 17, "a text as the key"),
    )

    def test_each_refusal_of_the_grammar_has_its_place(self) -> None:
        for line, number, what in self.ROWS:
            with self.subTest(line):
                status, out, err = ran(["--why"], f"set u 1\n{line}\nget u\n".encode())
                self.assertEqual((status, out), (2, b"ok\n"))
                self.assertEqual(err, ran([], f"set u 1\n{line}\n".encode())[2] + f"expected {what} at character {number}\n".encode())

    def test_a_line_that_is_no_utf_8_has_the_place_of_its_first_byte_that_is_none(self) -> None:
        self.assertEqual(ran(["--why"], b'set x "\xc3\xa9\xc3"\n')[2].splitlines()[-1], b"expected UTF-8 at character 9")

    def test_a_conversation_and_files_tell_it(self) -> None:
        script = self.file("a", "set a 1\nlen 1\n")
        told = report(2, "len 1") + b"expected a name at character 5\n"
        self.assertEqual(ran(["--why", script, script]), (2, b"ok\n", told))
        self.assertEqual(ran(["-i", "--why"], b"set a 1\nlen 1\nget a\n"), (0, b"ok\nvalue 1\n", told))
        self.assertEqual(ran(["--why", self.folder]), (1, b"", f"error: cannot read {self.folder}\n".encode()))

    def test_scripts_are_answered_as_without_it(self) -> None:
        for name in sorted(os.listdir(f"{TOP}/examples")):
            with self.subTest(name):
                status, out, err = ran([f"{TOP}/examples/{name}"])
                explained = ran(["--why", f"{TOP}/examples/{name}"])
                self.assertEqual((explained[0], explained[1]), (status, out))
                self.assertTrue(explained[2].startswith(err))

    def test_each_bad_line_has_one(self) -> None:
        """lines of the examples, each with a byte taken away, a byte twice, or its end cut off"""
        lines = set()
        for name in sorted(os.listdir(f"{TOP}/examples")):
            with open(f"{TOP}/examples/{name}", "rb") as file:
                lines |= set(file.read().split(b"\n"))
        cut = [piece for line in sorted(lines) if len(line) < 80 for at in range(0, len(line), 3)
               for piece in (line[:at] + line[at + 1:], line[:at + 1] + line[at:], line[:at])]
        said = b"\n".join(it for it in cut if not it.lstrip(b" \t").startswith(b":"))
        err = ran(["-i", "--why"], said)[2]
        self.assertGreater(err.count(b"error: bad line\n"), 100)
        self.assertEqual(len(re.findall(rb"(?m)^expected .* at character \d+$", err)), err.count(b"error: bad line\n"))
        self.assertIsNone(re.search(rb"(?m)^expected ", ran(["-i"], said)[2]))


class Terminal:
    """The program on a terminal of its own, whose echo is off."""

    def __init__(self, words: Sequence[str]) -> None:
        self.own, theirs = pty.openpty()
        modes = termios.tcgetattr(theirs)
        modes[1] &= ~termios.OPOST  # line feeds stay as they are
        modes[3] &= ~termios.ECHO
        termios.tcsetattr(theirs, termios.TCSANOW, modes)
        self.run = subprocess.Popen([tera(), *words], stdin=theirs, stdout=theirs, stderr=theirs, close_fds=True)
        os.close(theirs)

    def says(self, end: bytes) -> bytes:
        """What comes up to this end, or within the patience."""
        heard = b""
        while not heard.endswith(end) and select.select([self.own], [], [], PATIENCE)[0]:
            try:
                part = os.read(self.own, 4096)
            except OSError:  # the other end is closed
                break
            if not part:
                break
            heard += part
        return heard

    def hears(self, said: bytes) -> None:
        """Types."""
        os.write(self.own, said)

    def ends(self) -> Tuple[int, bytes]:
        """The status, and what came before."""
        rest = self.says(b"no such end")
        status = self.run.wait(PATIENCE)
        os.close(self.own)
        return status, rest


class Terminals(WithFolder):
    """Conversations at a terminal."""

    def test_there_is_a_prompt_and_a_bad_line_does_not_end_it(self) -> None:
        talk = Terminal(["-i"])
        self.assertEqual(talk.says(PROMPT), PROMPT)
        for said, answer in ((b"set a [1]\n", b"ok\n"), (b"frob\n", report(2, "frob")), (b"\n", b""), (b"get a\n", b"value [1]\n")):
            talk.hears(said)
            self.assertEqual(talk.says(PROMPT), answer + PROMPT)
        talk.hears(b":quit\n")
        self.assertEqual(talk.ends(), (0, b""))

    def test_a_file_is_loaded_and_a_bad_line_is_explained(self) -> None:
        talk = Terminal(["-i", "--why"])
        self.assertEqual(talk.says(PROMPT), PROMPT)
        path = self.file("kept", "set a [1]").encode()
        for said, answer in ((b"set a [1,]\n", report(1, "set a [1,]") + b"expected a value behind ',' at character 10\n"), (b"get a\n", b"nothing\n"), (b":load " + path + b"\n", b"ok\n"),
                             (b"get a\n", b"value [1]\n"), (b":load\n", b"error: no file is named; it is :load FILE\n")):
            talk.hears(said)
            self.assertEqual(talk.says(PROMPT), answer + PROMPT)
        talk.hears(b"\x04")
        self.assertEqual(talk.ends(), (0, b"\n"))

    def test_names_are_shown_saved_and_loaded(self) -> None:
        path = f"{self.folder}/kept".encode()
        for words in (((b"set b [1]\n", b"ok\n"), (b"set a s\"x\"\n", b"ok\n"), (b":save\n", b"error: no file is named; it is :save FILE\n"),
                       (b":save " + path + b"/a\n", b"error: cannot write " + path + b"/a\n"), (b":save " + path + b"\n", b"")),
                      ((b":names\n", b""), (b":load " + path + b"\n", b"ok\nok\n"), (b":names\n", b"a\nb\n"), (b":save -\n", b'set a s"x"\nset b [1]\n'))):
            talk = Terminal(["-i"])
            self.assertEqual(talk.says(PROMPT), PROMPT)
            for said, answer in words:
                talk.hears(said)
                self.assertEqual(talk.says(PROMPT), answer + PROMPT)
            talk.hears(b":quit\n")
            self.assertEqual(talk.ends(), (0, b""))

    def test_the_end_of_the_input_ends_it_on_a_line_of_its_own(self) -> None:
        talk = Terminal(["-i"])
        self.assertEqual(talk.says(PROMPT), PROMPT)
        talk.hears(b"\x04")
        self.assertEqual(talk.ends(), (0, b"\n"))

    def test_a_script_that_is_typed_has_no_prompt(self) -> None:
        talk = Terminal(["-"])
        talk.hears(b"get a\n")
        self.assertEqual(talk.says(b"\n"), b"nothing\n")
        talk.hears(b"\x04")
        self.assertEqual(talk.ends(), (0, b""))

    def test_answers_alone_are_on_standard_output(self) -> None:
        own, theirs = pty.openpty()
        run = subprocess.Popen([tera(), "-i"], stdin=theirs, stdout=subprocess.PIPE, stderr=subprocess.PIPE)
        os.close(theirs)
        os.write(own, b"get a\n:quit\n")
        out, err = run.communicate(timeout=PATIENCE)
        os.close(own)
        self.assertEqual((run.returncode, out, err), (0, b"nothing\n", PROMPT + PROMPT))


class Manual(unittest.TestCase):
    """The page of the manual."""

    def test_it_has_no_warning(self) -> None:
        page = f"{TOP}/docs/man/tera.1"
        for words in (["mandoc", "-T", "lint", "-W", "warning", page], ["man", "--warnings", "-l", page]):
            if shutil.which(words[0]):
                done = subprocess.run(words, stdin=subprocess.DEVNULL, capture_output=True, text=True, env={**os.environ, "MANPAGER": "cat", "LC_ALL": "C.UTF-8"})
                self.assertEqual((done.returncode, done.stderr), (0, ""), done.stdout if words[0] == "mandoc" else "")
                return
        self.skipTest("neither mandoc nor man is on the path")

    def test_each_choice_and_message_of_the_program_is_in_it(self) -> None:
        with open(f"{TOP}/docs/man/tera.1", encoding="utf-8") as file:
            page = file.read()
        with open(PAGE, encoding="utf-8") as file:
            choices = re.findall(r"(?m)^  (?:-(\w), |    )--(\w+)", file.read())
        self.assertEqual(len(choices), 4)
        for short, long in choices:
            self.assertIn(f".It Fl {short} , Fl -{long}\n" if short else f".It Fl -{long}\n", page)
        for word in re.findall(rb"(?m)^:(\w+)( FILE)?", ran(["-i"], b":help\n")[1]):
            self.assertIn(f".It Ic :{word[0].decode()}{' Ar file' if word[1] else ''}\n", page)
        for message in ("cannot read NAME", "cannot write NAME", "no file is named; it is :load FILE", "no file is named; it is :save FILE", "the name of the file is no UTF-8",
                        "No script can say the name NAME", "reading failed", "writing failed", "Out of memory"):
            self.assertIn(f'.It "error: {message}"\n', page)


class Memory(WithFolder):
    """Each request for memory refused in turn."""

    def refused(self, words: List[str], given: bytes = b"") -> List[Ended]:
        """What comes of it where no request is refused, and then where the first, the second .. is, up to the last."""
        wanted = ran(words, given)
        found = [wanted]
        for turn in range(1, 2000):
            found.append(ran(words, given, env={"LD_PRELOAD": built.refusing(), "REFUSE": str(turn)}))
            if found[-8:] == [wanted] * 8:
                return found
        self.fail("it does not end")

    def test_words_for_which_no_memory_is_found(self) -> None:
        for words in (["--version"], ["--help"], ["--frob"]):
            with self.subTest(words):
                wanted, *others = self.refused(words)
                self.assertIn((1, b"", NO_MEMORY), others)
                for status, out, err in others:
                    self.assertIn((status, err), ((1, NO_MEMORY), (wanted[0], wanted[2]), (wanted[0], err if wanted[0] == 3 else b"")))

    def test_files_for_which_no_memory_is_found(self) -> None:
        good = self.file("good", "set a 1\nget a\n")
        wanted, *others = self.refused([good])
        self.assertIn((1, b"", NO_MEMORY), others)
        for status, out, err in others:
            self.assertIn(status, (0, 1))
            self.assertIn(err, (b"", NO_MEMORY, f"error: cannot read {good}\n".encode()))
            self.assertTrue(status == 1 or out == wanted[1])

    def test_a_list_or_a_script_for_which_no_memory_is_found_does_not_end_the_conversation(self) -> None:
        path = f"{self.folder}/a"
        said = f'set b "{"x" * 300}"\nset a 1\n:names\n:save {path}\n:save -\n'.encode()
        wanted, *others = self.refused(["-i"], said)
        script = b'set a 1\nset b "' + b"x" * 300 + b'"\n'
        self.assertEqual(wanted, (0, b"ok\nok\na\nb\n" + script, b""))
        for out in (b"ok\nok\n" + script, b"ok\nok\na\nb\n"):
            self.assertIn((0, out, NO_MEMORY), others)
        for status, out, err in others:
            self.assertIn(status, (0, 1))
            self.assertIn(err, (b"", NO_MEMORY, f"error: cannot write {path}\n".encode(), b"error: cannot write -\n"))

    def test_a_line_for_which_no_memory_is_found_does_not_end_the_conversation(self) -> None:
        said = b'set a [1, 2]\nset b "a text that takes memory"\nfrob\nget a\n'
        wanted, *others = self.refused(["-i"], said)
        kept = [it for it in others if it[0] == 0 and NO_MEMORY in it[2] and it[1].endswith(b"\nvalue [1, 2]\n")]
        self.assertTrue(kept)
        for status, out, err in others:
            self.assertIn(status, (0, 1))
            self.assertTrue(status == 0 or err.endswith(NO_MEMORY))


class Replays(WithFolder):
    """`./replay` with arguments, where nothing is proved."""

    STUB = '#!/bin/sh\nprintf "%s\\n" "$@" >"$NOTES"\ncat >>"$NOTES"\nfor word; do case $word in *=/*) cat "${word#*=}" >>"$NOTES" ;; esac; done\n' \
        'echo answered\nprintf "checked: ended status=0\\nrun=ended status=0 runners=1 proved=no\\n" >&2\n'

    def setUp(self) -> None:
        super().setUp()
        self.top = built.clone(f"{self.folder}/top")
        os.mkdir(f"{self.folder}/bin")
        os.chmod(self.file("bin/rt", self.STUB), 0o755)
        self.notes = f"{self.folder}/notes"

    def replayed(self, words: Sequence[Word], given: bytes = b"", kit: bool = True) -> Ended:
        """What `./replay` does with these words, over the stub or the kit itself."""
        path = f"{self.folder}/bin:{os.environ['PATH']}" if kit else os.environ["PATH"]
        return ran(words, given, f"{self.top}/replay", 600, env={**os.environ, "PATH": path, "NOTES": self.notes}, cwd=self.folder)

    def noted(self) -> List[str]:
        """What the stub was given."""
        with open(self.notes, encoding="utf-8") as file:
            return file.read().splitlines()

    def test_help_is_the_same_page_at_once(self) -> None:
        with open(PAGE, "rb") as file:
            page = file.read()
        self.assertEqual(self.replayed(["--help"]), (0, page, b""))
        self.assertFalse(os.path.exists(self.notes))

    def test_a_conversation_needs_the_proved_program(self) -> None:
        for words in (["-i"], ["--interactive"]):
            with self.subTest(words):
                status, out, err = self.replayed(words, b"get a\n")
                self.assertEqual((status, out), (3, b""))
                self.assertRegex(err, rb"\Areplay: no answer: [^\n]*needs the proved program[^\n]*`./replay --prove`[^\n]*\n\Z")

    def test_files_are_copied_in(self) -> None:
        self.file("a b", "get a\n")
        status, out, err = self.replayed(["a b", "-", "none", "--", "-"], b"get b\n")
        self.assertEqual((status, out, err.count(b"\n")), (0, b"answered\n", 1), err)
        head, copied, words, rest = self.noted()[:4], self.noted()[4], self.noted()[5:11], self.noted()[11:]
        self.assertEqual(head, ["try", "--seconds", "300", "--data"])
        name = copied.partition("=")[0]
        self.assertEqual(words, ["--", name, "-", "none", "--", "-"])
        self.assertEqual(rest, ["get b", "get a"])

    def test_standard_input_is_not_read_where_no_word_asks_for_it(self) -> None:
        self.file("a", "get a\n")
        reads, writes = os.pipe()  # nothing comes, and it does not end
        self.addCleanup(os.close, writes)
        run = subprocess.run([f"{self.top}/replay", "a"], stdin=reads, capture_output=True, timeout=PATIENCE, cwd=self.folder,
                             env={**os.environ, "PATH": f"{self.folder}/bin:{os.environ['PATH']}", "NOTES": self.notes})
        os.close(reads)
        self.assertEqual((run.returncode, run.stdout), (0, b"answered\n"))

    def test_a_long_file_is_told(self) -> None:
        self.file("long", "")
        os.truncate(f"{self.folder}/long", 1 << 26)
        status, out, err = self.replayed(["long"])
        self.assertEqual((status, out), (3, b""))
        self.assertRegex(err, rb"long has 64 MiB or more")

    def test_the_kit_answers(self) -> None:
        """over the kit itself, answers come where nothing is proved"""
        if not shutil.which("rt"):
            self.skipTest("no rt is on the path")
        self.file("1", "set a 1\nget a\n")
        status, out, err = self.replayed(["1", "-", "none"], b"get a\n", kit=False)
        self.assertEqual((status, out), (1, b"ok\nvalue 1\nnothing\n"))
        self.assertEqual(err.split(b"\n", 1)[1], b"error: cannot read none\n")


if __name__ == "__main__":
    unittest.main()
