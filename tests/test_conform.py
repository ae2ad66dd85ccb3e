"""Tests of `./conform` and of the reference. They need python3 alone.

Engines that answer wrongly are the reference with one part of it changed, in this process.
"""
import contextlib
import importlib.util
import io
import os
import random
import subprocess
import sys
import tempfile
import unittest

sys.dont_write_bytecode = True  # no folder beside the sources
TOP = os.path.dirname(os.path.dirname(os.path.abspath(__file__)))
sys.path.insert(0, TOP)
from conformance import command, engines, grids, reference, sentences
from conformance.reference import BadLine, Dialect, Number, Session, Text
from conformance.scripts import Maker, word_of

NAMED = {check.name: check for check in [*command.examples(), *grids.grids()]}


class Wrong(engines.Engine):
    """The reference with a part changed."""

    def __init__(self, change, dialect=reference.LANGUAGE):
        super().__init__([], dialect)
        spec = importlib.util.spec_from_file_location("another", reference.__file__)
        self.module = importlib.util.module_from_spec(spec)
        sys.modules["another"] = self.module
        spec.loader.exec_module(self.module)
        change(self.module)

    def heard(self, script):
        return reference.Replay(*self.module.replay(script))


def call(word, does):
    """Gives a call another function."""
    def change(module):
        module.CALLS[word] = (module.CALLS[word][0], does(module, module.CALLS[word][1]))
    return change


def part(name, value):
    """Gives the module another part; a function is made from the module and the part there."""
    def change(module):
        setattr(module, name, value(module, getattr(module, name)) if callable(value) else value)
    return change


def refusing(text):
    """A call that refuses so, where the right one does otherwise."""
    def change(module, right):
        def does(*given):
            try:
                return right(*given)
            except module.Refused:
                raise module.Refused(text) from None
        return does
    return change


def both(*changes):
    """Several changes."""
    def change(module):
        for one in changes:
            one(module)
    return change


def first_ones(end, parts, at):
    """Of pairs of a map with equal keys the first."""
    return (list({key: (key, value) for key, value in reversed(parts)}.values())[::-1] if end == "}" else parts), at


# A wrong engine, the check that tells it, the least lines, and a piece of the sentence.
WRONG = {
    "a kind has another name": (call("kind", lambda module, right: lambda value: right(value).replace("/struct", "")),
                                "kind of every kind", ["set map {}", "kind map"], "Kinds are"),
    "all maps weigh equal": (call("cmp", lambda module, _: lambda left, right: module.order(module.without_maps(left), module.without_maps(right))),
                             "cmp of every kind with every kind", None, "A map goes as an array of its pairs would"),
    "maps go by key": (call("set", lambda module, right: lambda names, name, value: right(names, name, module.in_key_order(value))),
                       "walk of every kind", None, "in the order in which they are written"),
    "the end of a slice is not moved": (call("slice", lambda module, right: lambda value, start, end, step: right(value, start, None if end == 99 else end and max(end, -3), step)),
                                        "slice by every bound, of text", None, "A bound below 0 counts from the end"),
    "an apostrophe is escaped otherwise": (call("escape", lambda module, right: lambda value: right(value).replace("&#39;", "&#x27;")),
                                           "each character as itself", ["set t \"'\"", "escape t"], "`escape` replaces"),
    "a refusal has other words": (call("reverse", refusing("cannot be reversed")), "reverse of every kind", ["reverse undefined"], "cannot be reversed"),
    "a text that is turned keeps its mark": (call("reverse", lambda module, right: lambda value: module.Text(value.text[::-1], value.safe) if isinstance(value, module.Text) else right(value)),
                                             "reverse of every kind, kept", None, "`is_safe`: a text that is marked"),
    "65 levels are read": (part("LEVELS", 65), "65 levels are bad", None, "At most 64 arrays and maps"),
    "a report has a caret for each byte": (part("report", lambda module, right: lambda number, line: right(number, line).replace(b"^\n", b"^" * (len(line) - len(line.decode(errors="replace")) + 1) + b"\n")),
                                           "reports of bad lines", None, "with a caret under each of its characters"),
    "a carriage return is a part of its line": (part("lines_of", lambda module, right: lambda script: script.split(b"\n")),
                                                "blanks, ends of lines and skipped lines", None, "one carriage return before it is no part of it"),
    "bytes that are no UTF-8 print as one": (part("printed", lambda module, right: lambda value: "\ufffd" if isinstance(value, bytes) and "\ufffd" in right(value) else right(value)),
                                             "bytes are printed", None, "Where they are no UTF-8"),
    "a sign makes no place": (part("PLACE", reference.re.compile("([0-9]+)")), "path of every kind", None, "with `+` before them or not"),
    "a type ends too early": (part("TYPES", lambda module, right: {**right, "i8": (-127, 127)}), "read i8 of the ends of types", None, "`read` gives"),
    "a comma may stand last": (part("step", lambda module, right: lambda names, line, calls: right(names, reference.re.sub(r"(\d),]", r"\1]", line), calls)),
                               "bad lines", ["set a [1,]"], "No comma stands behind the last"),
    "an unknown escape stands for itself": (both(part("TEXT", reference.re.compile(r'"((?:[^"\\]|\\.)*)"')),
                                                 part("unescaped", lambda module, right: lambda found: right(found) if found[1] or found[2] in module.SHORT_ESCAPES else found[2])),
                                            "what is no escape is bad", None, "The escapes are"),
    "the first of equal keys has its value": (part("read_bracketed", lambda module, right: lambda line, at, end, read_part: first_ones(end, *right(line, at, end, read_part))),
                                              "arrays, maps and bytes are written", None, "in the order"),
    "a tab is no blank": (part("BLANKS", reference.re.compile(" *")), "blanks, ends of lines and skipped lines", None, "At least one stands between"),
    "an extend leaves out": (call("extend", lambda module, right: lambda names, source: right(names, {name: source[name] for name in source if name not in names})),
                             "names are set, taken over and taken away", None, "**A value that is found** is answered"),
}


def found(engine, name):
    """The least lines of the first difference of an engine in a check, without their ends, and what is told of it."""
    for difference in command.differences(engine, NAMED[name]):
        lines = [line.removesuffix(b"\n").decode(errors="replace") for line in difference.lines]
        return lines, "\n".join(command.told(difference, engine.dialect))
    return None, ""


class WrongEngines(unittest.TestCase):
    """Each wrong engine is told, by few lines and by the sentence that it breaks; and the right one is not."""

    def test_wrong_engines_are_told(self):
        """each wrong engine is told, by few lines and by the sentence that it breaks"""
        for name, (change, check, least, sentence) in WRONG.items():
            with self.subTest(name):
                lines, text = found(Wrong(change), check)
                self.assertIsNotNone(lines)
                self.assertLessEqual(len(lines), 5)
                if least is not None:
                    self.assertEqual(lines, least)
                self.assertIn(sentence, " ".join(text.replace("docs/SCRIPT.md:", "").split()))

    def test_the_right_engine_is_not(self):
        engine = Wrong(lambda module: None)
        for check in [*NAMED.values(), command.seed(1, frozenset())]:
            with self.subTest(check.name):
                self.assertEqual(list(command.differences(engine, check)), [])

    def test_seeds_tell_a_wrong_engine(self):
        engine = Wrong(WRONG["a kind has another name"][0])
        told = [difference for number in range(1, 4) for difference in command.differences(engine, command.seed(number, frozenset()))]
        self.assertTrue(told)
        self.assertIn("kind map", told[0].fault.expected)


class Switches(unittest.TestCase):
    """A switch takes away just the differences that it names."""

    def test_a_switch_is_needed_and_is_enough(self):
        for switch, check in (("maps_by_key", "walk of every kind"), ("maps_weigh_equal", "cmp of every kind with every kind")):
            dialect = Dialect(**{switch: True})
            as_tera = lambda module: setattr(module, "LANGUAGE", None) or setattr(module, "replay", lambda script: reference.replay(script, dialect))
            with self.subTest(switch):
                self.assertIsNotNone(found(Wrong(as_tera), check)[0])
                self.assertIsNone(found(Wrong(as_tera, dialect), check)[0])
                lines, text = found(Wrong(lambda module: None, dialect), check)
                self.assertIsNotNone(lines)
                self.assertIn(f"so says --{switch.replace('_', '-')}", text)

    def test_calls_that_are_left_out_are_in_no_line(self):
        allowed = {"set", "eq", "cmp"}
        left_out = command.left_out(["eq", "cmp"], [])
        sections = list(command.sections(left_out, range(1, 3)))
        words = {word_of(line) for part in sections for check in part.checks for script in check.scripts for line in script.lines()}
        self.assertEqual(words & set(reference.CALLS), allowed)
        self.assertIn("extend", command.left_out(None, ["extend"]))


class Sentences(unittest.TestCase):
    def test_each_sentence_stands_once(self):
        rows = [[row] for row in sentences.REFUSALS.values()]
        for beginning in {one for group in [*sentences.RULES.values(), *sentences.CALLS.values(), *rows] for one in group}:
            self.assertEqual(sum(block.count(beginning) for block in sentences.blocks()), 1, beginning)
            self.assertTrue(sentences.quote(beginning).startswith(beginning))

    def test_each_call_has_a_row_and_sentences(self):
        self.assertEqual(set(sentences.CALLS), set(reference.CALLS))
        for word in reference.CALLS:
            self.assertIn(f"`{word}", sentences.row_of(word))

    def test_each_difference_has_a_sentence(self):
        for check in NAMED.values():
            for script in check.scripts[:9]:
                for case in script.cases[::max(1, len(script.cases) // 12)]:
                    lines = [*script.setup, *case]
                    out = reference.replay(b"".join(lines)).out
                    for heard in (reference.Replay(out[:-2] + b"?\n", b"", 0), reference.Replay(out[:out.rfind(b"\n", 0, -1) + 1], b"x", 2)):
                        self.assertTrue(sentences.sentences(engines.first_fault(lines, heard)), check.name)


class Reference(unittest.TestCase):
    def test_examples(self):
        folder = os.path.join(TOP, "examples")
        for name in sorted(os.listdir(folder)):
            if name.endswith(".replay"):
                with self.subTest(name):
                    stem = os.path.join(folder, name.removesuffix(".replay"))
                    status = int(read(stem + ".status")) if os.path.exists(stem + ".status") else 0
                    replay = reference.replay(read(stem + ".replay"))
                    self.assertEqual((replay.out, replay.status), (read(stem + ".answers"), status))

    def test_lines_have_answers(self):
        self.assertEqual(reference.run(["set a [1, 2]", "", "# note", b"reverse a", "frob", "get a"]), ["ok", "value [2, 1]"])
        self.assertEqual(reference.replay(b"eq a b\nfrob\n"), (b"true\n", b"error: bad line\n --> line 2:1:1\n  |\n1 | frob\n  | ^^^^\n", 2))

    def test_a_session_goes_on_behind_a_bad_line(self):
        session = Session()
        self.assertEqual(session.answer("set a 1"), "ok")
        for line in ("frob", "get a\nget a", 'set a "x\ny"', "# a\n# b", b"\xff", "set a 2 3"):
            self.assertRaises(BadLine, session.answer, line)
        self.assertEqual((session.answer("get a"), session.answer("# note")), ("value 1", None))
        self.assertEqual(session.names, {"a": Number("i64", 1)})

    def test_values_are_spelled_as_they_are_read(self):
        maker = Maker(random.Random(1))
        for _ in range(2000):
            literal = maker.spell(maker.value(4))
            value, end = reference.read_literal(literal, 0)
            again = reference.spelled(value)
            self.assertEqual(reference.read_literal(again, 0), (value, len(again)))
            self.assertEqual(end, len(literal))
        self.assertEqual(reference.spelled((Number("u64", 1), Text('"\n\x1b', True))), '[1u64, s"\\"\\n\\u{1b}"]')

    def test_values_get_smaller(self):
        has_seven = lambda lines: b"7" in b"".join(lines)
        lines = [b'set a  [1, {"k": ["xx7yy", 2]}]\r\n', b"get a\n", b"frob frob\n"]
        self.assertEqual(engines.smaller(lines, has_seven), [b'set a "7"\n', b"get a\n", b"\n"])


class Command(unittest.TestCase):
    """The command itself, on programs of a line or two."""

    def conform(self, *words):
        ran = subprocess.run([sys.executable, os.path.join(TOP, "conform"), *words], capture_output=True, text=True)
        return ran.returncode, ran.stdout, ran.stderr

    def test_what_cannot_be_run_is_told(self):
        for words, said in ((["--", "/nowhere"], "No such file"), ([], "the program stands behind `--`"), (["--only", "frob", "--", "x"], "no call is named frob"),
                            (["--seeds", "x", "--", "x"], "seeds are a number")):
            status, out, err = self.conform(*words)
            self.assertEqual((status, out), (2, ""))
            self.assertIn(said, err)
        status, out, _ = self.conform("--", sys.executable, "/nowhere.py")
        self.assertEqual(status, 1)
        self.assertIn("the empty script", out)

    def test_taps_lines_are_as_many_as_planned(self):
        made = io.StringIO()
        parts = list(command.sections(command.left_out(["truthy"], []), range(1, 2)))
        with contextlib.redirect_stdout(made):
            status = command.run(Wrong(call("truthy", lambda module, right: lambda value: "yes")), parts, command.Tap())
        lines = made.getvalue().splitlines()
        points = [line for line in lines if line.startswith(("ok ", "not ok "))]
        self.assertEqual((status, lines[:2]), (1, ["TAP version 13", f"1..{len(points)}"]))
        self.assertTrue(any(line.startswith("not ok ") and "truthy of every kind" in line for line in points))
        self.assertTrue(all(line[0] in "#on" for line in lines[2:]))

    def test_files_are_what_is_expected(self):
        with tempfile.TemporaryDirectory() as folder:
            status, _, err = self.conform("--dump", folder, "--seeds", "4", "--without", "extend")
            self.assertEqual(status, 0)
            scripts = [os.path.join(at, name).removesuffix(".replay") for at, _, names in os.walk(folder) for name in names if name.endswith(".replay")]
            self.assertTrue(err.startswith(f"conform: {len(scripts)} scripts"))
            for stem in scripts:
                err = read(stem + ".report") if os.path.exists(stem + ".report") else b""
                self.assertEqual(reference.replay(read(stem + ".replay")), (read(stem + ".answers"), err, int(read(stem + ".status"))))


def read(path):
    with open(path, "rb") as file:
        return file.read()


if __name__ == "__main__":
    unittest.main()
