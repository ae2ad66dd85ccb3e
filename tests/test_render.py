"""`./tera_render` and its program: a template and a document of names in, a page out.

Each test runs it on files of its own, but for those that run the shop of examples/.
"""
from __future__ import annotations

import json
import os
import subprocess
import tempfile
import unittest
from typing import Any, Optional

import built
from built import TOP, Ran, WithFolder

# The page of examples/shop.html over examples/shop.json, written by hand.
SHOP = """<!doctype html>
<title>Tea &amp; Co</title>
<h1>Tea &amp; Co</h1>
<p class="notice">Open <em>late</em> on Fridays</p>
<ul>
<li title="Assam">Assam: 480 cents</li>
<li title="&quot;&gt;&lt;script&gt;alert(&#39;tea&#39;)&lt;/script&gt;">&quot;&gt;&lt;script&gt;alert(&#39;tea&#39;)&lt;/script&gt; <b>new</b>: 520 cents</li>
<li title="Sencha">Sencha: sold out</li>
</ul>

<address>1 &quot;High&quot; Street; 2 Low Street</address>
"""


class Rendered(WithFolder):
    """Pages of files in a folder of the test."""

    def ran(self, *words: str, given: bytes = b"") -> Ran:
        """What the program answers to these words."""
        return built.heard(built.program("tera_render"), *words, given=given)

    def page(self, template: str, data: Any = None, text: Optional[str] = None) -> Ran:
        """What it answers to a template and the names of a document, or to the text of one."""
        names = [self.file("data.json", json.dumps(data) if text is None else text)] if data is not None or text is not None else []
        return self.ran(self.file("page.html", template), *names)

    def shows(self, wanted: str, template: str, data: Any = None) -> None:
        """The page is this, and nothing is told."""
        self.assertEqual(self.page(template, data), (wanted.encode(), b"", 0))

    def refused(self, done: Ran, told: str, status: int = 2) -> None:
        """There is no byte of a page, and this is told."""
        self.assertEqual(done, (b"", told.replace("FOLDER", self.folder).encode(), status))


class Pages(Rendered):
    """What is rendered."""

    def test_shop(self) -> None:
        """the shop of examples/"""
        done = self.ran(f"{TOP}/examples/shop.html", f"{TOP}/examples/shop.json")
        self.assertEqual(done, (SHOP.encode(), b"", 0))

    def test_no_names(self) -> None:
        """a template without a document has no names"""
        self.shows("text &\n", "text &\n")
        self.shows("none", "{% if a %}some{% else %}none{% endif %}")

    def test_names(self) -> None:
        """each member of the document is a name, whatever it is"""
        data = {"n": -7, "t": True, "z": None, "s": "é<", "a": [1, [2]], "o": {"k": {"x": "deep"}}, "": "no name"}
        self.shows("-7 true  é&lt; [1, [2]] deep", "{{ n }} {{ t }} {{ z }} {{ s }} {{ a }} {{ o.k.x }}", data)
        self.assertEqual(self.page("{{ a }}", text='{"a": 1, "a": 2}').out, b"2")

    def test_many_names(self) -> None:
        """ten thousand names are each found"""
        data = {f"n{at}": at for at in range(10000)}
        self.shows("".join(f"{at}," for at in range(10000)), "".join(f"{{{{ n{at} }}}}," for at in range(10000)), data)

    def test_hostile_data(self) -> None:
        """no text of a document begins a tag, ends an attribute or is taken for a template"""
        hostile = ["<script>", "\"><script>alert(1)</script>", "' onload='x", "&lt;", "{{ secret }}", "{% if a %}", "\x00\x1b[31m", "</title>"]
        for text in hostile:
            with self.subTest(text):
                escaped = text
                for byte, entity in ("&", "&amp;"), ("<", "&lt;"), (">", "&gt;"), ('"', "&quot;"), ("'", "&#39;"):
                    escaped = escaped.replace(byte, entity)
                self.shows(f'<a title="{escaped}">{escaped}</a>', '<a title="{{ t }}">{{ t | escape }}</a>', {"t": text, "secret": "told"})

    def test_standard_input(self) -> None:
        """`-` is standard input, for a document or a template"""
        self.assertEqual(self.ran(self.file("page.html", "{{ a }}"), "-", given=b'{"a": 1}'), (b"1", b"", 0))
        self.assertEqual(self.ran("-", self.file("data.json", '{"a": 2}'), given=b"{{ a }}"), (b"2", b"", 0))


class Refused(Rendered):
    """What is refused: nothing of a page is written."""

    def test_bad_template(self) -> None:
        """a template that is not read has a report, with file, line and column"""
        done = self.page("<p>\n  é{{ a b }}</p>\n", {"a": 1})
        self.refused(done, "error: This is not read\n --> FOLDER/page.html:2:4\n  |\n2 |   é{{ a b }}</p>\n  |    ^^\n")
        deep = "{% if a %}" * 65
        self.assertRegex(self.page(deep, {}).err, rb"\Aerror: More than 64 levels\n --> [^\n]+/page.html:1:641\n")

    def told(self, template: str, data: Any, message: str, place: str, line: str) -> None:
        """Tries that a template has no page, for the reason and at the place that its report shows."""
        row, column = place.split(":")
        shown = f"{row} | {line}\n  | {' ' * (int(column) - 1)}^^\n"
        self.refused(self.page(template, data), f"error: {message}\n --> FOLDER/page.html:{place}\n  |\n{shown}")

    def test_place_without_a_value(self) -> None:
        """a place where nothing is found is refused behind what was shown before it, with a report"""
        line = "{{ a }}{{ a.b }}"
        self.told(line, {"a": 1}, "Nothing is found at `a.b`", "1:8", line)
        self.told(f"<p>\n  é{line}", {"a": 1}, "Nothing is found at `a.b`", "2:11", f"  é{line}")
        line = "{{ a }}{% for x in a %}{% endfor %}"
        self.told(line, {"a": 1}, "What is found at `a` is no array", "1:8", line)
        self.told("{% if a %}\n{% elif 1 // b %}{% endif %}", {"a": 0, "b": 0}, "Cannot divide by 0", "2:1", "{% elif 1 // b %}{% endif %}")
        self.told("{% set x = -a %}", {"a": "b"}, "Only numbers can be negated. This is a `string`", "1:1", "{% set x = -a %}")

    def test_filters(self) -> None:
        """a filter that there is not has a report, and what one refuses is told in its words"""
        self.told("<p>\n  é{{ a | title }}</p>\n", {"a": "b"}, "There is no such filter", "2:4", "  é{{ a | title }}</p>")
        line = "{{ a }}{% for x in a | sort %}{% endfor %}"
        self.told(line, {"a": "b"}, "Invalid type for the value, expected `&[Value]` but got `string`", "1:8", line)
        self.told("{{ a }}{{ a | first }}", {"a": []}, "Nothing is found at `a | first`", "1:8", "{{ a }}{{ a | first }}")

    def test_bad_document(self) -> None:
        """a document that is not JSON, or holds what no value is, is refused"""
        for text in "", "{", "{'a': 1}", '{"a": 1} x', "[" * 200:
            with self.subTest(text):
                self.refused(self.page("text", text=text), "error: FOLDER/data.json: The text is not JSON\n")
        self.refused(self.page("text", text='{"a": {"b/c": [0, 1.5]}}'),
                     "error: FOLDER/data.json: Number `1.5` at `/a/b~1c/1` is not an integer from -2^127 to 2^128 - 1\n")

    def test_no_object(self) -> None:
        """a document that is no object has no names"""
        for data in [], ["a"], 1, "a", True, [{"a": 1}]:
            with self.subTest(data):
                self.refused(self.page("text", data), "error: FOLDER/data.json: The document is no object\n")
        self.refused(self.page("text", text="null"), "error: FOLDER/data.json: The document is no object\n")

    def test_unread(self) -> None:
        """what cannot be read is told: what is not there, a folder, what is no UTF-8"""
        page, data = self.file("page.html", "text"), self.file("data.json", "{}")
        with open(f"{self.folder}/latin", "wb") as file:
            file.write(b"{\"a\": \"\xe9\"}")
        for name in "none", "", "latin":
            path = f"{self.folder}/{name}"
            with self.subTest(name):
                self.refused(self.ran(path, data), f"error: cannot read {path}\n", 1)
                self.refused(self.ran(page, path), f"error: cannot read {path}\n", 1)

    def test_words(self) -> None:
        """no words, too many and unknown ones are a wrong use"""
        page = self.file("page.html", "text")
        for words in [], [page, page, page], ["--frob"], [page, "--frob"]:
            with self.subTest(words):
                done = self.ran(*words)
                self.assertEqual((done.out, done.status), (b"", 3))
                self.assertRegex(done.err.decode(), r"\Aerror: [^\n]+\n(.*\n)*Usage: tera_render <PAGE> \[DATA\]\n")
        done = self.ran("--help")
        self.assertEqual((done.err, done.status), (b"", 0))
        self.assertIn(b"\nUsage: tera_render <PAGE> [DATA]\n", done.out)


class Streams(Rendered):
    """Where the page goes."""

    def test_closed_pipe(self) -> None:
        """a reader of the page that closes early is a failed write"""
        page = self.file("page.html", "text\n" * 100000)
        reads, writes = os.pipe()
        os.close(reads)
        done = subprocess.run([built.program("tera_render"), page], stdout=writes, stderr=subprocess.PIPE, restore_signals=False)
        os.close(writes)
        self.assertEqual((done.returncode, done.stderr), (1, b"error: writing failed\n"))

    def test_full_device(self) -> None:
        """a full device is a failed write, and a standard error that is full changes no status"""
        page, bad = self.file("page.html", "text"), self.file("bad.html", "{{")
        with open("/dev/full", "wb") as full:
            done = subprocess.run([built.program("tera_render"), page], stdout=full, stderr=subprocess.PIPE)
            self.assertEqual((done.returncode, done.stderr), (1, b"error: writing failed\n"))
            done = subprocess.run([built.program("tera_render"), bad], stdout=subprocess.PIPE, stderr=full)
            self.assertEqual((done.returncode, done.stdout), (2, b""))

    def test_want_of_memory(self) -> None:
        """each request for memory refused in turn, or all from it on: no page and the status is 1, or one request is done without"""
        words = [built.program("tera_render"), f"{TOP}/examples/shop.html", f"{TOP}/examples/shop.json"]
        note = f"{self.folder}/refused"
        want, whole = (b"", b"error: Out of memory\n", 1), (SHOP.encode(), b"", 0)
        for onwards in {}, {"ONWARDS": "1"}:
            at = wants = 0
            while True:
                at += 1
                env = {"LD_PRELOAD": built.refusing(), "REFUSE": str(at), "REFUSED": note, **onwards}
                done = built.heard(*words, env=env)
                if not os.path.exists(note):
                    break
                os.remove(note)
                self.assertIn(done, [want] if onwards else [want, whole], at)
                wants += done == want
            self.assertEqual(done, whole)
            self.assertGreater(wants, 20)


class Unproved(unittest.TestCase):
    """A copy of the repository in which nothing is built."""

    def test_first_page(self) -> None:
        """the first report of a fresh clone names the file that was given"""
        with tempfile.TemporaryDirectory(prefix="render-") as room:
            top = built.clone(f"{room}/copy")
            for name, text in ("a&b.html", "{% if"), ("data", "{}"):
                with open(f"{room}/{name}", "w", encoding="utf-8") as file:
                    file.write(text)
            done = built.heard(f"{top}/tera_render", f"{room}/a&b.html", f"{room}/data")
            lines = done.err.decode().splitlines()
            self.assertEqual((done.out, done.status), (b"", 2), done.err)
            self.assertRegex(lines[0], "^tera_render: .* not by the proved program, which `./tera_render --prove` makes")
            self.assertEqual(lines[1:], ["error: This is not read", f" --> {room}/a&b.html:1:1", "  |", "1 | {% if", "  | ^^"])


if __name__ == "__main__":
    unittest.main()
