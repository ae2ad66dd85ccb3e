"""Pages beside those of jinja2: the same templates and names through both, over the part of the language that both have.

docs/PAGE.md says what differs from jinja2. Each such reason is a function of tests/like_tera.py, and what our program answers is
what jinja2 answers with these. Without jinja2, Debian's python3-jinja2, all but the hostile texts is skipped.
"""
from __future__ import annotations

import collections
import glob
import html.parser
import json
import os
import re
import shutil
import tempfile
import unittest
from concurrent.futures import ProcessPoolExecutor, ThreadPoolExecutor
from typing import Any, Callable, Counter, Iterable, Iterator, List, NamedTuple, Optional, Tuple

import built
import drawn_pages
from built import TOP
from drawn_pages import HOSTILE, Page

HAS_JINJA = built.has_module("jinja2", "python3-jinja2")
if HAS_JINJA:
    import like_tera

LACKS = "there is no python3-jinja2"
SEEDS, BATCH = 3000, 50
BETWEEN = "\x02{}\x02"  # between two pages of a batch; no blank, which a page beside it could trim
Answer = Optional[str]  # a page, or none
Shows = Callable[[Page], Answer]


class Case(NamedTuple):
    """A page, and what is to be answered: by jinja2 with all reasons, and by which of these."""

    name: str
    page: Page
    wanted: Answer
    met: List[str]


class Program:
    """Our program, on files of its own."""

    def __init__(self) -> None:
        self.folder = tempfile.mkdtemp(prefix="jinja-")
        self.path = built.program("tera_render")

    def __enter__(self) -> Program:
        return self

    def __exit__(self, *_: object) -> None:
        shutil.rmtree(self.folder, ignore_errors=True)

    def shows(self, page: Page) -> Answer:
        """The page that it writes, or none where it refuses."""
        with tempfile.TemporaryDirectory(dir=self.folder) as folder:
            for name, text in ("page", page.template), ("names", json.dumps(page.names)):
                with open(f"{folder}/{name}", "wb") as file:
                    file.write(text.encode())
            done = built.heard(self.path, f"{folder}/page", f"{folder}/names")
        if (done.status, bool(done.err)) not in ((0, False), (2, True)) or done.status and done.out:
            raise AssertionError(f"{done} for {page}")
        return None if done.status else done.out.decode()


def case(name: str, page: Page) -> Case:
    """What is to be answered to a page."""
    wanted, met = like_tera.answer(page.template, page.names)
    if not met:
        wanted = like_tera.plain_answer(page.template, page.names)
    return Case(name, page, wanted, sorted(met))


def difference(case: Case, found: Answer) -> Optional[str]:
    """What is told of an answer that is another one."""
    if found == case.wanted:
        return None
    said = [("template", case.page.template), ("names", json.dumps(case.page.names)), ("ours", found), ("jinja2", case.wanted)]
    lines = [f"  {name + ':':9} {'no page' if text is None else repr(text)}" for name, text in said]
    return "\n".join([f"{case.name} differs; reasons that were met: {', '.join(case.met) or 'none'}", *lines])


def differences(cases: Iterable[Case], shows: Shows) -> List[str]:
    """What is told of each answer that is another one, each case alone."""
    return [told for case in cases if (told := difference(case, shows(case.page)))]


def differences_together(cases: List[Case], shows: Shows) -> List[str]:
    """The same, with the cases that have a page in one template, where their names differ. Those that differ are asked alone."""
    shown, refused = [case for case in cases if case.wanted is not None], [case for case in cases if case.wanted is None]
    between = [BETWEEN.format(at) for at in range(len(shown))]
    whole = Page("".join(case.page.template + mark for case, mark in zip(shown, between)),
                 {name: value for case in shown for name, value in case.page.names.items()})
    wanted = "".join(f"{case.wanted}{mark}" for case, mark in zip(shown, between))
    return differences(refused if shows(whole) == wanted else cases, shows)


class Outcome(NamedTuple):
    """What a batch came to."""

    differing: List[str]
    refused: int
    plain: int
    met: Counter[str]


def drawn_batch(first: int) -> Outcome:
    """The pages of a batch of seeds."""
    cases = [case(f"seed {seed}", drawn_pages.page(seed)) for seed in range(first, first + BATCH)]
    with Program() as program:
        differing = differences_together(cases, program.shows)
    met = collections.Counter(name for case in cases for name in case.met)
    return Outcome(differing, sum(case.wanted is None for case in cases), sum(not case.met for case in cases), met)


def by_hand() -> Iterator[Case]:
    """The templates of tests/pages: those of a folder over each document there."""
    for folder in sorted(glob.glob(f"{TOP}/tests/pages/*")):
        for document in sorted(glob.glob(f"{folder}/*.json")):
            with open(document, encoding="utf-8") as file:
                names = json.load(file)
            for path in sorted(set(glob.glob(f"{folder}/*")) - set(glob.glob(f"{folder}/*.json"))):
                with open(path, encoding="utf-8", newline="") as file:
                    yield case(f"{os.path.relpath(path, TOP)} over {os.path.basename(document)}", Page(file.read(), names))


class Row(NamedTuple):
    """A row of the table of docs/PAGE.md: a reason, and a page with both answers."""

    reason: str
    page: Page
    ours: Answer
    theirs: Answer


def rows() -> Iterator[Row]:
    """The table of docs/PAGE.md that says what differs from jinja2."""
    with open(f"{TOP}/docs/PAGE.md", encoding="utf-8") as file:
        table = file.read().split("## What differs from jinja2\n")[1].split("\n## ")[0]
    for line in table.splitlines():
        if line.startswith("| ") and not line.startswith("| what"):
            name, template, names, ours, theirs = (cell.strip() for cell in re.split(r"(?<!\\)\|", line)[1:-1])
            yield Row(name, Page(cell_text(template) or "", json.loads(names.strip("`") or "{}")), cell_text(ours), cell_text(theirs))


def cell_text(cell: str) -> Answer:
    """What a cell says: texts, one behind the other, each maybe so many times; nothing; or that there is no page."""
    if cell in ("nothing", "no page"):
        return "" if cell == "nothing" else None
    said = re.findall(r"`([^`]+)`(?: (\d+) times)?", cell.replace("\\|", "|").replace("\\n", "\n").replace("\\r", "\r").replace("\\f", "\f"))
    return "".join(text * int(times or 1) for text, times in said)


@unittest.skipUnless(HAS_JINJA, LACKS)
class Same(unittest.TestCase):
    """What both answer."""

    def test_drawn(self) -> None:
        """three thousand templates at random are shown as jinja2 shows them, but for the reasons that docs/PAGE.md names"""
        built.program("tera_render")
        with ProcessPoolExecutor(os.cpu_count()) as pool:
            outcomes = list(pool.map(drawn_batch, range(0, SEEDS, BATCH)))
        for outcome in outcomes:
            for told in outcome.differing:
                with self.subTest(told.splitlines()[0]):
                    self.fail(told)
        met = sum((outcome.met for outcome in outcomes), collections.Counter[str]())
        self.assertGreater(sum(outcome.plain for outcome in outcomes), SEEDS // 5, "equal without any reason")
        self.assertGreater(sum(outcome.refused for outcome in outcomes), SEEDS // 20)
        self.assertLess(sum(outcome.refused for outcome in outcomes), SEEDS // 3)
        self.assertGreater(len(met), 14, met)

    def test_by_hand(self) -> None:
        """a hundred templates by hand: pages, mails, feeds, settings of programs, tables of numbers, deals and dates"""
        cases = list(by_hand())
        self.assertGreaterEqual(len({case.name.split(" over ")[0] for case in cases}), 100)
        with Program() as program, ThreadPoolExecutor(os.cpu_count()) as pool:
            for told in pool.map(lambda case: difference(case, program.shows(case.page)), cases):
                with self.subTest((told or "").partition(" differs")[0]):
                    self.assertIsNone(told, f"\n{told}")

    def test_reasons(self) -> None:
        """each reason of docs/PAGE.md makes one answer into the other, and no other reason does"""
        table = list(rows())
        self.assertEqual({row.reason for row in table}, set(like_tera.REASONS))
        self.assertLessEqual(len(like_tera.REASONS), 20)
        with Program() as program:
            for row in table:
                with self.subTest(row.reason, page=row.page):
                    self.assertEqual(program.shows(row.page), row.ours, "ours")
                    self.assertEqual(like_tera.plain_answer(*row.page), row.theirs, "jinja2")
                    self.assertNotEqual(row.ours, row.theirs)
                    self.assertEqual(like_tera.answer(*row.page, {row.reason})[0], row.ours, "with this reason alone")
                    self.assertEqual(like_tera.answer(*row.page, like_tera.ALL - {row.reason})[0], row.theirs, "with all others")


@unittest.skipUnless(HAS_JINJA, LACKS)
class Told(unittest.TestCase):
    """A wrong answer is told. Each is made of our own by a change."""

    def changed(self, change: Callable[[Answer], Answer]) -> List[str]:
        """What is told of three hundred pages, with our answers changed."""
        cases = [case(f"seed {seed}", drawn_pages.page(seed)) for seed in range(300)]
        with Program() as program:
            return differences_together(cases, lambda page: change(program.shows(page)))

    def test_wrong_answers(self) -> None:
        """an answer that is escaped twice, not escaped, cut by a byte, or given where there is none, is told"""
        changes: List[Tuple[str, str, Callable[[Answer], Answer]]] = [
            ("twice", "&amp;lt;", lambda page: page and page.replace("&lt;", "&amp;lt;")),
            ("not", "<script>", lambda page: page and page.replace("&lt;script&gt;", "<script>")),
            ("cut", "", lambda page: page and page[:-1]),
            ("given", "ours:     ''", lambda page: "" if page is None else page),
        ]
        for name, part, change in changes:
            with self.subTest(name):
                told = self.changed(change)
                self.assertTrue(told)
                for each in told:
                    self.assertRegex(each, r"\Aseed \d+ differs; reasons that were met: [^\n]+\n  template: .*\n  names: .*\n  ours: .*\n  jinja2: .*\Z")
                    self.assertIn(part, each)

    def test_wrong_words(self) -> None:
        """an expectation that is wrong by a blank, by an entity or by a refusal is told"""
        page = Page("<p>{{ a }}</p>", {"a": "'"})
        with Program() as program:
            self.assertEqual(differences([Case("right", page, "<p>&#39;</p>", [])], program.shows), [])
            for wanted in "<p>&#39; </p>", "<p>&#x27;</p>", None:
                self.assertEqual(len(differences([Case("wrong", page, wanted, [])], program.shows)), 1)


class Events(html.parser.HTMLParser):
    """What a page is to a parser of HTML: tags with their attributes, and texts."""

    def __init__(self, page: str) -> None:
        super().__init__(convert_charrefs=True)
        self.events: List[Tuple[Any, ...]] = []
        self.feed(page)
        self.close()

    def handle_starttag(self, tag: str, attributes: Any) -> None:
        self.events.append((tag, attributes))

    def handle_endtag(self, tag: str) -> None:
        self.events.append((f"/{tag}",))

    def handle_data(self, data: str) -> None:
        if self.events and self.events[-1][0] == "text":
            data = self.events.pop()[1] + data
        self.events.append(("text", data))

    def handle_comment(self, data: str) -> None:
        self.events.append(("comment", data))

    def handle_decl(self, decl: str) -> None:
        self.events.append(("declaration", decl))

    def handle_pi(self, data: str) -> None:
        self.events.append(("instruction", data))

    def unknown_decl(self, data: str) -> None:
        self.events.append(("declaration", data))


class Hostile(unittest.TestCase):
    """Hostile texts, in text and in attributes of both quotes."""

    ROW = "{% for t in texts %}<p title=\"{{ t }}\" class='{{ t | escape }}' id=\"a{{ t }}b\" lang='a{{ t }}b'>.{{ t }}.</p>{% endfor %}"

    def texts(self) -> List[str]:
        """Each hostile text, and some thousand of up to six that are drawn."""
        chance = drawn_pages.Drawn(1).chance
        drawn = ["".join(chance.choice(HOSTILE) for _ in range(chance.randint(2, 6))) for _ in range(3000)]
        return [*HOSTILE, *(chr(code) for code in range(0x100)), *drawn]

    def events_of(self, text: str) -> List[Tuple[Any, ...]]:
        """What the row is to be with a text: the tag that the template has, and the text itself in each place."""
        inside = f"a{text}b"
        return [("p", [("title", text), ("class", text), ("id", inside), ("lang", inside)]), ("text", f".{text}."), ("/p",)]

    def test_texts(self) -> None:
        """no hostile text brings a tag or ends an attribute: a parser of HTML finds each text in its place, as it was given"""
        texts = self.texts()
        with Program() as program:
            page = program.shows(Page(self.ROW, {"texts": texts}))
        self.assertEqual(Events(page or "").events, [event for text in texts for event in self.events_of(text)])

    def test_parts(self) -> None:
        """the same of texts that print inside arrays, and as values and keys of maps"""
        values = [value for text in self.texts()[:400] for value in ([text, [text]], {"k": text}, {text: [text]})]
        with Program() as program:
            page = program.shows(Page(self.ROW, {"texts": values}))
        found = Events(page or "").events
        self.assertEqual([event[0] for event in found], ["p", "text", "/p"] * len(values))
        self.assertEqual({tuple(name for name, _ in event[1]) for event in found[::3]}, {("title", "class", "id", "lang")})

    def test_filters(self) -> None:
        """the same of texts that filters turn around, change, join and hand on"""
        row = "{% for t in texts %}<p title=\"{{ t | reverse }}\" class='{{ t | lower }}' id=\"{{ ab | join(sep=t) }}\" "
        row += "lang='{{ empty | get(key=\"k\", default=t) }}'>.{{ t | slice(start=0) | upper | escape }}.</p>{% endfor %}"
        texts, wanted = self.texts(), list[Tuple[Any, ...]]()
        for text in texts:
            parts = [("title", text[::-1]), ("class", text.lower()), ("id", f"a{text}b"), ("lang", text)]
            wanted += [("p", parts), ("text", f".{text.upper()}."), ("/p",)]
        names = {"texts": texts, "ab": ["a", "b"], "empty": {}}
        with Program() as program:
            page = program.shows(Page(row, names))
        self.assertEqual(Events(page or "").events, wanted)

    def test_told(self) -> None:
        """a text that is marked safe, and each entity that is put back, is told"""
        texts = self.texts()
        wanted = [event for text in texts for event in self.events_of(text)]
        with Program() as program:
            page = program.shows(Page(self.ROW, {"texts": texts})) or ""
            safe = program.shows(Page(self.ROW.replace("t }}", "t | safe }}"), {"texts": texts})) or ""
        for name, wrong in ("safe", safe), *((entity, page.replace(entity, text)) for entity, text in ENTITIES.items()):
            with self.subTest(name):
                self.assertNotEqual(Events(wrong).events, wanted)


ENTITIES = {"&lt;": "<", "&quot;": '"', "&#39;": "'", "&amp;": "&"}

if __name__ == "__main__":
    unittest.main()
