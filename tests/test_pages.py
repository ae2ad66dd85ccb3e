"""Makes the pages (docs/build), and looks whether they hold together.

A headless Chromium loads pages, searches and follows a clause, at two widths; where there is none, that is skipped.
"""
import html
import html.parser
import json
import os
import re
import shutil
import subprocess
import sys
import tempfile
import time
import tomllib
import unittest
import urllib.parse

sys.dont_write_bytecode = True
TOP = os.path.dirname(os.path.dirname(os.path.abspath(__file__)))
sys.path[:0] = [f"{TOP}/tools", f"{TOP}/tests"]
from pages.book import Book, item_name
from pages.claims import read_claims
from pages.filled import stale, without_filled
from pages.site import fill_prose
from pages.sources import Repository, crates_listed, read
from pages.text import CODE, cells_of

DOCUMENTS = ("README.md", "docs/CALLING.md", "docs/PROVED.md", "docs/BORDER.md")
WIDTHS = (360, 1280)
# the traits behind what a document writes of a call
OPERATORS = {"==": "PartialEq::eq", "{}": "Display::fmt", "{:?}": "Debug::fmt", "?": "From::from"}


def built(folder, change=None):
    """Makes the pages of the repository, or of a copy in which a file was changed; answers the status and what was told."""
    top = TOP
    if change:
        path, old, new = change
        top = f"{folder}.copy"
        shutil.copytree(TOP, top, ignore=shutil.ignore_patterns("out", ".git"))
        text = read(path)
        if text.count(old) != 1:
            shutil.rmtree(top)
            return 0, f"{old} stands {text.count(old)} times in {path}"
        with open(f"{top}/{path}", "w", encoding="utf-8") as it:
            it.write(text.replace(old, new))
    done = subprocess.run([f"{top}/docs/build", "--to", folder], capture_output=True, text=True)
    if change:
        shutil.rmtree(top)
    return done.returncode, done.stdout + done.stderr


# ---- links


class Anchors(html.parser.HTMLParser):
    """The anchors of a page, and where its links lead."""

    def __init__(self):
        super().__init__()
        self.anchors, self.links, self.twice = set(), [], []

    def handle_starttag(self, tag, attributes):
        given = dict(attributes)
        name = given.get("id")
        if name is not None:
            if name in self.anchors:
                self.twice.append(name)
            self.anchors.add(name)
        href = given.get("href") or given.get("xlink:href") or given.get("src")
        if href and not href.startswith(("data:", "https:", "mailto:")):
            self.links.append(href)


def parsed(folder):
    found = {}
    for name in sorted(os.listdir(folder)):
        if name.endswith(".html"):
            found[name] = Anchors()
            with open(f"{folder}/{name}", encoding="utf-8") as it:
                found[name].feed(it.read())
    return found


def lost_links(folder, pages):
    """Links that lead nowhere, and anchors that stand twice on a page."""
    for name, page in pages.items():
        yield from (f"{name}: the anchor {it} stands twice" for it in page.twice)
        for href in dict.fromkeys(page.links):
            file, _, anchor = href.partition("#")
            file, anchor = file or name, urllib.parse.unquote(anchor)
            if not os.path.isfile(f"{folder}/{file}"):
                yield f"{name}: {href} leads to no page"
            elif anchor and file in pages and anchor not in pages[file].anchors:
                yield f"{name}: {href} leads to no anchor"


def lost_entries(folder, pages):
    """What the search would find, and is not there."""
    with open(f"{folder}/index.js", encoding="utf-8") as it:
        rows = json.loads(it.read().partition("= ")[2].rstrip().rstrip(";"))
    for name, _, _, href in rows:
        file, _, anchor = href.partition("#")
        if file not in pages or anchor and anchor not in pages[file].anchors:
            yield f"index.js: `{name}` leads to {href}"


# ---- what documents name


def imported_from_below(folder):
    """Imports that a page shows from a library below `tera`, which gives all out but a clause's own rows."""
    below = {it for crate in crates_listed() if crate.name == "tera" for it in crate.uses}
    for name in sorted(os.listdir(folder)):
        with open(f"{folder}/{name}", encoding="utf-8") as it:
            shown = re.findall(r'<pre class="shown">(crates\.txt .*?)</pre>', it.read(), re.S) if name.startswith("crate.") else []
        for line in "\n".join(map(html.unescape, shown)).split("\n"):
            used = re.search(r"\buse (?:Rattle\.)?(\w+)", line)
            if used and used[1] in below and ".contracts." not in line:
                yield f"{name}: {line.strip()}"


def tables_of(text):
    """Each row of a table that has a column of clauses: the heading above it, its calls and its clauses."""
    heading, column = "", None
    for line in text.split("\n"):
        if line.startswith("#"):
            heading, column = line, None
        elif not line.startswith("|"):
            column = None
        elif column is None:
            cells = cells_of(line)
            column = next((at for at, it in enumerate(cells) if it in ("clause", "clauses")), -1)
        elif column > 0 and not re.fullmatch(r"\|[-| :]+\|?", line):
            cells = cells_of(line)
            yield heading, cells[0], cells[column]


def codes(text):
    return [it[1] or it[2] for it in CODE.finditer(text)]


class Documents:
    """Looks up what documents write as code."""

    def __init__(self, book):
        self.book, self.ways, self.aliases = book, {}, {}
        public = [it for it in book.repository.items if it.is_public]
        for it in public:
            owner = re.sub(r"<.*", "", it.block.owner) if it.block else ""
            trait = re.sub(r"<.*", "", it.block.trait).rpartition("::")[2] if it.block else ""
            module = it.anchor.rpartition(".")[0].replace(".", "::")
            around = {f"{at}::{it.name}" for at in (owner, trait, module)}
            for way in {it.name, owner, trait, item_name(it), *around}:
                self.ways.setdefault(way, []).append(it)
            if it.kind == "type":
                self.aliases[it.name] = re.sub(r".*= (\w+).*", r"\1", it.signature)
            for other in re.findall(r"<(\w+)>$", it.block.trait) if it.block else []:
                self.ways.setdefault(other, []).append(it)
        self.iterators = [it for it in public if it.block and it.block.trait == "Iterator"]
        self.definitions = {it.name for it in book.repository.definitions.values()}
        self.modules = {it.anchor.rpartition(".")[0] for it in public if not it.block}
        self.labels = {it.label for item in public for it in item.all_clauses}

    def calls(self, code):
        """The calls that a document means by this, or None where it means none."""
        name = OPERATORS.get(code, re.sub(r"\(.*|<.*|!$", "", code))
        if not re.fullmatch(r"[A-Za-z_]\w*(?:::\w+)*", name):
            return None
        first, _, rest = name.partition("::")
        found = self.ways.get(name) or self.ways.get(rest or name, [])
        found = found + (self.ways.get(self.aliases[name], []) if name in self.aliases else [])
        # what an iterator gives is told by its `next`
        return found + (self.iterators if any(it.name.endswith("iter") for it in found) else [])

    def is_word(self, code):
        """Whether this is a type, a crate, a definition or a word of Rust, and so no call."""
        last = code.rpartition("::")[2]
        return last in self.definitions or last[:1].isupper() or code.partition("::")[0] in self.modules or \
            any(it.name == code for it in self.book.repository.crates)


RUST = set("u8 u16 u32 u64 u128 usize i8 i16 i32 i64 i128 isize bool str err out main drop laws from self where".split())


def unknown_calls(book):
    """Calls in the first cell of a table of clauses that have no anchor, and clauses that are none of the row's calls."""
    documents = Documents(book)
    for path in DOCUMENTS:
        for heading, first, last in tables_of(without_filled(read(path))):
            crates = re.findall(r"`(tera\w*)`", heading)
            calls = []
            for code in codes(first):
                found = documents.calls(code)
                if found == [] and code not in RUST and not documents.is_word(code):
                    yield f"{path}: `{code}` has no anchor"
                calls += found or []
            calls = [it for it in calls if it.crate in crates] or calls
            for code in codes(last):
                if not is_clause(documents, of_prose(documents, crates, first) or calls, code):
                    yield f"{path}: `{code}` is no clause of {', '.join(codes(first)) or first}"


def of_prose(documents, crates, cell):
    """The calls of the crates of a section, where a cell tells of some in words."""
    has_words = re.search(r"[a-z]{4}", CODE.sub("", cell))
    return [it for it in documents.book.repository.items if it.is_public and it.crate in crates] if has_words else []


def is_clause(documents, calls, code):
    """Whether this is a clause of one of these calls, or a definition or law that carries a clause."""
    if not re.fullmatch(r"[A-Za-z_]\w*\*?(?:(?:::|\.)[\w*]+)*", code) or code in ("true", "false", "String", "Vec", "CowStr"):
        return True  # a word of a clause
    if any(code == it.label for item in calls for it in item.all_clauses):
        return True
    if not calls and code in documents.labels:
        return True
    module, _, name = code.rpartition("::")
    if module and (name == "*" or documents.calls(code)):
        return module.replace("::", ".") in documents.modules
    starred = re.compile(re.escape(code).replace(r"\*", r"\w*"))
    is_law = any(starred.fullmatch(it.name) for it in documents.book.repository.items if not it.block)
    return is_law or code in documents.book.repository.modules or code.rpartition(".")[2] in documents.definitions or code in RUST


def promises_without_claim(book):
    """Calls of README's table of claims that no claim of docs/claims.toml has."""
    documents = Documents(book)
    claims = tomllib.loads(read("docs/claims.toml"))["claim"]
    carried = {row.split()[0] for claim in claims for row in [*claim["calls"], *claim["laws"]]}
    names = {documents.book.repository.by_name[it].name for it in carried}
    for _, first, _ in tables_of(read("README.md")):
        for code in codes(first):
            found = documents.calls(code)
            if found and not {it.name for it in found} & names and not code[:1].isupper():
                yield f"README.md: no claim of docs/claims.toml carries `{code}`"


# ---- faults that the build has to refuse

CLAIMS = "docs/claims.toml"
FAULTS = {
    "a claim without a clause": (CLAIMS, "Value.try_compare value agrees", "Value.try_compare none_such"),
    "a claim of a call that is not there": (CLAIMS, "tera_report::escape_text ok err free", "tera_report::escape_texts ok"),
    "a claim with a test that is not there": (CLAIMS, '"report_checks::reports_of_spans"', '"report_checks::none_such"'),
    "a claim with wrong bodies that are not there": (CLAIMS, '"tera_values/wrong/slice"', '"tera_values/wrong/slices"'),
    "a word of the kit without its line": ("docs/words.toml", '"flat_map" = ', '"flat_maps" = '),
    "an answer that is not the program's": ("examples/tour.answers", "value [7, 5]", "value [7, 6]"),
}


# ---- a browser


class Browser:
    """A headless Chromium, told what to do through two pipes."""

    def __init__(self, program, room):
        told, self.to = os.pipe()
        self.given, said = os.pipe()
        words = [program, "--headless", "--no-sandbox", "--disable-gpu", "--disable-dev-shm-usage",
                 f"--user-data-dir={room}/profile", "--remote-debugging-pipe", "about:blank"]

        def place():
            # the program reads from 3 and writes to 4
            for at, fd in ((53, told), (54, said)):
                os.dup2(fd, at)
            os.dup2(53, 3)
            os.dup2(54, 4)

        quiet = subprocess.DEVNULL
        self.process = subprocess.Popen(words, preexec_fn=place, close_fds=False, stdout=quiet, stderr=quiet)
        os.close(told)
        os.close(said)
        self.number, self.kept, self.session, self.errors = 0, b"", None, []
        page = next(it for it in self.ask("Target.getTargets")["targetInfos"] if it["type"] == "page")
        self.session = self.ask("Target.attachToTarget", targetId=page["targetId"], flatten=True)["sessionId"]
        for domain in ("Page", "Runtime", "Log"):
            self.ask(f"{domain}.enable")

    def message(self):
        while b"\0" not in self.kept:
            more = os.read(self.given, 1 << 16)
            if not more:
                raise EOFError("the browser has ended")
            self.kept += more
        one, _, self.kept = self.kept.partition(b"\0")
        return json.loads(one)

    def note(self, it):
        """Keeps what went wrong in the page."""
        method, given = it.get("method"), it.get("params", {})
        if method == "Runtime.exceptionThrown":
            details = given["exceptionDetails"]
            self.errors.append(f"{details.get('text')} {details.get('exception', {}).get('description')}")
        elif method == "Log.entryAdded" and given["entry"]["level"] == "error":
            self.errors.append(given["entry"]["text"])
        elif method == "Runtime.consoleAPICalled" and given["type"] in ("error", "assert"):
            self.errors.append(str(given["args"]))

    def ask(self, method, **given):
        self.number += 1
        asked = {"id": self.number, "method": method, "params": given}
        if self.session:
            asked["sessionId"] = self.session
        os.write(self.to, json.dumps(asked).encode() + b"\0")
        while True:
            it = self.message()
            self.note(it)
            if it.get("id") == self.number:
                if "error" in it:
                    raise RuntimeError(f"{method}: {it['error']}")
                return it["result"]

    def go(self, url):
        self.ask("Page.navigate", url=url)
        self.wait("document.readyState === 'complete' && location.href !== 'about:blank'")

    def value(self, code):
        return self.ask("Runtime.evaluate", expression=code, awaitPromise=True, returnByValue=True)["result"].get("value")

    def wait(self, code):
        for _ in range(100):
            try:
                if self.value(code):
                    return True
            except RuntimeError as came:  # a page that goes on to another has no answer
                if not any(it in str(came) for it in ("navigated or closed", "context was destroyed", "Cannot find context")):
                    raise
            time.sleep(0.05)
        return False

    def end(self):
        self.process.terminate()
        self.process.wait(20)
        os.close(self.to)
        os.close(self.given)


CHROMIUM = shutil.which("chromium") or shutil.which("chromium-browser") or shutil.which("google-chrome")
SEARCH = """(() => { const box = document.getElementById('search'); box.value = %s; box.dispatchEvent(new Event('input'));
const links = [...document.querySelectorAll('#hits a')];
return links.map((it) => it.querySelector('b').textContent + ' ' + it.href); })()"""
PAGES = ("index.html", "claim.order.html", "language.html")
SEARCHED = {"slice": "Value::slice", "cmp": "Value::cmp (Ord)", "IsSliced": "IsSliced", "escape_html": "escape_html"}


def faults_in_browser(browser, folder, width):
    """What goes wrong at a width: three pages, a search, and a clause that is followed to its definition."""
    browser.ask("Emulation.setDeviceMetricsOverride", width=width, height=900, deviceScaleFactor=1, mobile=width < 500)
    for name in PAGES:
        browser.go(f"file://{folder}/{name}")
        wide = browser.value("document.documentElement.scrollWidth")
        if wide > width:
            yield f"{name} is {wide} pixels wide at {width}"
        if not browser.value("document.querySelector('h1') && document.querySelector('main').textContent.length > 500"):
            yield f"{name} shows nothing at {width}"
    for asked, wanted in SEARCHED.items():
        found = browser.value(SEARCH % json.dumps(asked))
        if not any(it.startswith(f"{wanted} ") for it in found[:3]):
            yield f"the search for {asked} gives first {found[:3]}"
    browser.go(f"file://{folder}/crate.tera_values.html#Value.PartialEq.eq")
    browser.value("document.querySelector('[id=\"Value.PartialEq.eq.meaning\"] a.own').click()")
    if not browser.wait("location.href.includes('spec.tera_meaning.Meaning.html#meaning') && document.readyState === 'complete'"):
        yield f"the clause of `==` leads to {browser.value('location.href')}"
    elif "sorted (layout v)" not in (browser.value("document.getElementById('meaning').textContent") or ""):
        yield "the definition of `meaning` is not shown where the clause of `==` leads"
    yield from (f"at {width} the console says: {it}" for it in browser.errors)
    browser.errors.clear()


class Pages(unittest.TestCase):
    """The pages of the repository."""

    @classmethod
    def setUpClass(cls):
        room = tempfile.TemporaryDirectory(prefix="pages-")
        cls.addClassCleanup(room.cleanup)
        cls.room, cls.folder = room.name, f"{room.name}/docs"
        status, told = built(cls.folder)
        if status:
            raise AssertionError(f"the pages are not made: {told}")
        cls.book = Book(Repository())
        fill_prose(cls.book)

    def none(self, broken):
        """Nothing is broken, or the first 40 of what is are told."""
        found = list(broken)
        if found:
            self.fail("\n".join(["", *found[:40]]))

    def test_links(self):
        """each link leads somewhere"""
        pages = parsed(self.folder)
        self.none([*lost_links(self.folder, pages), *lost_entries(self.folder, pages)])

    def test_imports(self):
        """what `tera` gives out is imported from there"""
        self.none(imported_from_below(self.folder))

    def test_calls(self):
        """each call that documents name has its anchor, and each clause is one of it"""
        self.none(unknown_calls(self.book))

    def test_filled(self):
        """documents have what the sources say"""
        self.none(f"{path}: `./docs/build --fill`" for path, _ in stale(self.book, read_claims(self.book)))

    def test_promises(self):
        """each promise of README has a claim"""
        self.none(promises_without_claim(self.book))

    def test_faults(self):
        """what is not there is refused"""
        for name, change in FAULTS.items():
            with self.subTest(name):
                status, told = built(f"{self.room}/faulty", change)
                self.assertTrue(status, f"the pages are made in spite of it: {told.strip()}")
                self.assertTrue("Traceback" not in told or "ValueError" in told, told)

    @unittest.skipUnless(CHROMIUM, "no browser (the Debian package chromium)")
    def test_browser(self):
        """a browser loads, searches and follows a clause at 360 and 1280 pixels"""
        browser = Browser(CHROMIUM, self.room)
        self.addCleanup(browser.end)
        for width in WIDTHS:
            with self.subTest(width):
                self.none(faults_in_browser(browser, self.folder, width))


if __name__ == "__main__":
    unittest.main()
