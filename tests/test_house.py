"""The rules of the house, without the prover: each is a test, which tells each place that breaks it."""
import collections
import functools
import itertools
import os
import pathlib
import random
import re
import unittest
from collections.abc import Callable, Iterator
from typing import Any

import built  # it finds the package
import calls as memory_calls
from conformance import reference
from conformance.scripts import Maker
from pages.sources import Crate, crates_listed, read_crate
from tools import words
from tools.source import flat, functions_of, imports_of, read

FILE_LINES = 400
WIDTHS = {"src": 100, "specs": 100, "proofs": 160}
WORD = re.compile(r"[\w'-]+")
MACRO = re.compile(r"#\[macro_export\]\s*macro_rules! (\w+)")
# functions without a wrong body: most lend a part, of which no other body compiles
NO_BODY = {
    "Error::kind", "Spanned::node", "Template::nodes", "Feed::context", "Replayer::context",
    "SessionDrop::drop", "ExpectationDisplay::fmt", "fill", "search_lent"}


def rule(places: Callable[[Any], Iterator[str]]) -> Callable[[Any], None]:
    """A test of a rule that gives each place which breaks it."""
    @functools.wraps(places)
    def test(self: unittest.TestCase) -> None:
        if found := dict.fromkeys(places(self)):
            self.fail("\n".join(["", *found]))
    return test


def found(pattern: str, text: str) -> str:
    """The group of the first place that fits, or nothing."""
    place = re.search(pattern, text)
    return place[1] if place else ""


def files() -> list[str]:
    """The files of the repository, but what is built."""
    found = []
    for at, folders, names in os.walk("."):
        folders[:] = [it for it in folders if it not in built.NOT_OURS]
        found += [os.path.relpath(f"{at}/{it}") for it in names]
    return sorted(found)


os.chdir(built.TOP)
FILES, CRATES = files(), {it.name: it for it in crates_listed()}


def below(*folders: str, end: str = "", crate: str = r"\w+") -> list[str]:
    """The files of these folders of a crate ('src', 'specs', ..), or of those of all crates, with that end."""
    place = re.compile(rf"crates/{crate}/(?:{'|'.join(folders)})/")
    return [it for it in FILES if place.match(it) and it.endswith(end)]


def words_told_to_keep(page: str) -> set[str]:
    """The words that the language's page lets end in a name for what is found; those from `add` to `pow` are operators."""
    told = found(r"(?s)\n- ([^.]*?) may end in\s+`-> NAME`", page)
    return set(re.findall(r"`([a-z_]+)[ `]", told + found(r"\| (`add NAME NAME`[^|]*)\|", page)))


def words_made() -> dict[str, bool]:
    """The words of the lines that tests/fuzz.py makes, each with whether a line of it had a name for what is found."""
    made = Maker(random.Random(1)).script(3000, 0)[0]
    lines = [line.decode(errors="replace").split() for line in made]
    keeping = {words[0] for words in lines if len(words) > 2 and words[-2] == "->"}
    return {words[0]: words[0] in keeping for words in lines if words}


def comments_on_calls(keeping: set[str]) -> Iterator[str]:
    """Where comments of the code do not let just those heed `->` that the specs do: that of `Step`, and those that tell of `Get`."""
    path = "crates/tera_context/src/call.rt"
    text = read(path)
    notes = re.findall(r"((?:    ///[^\n]*\n)+)    (\w+) \{", text)
    alike = {call for note, call in notes if "as `Get` does" in re.sub(r"\s*///\s*", " ", note)}
    told = alike | set(re.findall(r"`(\w+)`", found(r"(?s)Only (.*?) heed that name", text)))
    own = {verb if re.search(rf"(?m)^    {verb} \{{", text) else "Binary" for verb in keeping}
    for call in sorted(own ^ told):
        yield f"{path}: whether `{call}` heeds `->` is not as in tera_script's table"


PUBLIC = re.compile(r"(?m)^pub (struct|enum|trait|type|fn|mod) (\w+)")


def items_used(text: str) -> Iterator[str]:
    """What a text gives out by `pub use`: each path, without the name that it gets."""
    for path, names in re.findall(r"pub use ([\w:]+)(?:::\{([^}]*)\})?(?: as \w+)?;", text):
        yield from (f"{path}::{it}" for it in re.findall(r"\w+", names)) if names else [path]


def items_public(crate: str) -> Iterator[str]:
    """The paths of what a library's root makes public of its own, a module by its items."""
    root = read(f"crates/{crate}/src/lib.rt")
    for path in items_used(root):
        yield from () if path.startswith("tera_") else [f"{crate}::{path.rpartition('::')[2]}"]
    for module in re.findall(r"(?m)^pub mod (\w+);", root):
        items = PUBLIC.findall(read(f"crates/{crate}/src/{module}.rt"))
        yield from (f"{crate}::{module}::{name}" for _, name in items)
    for path in below("src", end=".rt", crate=crate):
        yield from (f"{crate}::{it}" for it in MACRO.findall(read(path)))


def files_public(crate: str) -> Iterator[str]:
    """The paths by which clauses and proofs name a library's definitions, laws and types."""
    for folder in ("specs", "proofs"):
        modules = re.findall(r"(?m)^pub mod (\w+)", read(f"crates/{crate}/{folder}/Lib.antt"))
        yield from (f"Rattle.{crate}.{folder}.{it}" for it in modules if it != "inner")
    for path in below("src", end=".rt", crate=crate):
        home = path.removesuffix(".rt").partition("/src/")[2].replace("/", ".")
        types = [name for kind, name in PUBLIC.findall(read(path)) if kind in ("struct", "enum")]
        yield from (f"Rattle.{crate}.specs.declared.{home}.{it}" for it in types)


# the files that have lemmas
LEMMAS = re.compile(r"(?!.*/(?:Answers|Invariants|Proof)\.antt$)(?:crates/\w+/proofs/|.*Laws\.antt$)")
HEAD = re.compile(r"(?m)^( {0,2})(?:pub )?(?:unfoldable |abbrev |opaque )*([a-z][\w'-]*) :(?= |$)")
NEXT = re.compile(r"(?m)^ *(?:module _|(?:pub )?ruleset |(?:pub )?(?:unfoldable |abbrev |opaque )*[^\W\d][\w'-]* :(?= |$))")
# what makes a statement more than the type of a definition
SAYS = re.compile(r"[≡≢<≤⊥⊎↔×]|\b(?:Is|Are|Has)[A-Z]")


def homes_of(path: str, text: str) -> dict[str, str]:
    """Where the names of this repository that a file uses come from: {name: file and name there}."""
    types = re.findall(r"(?m)^ *(?:pub |abbrev |unfoldable )*([A-Z]\w*) :", text)
    homes = {it: f"{path}.{it}" for it in [*(it[2] for it in HEAD.finditer(text)), *types]}
    for it, (module, name) in imports_of(text).items():
        if name and module.startswith(("Rattle.tera", "Rattle.uses")):
            homes[it] = f"{module}.{name}"
    return homes


def spelled(name: str, statement: str, proof: str, homes: dict[str, str]) -> str:
    """The statement with its variables numbered in the order in which they stand, and with the repository's own names in
    full. A definition is spelled with its body."""
    text = statement.partition(":")[2]
    if not SAYS.search(text):
        text += re.sub(rf"(?<![\w'-]){re.escape(name)}(?![\w'-])", "itself", proof)
    text = flat(text)
    bound = " ".join(re.findall(r"[({]([^(){}:]+?) :", text)).split()
    names = homes | {name: f"#{at}" for at, name in enumerate(dict.fromkeys(bound))}
    return re.sub(WORD, lambda it: names.get(it[0], it[0]), text)


def lemmas_of(path: str, text: str) -> Iterator[tuple[str, str, str, str]]:
    """The lemmas of a file of proofs, or what looks like them: what stands at its margin, or below a `module _`. Of each its place and
    name, its text, and its statement as others would be spelled that say the same."""
    homes = homes_of(path, text)
    for head in HEAD.finditer(text):
        above = "".join(re.findall(r"(?m)^[^ \n-].*", text[: head.start()])[-1:]) if head[1] else ""
        if head[1] and not (head[1] == "  " and above.startswith(("module _", "mutual"))):
            continue
        after = NEXT.search(text, head.end())
        block = text[head.start() : after.start() if after else len(text)]
        # the statement ends where the first clause begins: a line that starts with the name again
        body = re.search(rf"(?m)^{head[1]}{re.escape(head[2])}(?![\w'-])(?! :)", block)
        end = body.start() if body else len(block)
        line = text.count("\n", 0, head.start()) + 1
        said = spelled(head[2], block[:end], block[end:], homes)
        yield f"{path}:{line}", head[2], block, said


LIBRARIES = "report scalars values conversions arguments context script replies".split()
# what is given an allocator, and what may answer want of memory without one
TAKES = re.compile(r"\balloc: Global|^(?!.*_alloc:).*->(?!.*->).*(?:TeraResult|AllocError)")


def public_calls(crate: Crate) -> Iterator[tuple[str, str]]:
    """Each public call of a library that is given an allocator, or whose answer may be want of memory, with its file."""
    read_crate(crate)
    yield from ((it.path, f"{it.name}!") for it in crate.public if it.kind == "macro")
    for it in crate.public:
        if it.kind == "fn" and TAKES.search(flat(it.signature)):
            if not it.block:
                yield it.path, it.anchor.replace(".", "::")
            elif not it.block.is_trait:  # which is called at its types
                owner = it.block.trait if it.block.owner in ("", "T") else it.block.owner
                yield it.path, f"{re.sub('(Of)?<.*>', '', owner)}::{it.name}"


# the first line of a test says what it shows, and names it
TEST = re.compile(r'def test_\w+\(self\)[^:]*:\n +"""(.*?)"""')


def tests_there() -> set[str]:
    """The names of all tests: the first lines of those of tests/, and those of crates with their crate."""
    named = {it for path in FILES if path.startswith("tests/") for it in TEST.findall(read(path))}
    for path in below("src", end=".rt"):
        crate, tests = path.split("/")[1], re.findall(r"#\[test\]\s*fn (\w+)", read(path))
        named |= {f"{crate}::{it}" for it in tests}
    return named


CODE = re.compile(r"`([^`\n]+)`")
# what a path of the repository, or one within a crate, begins with
TOPS = {it.split("/")[0] for it in FILES} | {"src", "specs", "proofs", "wrong", "must-fail"}
PATH = re.compile(r"^[\w.-]+(?:/[\w.*+-]+)+/?$|^[\w-]+\.(?:md|py|sh|rt|antt|c|txt)$")
NAME = re.compile(r"^[A-Za-z_]\w*(?:(?:::|\.)[A-Za-z_*]\w*)*$")


def words_there() -> set[str]:
    """The words of all files but documents and wrong bodies, and those of the files' names."""
    paths = [pathlib.Path(it) for it in FILES if not it.endswith(".md") and "/wrong/" not in it]
    texts = [it.read_text(encoding="utf-8", errors="ignore") for it in paths]
    return set(re.findall(r"\w+", "\n".join([*FILES, *texts])))


def is_there(code: str) -> bool:
    """Whether a path is there; words in capitals, and stars, stand for any name."""
    parts = code.removeprefix("./").rstrip("/").split("/")
    if parts[0] not in TOPS and "." not in parts[-1] or "out" in parts:
        return True
    pattern = re.sub(r"\b[A-Z]{3,}\b|\\\*", "[^/]*", "/".join(map(re.escape, parts)))
    return any(re.match(rf"(?:.*/)?{pattern}(?:\.\w+)?(?:/.*)?$", it) for it in FILES)


class House(unittest.TestCase):
    """Each rule is kept in each place."""

    @rule
    def test_calls(self) -> Iterator[str]:
        """each call has its scripts, its row and its lines

        Each word of a call in the specs is in a script, has a row in docs/SCRIPT.md, an entry in the reference, and a line
        that tests/fuzz.py makes; all of these let just those heed `->` that the specs do."""
        row = r'(?m)^row_of verb\.(\w+) = (plain|keeping) \(codes "([a-z_]+)"\)'
        table = re.findall(row, read("crates/tera_script/specs/Verb.antt"))
        spec = {word: how == "keeping" for _, how, word in table}
        told = {word: form[0].endswith(">") for word, form in reference.CALLS.items()}
        page, made = read("docs/SCRIPT.md"), words_made()
        keep, rows = words_told_to_keep(page), "".join(re.findall(r"(?m)^\| .*", page))
        places = re.compile(r"crates/script_checks/src/|examples/.*\.replay$")
        tests = "".join(read(it) for it in FILES if places.match(it))
        yield from comments_on_calls({verb for verb, how, _ in table if how == "keeping"})
        for word in sorted({*spec, *told}):
            holds = {
                "is no word of tera_script": word in spec,
                "is not in tests/second.py": word in told,
                "has no row in docs/SCRIPT.md": re.search(rf"`{word}[ `]", rows),
                "is in no line of tests/fuzz.py": word in made,
                "is in no script of script_checks or of examples/": re.search(rf"\b{word} ", tests),
                "heeds `->` in docs/SCRIPT.md not as its spec": spec.get(word) == (word in keep),
                "heeds `->` in tests/second.py not as its spec": spec.get(word) == told.get(word),
                "heeds `->` in tests/fuzz.py not as its row": told.get(word) == made.get(word, False)}
            yield from (f"`{word}` {fault}" for fault in holds if not holds[fault])

    @rule
    def test_bodies(self) -> Iterator[str]:
        """each function that others call has a wrong body

        So has each of tera_context, which answers the calls of scripts. What has no clause of its own needs none, nor does a law."""
        wrong = {os.path.dirname(it) for it in below("wrong", end=".edit")}
        for path in below("src", end=".rt", crate="(?:tera|uses)\\w*"):
            text, place = read(path), path.removesuffix(".rt").replace("/src/", "/wrong/")
            for it in functions_of(text):
                is_asked = it.is_public and it.block[:5] != "trait" or "/tera_context/" in path
                is_law = path.endswith("laws.rt") or text[it.body : it.end] in ("{}", ";")
                has_one = it.path in NO_BODY or f"{place}/{it.path.replace('::', '.')}" in wrong
                if is_asked and it.clauses and not is_law and not has_one:
                    yield f"{path}: `{it.path}` has no wrong body"

    @rule
    def test_imports(self) -> Iterator[str]:
        """a lower crate's proofs are imported by their laws alone

        A crate imports a lower crate's proofs by its files of laws alone (docs/ARCHITECTURE.md says which these are)."""
        shared = {}
        for path in below("proofs", end="/Lib.antt"):
            names = re.findall(r"(?m)^pub (?:mod|use) (?:[\w.]+ as |[\w.]*\.)?(\w+)$", read(path))
            shared[path.split("/")[1]] = [it for it in names if it.endswith("Laws")]
            others = [it for it in names if not it.endswith("Laws")]
            yield from (f"{path}: `{it}` is public, and is no file of laws" for it in others)
        for path in below("src", "specs", "proofs"):
            for crate, file in re.findall(r"(?m)^(?:ghost )?use Rattle\.(\w+)\.proofs\.(\w+)", read(path)):
                if crate != path.split("/")[1] and file not in shared.get(crate, [file]):
                    yield f"{path}: it imports `{crate}`'s proofs/{file}"

    @rule
    def test_surface(self) -> Iterator[str]:
        """the crate tera gives out all that the libraries below it do

        The crate `tera` gives out each public item of the libraries that it stands on, each of their files of
        definitions and of laws, and what each of their types is to a clause."""
        used = {it for path in below("src", crate="tera") for it in items_used(read(path))}
        texts = [read(it) for it in below("specs", "proofs", crate="tera")]
        passed = set(re.findall(r"(?m)^pub use ([\w.]+)", "\n".join(texts)))
        for crate in CRATES["tera"].uses:
            for item in items_public(crate):
                if not any(item == it or item.startswith(f"{it}::") for it in used):
                    yield f"crates/tera does not give out `{item}`"
            yield from (f"crates/tera does not pass on `{it}`" for it in files_public(crate) if it not in passed)

    @rule
    def test_lemmas(self) -> Iterator[str]:
        """each lemma is cited, and stated once

        Each lemma is cited, and no two have one statement up to the names of variables."""
        texts = {it: re.sub(r"--.*", "", read(it)) for it in below("src", "specs", "proofs")}
        everywhere = collections.Counter(it for text in texts.values() for it in WORD.findall(text))
        same = collections.defaultdict(list)
        for path in filter(LEMMAS.match, below("proofs", "specs", end=".antt")):
            for place, name, block, said in lemmas_of(path, texts[path]):
                if everywhere[name] <= WORD.findall(block).count(name):
                    yield f"{place}: `{name}` is cited nowhere"
                same[said].append(f"{place} `{name}`")
        yield from (f"one statement: {', '.join(it)}" for it in same.values() if len(it) > 1)

    @rule
    def test_memory(self) -> Iterator[str]:
        """each call that takes memory has a row that refuses it

        Each public call that takes memory has a row in tests/calls.py, by which its requests are refused, or a test that
        tests/calls.py names for it; and each test that docs/TESTS.md names is there."""
        rows = {row.name.split()[0] for row in memory_calls.rows(2)}
        told = rows | set(memory_calls.ELSEWHERE) | memory_calls.FREE
        calls, tests = [it for name in LIBRARIES for it in public_calls(CRATES[f"tera_{name}"])], tests_there()
        for path, name in calls:
            if name not in told:
                yield f"{path}: `{name}` takes memory, and tests/calls.py has no row for it"
        for name in sorted(told - {name for _, name in calls} - memory_calls.BESIDE):
            yield f"tests/calls.py: `{name}` is no public call that takes memory"
        for name, shown in memory_calls.ELSEWHERE.items():
            if shown not in rows and shown not in tests:
                yield f"tests/calls.py: `{name}` is shown by `{shown}`, which is no row and no test"
        for cell in re.findall(r"(?m)^\| (?!test \||---)([^|]*)\|", read("docs/TESTS.md")):
            for quoted, named in re.findall(r'"([^"]+)"|`(\w+::\w+)`', cell) or [("nothing", "")]:
                if (quoted or named) not in tests:
                    yield f"docs/TESTS.md: no test `{quoted or named}`"

    @rule
    def test_lengths(self) -> Iterator[str]:
        """files and lines keep their lengths

        No file of src/, specs/ or proofs/ is longer than its bound, and no line is wider."""
        for path in below(*WIDTHS):
            lines = read(path).split("\n")
            if len(lines) - 1 > FILE_LINES:
                yield f"{path}: {len(lines) - 1} lines"
            for at, line in enumerate(lines, 1):
                if len(line) > WIDTHS[path.split("/")[2]]:
                    yield f"{path}:{at}: {len(line)} columns"

    @rule
    def test_docs(self) -> Iterator[str]:
        """what the documents name is there

        Each path, module and name that README.md and docs/ write as code is there."""
        words = words_there()
        for path in [it for it in FILES if it.endswith(".md")]:
            # what speaks of other things has other things' names
            is_ours = os.path.basename(path) not in ("DECISIONS.md", "DIFFERENCES.md")
            text = re.sub(r"(?ms)^```.*?^```", "", read(path))
            for target in re.findall(r"\]\(([^)#:]+)\)", text):
                if not os.path.exists(os.path.join(os.path.dirname(path), target)):
                    yield f"{path}: the link {target} leads nowhere"
            for code in dict.fromkeys(CODE.findall(text)):
                missing = [it for it in re.findall(r"\w+", code) if it not in words]
                if PATH.match(code):
                    yield from [] if is_there(code) else [f"{path}: no file `{code}`"]
                elif missing and is_ours and NAME.match(code) and not code.endswith("_"):
                    yield f"{path}: `{code}` names {', '.join(missing)}, which is nowhere"

    @rule
    def test_tour(self) -> Iterator[str]:
        """the tour of README.md is an example

        Each line of README's tour, with its answer and behind two blanks a remark, is that of the example."""
        shown = found(r"## A tour of the language\n(?:.*\n)*?\n((?:    .*\n)+)", read("README.md"))
        lines, answers = (read(f"examples/tour.{it}").splitlines() for it in ("replay", "answers"))
        rows = [it[4:] for it in shown.splitlines()]
        for row, line, answer in itertools.zip_longest(rows, lines, answers, fillvalue=""):
            if row[:24].rstrip() != line or not f"{row[24:]}  ".startswith(f"{answer}  "):
                yield f"README.md shows `{row}`, and examples/tour.replay `{line}`: `{answer}`"

    @rule
    def test_words(self) -> Iterator[str]:
        """the documents have few words

        The documents that are too long in all, and each sentence of them that is."""
        counted = words.counts()
        if words.total(counted) > words.MOST_WORDS:
            yield f"{words.total(counted)} words, of {words.MOST_WORDS} at most (tools/words.py)"
        for path in counted:
            yield from (f"{path}: a long sentence: {it}" for it in words.long_sentences(path))


if __name__ == "__main__":
    unittest.main()
