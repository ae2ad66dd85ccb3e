"""Which sentences of docs/SCRIPT.md say what is expected, where an engine answers otherwise."""
from __future__ import annotations

import functools
import os
import re
from typing import Any, Dict, List

from . import reference
from .engines import Fault
from .reference import NONE, UNDEFINED, Number, Plain, Text

PAGE = os.path.join(os.path.dirname(os.path.dirname(os.path.abspath(__file__))), "docs", "SCRIPT.md")

# The beginnings of the sentences that say why a line is bad (the argument of `BadLine`), or how a run ends.
RULES: Dict[str, List[str]] = {
    "call": ["Every other line says one call, or it is bad"],
    "utf8": ["Every other line says one call, or it is bad"],
    "operands": ["At least one stands between the call's word and its first operand"],
    "behind": ["Behind a literal, a text or a bound stands a blank or the end of the line.",
               "At least one stands between the call's word and its first operand"],
    "arrow": ["`get`, `path`, `attr`, `item`, `slice`, `reverse`,"],
    "name": ["A name is an ASCII letter or `_`"],
    "type": ["| `read TYPE NAME` |"],
    "bound": ["A bound is `_` where there is none"],
    "escape": ["The escapes are"],
    "text": ["**Texts**"],
    "number": ["**Numbers**", "Without a suffix a number is held"],
    "suffix": ["The suffixes are"],
    "bytes": ["**Bytes**"],
    "literal": ["**Words**", "**Numbers**", "**Texts**", "**Bytes**", "**Arrays** as"],
    "brackets": ["**Arrays** as"],
    "comma": ["No comma stands behind the last item or pair."],
    "key": ["A key of a map is"],
    "levels": ["At most 64 arrays and maps stand one inside another"],
    "source": ["The map of `extend` has texts alone as keys."],
    "end": ["A line ends at a line feed"],
    "report": ["The report of a bad line gives that number", "It shows the line whole", "Of a line that is no UTF-8 it shows"],
    "blanks": ["Blanks may stand before the call's word", "At least one stands between the call's word"],
    "status": ["| 0 | all was read"],
}
# The sentences of a call, beside its row.
CALLS: Dict[str, List[str]] = {
    "set": ["Where keys are equal, as `1` and `1u64`"], "extend": ["Where keys are equal, as `1` and `1u64`"],
    "has": ["`has` heeds whether a name is there"], "remove": ["`has` heeds whether a name is there"],
    "get": ["**A value that is found** is answered"],
    "path": ["An element is a place where", "A place finds an item of an array"], "attr": [],
    "item": [], "slice": ["A bound below 0 counts from the end", "Without a start, a step above 0 begins"], "reverse": [],
    "contains": ["`contains`: an array has an item", "What is no text is a part of none"],
    "fields": ["`fields` and `walk` of what is no map", "`fields` lists its texts in the order of their bytes."],
    "walk": ["`fields` and `walk` of what is no map", "A map keeps its pairs in the order in which they are written."],
    "len": ["`fields` and `walk` of what is no map"], "truthy": ["`truthy`: `true`, a number other than 0"],
    "is_safe": ["`is_safe`: a text that is marked"], "kind": ["Kinds are"],
    "mark_safe": ["`mark_safe NAME` answers `ok`"], "eq": ["Neither kinds of integers nor marks count."],
    "cmp": ["By rank first"], "try_cmp": ["`try_cmp` is undecided", "Two arrays go item by item"],
    "print": [], "escape": ["`escape` replaces"], "negate": ["Numbers are computed exactly"],
    "read": ["`read` gives `u64` for"], **{word: ["Numbers are computed exactly"] for word in reference.OPERATORS}}
# The refusals, by what their texts have in common, and the beginnings of their rows.
REFUSALS = {
    "Map keys must be": "| `item` | of a map", " index must be": "| `item` | of an array", "Slicing step": "| `slice` | the step",
    "Slicing can only": "| `slice` | of what", "cannot be reversed": "| `reverse` | of what", "`in` cannot": "| `contains` | in what",
    "Only numbers can be used": "| `add` to `pow` | an operand is no number", "Operand `": "| | an operand is above",
    "Cannot divide": "| `rem`, `floor_div` | the divisor", "Exponent ": "| `pow` | the exponent", "Unable to": "| `add` to `pow` | no `i128`",
    "can be negated": "| `negate` | of what", "Cannot negate": "| `negate` | no `i128`", "Invalid type": "| `read` | of what",
    "out of range for `": "| `read` | the type"}


@functools.lru_cache(maxsize=1)
def blocks() -> List[str]:
    """The paragraphs, the points of lists and the rows of tables of the page, each on one line."""
    with open(PAGE, encoding="utf-8") as page:
        text = page.read()
    parts = re.split(r"\n\s*\n|\n(?=- |\| )", text)
    return [re.sub(r"\s+", " ", part).strip().removeprefix("- ") for part in parts]


@functools.lru_cache(maxsize=None)
def quote(beginning: str) -> str:
    """The sentence, or the row of a table, that begins so."""
    for block in blocks():
        at = block.find(beginning)
        if at >= 0:
            rest = block[at:]
            end = None if rest.startswith("|") else re.search(r"\.\)?(?= [A-Z`*(])|$", rest)
            return rest[:end.end()] if end else rest
    raise LookupError(f"docs/SCRIPT.md has no sentence that begins with {beginning!r}")


def row_of(word: str) -> str:
    """The row of a call in the page's first table."""
    return next(block for block in blocks() if block.startswith("| `") and re.search(f"`{word}[ `]", block.split("|")[1]))


def beginnings(fault: Fault) -> List[str]:
    """The beginnings of the sentences that say what is expected there."""
    if fault.rule == "good":
        return written(fault.line)
    if fault.rule != "answer":
        return RULES[fault.rule]
    word, operands, into = reference.read_call(fault.line)
    if fault.expected.startswith("error: "):
        return [row for part, row in REFUSALS.items() if part in fault.expected][:1]
    form = reference.CALLS[word][0].strip("C>")
    values = [fault.names.get(one, UNDEFINED) if letter == "v" else one for letter, one in zip(form, operands)]
    if into is not None and fault.expected == "ok":
        return RULES["arrow"]
    return [*special(word, values, fault), *CALLS[word]][:3]


def written(line: str) -> List[str]:
    """The sentences on how this line, which is good, is written."""
    word, operands, into = reference.read_call(line)
    form = reference.CALLS[word][0].strip("C>")
    texts = ["text", *(["escape"] if "\\" in line else [])]
    rules = {"l": of_literal(operands[-1] if operands else None), "m": ["brackets", "source"], "t": texts, "b": ["bound"], "y": ["type"]}
    found = [rule for letter in dict.fromkeys(form) for rule in rules.get(letter, [])]
    return [one for rule in [*found, *(["arrow"] if into else []), "blanks"] for one in RULES[rule]][:4]


def of_literal(value: Any) -> List[str]:
    """The rules of a literal of this value."""
    if isinstance(value, Number):
        return ["number", "suffix"]
    if isinstance(value, dict):
        return ["brackets", "key", "levels"]
    if reference.is_array(value):
        return ["brackets", "levels"]
    return ["bytes"] if isinstance(value, bytes) else ["text", "escape"] if isinstance(value, Text) else ["literal"]


def special(word: str, values: List[Any], fault: Fault) -> List[str]:
    """The sentences that hold of these values in particular."""
    expected = fault.expected
    first = values[0] if values else None
    if word in ("path", "attr") and first in (NONE, UNDEFINED):
        return ["But a path of a name that holds none finds none"] if word == "path" else []
    if word == "path" and "" in values[1].split("."):
        return ["`path` cuts its text at each dot"]
    if word == "item":
        if expected == "value undefined":
            return ["Where there is none, and of every other value"]
        return ["`item` finds in a map"] if isinstance(first, dict) else ["In an array or a text it finds"]
    if word == "kind" and isinstance(first, Number):
        return ["Without a suffix a number is held", "Numbers are computed exactly"]
    if word == "cmp" and isinstance(first, dict) and isinstance(values[1], dict):
        return ["A map goes as an array of its pairs would"]
    if word == "reverse" and isinstance(first, Text):
        return ["`reverse` of a text takes the mark away."]
    if word in ("print", "escape"):
        return printing(first, fault)
    is_shown = expected.startswith("value ") and fault.answered.startswith("value ")
    return printing(expected, fault) if is_shown and expected[6:7] in ('"', "[", "{") else []


def printing(value: Any, fault: Fault) -> List[str]:
    """The sentences on what this value prints."""
    if isinstance(value, bytes):
        return ["Bytes print as the text that they are.", "Where they are no UTF-8"]
    if isinstance(value, Plain) or isinstance(value, Text):
        return ["A text prints as it is"]
    both = fault.expected + fault.answered
    within = ["Inside an array or a map a text stands in quotes"] if '"' in both or "&quot;" in both else []
    by_number = ["`\\u{..}`, with hexadecimal digits"] if "\\u{" in both else []
    return ["Numbers print in decimal", *within, *by_number]


def sentences(fault: Fault) -> List[str]:
    """What the page says of what is expected there: first what says most, and last the row of the call."""
    words = [quote(one) for one in beginnings(fault)]
    if fault.rule in ("answer", "good") and not fault.expected.startswith("error: "):
        words.append(row_of(fault.line.split()[0]))
    return words
