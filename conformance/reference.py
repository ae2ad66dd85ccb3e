"""The script language a second time, made from docs/SCRIPT.md alone. It needs Python 3.10 and nothing else.

    from conformance.reference import Session, replay, run

    run(["set a [1, 2]", "reverse a"])             # ["ok", "value [2, 1]"]
    replay(b"eq a b\nfrob\n")                      # Replay(out=b"true\n", err=b"error: bad line..", status=2)
    session = Session()
    session.answer("set a 1")                      # "ok"; None for a line that is skipped; BadLine for a bad one
    session.names["a"]                             # Number(kind="i64", number=1)
    spelled((Number("u64", 1), True))              # "[1u64, true]"

`run` takes lines and gives answers; `replay` does what a whole program does with the bytes of a script; a `Session` is
asked line by line, and shows its names. Each takes a `Dialect` too, for an engine that answers as Tera does where Tera
differs. As a program: `python3 conformance/reference.py [--maps-by-key] [--maps-weigh-equal] < SCRIPT`.

A value is UNDEFINED, NONE, a truth value, a Number, a Text, bytes, a tuple (an array) or a dict (a map). A map goes
from `key_of` a key to the value, and keeps the order in which its keys were first put: the width of a number that is a
key shows nowhere.
"""
from __future__ import annotations

import argparse
import re
import sys
import unicodedata
from typing import Any, Callable, Dict, Iterable, List, NamedTuple, Optional, Tuple, TypeGuard, Union

LEVELS = 64
INT_MIN, INT_MAX = -2**127, 2**127 - 1
PLACE_MAX = 2**64 - 1
EXPONENT_MAX = 2**32 - 1


class Plain(NamedTuple):
    """Undefined or none."""

    name: str


class Number(NamedTuple):
    """An integer in one of the four kinds."""

    kind: str
    number: int


class Text(NamedTuple):
    """A text, and whether it is marked safe."""

    text: str
    safe: bool


class Dialect(NamedTuple):
    """Where an engine answers as Tera does in the place of docs/SCRIPT.md. With neither it is the language itself."""

    maps_by_key: bool = False  # a map keeps its pairs in the order of their keys, not in that in which they are put
    maps_weigh_equal: bool = False  # `cmp` calls any two maps equal, inside arrays too


class Replay(NamedTuple):
    """What a program does with a script: its standard output, its standard error and its status."""

    out: bytes
    err: bytes
    status: Union[int, str]


class BadLine(Exception):
    """The line says no call; the one argument tells which rule of the page it breaks (`sentences.RULES`)."""


class Refused(Exception):
    """A call refuses; the one argument is what it says."""


Key = Tuple[int, Any]  # a rank, and a truth value, an int or a str
Value = Union[Plain, bool, Number, Text, bytes, Tuple["Value", ...], Dict[Key, "Value"]]
Names = Dict[str, Value]
Call = Callable[..., Any]  # it gives a str for an answer, else the value that is found, or None for nothing
LANGUAGE = Dialect()


UNDEFINED, NONE = Plain("undefined"), Plain("none")
WORDS: Dict[str, Value] = {"undefined": UNDEFINED, "none": NONE, "true": True, "false": False}


def range_of(type_name: str) -> Tuple[int, int]:
    """The least and the greatest number of a type of Rust."""
    bits = 64 if type_name.endswith("size") else int(type_name[1:])
    return (-2**(bits - 1), 2**(bits - 1) - 1) if type_name[0] == "i" else (0, 2**bits - 1)


TYPES = {name: range_of(name) for name in "u8 u16 u32 u64 u128 usize i8 i16 i32 i64 i128 isize".split()}
KINDS = ["i64", "u64", "i128", "u128"]  # a number without suffix has the first of these that holds it


# Spelling: each reader takes the line and a place in it, and gives what it read and the place after it.

NAME = re.compile(r"[A-Za-z_][A-Za-z0-9_]*")
BLANKS = re.compile(r"[ \t]*")
WORD = re.compile(r"undefined|none|true|false")
NUMBER = re.compile(r"(-?)([0-9]+)(u64|i64|u128|i128|)")
BOUND = re.compile(r"_|(-?)([0-9]+)")
TEXT = re.compile(r'"((?:[^"\\]|\\["\\nrt0]|\\u\{[0-9A-Fa-f]{1,6}\})*)"')
BYTES = re.compile(r'x"((?:[0-9A-Fa-f]{2})*)"')
ESCAPE = re.compile(r"\\(?:u\{([0-9A-Fa-f]+)\}|(.))")
PLACE = re.compile(r"\+?([0-9]+)")
ENDED = re.compile(r'"(?:[^"\\]|\\.)*"')
DIGITS = tuple("-0123456789")
SHORT_ESCAPES = {'"': '"', "\\": "\\", "n": "\n", "r": "\r", "t": "\t", "0": "\0"}


def match(pattern: re.Pattern[str], line: str, at: int, rule: str) -> Tuple[re.Match[str], int]:
    """What of the line at this place has the pattern, and the place after it."""
    found = pattern.match(line, at)
    if found is None:
        raise BadLine(rule)
    return found, found.end()


def decimal(minus: str, digits: str) -> int:
    """The number, or one that no kind holds: all those of more than 40 digits count alike."""
    digits = digits.lstrip("0")
    number = 10**40 if len(digits) > 40 else int(digits or "0")
    return -number if minus else number


def read_name(line: str, at: int) -> Tuple[str, int]:
    """A name of a value."""
    found, at = match(NAME, line, at, "name")
    return found[0], at


def read_type(line: str, at: int) -> Tuple[str, int]:
    """A name of an integer type of Rust."""
    name, at = read_name(line, at)
    if name not in TYPES:
        raise BadLine("type")
    return name, at


def read_bound(line: str, at: int) -> Tuple[Optional[int], int]:
    """A bound of a slice, None where there is none."""
    found, at = match(BOUND, line, at, "bound")
    if found[0] == "_":
        return None, at
    bound = decimal(*found.groups())
    if not INT_MIN <= bound <= INT_MAX:
        raise BadLine("bound")
    return bound, at


def unescaped(found: re.Match[str]) -> str:
    """The character that an escape names."""
    if found[1] is None:
        return SHORT_ESCAPES[found[2]]
    scalar = int(found[1], 16)
    if scalar > 0x10FFFF or 0xD800 <= scalar <= 0xDFFF:
        raise BadLine("escape")
    return chr(scalar)


def read_text(line: str, at: int) -> Tuple[str, int]:
    """A text in quotes."""
    found = TEXT.match(line, at)
    if found is None:
        raise BadLine("escape" if ENDED.match(line, at) else "text")
    return ESCAPE.sub(unescaped, found[1]), found.end()


def read_number(line: str, at: int) -> Tuple[Number, int]:
    """A number, in the kind that its suffix names or in the first that holds it."""
    found, at = match(NUMBER, line, at, "number" if line[at:at + 1] in DIGITS else "literal")
    minus, digits, suffix = found.groups()
    number = decimal(minus, digits)
    if minus and suffix.startswith("u"):
        raise BadLine("suffix")
    for kind in [suffix] if suffix else KINDS:
        low, high = TYPES[kind]
        if low <= number <= high:
            return Number(kind, number), at
    raise BadLine("suffix" if suffix else "number")


def past_blanks(line: str, at: int) -> int:
    """The place behind spaces and tabs."""
    found = BLANKS.match(line, at)
    return found.end() if found else at


Reader = Callable[[str, int], Tuple[Any, int]]


def read_bracketed(line: str, at: int, end: str, read_part: Reader) -> Tuple[List[Any], int]:
    """The parts from an opening bracket at `at` to the closing one, `end`, with commas between them."""
    parts: List[Any] = []
    at = past_blanks(line, at + 1)
    if line.startswith(end, at):
        return parts, at + 1
    while True:
        part, at = read_part(line, at)
        parts.append(part)
        at = past_blanks(line, at)
        if line.startswith(end, at):
            return parts, at + 1
        if not line.startswith(",", at):
            raise BadLine("brackets")
        at = past_blanks(line, at + 1)
        if line[at:at + 1] in (",", "]", "}"):
            raise BadLine("comma")


def read_key(line: str, at: int) -> Tuple[Key, int]:
    """A key of a map."""
    if line.startswith('"', at):
        text, at = read_text(line, at)
        return (2, text), at
    found = WORD.match(line, at)
    if found and isinstance(WORDS[found[0]], bool):
        return (0, WORDS[found[0]]), found.end()
    if line[at:at + 1] not in DIGITS:
        raise BadLine("key")
    number, at = read_number(line, at)
    return (1, number.number), at


def read_pair(line: str, at: int, level: int) -> Tuple[Tuple[Key, Value], int]:
    """A key and its value."""
    key, at = read_key(line, at)
    at = past_blanks(line, at)
    if not line.startswith(":", at):
        raise BadLine("brackets")
    value, at = read_literal(line, past_blanks(line, at + 1), level)
    return (key, value), at


def read_literal(line: str, at: int, level: int = 1) -> Tuple[Value, int]:
    """A literal; an array or a map that begins here would be at this level."""
    first = line[at:at + 1]
    if first in ("[", "{") and level > LEVELS:
        raise BadLine("levels")
    if first == "[":
        items, at = read_bracketed(line, at, "]", lambda line, at: read_literal(line, at, level + 1))
        return tuple(items), at
    if first == "{":
        pairs, at = read_bracketed(line, at, "}", lambda line, at: read_pair(line, at, level + 1))
        return dict(pairs), at
    if first in ('"', "s"):
        text, at = read_text(line, at + (first == "s"))
        return Text(text, first == "s"), at
    if first == "x":
        found, at = match(BYTES, line, at, "bytes")
        return bytes.fromhex(found[1]), at
    word = WORD.match(line, at)
    return (WORDS[word[0]], word.end()) if word else read_number(line, at)


def read_names_with_values(line: str, at: int) -> Tuple[Names, int]:
    """A map whose keys are all texts."""
    source, at = read_literal(line, at)
    if not isinstance(source, dict) or any(rank != 2 for rank, _ in source):
        raise BadLine("source")
    return {name: value for (_, name), value in source.items()}, at


# Meanings, order and text of values.


def key_of(value: Optional[Value]) -> Optional[Key]:
    """What of a value counts as a key, or nothing. Python's order of these is the order of keys."""
    if isinstance(value, bool):
        return (0, value)
    if isinstance(value, Number):
        return (1, value.number)
    if isinstance(value, Text):
        return (2, value.text)
    return None


def meaning(value: Value) -> Any:
    """Equal for equal values alone, and ordered as they are."""
    if key_of(value) is not None:
        return key_of(value)
    if is_array(value):
        return (3, tuple(map(meaning, value)))
    if isinstance(value, dict):
        return (4, tuple((key, meaning(value[key])) for key in sorted(value)))
    return (5, value) if isinstance(value, bytes) else (6,) if value is NONE else (7,)


def without_maps(value: Value) -> Any:
    """The meaning where all maps mean the same."""
    if is_array(value):
        return (3, tuple(map(without_maps, value)))
    return (4,) if isinstance(value, dict) else meaning(value)


def kind(value: Value) -> str:
    """The name of its kind."""
    if isinstance(value, Plain):
        return value.name
    if isinstance(value, Number):
        return value.kind
    return {bool: "bool", Text: "string", tuple: "array", dict: "map/struct", bytes: "bytes"}[type(value)]


def is_sized(value: Optional[Value]) -> bool:
    """Whether it has a length."""
    return type(value) in (Text, tuple, dict, bytes)


def size(value: Any) -> int:
    """The length of what has one."""
    return len(value.text) if isinstance(value, Text) else len(value)


def is_array(value: Optional[Value]) -> TypeGuard[Tuple[Value, ...]]:
    """Whether it is an array: a Text and a Number are tuples of Python too."""
    return type(value) is tuple


def order(left: Any, right: Any) -> str:
    """How two meanings stand, in the words of `cmp`."""
    return "less" if left < right else "greater" if left > right else "equal"


def partial_order(left: Value, right: Value) -> str:
    """The answer of `try_cmp`."""
    if is_array(left) and is_array(right):
        for one, other in zip(left, right):
            if partial_order(one, other) != "equal":
                return partial_order(one, other)
        return order(len(left), len(right))
    if meaning(left)[0] != meaning(right)[0] or isinstance(left, dict):
        return "undecided"
    return order(meaning(left), meaning(right))


def quoted_character(char: str) -> str:
    """Certain for ASCII; past it a few marks that extend a character, none of which the fuzz quotes, are missed."""
    for short, plain in SHORT_ESCAPES.items():
        if char == plain:
            return "\\" + short
    category = unicodedata.category(char)
    if char != " " and (category[0] in "CZ" or category in ("Mn", "Me")):
        return f"\\u{{{ord(char):x}}}"
    return char


def quoted(text: str) -> str:
    """A text as it stands inside an array."""
    return '"' + "".join(map(quoted_character, text)) + '"'


def printed(value: Value) -> str:
    """What `print` shows."""
    if isinstance(value, Text):
        return value.text
    if isinstance(value, Plain):
        return ""
    if isinstance(value, bytes):
        return value.decode("utf-8", "replace")
    if isinstance(value, dict):
        return "{" + ", ".join(f"{printed_key(key, quoted)}: {inside(one)}" for key, one in value.items()) + "}"
    if is_array(value):
        return "[" + ", ".join(map(inside, value)) + "]"
    key = key_of(value)
    assert key is not None  # a truth value or a number
    return printed_key(key)


def printed_key(key: Key, show_text: Callable[[str], str] = str) -> str:
    """What a key prints."""
    rank, value = key
    return show_text(value) if rank == 2 else str(value) if rank == 1 else truth(value)


def inside(value: Value) -> str:
    """How a value prints within an array or a map."""
    return quoted(value.text) if isinstance(value, Text) else printed(value)


def found(value: Optional[Value]) -> str:
    """The answer where a value is found, or nothing."""
    if value is None:
        return "nothing"
    return "value " + (value.name if isinstance(value, Plain) else inside(value))


def truth(value: Any) -> str:
    """The word of a truth value."""
    return "true" if value else "false"


# How a value is written.


def spelled_text(text: str) -> str:
    """A text as it is written in a line: what is plain stands for itself, all else by its number."""
    return '"' + "".join(map(spelled_character, text)) + '"'


def spelled_character(char: str) -> str:
    """A character as it is written in a text."""
    for short, plain in SHORT_ESCAPES.items():
        if char == plain:
            return "\\" + short
    return char if char.isprintable() else f"\\u{{{ord(char):x}}}"


def spelled_number(value: Number) -> str:
    """A number, with a suffix where it would be held in another kind without one."""
    own = next(kind for kind in KINDS if TYPES[kind][0] <= value.number <= TYPES[kind][1])
    return str(value.number) + (value.kind if value.kind and value.kind != own else "")


def spelled(value: Value) -> str:
    """A literal that says the value."""
    if isinstance(value, Text):
        return "s" * value.safe + spelled_text(value.text)
    if isinstance(value, Number):
        return spelled_number(value)
    if isinstance(value, bytes):
        return f'x"{value.hex()}"'
    if isinstance(value, dict):
        pairs = (f"{printed_key(key, spelled_text)}: {spelled(one)}" for key, one in value.items())
        return "{" + ", ".join(pairs) + "}"
    if is_array(value):
        return "[" + ", ".join(map(spelled, value)) + "]"
    return value.name if isinstance(value, Plain) else truth(value)


# The calls. What is found is a value, or None for nothing; every other call gives its answer as a str.


def put(names: Names, source: Names) -> str:
    """`set` and `extend`."""
    names.update(source)
    return "ok"


def marked(value: Value) -> Value:
    """`mark_safe NAME -> NAME`."""
    return Text(value.text, True) if isinstance(value, Text) else value


def path(value: Value, elements: str) -> Optional[Value]:
    """What a path leads to."""
    if value in (UNDEFINED, NONE):
        return value if value is NONE else None
    at: Optional[Value] = value
    for element in elements.split("."):
        digits = PLACE.fullmatch(element)
        place = decimal("", digits[1]) if digits else PLACE_MAX + 1
        if place <= PLACE_MAX:
            at = at[place] if is_array(at) and place < len(at) else None
        else:
            at = attr(at, element)
        if at is None:
            return None
    return at


def attr(value: Optional[Value], text: str) -> Optional[Value]:
    """What a map has at a text."""
    return value.get((2, text)) if isinstance(value, dict) else None


def item(value: Value, index: Value) -> Value:
    """What a map has at a key, an array or a text at an index."""
    if isinstance(value, dict):
        key = key_of(index)
        if key is None:
            raise Refused(f"Map keys must be strings, integers, or bools, got `{kind(index)}`.")
        return value.get(key, UNDEFINED)
    if not is_array(value) and not isinstance(value, Text):
        return UNDEFINED
    if not isinstance(index, Number):
        raise Refused(f"{'Array' if is_array(value) else 'String'} index must be an integer, got `{kind(index)}`.")
    place = index.number + (size(value) if index.number < 0 else 0)
    if not 0 <= place < size(value):
        return UNDEFINED
    return value[place] if is_array(value) else Text(value.text[place], value.safe)  # type: ignore[union-attr]


def slice_of(value: Value, start: Optional[int], end: Optional[int], step: Optional[int]) -> Value:
    """The items or characters from a start up to an end, by a step."""
    step = 1 if step is None else step
    if step == 0:
        raise Refused("Slicing step cannot be 0")
    if not is_array(value) and not isinstance(value, Text):
        raise Refused(f"Slicing can only be used on arrays or strings, not on `{kind(value)}`.")
    length = size(value)
    low, high = (0, length) if step > 0 else (-1, length - 1)

    def clamped(bound: Optional[int], default: int) -> int:
        if bound is None:
            return default
        return min(max(bound + length if bound < 0 else bound, low), high)

    first, last = (low, high) if step > 0 else (high, low)
    places = range(clamped(start, first), clamped(end, last), step)
    if is_array(value):
        return tuple(value[place] for place in places)
    assert isinstance(value, Text)
    return Text("".join(value.text[place] for place in places), value.safe)


def reverse(value: Value) -> Value:
    """Its parts in the opposite order."""
    if isinstance(value, Text):
        return Text(value.text[::-1], False)
    if is_array(value) or isinstance(value, bytes):
        return value[::-1]
    raise Refused(f"Value of type {kind(value)} cannot be reversed")


def contains(value: Value, needle: Value) -> str:
    """Whether it has the other as an item, a part or a key."""
    if is_array(value):
        return truth(any(meaning(one) == meaning(needle) for one in value))
    if isinstance(value, Text):
        return truth(isinstance(needle, Text) and needle.text in value.text)
    if isinstance(value, dict):
        return truth(key_of(needle) in value)
    raise Refused(f"`in` cannot be used on a container of type `{kind(value)}`."
                  " It can only be used on arrays, strings and map/structs")


def operand(value: Value) -> int:
    """The number of an operand of the six operators."""
    if not isinstance(value, Number):
        raise Refused(f"Only numbers can be used in arithmetic. This is a `{kind(value)}`")
    if value.number > INT_MAX:
        raise Refused(f"Operand `{value.number}` is out of range for integer arithmetic (must fit in i128)")
    return value.number


def power(base: int, exponent: int) -> int:
    """A power, or a number that no kind holds where it is one."""
    if not 0 <= exponent <= EXPONENT_MAX:
        raise Refused(f"Exponent {exponent} is out of range for integer ** (must fit in u32)")
    if abs(base) > 1:
        return int(base ** min(exponent, 200))  # beyond every kind from 128 on
    return base if exponent % 2 else base * base if exponent else 1


def divided(left: int, right: int) -> Tuple[int, int]:
    """Quotient and rest, which is never below 0."""
    if right == 0:
        raise Refused("Cannot divide by 0")
    quotient = left // abs(right) * (1 if right > 0 else -1)
    if quotient > INT_MAX:
        return INT_MAX + 1, INT_MAX + 1  # refused for the rest too
    return quotient, left - right * quotient


OPERATORS: Dict[str, Tuple[str, Callable[[int, int], int]]] = {
    "add": ("+", lambda left, right: left + right),
    "sub": ("-", lambda left, right: left - right),
    "mul": ("*", lambda left, right: left * right),
    "rem": ("%", lambda left, right: divided(left, right)[1]),
    "floor_div": ("//", lambda left, right: divided(left, right)[0]),
    "pow": ("**", power),
}


def binary(word: str) -> Call:
    """The call of an operator."""
    sign, compute = OPERATORS[word]

    def call(left: Value, right: Value) -> Number:
        first, second = operand(left), operand(right)
        number = compute(first, second)
        if not INT_MIN <= number <= INT_MAX:
            raise Refused(f"Unable to perform {first} {sign} {second}")
        return Number("i128", number)

    return call


def negate(value: Value) -> Number:
    """The integer with the other sign."""
    if not isinstance(value, Number):
        raise Refused(f"Only numbers can be negated. This is a `{kind(value)}`")
    if not INT_MIN < value.number <= INT_MAX:
        raise Refused(f"Cannot negate {value.number}: result would overflow i128")
    return Number("i128", -value.number)


def read(type_name: str, value: Value) -> Number:
    """The integer in the kind to which a type of Rust converts."""
    if not isinstance(value, Number):
        raise Refused(f"Invalid type for the value, expected `{type_name}` but got `{kind(value)}`")
    low, high = TYPES[type_name]
    if not low <= value.number <= high:
        raise Refused(f"Value `{value.number}` is out of range for `{type_name}`")
    return Number(type_name if type_name in KINDS else type_name[0] + "64", value.number)


def is_truthy(value: Value) -> bool:
    """Whether it counts as true."""
    if is_sized(value):
        return size(value) > 0
    return value.number != 0 if isinstance(value, Number) else value is True


def is_safe(value: Value) -> bool:
    """Whether it is shown as it is."""
    return value.safe if isinstance(value, Text) else not is_sized(value)


def printed_keys(value: Value) -> List[str]:
    """What the keys of a map print, in the order of its pairs."""
    return [printed_key(key) for key in value] if isinstance(value, dict) else []


def listed(texts: List[str]) -> str:
    """Texts as `walk` and `fields` list them."""
    return "[" + ", ".join(map(quoted, texts)) + "]"


HTML = {ord("&"): "&amp;", ord("<"): "&lt;", ord(">"): "&gt;", ord('"'): "&quot;", ord("'"): "&#39;"}


def escaped(text: str) -> str:
    """A text for HTML."""
    return text.translate(HTML)


# Operands of a call, a letter each: C the names themselves, taking no word of the line; n a name; v a name that stands
# for its value. A `>` at the end: `-> NAME` may follow.
READERS: Dict[str, Reader] = {"n": read_name, "v": read_name, "t": read_text, "b": read_bound, "y": read_type, "l": read_literal,
           "m": read_names_with_values}
CALLS: Dict[str, Tuple[str, Call]] = {
    "set": ("Cnl", lambda names, name, value: put(names, {name: value})),
    "extend": ("Cm", put),
    "remove": ("Cn", lambda names, name: names.pop(name, None)),
    "has": ("Cn", lambda names, name: truth(name in names)),
    "get": ("Cn>", lambda names, name: names.get(name)),
    "path": ("vt>", path),
    "attr": ("vt>", attr),
    "item": ("vv>", item),
    "slice": ("vbbb>", slice_of),
    "reverse": ("v>", reverse),
    "contains": ("vv", contains),
    "len": ("v", lambda value: f"size {size(value)}" if is_sized(value) else "nothing"),
    "truthy": ("v", lambda value: truth(is_truthy(value))),
    "fields": ("v", lambda value: "fields " + listed(sorted(set(printed_keys(value))))),
    "walk": ("v", lambda value: "walk " + listed(printed_keys(value))),
    **{word: ("vv>", binary(word)) for word in OPERATORS},
    "negate": ("v>", negate),
    "eq": ("vv", lambda left, right: truth(meaning(left) == meaning(right))),
    "cmp": ("vv", lambda left, right: order(meaning(left), meaning(right))),
    "try_cmp": ("vv", partial_order),
    "print": ("v", lambda value: "text " + printed(value)),
    "escape": ("v", lambda value: "text " + escaped(printed(value))),
    "read": ("yv>", read),
    "mark_safe": ("v>", marked),
    "kind": ("v", lambda value: "kind " + kind(value)),
    "is_safe": ("v", lambda value: truth(is_safe(value))),
}


def in_key_order(value: Value) -> Value:
    """The value with the pairs of each map in the order of their keys."""
    if is_array(value):
        return tuple(map(in_key_order, value))
    return {key: in_key_order(value[key]) for key in sorted(value)} if isinstance(value, dict) else value


def calls_of(dialect: Dialect) -> Dict[str, Tuple[str, Call]]:
    """The table of calls of a dialect."""
    calls = dict(CALLS)
    if dialect.maps_by_key:
        calls["set"] = ("Cnl", lambda names, name, value: put(names, {name: in_key_order(value)}))
        calls["extend"] = ("Cm", lambda names, source: put(names, {name: in_key_order(source[name]) for name in source}))
    if dialect.maps_weigh_equal:
        calls["cmp"] = ("vv", lambda left, right: order(without_maps(left), without_maps(right)))
    return calls


# Lines and scripts.


def next_word(line: str, at: int, reader: Reader) -> Tuple[Any, int]:
    """What the reader reads behind at least one blank."""
    start = past_blanks(line, at)
    if start == at:
        raise BadLine("behind" if at < len(line) else "operands")
    return reader(line, start)


def read_arrow(line: str, at: int) -> Tuple[None, int]:
    """The arrow before a name for what is found."""
    if not line.startswith("->", at):
        raise BadLine("operands")
    return None, at + 2


def read_call(line: str) -> Tuple[str, List[Any], Optional[str]]:
    """The word of the call, its operands as they stand in the line, and the name after the arrow or None."""
    line = line.strip(" \t")
    found, at = match(NAME, line, 0, "call")
    word = found[0]
    if word not in CALLS:
        raise BadLine("call")
    form = CALLS[word][0]
    operands = []
    for letter in form.strip("C>"):
        one, at = next_word(line, at, READERS[letter])
        operands.append(one)
    into = None
    if form.endswith(">") and at < len(line):
        _, at = next_word(line, at, read_arrow)
        into, at = next_word(line, at, read_name)
    if at < len(line):
        raise BadLine("behind" if line[at] not in " \t" else "arrow" if line[at:].strip(" \t").startswith("->") else "operands")
    return word, operands, into


def step(names: Names, line: str, calls: Dict[str, Tuple[str, Call]] = CALLS) -> str:
    """Does the call of a line that is not skipped; gives its answer without the line feed."""
    word, operands, into = read_call(line)
    form, call = calls[word]
    if word == "mark_safe" and into is None:
        into = operands[0]
        if into not in names:
            return "ok"
    given = [names.get(one, UNDEFINED) if letter == "v" else one for letter, one in zip(form.strip("C>"), operands)]
    try:
        answer = call(names, *given) if form[0] == "C" else call(*given)
    except Refused as refusal:
        return f"error: {refusal}"
    if isinstance(answer, str):
        return answer
    if into is None or answer is None:
        return found(answer)
    names[into] = answer
    return "ok"


def lines_of(script: bytes) -> List[bytes]:
    """The lines of a script without their ends."""
    *lines, last = script.split(b"\n")
    return [line.removesuffix(b"\r") for line in lines] + ([last] if last else [])


def is_skipped(line: bytes) -> bool:
    """Whether the line is empty or a comment."""
    return line.strip(b" \t")[:1] in (b"", b"#")


def decoded(line: bytes) -> str:
    """The line as text."""
    try:
        return line.decode()
    except UnicodeDecodeError:
        raise BadLine("utf8") from None


def report(number: int, line: bytes) -> bytes:
    """The report of a bad line, which is the one of this number in its script."""
    try:
        text = line.decode()
    except UnicodeDecodeError:
        text = ""
    lines = ["error: bad line", " --> line %d:1:1" % number, "  |", "1 | " + text, "  | " + "^" * max(len(text), 1)]
    return ("\n".join(lines) + "\n").encode()


class Session:
    """A run of lines, one by one. `names` is what the names hold; it may be read, and written."""

    def __init__(self, dialect: Dialect = LANGUAGE) -> None:
        self.names: Names = {}
        self._calls = calls_of(dialect)

    def answer(self, line: Union[str, bytes]) -> Optional[str]:
        """The answer to a line without its end, which has no line feed behind it; None where the line is skipped.

        Raises BadLine, and changes nothing, where the line is bad."""
        given = line.encode() if isinstance(line, str) else line
        if is_skipped(given) and b"\n" not in given:
            return None
        if b"\n" in given:
            raise BadLine("end")
        return step(self.names, decoded(given), self._calls)


def run(lines: Iterable[Union[str, bytes]], dialect: Dialect = LANGUAGE) -> List[str]:
    """The answers to lines without their ends, one for each that says a call. A skipped line has none, and a bad line
    ends the run."""
    session = Session(dialect)
    answers: List[str] = []
    for line in lines:
        try:
            answer = session.answer(line)
        except BadLine:
            break
        if answer is not None:
            answers.append(answer)
    return answers


def replay(script: bytes, dialect: Dialect = LANGUAGE) -> Replay:
    """What a program does with a script."""
    session = Session(dialect)
    answers: List[str] = []
    for number, line in enumerate(lines_of(script), 1):
        try:
            answer = session.answer(line)
        except BadLine:
            return Replay("".join(answers).encode(), report(number, line), 2)
        if answer is not None:
            answers.append(answer + "\n")
    return Replay("".join(answers).encode(), b"", 0)


def add_switches(parser: argparse.ArgumentParser) -> None:
    """The switches of a dialect."""
    parser.add_argument("--maps-by-key", action="store_true", help="a map's pairs stand in the order of their keys")
    parser.add_argument("--maps-weigh-equal", action="store_true", help="`cmp` calls any two maps equal")


def main() -> int:
    """Answers the script on standard input; returns the status."""
    parser = argparse.ArgumentParser(description="Answers the script on standard input.")
    add_switches(parser)
    given = parser.parse_args()
    out, err, status = replay(sys.stdin.buffer.read(), Dialect(given.maps_by_key, given.maps_weigh_equal))
    sys.stdout.buffer.write(out)
    sys.stderr.buffer.write(err)
    return int(status)


if __name__ == "__main__":
    sys.exit(main())
