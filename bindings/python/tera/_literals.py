"""Values as literals of the script language (docs/SCRIPT.md), written and read."""
from __future__ import annotations

import re
from typing import Any, Callable, Dict, Iterable, List, Match, Optional, Sequence, Set, Tuple, Type, Union

from ._errors import HoldsItself, LoneSurrogate, NotAKey, NotAValue, OutOfRange, TooDeep, Unfit
from ._values import Key, Pairs, Safe, Undefined, UndefinedType, Value

LEVELS = 64
LEAST, GREATEST = -2**127, 2**128 - 1

# ---- written

ESCAPED = re.compile('["\\\\\x00-\x1f\x7f]')
SHORT = {'"': '\\"', "\\": "\\\\", "\n": "\\n", "\r": "\\r", "\t": "\\t", "\0": "\\0"}


def literal_of(value: Value) -> str:
    """The literal of a value. It holds no line feed.

    >>> literal_of({"title": "A & B", "ports": [80, 443]})
    '{"title": "A & B", "ports": [80, 443]}'
    """
    return _Writer().literal(value)


def quoted(text: str) -> str:
    """A text as it is written, with its quotes."""
    try:
        text = str.__str__(text)  # a class below `str` may have other methods
    except TypeError:
        raise no_text(text) from None
    if not text.isascii():
        utf8(text)
    return f'"{ESCAPED.sub(_escape, text)}"'


def _escape(found: Match[str]) -> str:
    char = found[0]
    return SHORT.get(char) or f"\\u{{{ord(char):x}}}"


def utf8(text: str) -> bytes:
    """The text as UTF-8, where it has no lone surrogate."""
    try:
        return str.encode(text)
    except TypeError:
        raise no_text(text) from None
    except UnicodeEncodeError as fault:
        raise LoneSurrogate(f"character {fault.start} of a text is a lone surrogate, which no UTF-8 has: take it out") from None


def no_text(given: object) -> NotAValue:
    """What is raised where this stands for a text."""
    return NotAValue(f"a {type(given).__name__} is no text: it has to be a str")


def raw(given: bytes) -> bytes:
    """The bytes, where these are such."""
    if not isinstance(given, bytes):
        raise NotAValue(f"a {type(given).__name__} is no bytes: `str.encode` makes them of a text")
    return given


def number(value: int, greatest: int = GREATEST) -> str:
    """An integer in digits, where it is in range."""
    value = int.__index__(value)
    if not LEAST <= value <= greatest:
        raise OutOfRange(f"the integer is not from -2**127 to 2**{greatest.bit_length()} - 1")
    return str(value)


def _key(key: Any) -> str:
    if isinstance(key, str):
        return quoted(key)
    if isinstance(key, bool):
        return "true" if key else "false"
    if isinstance(key, int):
        return number(key)
    raise NotAKey(f"a key is a str, an int or a bool, and no {type(key).__name__}")


class _Writer:
    """Writes one value; it knows which lists and dicts are open around the one at hand."""

    def __init__(self) -> None:
        self._open: Set[int] = set()

    def literal(self, value: Any) -> str:
        """The literal of a value of whatever type."""
        writer = WRITERS.get(type(value)) or _writer_of(type(value))
        return writer(self, value)

    def array(self, items: Sequence[Any]) -> str:
        """The literal of an array."""
        self._enter(items)
        parts: List[str] = []
        try:
            for item in items:
                parts.append(self.literal(item))
        except Unfit as fault:
            fault.inside(len(parts))
            raise
        self._open.discard(id(items))
        return f"[{', '.join(parts)}]"

    def map(self, held: object, pairs: Iterable[Tuple[Any, Any]]) -> str:
        """The literal of a map of these pairs, which this object holds."""
        self._enter(held)
        parts: List[str] = []
        for key, value in pairs:
            spelled = _key(key)
            try:
                parts.append(f"{spelled}: {self.literal(value)}")
            except Unfit as fault:
                fault.inside(key)
                raise
        self._open.discard(id(held))
        return f"{{{', '.join(parts)}}}"

    def _enter(self, held: object) -> None:
        if id(held) in self._open:
            raise HoldsItself(f"the {type(held).__name__} holds itself")
        if len(self._open) == LEVELS:
            raise TooDeep(f"more than {LEVELS} lists and dicts stand one inside another")
        self._open.add(id(held))


def _pair(given: Any) -> Tuple[Any, Any]:
    if not isinstance(given, tuple) or len(given) != 2:
        raise NotAValue("what Pairs hold is a tuple of a key and a value")
    key, value = given
    return key, value


def html_of(value: Any) -> Optional[str]:
    """What a thing is as HTML, by the method that other modules have too; or None."""
    if type(value) is str or not hasattr(value, "__html__"):
        return None
    html = value.__html__()
    if not isinstance(html, str):
        raise NotAValue(f"`__html__` answers a {type(html).__name__} and no str")
    return str.__str__(html)


def _text(value: str) -> str:
    """The literal of a text of a class below `str`."""
    html = html_of(value)
    return quoted(value) if html is None else f"s{quoted(html)}"


Write = Callable[[_Writer, Any], str]
# How values of each type are written. A type below one of them is written as the first that it stands below.
WRITERS: Dict[Type[Any], Write] = {
    type(None): lambda writer, value: "none",
    UndefinedType: lambda writer, value: "undefined",
    bool: lambda writer, value: "true" if value else "false",
    int: lambda writer, value: number(value),
    Safe: lambda writer, value: f"s{quoted(value)}",
    str: lambda writer, value: quoted(value),
    bytes: lambda writer, value: f'x"{value.hex()}"',
    Pairs: lambda writer, value: writer.map(value, map(_pair, value)),
    list: lambda writer, value: writer.array(value),
    tuple: lambda writer, value: writer.array(value),
    dict: lambda writer, value: writer.map(value, value.items()),
}


def _writer_of(kind: Type[Any]) -> Write:
    """How values of a type below a known one are written."""
    if issubclass(kind, str):
        return lambda writer, value: _text(value)
    for known, write in WRITERS.items():
        if issubclass(kind, known):
            return write
    raise NotAValue(f"a {kind.__name__} is no value: these are None, Undefined, bool, int, str, bytes, list, tuple and dict")


# ---- read

# what stands between blanks, commas and colons
TOKEN = re.compile(r'[][{}]|[sx]?"[^"\\]*(?:\\.[^"\\]*)*"|-?[0-9]+(?:[ui][0-9]+)?|[a-z]+')
WORDS: Dict[str, Any] = {"undefined": Undefined, "none": None, "true": True, "false": False}
SUFFIX = re.compile("[ui][0-9]+")
ESCAPE = re.compile(r"\\(?:u\{([0-9A-Fa-f]{1,6})\}|(.))")
PLAIN = {short[1]: char for char, short in SHORT.items()}


def value_of(literal: str) -> Any:
    """The value of a literal that the library writes. The kinds of its integers are not kept.

    >>> value_of('[1u64, s"<b>", {true: undefined}, x"ff"]')
    [1, Safe('<b>'), {True: Undefined}, b'\\xff']
    """
    if literal[0] not in "[{":
        return _plain(literal)
    outer: List[List[Any]] = []
    parts: List[Any] = []  # those of the array or the map at hand: of a map keys and values in turn
    for token in TOKEN.findall(literal):
        if token == "[" or token == "{":
            outer.append(parts)
            parts = []
        elif token == "]" or token == "}":
            made = parts if token == "]" else _map_of(parts)
            parts = outer.pop()
            parts.append(made)
        else:
            parts.append(_plain(token))
    [value] = parts
    return value


def _plain(token: str) -> Any:
    """The value of a token that is no bracket."""
    first = token[0]
    if first == '"':
        return _unescaped(token[1:-1])
    if first == "s":
        return Safe(_unescaped(token[2:-1]))
    if first == "x":
        return bytes.fromhex(token[2:-1])
    if token in WORDS:
        return WORDS[token]
    return int(token) if "u" not in token and "i" not in token else int(SUFFIX.sub("", token))


def _unescaped(text: str) -> str:
    return ESCAPE.sub(_character, text) if "\\" in text else text


def _character(found: Match[str]) -> str:
    return chr(int(found[1], 16)) if found[1] else PLAIN[found[2]]


def _map_of(parts: List[Any]) -> Union[Dict[Key, Any], Pairs]:
    """The map of keys and values in turn. The library tells the keys apart."""
    held = dict(zip(parts[::2], parts[1::2]))
    return held if 2 * len(held) == len(parts) else Pairs(zip(parts[::2], parts[1::2]))
