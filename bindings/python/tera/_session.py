"""A session as a mapping of names."""
from __future__ import annotations

from typing import Any, Iterator, Mapping, MutableMapping, Optional

from ._calls import Calls
from ._errors import NotAName
from ._handle import name_of
from ._library import library
from ._literals import literal_of, utf8, value_of
from ._values import Safe, Value


class Session(Calls, MutableMapping[str, Any]):
    """Names and what they mean, as a mapping, on the thread that opened it. `close` frees what it holds. Names and keys are hashed
    under random bytes.

    >>> with Session() as names:
    ...     names["cfg"] = {"title": "A & B", "ports": [80, 443]}
    ...     names["cfg"]
    ...     names["none"] = None
    ...     names["none"] is None, "nothing" in names, list(names)
    {'title': 'A & B', 'ports': [80, 443]}
    (True, False, ['cfg', 'none'])
    >>> names["cfg"]
    Traceback (most recent call last):
        ...
    ValueError: the session is closed

    In go `None`, `Undefined`, `bool`, `int`, `str`, `Safe` or any other text with `__html__`, `bytes`, `list`, `tuple`, `dict` and
    `Pairs`. The same comes out: a tuple as a list, a key that is marked safe as a `str`, and `Pairs` as a `dict` where one holds
    them. Kinds of integers are not kept: an integer goes in by the least kind that holds it.

    What is no value is raised, each by its own class: `NotAValue`, as for a float; `OutOfRange`, for an integer below -2**127 or
    above 2**128 - 1; `LoneSurrogate`; `NotAKey`; `HoldsItself`; `TooDeep`, for more than 64 levels; `NotAName`. Nothing has
    changed then. What is not there is a `KeyError`."""

    def __getitem__(self, name: str) -> Any:
        return value_of(self._delivered(library.tera_get, name))

    def __setitem__(self, name: str, value: Value) -> None:
        if type(value) is str or type(value) is Safe:
            self.set_text(name, value, safe=type(value) is Safe)
            return
        self._set(library.tera_set, name, literal_of(value))

    def __delitem__(self, name: str) -> None:
        if not self._asked(library.tera_remove, name):
            raise KeyError(name)

    def __iter__(self) -> Iterator[str]:
        return iter(self._delivered(library.tera_names).split("\n")[:-1])

    def __len__(self) -> int:
        return self._delivered(library.tera_names).count("\n")

    def __contains__(self, name: object) -> bool:
        try:
            return self._asked(library.tera_has, name)
        except KeyError:
            return False

    def __repr__(self) -> str:
        return f"<tera.Session, {'open' if self._held else 'closed'}>"

    def has(self, name: str) -> bool:
        """Whether the name is there, also where it holds undefined."""
        return name in self

    def get(self, name: str, default: Any = None, *, into: Optional[str] = None) -> Any:
        """What it holds, or the default where it is not there. With `into` it is kept under a second name, and KeyError says
        that it is not there."""
        if into is not None:
            self._keep(into, "get", name_of(name))
            return None
        try:
            return self[name]
        except KeyError:
            return default

    def set(self, name: str, value: Value) -> None:
        """Keeps a value under a name, as `names[name] = value` does."""
        self[name] = value

    def extend(self, values: Mapping[str, Value]) -> None:
        """Keeps each value under the text of its key, or none of them. The map counts as a level."""
        for name in values:
            if not isinstance(name, str):
                raise NotAName(f"{name!r} is no text")
        self._ask("extend", literal_of(dict(values)))

    def remove(self, name: str) -> Any:
        """Takes the name away, and gives what it held. KeyError: it is not there."""
        return self.pop(name)

    def set_text(self, name: str, text: str, safe: bool = False) -> None:
        """Keeps a text, marked safe or not."""
        self._set(library.tera_set_text, name, text, safe)

    def set_json(self, name: str, text: str) -> None:
        """Keeps the value of a text of JSON: null as None, integers alone of all numbers. Refused: it is none.

        >>> with Session() as names:
        ...     names.set_json("cfg", '{"ports": [80, 443]}')
        ...     names["cfg"], names.get_json("cfg")
        ({'ports': [80, 443]}, '{"ports":[80,443]}')
        """
        self._set(library.tera_set_json, name, text)

    def get_json(self, name: str) -> str:
        """What it holds as JSON. Refused: that holds bytes or undefined, or two keys would be one text. KeyError: it is not
        there."""
        return self._delivered(library.tera_get_json, name)

    def save(self) -> str:
        """The session as a script, a line of `set` for each name, which `line` takes one by one."""
        return self._delivered(library.tera_save)

    def _set(self, call: Any, name: str, text: str, *more: int) -> None:
        """Sets a name by a call that takes a text."""
        self._look()
        given, text_given = name_of(name).encode(), utf8(text)
        self._is_there(call(self._held, given, len(given), text_given, len(text_given), *more))

