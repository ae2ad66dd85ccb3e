"""The calls of the language (docs/SCRIPT.md) as methods."""
from __future__ import annotations

from typing import Any, Callable, List, Optional, overload

from ._errors import NotAValue
from ._handle import Handle, name_of
from ._library import filled, library
from ._literals import number, quoted, value_of
from ._values import Safe

KEPT_ROOM = 1 << 16  # bytes that a session keeps for what it delivers
GREATEST_BOUND = 2**127 - 1
ORDER = {"less": -1, "equal": 0, "greater": 1}


class Calls(Handle):
    """The calls of a session, which take names and give what Python has for their answers.

    A name that is not there reads as undefined. What a call finds is given; or with `into` it is kept under that name, and
    nothing is given. A refusal is raised as `Refused`, with its text."""

    # ---- two names

    def eq(self, left: str, right: str) -> bool:
        """Whether both mean the same: neither kinds of integers nor marks count, nor the order of pairs."""
        return self._is("eq", left, right)

    def cmp(self, left: str, right: str) -> int:
        """The total order: -1, 0 or 1."""
        return ORDER[self._ask("cmp", name_of(left), name_of(right))]

    def try_cmp(self, left: str, right: str) -> Optional[int]:
        """The partial order: -1, 0, 1, or None where it is undecided."""
        return ORDER.get(self._ask("try_cmp", name_of(left), name_of(right)))

    def contains(self, name: str, needle: str) -> bool:
        """Whether an array has an item, a text a part, a map a key."""
        return self._is("contains", name, needle)

    # ---- one name

    def kind(self, name: str) -> str:
        """Its kind: undefined, none, bool, u64, i64, u128, i128, string, bytes, array or map/struct."""
        return self._said("kind", name)

    def truthy(self, name: str) -> bool:
        """Whether it counts as true."""
        return self._is("truthy", name)

    def is_safe(self, name: str) -> bool:
        """Whether it is shown as it is."""
        return self._is("is_safe", name)

    def len(self, name: str) -> Optional[int]:
        """The number of its characters, items, pairs or bytes, or None where it has no length."""
        answer = self._ask("len", name_of(name))
        return None if answer == "nothing" else int(answer[len("size "):])

    def print(self, name: str) -> str:
        """The text that it prints."""
        return self._said("print", name, "text")

    def escape(self, name: str) -> Safe:
        """The same escaped for HTML, whatever its mark."""
        return Safe(self._said("escape", name, "text"))

    def fields(self, name: str) -> List[str]:
        """What the keys of a map print, each once and in the order of their bytes."""
        return self._listed("fields", name)

    def walk(self, name: str) -> List[str]:
        """What the keys of a map print, one for each pair and in their order."""
        return self._listed("walk", name)

    def mark_safe(self, name: str, *, into: Optional[str] = None) -> None:
        """Marks a text safe in its place, or keeps a marked copy."""
        self._ask("mark_safe", name_of(name), *(["->", name_of(into)] if into is not None else []))

    # ---- what is found

    def path(self, name: str, path: str, *, into: Optional[str] = None) -> Any:
        """What a path leads to, whose elements stand between dots: places of arrays, or text keys of maps. KeyError: nothing.

        >>> with Session() as names:
        ...     names["cfg"] = {"title": "A & B", "ports": [80, 443]}
        ...     names.path("cfg", "ports.1")
        443
        """
        return self._find(into, "path", name_of(name), quoted(path))

    def attr(self, name: str, key: str, *, into: Optional[str] = None) -> Any:
        """What a map has at a text. KeyError: nothing."""
        return self._find(into, "attr", name_of(name), quoted(key))

    def item(self, name: str, index: str, *, into: Optional[str] = None) -> Any:
        """What a map has at a key, an array or a text at an index; below 0 from the end. Both are names."""
        return self._find(into, "item", name_of(name), name_of(index))

    def slice(self, name: str, start: Optional[int] = None, stop: Optional[int] = None, step: Optional[int] = None, *,
              into: Optional[str] = None) -> Any:
        """The items or characters from a start up to an end, which is left out, by a step."""
        return self._find(into, "slice", name_of(name), _bound(start), _bound(stop), _bound(step))

    def reverse(self, name: str, *, into: Optional[str] = None) -> Any:
        """Items, characters or bytes in the opposite order."""
        return self._find(into, "reverse", name_of(name))

    # ---- numbers

    @overload
    def add(self, left: str, right: str) -> int: ...
    @overload
    def add(self, left: str, right: str, *, into: str) -> None: ...
    def add(self, left: str, right: str, *, into: Optional[str] = None) -> Optional[int]:
        """The sum of two integers, exactly."""
        return self._number(into, "add", name_of(left), name_of(right))

    @overload
    def sub(self, left: str, right: str) -> int: ...
    @overload
    def sub(self, left: str, right: str, *, into: str) -> None: ...
    def sub(self, left: str, right: str, *, into: Optional[str] = None) -> Optional[int]:
        """Their difference."""
        return self._number(into, "sub", name_of(left), name_of(right))

    @overload
    def mul(self, left: str, right: str) -> int: ...
    @overload
    def mul(self, left: str, right: str, *, into: str) -> None: ...
    def mul(self, left: str, right: str, *, into: Optional[str] = None) -> Optional[int]:
        """Their product."""
        return self._number(into, "mul", name_of(left), name_of(right))

    @overload
    def rem(self, left: str, right: str) -> int: ...
    @overload
    def rem(self, left: str, right: str, *, into: str) -> None: ...
    def rem(self, left: str, right: str, *, into: Optional[str] = None) -> Optional[int]:
        """The rest of the Euclidean division, which is never below 0."""
        return self._number(into, "rem", name_of(left), name_of(right))

    @overload
    def floor_div(self, left: str, right: str) -> int: ...
    @overload
    def floor_div(self, left: str, right: str, *, into: str) -> None: ...
    def floor_div(self, left: str, right: str, *, into: Optional[str] = None) -> Optional[int]:
        """The quotient of the Euclidean division."""
        return self._number(into, "floor_div", name_of(left), name_of(right))

    @overload
    def pow(self, left: str, right: str) -> int: ...
    @overload
    def pow(self, left: str, right: str, *, into: str) -> None: ...
    def pow(self, left: str, right: str, *, into: Optional[str] = None) -> Optional[int]:
        """The first to the power of the second."""
        return self._number(into, "pow", name_of(left), name_of(right))

    @overload
    def negate(self, name: str) -> int: ...
    @overload
    def negate(self, name: str, *, into: str) -> None: ...
    def negate(self, name: str, *, into: Optional[str] = None) -> Optional[int]:
        """The integer with the other sign."""
        return self._number(into, "negate", name_of(name))

    @overload
    def read(self, type_name: str, name: str) -> int: ...
    @overload
    def read(self, type_name: str, name: str, *, into: str) -> None: ...
    def read(self, type_name: str, name: str, *, into: Optional[str] = None) -> Optional[int]:
        """The integer, where an integer type of Rust holds it, as `u8`."""
        return self._number(into, "read", name_of(type_name), name_of(name))

    # ---- how they are asked

    def _is(self, word: str, *names: str) -> bool:
        return self._ask(word, *map(name_of, names)) == "true"

    def _said(self, word: str, name: str, before: str = "") -> str:
        return self._ask(word, name_of(name))[len(before or word) + 1:]

    def _listed(self, word: str, name: str) -> List[str]:
        listed: List[str] = value_of(self._said(word, name))
        return listed

    def _number(self, into: Optional[str], word: str, *operands: str) -> Optional[int]:
        if into is not None:
            self._keep(into, word, *operands)
            return None
        return int(self._ask(word, *operands)[len("value "):])

    def _find(self, into: Optional[str], word: str, *operands: str) -> Any:
        """What a call finds, which is kept under a name, or under one that is free until it is read."""
        if into is not None:
            self._keep(into, word, *operands)
            return None
        spare = "_"
        while self._asked(library.tera_has, spare):
            spare += "_"
        try:
            self._keep(spare, word, *operands)
            return value_of(self._delivered(library.tera_get, spare))
        finally:
            self._asked(library.tera_remove, spare)

    def _keep(self, into: str, word: str, *operands: str) -> None:
        if self._ask(word, *operands, "->", name_of(into)) == "nothing":
            raise KeyError(" ".join((word, *operands)))

    # ---- one name, by a call of its own

    def _asked(self, call: Callable[..., int], name: object) -> bool:
        """Whether a name is there, by a call that takes it alone."""
        self._look()
        given = _utf8_of(name)
        return self._is_there(call(self._held, given, len(given)))

    def _delivered(self, call: Callable[..., int], *name: str) -> str:
        """The text that a call delivers, which takes a name or none. KeyError: there is no such name."""
        self._look()
        given = [it for each in map(_utf8_of, name) for it in (each, len(each))]
        status, room, length = filled(self._room, lambda *held: call(self._held, *given, *held))
        if room.size <= KEPT_ROOM:
            self._room = room
        if not self._is_there(status):
            raise KeyError(*name)
        return room.text(length)


def _utf8_of(name: object) -> bytes:
    """A name to look up, as UTF-8. KeyError: what is no such text is no name of a session."""
    try:
        return str.encode(name)  # type: ignore[arg-type]
    except (TypeError, UnicodeEncodeError):
        raise KeyError(name) from None


def _bound(given: Optional[int]) -> str:
    if given is not None and not isinstance(given, int):
        raise NotAValue(f"a {type(given).__name__} is no bound of a slice: it has to be an int or None")
    return "_" if given is None else number(given, GREATEST_BOUND)
