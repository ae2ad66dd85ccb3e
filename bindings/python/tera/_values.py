"""Values that Python itself has not, and the types of all of them."""
from __future__ import annotations

from typing import Any, Dict, List, Protocol, Tuple, Union


class UndefinedType:
    """The type of `Undefined`, which is its one value."""

    __slots__ = ()

    def __new__(cls) -> UndefinedType:
        return Undefined

    def __repr__(self) -> str:
        return "Undefined"

    def __bool__(self) -> bool:
        return False

    def __copy__(self) -> UndefinedType:
        return self

    def __deepcopy__(self, memo: Any) -> UndefinedType:
        return self

    def __reduce__(self) -> str:
        return "Undefined"


# What a template sees where nothing is: another value than None.
Undefined: UndefinedType = object.__new__(UndefinedType)


class HasHtml(Protocol):
    """What says of itself how it stands in HTML."""

    def __html__(self) -> str:
        """Its HTML."""


class Safe(str):
    """A text that is marked safe: it is shown as it is, and not escaped. It equals the `str` of the same characters.

    >>> escape(Safe("<b>"))
    Safe('<b>')
    """

    __slots__ = ()

    def __html__(self) -> Safe:
        return self

    def __repr__(self) -> str:
        return f"Safe({super().__repr__()})"


Key = Union[str, int, bool]


class Pairs(List[Tuple[Key, Any]]):
    """A map as a list of its pairs. A session gives one where no `dict` holds the keys, as `True` beside `1` or `False` beside
    `0`, and takes any.

    >>> with Session() as names:
    ...     names["odd"] = Pairs([(True, "a"), (1, "b")])
    ...     names["odd"]
    Pairs([(True, 'a'), (1, 'b')])
    """

    __slots__ = ()

    def __repr__(self) -> str:
        return f"Pairs({super().__repr__()})"


# What goes in. What comes out is typed `Any`, as what `json.loads` gives.
Value = Union[None, UndefinedType, bool, int, str, bytes, List[Any], Tuple[Any, ...], Dict[Any, Any]]
