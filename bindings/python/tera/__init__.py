r"""The values of the template engine Tera, over the library that ./bindings/build makes: Python's values go in and come out, and
each call of the script language (docs/SCRIPT.md) is a method.

    >>> with Session() as names:
    ...     names["cfg"] = {"title": "<b>A & B</b>", "ports": [80, 443]}
    ...     names["cfg"]["ports"]
    ...     names.path("cfg", "title", into="title")
    ...     print(names.escape("title"))
    ...     names.line("get title")
    [80, 443]
    &lt;b&gt;A &amp; B&lt;/b&gt;
    'value "<b>A & B</b>"\n'
    >>> escape("<b>")
    Safe('&lt;b&gt;')

The library is libtera.so beside this module, as an installed one has it, or else in out/ of this repository; or the file that the
variable TERA_LIBRARY names.
"""
from ._errors import (BadLine, HoldsItself, LoneSurrogate, NoReply, NotAKey, NotAName, NotAValue, OutOfRange, Refused, TeraError,
                      TooDeep, Unfit)
from ._interface import BAD, CLOSED, DONE, MISSING, NO_MEMORY, NO_REPLY, OPEN, REFUSED, SMALL, WANTED
from ._library import Replayed, escape, load, replay
from ._session import Session
from ._values import HasHtml, Key, Pairs, Safe, Undefined, UndefinedType, Value
from ._version import __version__

__all__ = [
    "BAD", "CLOSED", "DONE", "MISSING", "NO_MEMORY", "NO_REPLY", "OPEN", "REFUSED", "SMALL", "WANTED",
    "BadLine", "HasHtml", "HoldsItself", "Key", "LoneSurrogate", "NoReply", "NotAKey", "NotAName", "NotAValue", "OutOfRange", "Pairs",
    "Refused", "Replayed", "Safe", "Session", "TeraError", "TooDeep", "Undefined", "UndefinedType", "Unfit", "Value", "__version__",
    "escape", "load", "replay",
]

# classes and functions name themselves by this module
for _name in __all__:
    if callable(globals()[_name]) and hasattr(globals()[_name], "__qualname__"):
        globals()[_name].__module__ = __name__
