"""The shared object, what its calls take, and the calls that need no session."""
from __future__ import annotations

import ctypes
import os
from typing import Callable, List, NamedTuple, Tuple, Union, cast

from ._interface import DONE, FUNCTIONS, NO_MEMORY, SMALL
from ._literals import html_of, raw, utf8
from ._values import HasHtml, Safe
from ._version import __version__

ESCAPE_ROOM = 1 << 14  # bytes that `escape` has room for at least
ESCAPE_KEPT = 1 << 22  # bytes that it keeps room for, from one call to the next
SEED = 16  # bytes, by which no one who writes a line can make names or keys that collide


class Replayed(NamedTuple):
    """What a script answers: its answers, the report of what ended it early, and the status of the program."""

    answers: bytes
    report: bytes
    status: int


def load(path: str) -> ctypes.CDLL:
    """A library, and what its calls take."""
    library = ctypes.CDLL(path)
    for name, (answers, takes) in FUNCTIONS.items():
        function = getattr(library, name)
        function.restype, function.argtypes = answers, takes
    return library


def _found() -> str:
    """The file of the library."""
    here = os.path.dirname(os.path.abspath(__file__))
    beside = os.path.join(here, "libtera.so")
    in_out = os.path.join(here, "..", "..", "..", "out", "libtera.so")
    return os.environ.get("TERA_LIBRARY") or (beside if os.path.exists(beside) else in_out)


def _of_this_version(found: ctypes.CDLL) -> ctypes.CDLL:
    """The library, which has to be of the module's version."""
    number = found.tera_version()
    version = f"{number >> 16}.{number >> 8 & 255}.{number & 255}"
    if version != __version__:
        raise ImportError(f"the library {found._name} is of version {version}, and this module of {__version__}")
    return found


library = _of_this_version(load(_found()))


class Room:
    """Memory that a call writes to."""

    def __init__(self, size: int) -> None:
        self.size = size
        self._bytes = bytearray(size or 1)
        self.at = ctypes.addressof(ctypes.c_char.from_buffer(self._bytes))

    def text(self, length: int) -> str:
        """The text at its front."""
        return str(memoryview(self._bytes)[:length], "utf-8")

    def raw(self, length: int) -> bytes:
        """The bytes at its front."""
        return bytes(memoryview(self._bytes)[:length])


def filled(room: Room, call: Callable[[int, int, ctypes.c_size_t], int]) -> Tuple[int, Room, int]:
    """The status of a call that writes to a room, the room, or a larger one where that is too small, and the length of what
    stands there."""
    length = ctypes.c_size_t()
    while True:
        status = call(room.at, room.size, length)
        if status != SMALL:
            return status, room, length.value
        room = Room(length.value)


_spare: List[Room] = []  # the room that is kept, while no call has it

# where the UTF-8 of a text of ASCII is, which CPython has in the text itself
_place_of = None
if hasattr(ctypes, "pythonapi"):
    _place_of = ctypes.PYFUNCTYPE(ctypes.c_void_p, ctypes.py_object)(("PyUnicode_AsUTF8", ctypes.pythonapi))


def _room_of(size: int) -> Room:
    """The room that is kept, where it has so many bytes and no call of another thread has it; or a new one."""
    try:
        room = _spare.pop()
    except IndexError:
        return Room(size)
    return room if room.size >= size else Room(size)


def _given(text: str) -> Tuple[Union[bytes, ctypes.c_char_p], int]:
    """The UTF-8 of a text, and how long it is. A long text of ASCII is not copied for it."""
    if _place_of and isinstance(text, str) and str.__len__(text) >= ESCAPE_ROOM and str.isascii(text):
        return ctypes.c_char_p(_place_of(text)), str.__len__(text)
    given = utf8(text)
    return given, len(given)


def escape(text: Union[str, HasHtml]) -> Safe:
    """The text with `&`, `<`, `>`, `"` and `'` as entities. What has `__html__` answers for itself, and is not escaped.

    >>> escape("a < b")
    Safe('a &lt; b')
    >>> print(escape(escape("a < b")))
    a &lt; b
    """
    html = html_of(text)
    if html is not None:
        return text if isinstance(text, Safe) else Safe(html)
    given, size = _given(cast(str, text))
    # an entity has at most six bytes; few long texts have one for every fifth byte
    room = _room_of(max(ESCAPE_ROOM, 2 * size))
    length = ctypes.c_size_t()
    status = library.tera_escape(given, size, room.at, room.size, length)
    if status == SMALL:
        room = Room(length.value)
        status = library.tera_escape(given, size, room.at, room.size, length)
    if status != DONE:
        raise MemoryError
    del given  # of which there may be as much as of the answer
    escaped = Safe(room.text(length.value) if length.value > size else str.__str__(cast(str, text)))
    if room.size <= ESCAPE_KEPT and not _spare:
        _spare.append(room)
    return escaped


def replay(script: bytes) -> Replayed:
    r"""Runs a whole script, from no names on. Its names and keys are hashed under random bytes.

    >>> replay(b"set a 1u64\neq a a\n")
    Replayed(answers=b'ok\ntrue\n', report=b'', status=0)
    """
    lengths = ctypes.c_size_t(len(raw(script)) + 256), ctypes.c_size_t(256)
    while True:
        rooms = [Room(length.value) for length in lengths]
        held = [it for room, length in zip(rooms, lengths) for it in (room.at, room.size, length)]
        status = library.tera_replay_seeded(script, len(script), os.urandom(SEED), *held)
        if status == NO_MEMORY:
            raise MemoryError
        if status != SMALL:
            answers, report = (room.raw(length.value) for room, length in zip(rooms, lengths))
            return Replayed(answers, report, status)
