"""An open session, and the lines that it takes."""
from __future__ import annotations

import ctypes
import os
import re
import threading
from typing import Any, Tuple, TypeVar

from ._errors import BadLine, NotAName, NoReply, Refused, TeraError
from ._interface import BAD, DONE, MISSING, NO_MEMORY, NO_REPLY, REFUSED, WANTED
from ._library import SEED, Room, filled, library
from ._literals import raw, utf8

Self = TypeVar("Self", bound="Handle")
NAME = re.compile("[A-Za-z_][A-Za-z0-9_]*")
LEAST_ROOM = 1024
ERROR = "error: "  # what the reply to a refused call begins with


def name_of(given: str) -> str:
    """The name, where it is one that a line can have."""
    if not isinstance(given, str) or not NAME.fullmatch(given):
        raise NotAName(f"{given!r} is no name: a letter or _, and then letters, digits and _")
    return str.__str__(given)


class Handle:
    """An open session, on the thread that opened it."""

    def __init__(self) -> None:
        self._held = ctypes.c_void_p()
        self._thread = threading.current_thread()
        self._room = Room(LEAST_ROOM)
        if library.tera_open_seeded(self._held, os.urandom(SEED)) != DONE:
            raise MemoryError

    def line(self, line: str) -> str:
        r"""Runs a line, and gives its reply, which ends in a line feed; an empty one where the line says nothing. A refusal is a
        reply as any other. An end of line behind the line is taken away, so that `for line in file` gives lines; a line feed
        anywhere else makes it bad.

        >>> names = Session()
        >>> names.line("# a comment\n")
        ''
        >>> names.line("negate a\r\n")
        'error: Only numbers can be negated. This is a `undefined`\n'
        >>> try:
        ...     names.line("len 1")
        ... except BadLine as bad:
        ...     print(bad, end="")
        error: bad line
         --> line 1:1:1
          |
        1 | len 1
          | ^^^^^
        >>> try:
        ...     names.line("# hides\nset a 1")
        ... except BadLine as bad:
        ...     print(bad, end="")
        error: bad line: a line feed stands inside it
         --> line 1:1:8
          |
        1 | # hides
          |        ^
        >>> names.close()
        """
        return self.line_bytes(utf8(line)).decode()

    def line_bytes(self, line: bytes) -> bytes:
        """The same of bytes."""
        status, reply = self._run(raw(line))
        if status == BAD:
            raise BadLine(reply.decode())
        return reply

    def close(self) -> None:
        """Frees what the session holds; a second time does nothing."""
        if self._held:
            self._look()
            library.tera_close(self._held)

    def _run(self, line: bytes) -> Tuple[int, bytes]:
        """The status of a line, and its reply."""
        self._look()
        length = ctypes.c_size_t()
        status = library.tera_line(self._held, line, len(line), length)
        if status == NO_REPLY:
            raise NoReply
        if status == NO_MEMORY:
            raise MemoryError
        return status, self._reply()

    def _reply(self) -> bytes:
        """The reply to the last line, or the reason of the last refusal."""
        _, room, length = filled(self._room, lambda *held: library.tera_reply(self._held, *held))
        return room.raw(length)

    def _ask(self, word: str, *operands: str) -> str:
        """The answer to a call, without its line feed."""
        status, reply = self._run(" ".join((word, *operands)).encode())
        answer = reply[:-1].decode()
        if status == BAD:
            raise BadLine(reply.decode())
        if status == WANTED:
            raise MemoryError(answer)
        if answer.startswith(ERROR):
            raise Refused(answer[len(ERROR):])
        return answer

    def _is_there(self, status: int) -> bool:
        """Whether a call of a name found it, by its status; raises what else that says."""
        if status == NO_MEMORY:
            raise MemoryError
        if status == REFUSED:
            raise Refused(self._reply()[len(ERROR):-1].decode())
        if status not in (DONE, MISSING):
            raise TeraError(f"the library answers {status}")
        return status == DONE

    def _look(self) -> None:
        if not self._held:
            raise ValueError("the session is closed")
        if self._thread is not threading.current_thread():
            raise RuntimeError("the session is another thread's: open one on each thread")

    def __reduce_ex__(self, protocol: object) -> Any:
        raise TypeError("a session is neither copied nor pickled: `save` gives the lines that make it again")

    def __enter__(self: Self) -> Self:
        return self

    def __exit__(self, *why: object) -> None:
        self.close()

    def __del__(self) -> None:
        # what another thread lets go of stays held
        if getattr(self, "_held", None) and self._thread is threading.current_thread():
            self.close()
