"""A conversation with a program: no line is sent before the one before it has its answer."""
from __future__ import annotations

import os
import select
import subprocess
from typing import Iterator, List, Tuple

PATIENCE = 20  # seconds: met only where the program waits for more input with an answer kept back


def turns(lines: int) -> Iterator[Tuple[bytes, bytes]]:
    """Lines, each with the answer that comes before the next is sent: a few of other shapes first."""
    yield from ((b"set a 1u64\n", b"ok\n"), (b"# note\nlen a\n", b"nothing\n"), (b"eq a a\r\n", b"true\n"),
                (b"get a\nkind a\n", b"value 1\nkind u64\n"))
    for number in range(lines // 2):
        yield b'set a [%d, "t"]\n' % number, b"ok\n"
        yield b"get a\n", b'value [%d, "t"]\n' % number


def heard(answers: int, length: int) -> bytes:
    """So many bytes from there, or those that come within the patience."""
    told = b""
    while len(told) < length and select.select([answers], [], [], PATIENCE)[0]:
        told += (part := os.read(answers, 4096))
        if not part:
            break
    return told


def kept_back(words: List[str], lines: int) -> str:
    """Which answer a program keeps back or has wrong, or how it ends otherwise than with status 0; nothing where all is well."""
    pipe = subprocess.PIPE
    with subprocess.Popen(words, stdin=pipe, stdout=pipe, bufsize=0) as running:
        assert running.stdin and running.stdout
        for line, answer in turns(lines):
            running.stdin.write(line)
            if (told := heard(running.stdout.fileno(), len(answer))) != answer:
                running.kill()
                return f"{line!r}: {told!r}"
        running.stdin.close()
        status = running.wait(PATIENCE)
        return f"status {status}" if status else ""
