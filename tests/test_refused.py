"""The program with each request for memory refused in turn: whole scripts, its own want of memory, and bad lines."""
from __future__ import annotations

import unittest

import built
import refused
import second
from built import TOP, Ran

SCRIPTS = "first calls maps walks look_ups slices arithmetic order printed worked extends".split()
WANT = f"{refused.WANT}\n".encode()


def refusing(number: int, script: bytes, to: str = "") -> Ran:
    """What the program writes on a script where its request of this number is refused; `to` may send streams elsewhere."""
    words = ["env", f"LD_PRELOAD={built.refusing()}", f"REFUSE={number}", built.program("tera_replay")]
    return built.heard("sh", "-c", f'exec "$@" {to}', "sh", *words, given=script)


class Refused(unittest.TestCase):
    """Each request of a script is refused in turn."""

    def runs(self, lines: list[str]) -> refused.Runs:
        """The runs of a script with the questions behind it, each judged."""
        runs = refused.Runs(built.program("tera_replay"), built.refusing(), refused.with_questions(lines))
        self.assertGreater(runs.all(), 0)
        return runs

    def test_every_call(self) -> None:
        """every call with each request for memory refused in turn"""
        runs = self.runs(refused.every_call())
        self.assertEqual(runs.missing(), [], "these lines wanted no memory, or may not have")

    def test_examples(self) -> None:
        """scripts of examples/ with each request for memory refused in turn"""
        for name in SCRIPTS:
            with self.subTest(name), open(f"{TOP}/examples/{name}.replay", "rb") as file:
                lines = second.lines_of(file.read())
                self.runs([line.decode() for line in lines if not second.is_skipped(line)])


class OwnWant(unittest.TestCase):
    """The program itself finds no memory."""

    SCRIPT = b'set a "a text that takes memory"\nget a\n'

    def test_buffer(self) -> None:
        """no memory for the answers' buffer is told"""
        self.assertEqual(refusing(1, self.SCRIPT), (b"", WANT, 1))

    def test_unwritten(self) -> None:
        """the program's own want of memory is no other where standard error fails"""
        self.assertEqual(refusing(1, self.SCRIPT, "2>/dev/full"), (b"", b"", 1))

    def test_step(self) -> None:
        """a step's want of memory is its answer where standard error fails"""
        # the value's text is refused, and the line behind it is answered
        heard = (refusing(number, self.SCRIPT, "2>/dev/full") for number in range(1, 51))
        self.assertIn((WANT + b"nothing\n", b"", 1), heard)

    def test_bad_line(self) -> None:
        """a bad line with each request for memory refused in turn"""
        script = b"set a [1]\nprint a\nfrob\n"
        whole, own = second.replay(script), 0
        for number in range(1, 201):
            heard = refusing(number, script)
            if heard.status == 1:
                self.assertEqual(heard.err, WANT)
                own += heard.out == whole[0]
            else:
                self.assertEqual(heard[1:], whole[1:])
                if heard.out == whole[0]:
                    break
        self.assertGreaterEqual(own, 3)
        self.assertLess(number, 200)


if __name__ == "__main__":
    unittest.main()
