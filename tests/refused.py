"""Scripts with each request for memory refused in turn, by the program (tests/test_refused.py) and by `run`
(tests/test_hostile.py).

A script is run again and again, with its first, second, .. request refused, until a run meets no refusal. Each run with
one shows what the model (tests/second.py) says:

- The program itself found no memory: standard error says so, the status is 1, and whole answers from the first on are out.
- Else a step did: its answer is want of memory, the status is 1, and all other answers are those of the script without
  that step. An `extend` too has taken over nothing: more than its clauses say, which let some first names be taken over.
- Or an `extend` asked for less then, and found it: all answers are those of the script.

Behind each script come lines that ask for every name, its kind and its mark, so that what a refused step left is seen.
Of the script of every call, with and without a name for what is found, each line that may want memory has to meet a
refusal; those that take none never do.
"""
import os
import subprocess
import sys
import tempfile

sys.dont_write_bytecode = True  # no folder beside this file
import second

MOST = 5000
WANT = "error: Out of memory"
VALUES = {
    "t": '"a\\u{e9}<b, a text of more than twenty bytes"', "s": 's"<b>safe</b>, and no less than twenty bytes"',
    "b": 'x"00ff7f4142434445464748494a4b4c4d4e4f5051"', "l": '[1, "two", [3u64, s"four"], {"five": 5}]',
    "m": '{"k": [1, s"<"], 1: "one", true: none, "other": {"in": 2}}', "n": "7", "u": "340282366920938463463374607431768211455",
    "z": "0", "key": '"k"', "one": "1", "item": "[3u64, s\"four\"]", "none": "none", "copy": '{"k": [1, s"<"]}'}
FINDS = ["get l", "path m \"other.in\"", "attr m \"k\"", "item m key", "item m one", "item l n", "slice l 1 _ _", "slice t _ _ -1", "slice n _ _ _",
         "slice l _ _ 0", "reverse l", "reverse t", "reverse b", "reverse n", "negate n", "negate t", "read u8 n", "read u8 u",
         "read i128 u", "read usize t", "mark_safe t", "mark_safe l", "get absent", "attr m \"absent\"", "path absent \"a\"",
         *[f"{word} {left} {right}" for word in second.OPERATORS for left, right in (("n", "n"), ("n", "z"), ("u", "n"), ("t", "n"))]]
ASKS = ["has l", "len m", "truthy m", "fields m", "fields l", "walk m", "walk l", "walk absent", "kind m", "is_safe s", "print m", "print t", "escape t", "escape m",
        "escape s", "eq m copy", "eq l l", "cmp m copy", "cmp l l", "try_cmp l l", "try_cmp l n", "contains m key", "contains m one",
        "contains l item", "contains t key", "contains n one", "contains t n", "print absent", "escape absent"]
MANY = ", ".join(f'"n{number:02}": [{number}, s"x"]' for number in range(60, 0, -1))
CHANGES = ["remove n", "remove absent", "extend {}", f'extend {{{MANY}, "t": "another text, longer than twenty bytes"}}',
           "mark_safe t", "set l [[[1]]]", 'set m {"k": 1, "j": "no less than twenty bytes", "k": 2}']
# of the calls that keep nothing, those that may take memory; no line of the others does, wherever the script stands
TAKES = ("set", "extend", "contains", "print", "escape", "fields", "walk")
FREE = [word for word, (form, _) in second.CALLS.items() if not form.endswith(">") and word not in TAKES]
# nor does one of these that is not refused, and keeps what it finds nowhere
FREE_IF_GIVEN = ("contains", "negate", "read", "mark_safe", *second.OPERATORS)
# nor does one of the program that begins so and keeps nothing: what it finds or prints is lent to the reply
LENT = ("get ", "path ", "attr ", "item m ", "item l ", "print ")


def every_call():
    """A script of every call, on operands that are there and not, that succeed and refuse."""
    sets = [f"set {name} {literal}" for name, literal in VALUES.items()]
    kept = [line for at, find in enumerate(FINDS) for line in (find, f"{find} -> kept{at % 7}")]
    return [*sets, *kept, *ASKS, *CHANGES]


def with_questions(lines):
    """The lines, and behind them what each name that they may set holds."""
    names = {}
    for line in lines:
        word, operands, into = second.read_call(line)
        names.update(dict.fromkeys(operands[0] if word == "extend" else operands[:1] if word == "set" else []))
        names.update({into: None} if into else {})
    asked = [name for name in names if second.NAME.fullmatch(name)]
    return lines + [f"{word} {name}" for name in asked for word in ("get", "kind", "is_safe")]


def answers(lines, refused=None):
    """The model's answers, where the step of this number found no memory."""
    names = {}
    return [WANT if number == refused else second.step(names, line) for number, line in enumerate(lines)]


def asks_again(lines):
    """Whether a line may ask for less where its first request is refused: an `extend` does, for as many names as are new."""
    return any(line.startswith("extend ") for line in lines)


class Runs:
    """The runs of one script, and which of its steps were seen to want memory."""

    # whether what is found or printed, and kept nowhere, is lent
    lends = True

    def __init__(self, program, library, lines):
        self.program, self.library, self.lines = program, library, lines
        self.given = "".join(f"{line}\n" for line in lines).encode()
        self.whole = answers(lines)
        self.wanting = set()
        self.asks_again = asks_again(lines)

    def run(self, number, told):
        if os.path.exists(told):
            os.remove(told)
        refuse = {"LD_PRELOAD": self.library, "REFUSE": str(number), "REFUSED": told}
        ran = subprocess.run([self.program], input=self.given, capture_output=True, env={**os.environ, **refuse}, timeout=60)
        return ran.stdout.decode().split("\n")[:-1], ran.stderr.decode(), ran.returncode, os.path.exists(told)

    def fault(self, number, told):
        """What is wrong with the run with this request refused, `None` where nothing is; `False` where none was refused."""
        out, err, status, is_refused = self.run(number, told)
        if not is_refused:
            return False if (out, err, status) == (self.whole, "", 0) else "the answers with ample memory are not the model's"
        if self.asks_again and (out, err, status) == (self.whole, "", 0):
            return None
        if status != 1:
            return f"status {status} where memory was refused"
        if err:
            whole = out == self.whole[: len(out)]
            return None if err == f"{WANT}\n" and whole else f"the program's own want of memory: {err!r} behind {len(out)} answers"
        wants = [at for at, answer in enumerate(out) if answer == WANT]
        if len(wants) != 1:
            return f"{len(wants)} answers are want of memory"
        if answers(self.lines, wants[0]) != out:
            return f"`{self.lines[wants[0]]}` wanted memory, and the rest is not as if it was left out"
        self.wanting.add(wants[0])
        return None

    def all(self):
        with tempfile.TemporaryDirectory() as room:
            for number in range(1, MOST):
                fault = self.fault(number, f"{room}/refused")
                if fault is False:
                    return number - 1
                assert not fault, f"request {number} refused: {fault}"
        raise AssertionError(f"a refusal is met at request {MOST}")

    def missing(self):
        """The lines that have to want memory and did not, and those that may not and did."""
        free = [line.split()[0] in FREE or self.is_lent(line) or self.is_kept_nowhere(at) for at, line in enumerate(self.lines)]
        held = [line for at, line in enumerate(self.lines) if self.must_want(at, line) and at not in self.wanting]
        return held + [line for at, line in enumerate(self.lines) if free[at] and at in self.wanting]

    def is_lent(self, line):
        return self.lends and line.startswith(LENT) and "-> " not in line

    def is_kept_nowhere(self, at):
        line = self.lines[at]
        return line.split()[0] in FREE_IF_GIVEN and "-> " not in line and not self.whole[at].startswith("error: ")

    def must_want(self, at, line):
        """What is copied, shown as a text of its own, or refused with a text takes memory for it."""
        word, answer = line.split()[0], self.whole[at]
        found = self.whole[at - 1] if "-> " in line else answer  # the line before finds the same, and keeps nothing
        shows = word in ("print", "escape", "fields", "walk") and answer not in ("text ", "fields []", "walk []")
        copies = second.CALLS[word][0].endswith(">") and '"' in found
        return (shows or copies) and not self.is_lent(line) or answer.startswith("error: ")
