"""Scripts without end, with huge texts, wide maps and deep nesting: `python3 tests/fuzz.py PROGRAM --seconds N`.

Each script comes from the seed and its own number, so `--seed S --first N` begins again at that script. It goes to the
program in pieces of odd sizes, or is cut at some byte. The program answers as the reference does, with no more memory
than TIMES what its names, the longest line and the answer ask for, beside what any run takes; the first scripts bring
large things again and again, so that what is not let go is too much. A script on which the two differ is kept as a
file, and so is a shorter one.
"""
import functools
import random
import subprocess
import sys
import tempfile
import threading
import time

sys.dont_write_bytecode = True  # no folder beside this file
import fuzz
import second
from second import Number, Text

second.quoted = functools.lru_cache(8)(second.quoted)  # the same large text is quoted again and again

PIECES = (1, 3, 7, 100, 511, 4095, 4097, 8191, 8192, 8193, 65537)
TIMES = 2  # so many times the memory that its names, the line and the answer ask for may the program have,
BESIDE = 1 << 18  # and so many bytes beside
PATIENCE = 300  # seconds in which a program has ended


class StormMaker(fuzz.Maker):
    """Makes the lines of fuzz.py, and large ones among them."""

    def __init__(self, chance, left_out, size):
        super().__init__(chance, left_out)
        self.size = size
        self.makers |= {self.text_lines: 1, self.wide_lines: 1, self.long_lines: 1, self.churn_lines: 3, self.deep_lines: 1, self.end_lines: 3}

    def large(self, most):
        """A count up to this one, of any magnitude."""
        return int(most ** self.chance.random() * self.size)

    def text_lines(self):
        """A huge text, and calls on it."""
        some = self.text(self.pick(fuzz.PLAIN, "a", "ab<&'\"", "\u00e9\u6f22\U0001f600"))[:40] or "a"
        text = (some * (self.large(10**6) // len(some) + 1))[: self.large(10**6)]
        lines = [self.set_line("a", Text(text, self.often(40)))]
        count = len(text)
        for word in self.chance.sample(["len", "print", "escape", "truthy", "kind", "is_safe", "get"], 2):
            lines.append(self.joined(word, "a"))
        lines.append(self.joined("slice", "a", self.bound(count), self.bound(count), self.bound(3), "->", "b"))
        lines.append(self.joined("reverse", "a", "->", "c"))
        return lines + [self.joined(word, *self.pick("ab", "ac", "cb")) for word in ("eq", "cmp", "contains", "try_cmp")]

    def wide_lines(self):
        """A wide map, whose keys may be spelled in several ways, the same in another order, and one that is near to it."""
        count = self.large(10**4)
        spread = self.pick(1, 3, 2**40)
        keys = [self.pick((1, number * spread), (2, str(number)), (2, f"k{number % 97}.{number}"), (1, -number)) for number in range(count)]
        value = {key: self.leaf() if self.often(5) else Number("", place) for place, key in enumerate(keys)}
        lines = [self.set_line("a", value), self.set_line("b", value), self.set_line("c", self.near(value))]
        lines += [self.joined(word, *pair) for word in ("eq", "cmp") for pair in ("ab", "ac")]
        lines += [self.joined(self.pick("print", "escape", "fields", "walk", "len", "get"), "a")]
        rank, key = self.chance.choice(keys) if keys else (2, "")
        lines += [self.set_line("d", Text(key, False) if rank == 2 else Number("", key)), self.joined("item", "a", "d"), self.joined("contains", "a", "d")]
        return lines + [self.joined("attr", "a", self.spell_text(str(key))), self.joined("remove", "b"), self.joined("get", "a", "->", "b")]

    def long_lines(self):
        """A long array, cut and turned, and calls on it."""
        value = tuple(self.leaf() if self.often(5) else Number("", place) for place in range(self.large(10**4)))
        value = tuple((item,) for item in value) if self.often(30) else value
        lines = [self.set_line("a", value), self.joined("reverse", "a", "->", "b")]
        lines.append(self.joined("slice", "a", self.bound(len(value)), self.bound(len(value)), self.bound(3), "->", "c"))
        lines += [self.joined(self.pick("print", "escape", "len", "get"), self.pick("a", "b", "c"))]
        return lines + [self.joined(word, *self.pick("ab", "ac", "aa")) for word in ("eq", "cmp", "try_cmp")]

    def churn_lines(self, kind=None):
        """The same few lines again and again, that bring something large and let it go: nothing of it may stay."""
        size = max(int(self.pick(10, 20, 40) * 1000 * self.size), 1)
        value = self.pick(Text("a\u00e9" * size, False), {(1, place): Text("some text", False) for place in range(size // 50)}, bytes(size))
        churn = CHURNS[self.chance.randrange(len(CHURNS)) if kind is None else kind % len(CHURNS)]
        lines = churn(self.spell(value), "n" * size)
        return [self.set_line("a", value), *lines * 60] if len(lines) < 10 else lines

    def deep_lines(self):
        """Arrays and maps by turns, up to as deep as a line may say, and the way down to the deepest."""
        levels, value, path = self.pick(1, 31, 62, 63, 64), self.leaf(), []
        other = self.near(value)
        for level in range(levels):
            turn = level % 2 if self.often(90) else self.chance.randint(0, 1)
            value, other = ((value,), (other,)) if turn else ({(2, "k"): value}, {(2, "k"): other})
            path.insert(0, "0" if turn else "k")
        lines = [self.set_line("a", value), self.set_line("b", other), self.joined("get", "a", "->", "c")]
        lines += [self.joined(word, *pair) for word in ("eq", "cmp") for pair in ("ab", "ca")]
        lines += [self.joined(word, "a") for word in self.chance.sample(["print", "escape", "get", "kind", "truthy", "len"], 3)]
        down = self.spell_text(".".join(path[: self.pick(levels, levels - 1, levels // 2)]))
        return lines + [self.joined("path", "a", down), self.joined("reverse", "a"), self.joined("remove", "a"), self.joined("has", "a")]

    def end_lines(self):
        """The ends of a type, and the numbers beside them, read as it and as another."""
        name, (low, high) = self.chance.choice(list(second.TYPES.items()))
        number = self.pick(low, high, low - 1, high + 1)
        if not -2**127 <= number < 2**128:
            number = self.pick(low, high)
        lines = [self.set_line("a", Number("", number)), self.joined("kind", "a")]
        return lines + [self.joined("read", to, "a", *self.pick([], ["->", "b"])) for to in (name, self.pick(*second.TYPES))]


# Lines of a large literal, or of a long name, or of the large value that `a` has. The last are many short ones.
CHURNS = [
    lambda literal, name: ["get a -> b"],
    lambda literal, name: ["mark_safe a -> b", "mark_safe b"],
    lambda literal, name: ["get a -> b", "slice b 1 _ 1 -> b", "reverse b -> b"],
    lambda literal, name: ["get a -> b", "has b", "remove b"],
    lambda literal, name: ["print a"],
    lambda literal, name: ["escape a", "walk a", "fields a"],
    lambda literal, name: [f"set b {literal}"],
    lambda literal, name: [f'extend {{"b": {literal}, "c": 1}}'],
    lambda literal, name: [f"set b [{literal}]", 'path b "0" -> b', 'extend {"b": [1]}'],
    lambda literal, name: [f"# {literal}"],
    lambda literal, name: [f"has {name}", f"set {name} 1", f"remove {name}"],
    lambda literal, name: [f'attr a "{name}"'],
    lambda literal, name: [f'path a "{name}"', "set b 1", "item a b"],
    lambda literal, name: [f"set b [{', '.join(['[1]'] * 1000)}]"],
    lambda literal, name: ["set a [1]", "read u8 a", "reverse c", "set c 1", "reverse c", "negate a", "contains c a", "slice c 0 0 0", "add a c", "item a b"] * 1200]


def room(count):
    """The places that a list or a table has for so many parts: it doubles where it is full."""
    return 1 << max(count - 1, 3).bit_length() if count else 0


def weight(value):
    """Bytes of memory behind a value."""
    if isinstance(value, Text):
        return 32 + len(value.text.encode())
    if isinstance(value, bytes):
        return 32 + len(value)
    if isinstance(value, dict):
        return 128 * room(len(value)) + sum(weight(held) + (64 + len(key[1].encode()) if key[0] == 2 else 0) for key, held in value.items())
    return 48 * room(len(value)) + sum(map(weight, value)) if second.is_array(value) else 0


class Expected:
    """What the model answers to a script, and the most bytes that its names, the line and the answer hold at any time."""

    def __init__(self, script):
        self.answers, self.most = second.replay(script), 0
        names, held, longest = {}, {}, 0
        for line in second.lines_of(script):
            longest = max(longest, len(line))
            try:
                answer = "" if second.is_skipped(line) else second.step(names, line.decode())
            except (second.BadLine, UnicodeDecodeError):
                self.most = max(self.most, total(held) + 8 * longest)  # the report, and what was read up to the fault
                break
            before, held = held, {name: held[name] if name in held and held[name][0] is value else (value, weight(value)) for name, value in names.items()}
            changed = {name: one for name, one in held.items() if before.get(name) is not one}
            times = 8 if line.lstrip(b" \t").startswith((b"fields", b"walk")) else 2  # they list texts of their own
            self.most = max(self.most, total(before) + total(changed) + longest + times * len(answer.encode()))


def total(held):
    """Bytes behind names, each with its value and the value's weight."""
    return sum(128 + len(name) + behind for name, (_, behind) in held.items())


def pieces_of(script, chance):
    """The script in pieces of odd sizes: some hundreds at most, and then the rest."""
    at, count = 0, chance.choice((0, 5, 300))
    while at < len(script):
        size = chance.choice(PIECES) if count > 0 else len(script)
        yield script[at : at + size]
        at, count = at + size, count - 1


def heard(program, pieces, memory):
    """The program's standard output, standard error and status, where it has no more than so many bytes of memory."""
    limited = ["sh", "-c", 'ulimit -v "$1" && shift && exec "$@"', "sh", str(memory // 1024), *program]
    with tempfile.TemporaryFile() as out, tempfile.TemporaryFile() as err:
        running = subprocess.Popen(limited, stdin=subprocess.PIPE, stdout=out, stderr=err, bufsize=0)
        patience = threading.Timer(PATIENCE, running.kill)
        patience.start()
        try:
            for piece in pieces:
                while piece:
                    piece = piece[running.stdin.write(piece) :]
        except BrokenPipeError:
            pass  # a bad line ended the program
        running.stdin.close()
        status = running.wait()
        patience.cancel()
        out.seek(0)
        err.seek(0)
        return out.read(), err.read(), status


def base(program):
    """The fewest bytes of memory, but for some thousands, in which the program answers a line that takes none."""
    low, high = 1 << 16, 1 << 28
    while high - low > 4096:
        middle = (low + high) // 2
        low, high = (low, middle) if heard(program, [b"eq a b\n"], middle) == (b"true\n", b"", 0) else (middle, high)
    return high


def fault(program, script, chance, least):
    """How the program's answers to the script are not the model's, or `None`."""
    expected = Expected(script)
    memory = least + BESIDE + TIMES * expected.most
    out, err, status = heard(program, pieces_of(script, chance), memory)
    if (out, err, status) == expected.answers:
        return None
    wants = b"error: Out of memory" in out + err and b"error: Out of memory" not in expected.answers[0]
    return f"{memory - least:,} bytes of memory beside the {least:,} that no line takes are too few" if wants else "the program and the reference differ"


def script_of(seed, number, size, left_out):
    """The script of this number: its lines, and the chance that cuts it into pieces."""
    chance = random.Random(f"{seed} {number}")
    maker = StormMaker(chance, left_out, size)
    if number < len(CHURNS):
        return [line.encode() + b"\n" for line in maker.churn_lines(number) if line.split()[0] not in left_out], chance
    lines, _ = maker.script(*chance.choice(((2, 2), (10, 3), (40, 1), (200, 0))))
    if chance.random() < 0.2:
        script = b"".join(lines)
        lines = [line + b"\n" for line in script[: chance.randint(0, len(script))].split(b"\n")]
        lines[-1] = lines[-1][:-1]
    return lines, chance


def keep(name, lines):
    with open(name, "wb") as it:
        it.write(b"".join(lines))
    print(f"fuzz: kept as {name}, {len(lines)} lines", flush=True)


def storm(program, given, left_out):
    """Scripts for so many seconds; returns the status."""
    began, told, count, number, least = time.monotonic(), 0, 0, given.first, base(program)
    while time.monotonic() - began < given.seconds:
        lines, chance = script_of(given.seed, number, given.size, left_out)
        why = fault(program, b"".join(lines), chance, least)
        if why:
            print(f"fuzz: {why}, on script {number} of seed {given.seed}")
            name = f"{given.keep}/fuzz-{given.seed}-{number}"
            keep(f"{name}.replay", lines)
            engine = fuzz.Engine(program, patience=PATIENCE)
            if engine.differs(lines):
                keep(f"{name}-short.replay", fuzz.fewest(lines, engine.differs))
            return 1
        count, number, seconds = count + len(lines), number + 1, time.monotonic() - began
        if seconds - told >= 5:
            told = seconds
            print(f"fuzz: {seconds:.0f} s, {number - given.first} scripts, {count:,} lines of seed {given.seed}", file=sys.stderr, flush=True)
    print(f"fuzz: end, {number - given.first} scripts, {count:,} lines in {given.seconds} s")
    return 0
