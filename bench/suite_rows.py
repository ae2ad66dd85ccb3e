"""The rows of the suite: what each measures, and the script that measures it.

A row is named PART_OPERATION_SIZE, and behind that `deep` for maps whose values are four more maps deep, or `ascii` for
a text without characters past ASCII. A script sets the operands and then goes round through a few lines of one call. It
is the same on each run: what is random in it comes from the row's name.
"""
import itertools
import random
from dataclasses import dataclass

FEW = 12  # keys that a map of the proved program finds without a hash
LEVELS = 4  # the maps that stand around a value of a deep map, below the outermost
# The parts, with what a line goes over.
PARTS = {
    "z": ("the program's start", "line"), "a": ("short lines", "line"), "b": ("long texts", "byte"),
    "c": ("maps", "pair"), "d": ("arrays", "item"), "e": ("arithmetic", "line"), "f": ("extend", "name"),
    "x": ("clones", "pair"),
}
SHORT = ("set", "get", "eq", "cmp", "add", "print")
# The operators, with the widths of their operands in bits: no result is past an i128.
OPERATORS = {"mul": ((62, 62),), "pow": ((3, 5),), "floor_div": ((126, 62), (126, 3))}
SLICES = ["slice a 2 -2 _ -> u", "slice a _ _ 2 -> u", "slice a _ _ -1 -> u", "slice a {half} _ _ -> u"]
# The lines that are measured, where they stand over operands of one size.
LINES = {
    "b": {"set": ["set a {literal}"], "escape": ["escape a"], "slice": SLICES, "reverse": ["reverse a -> u"]},
    "c": {
        "set": ["set a {literal}"], "eq": ["eq a b"], "eqnear": ["eq a near", "eq near a"], "cmp": ["cmp a b"],
        "cmpnear": ["cmp a near", "cmp near a"], "print": ["print a"],
        "item": [f"item a k{i}" for i in range(16)],
        "attr": [f'attr a "{{keys[{i}]}}"' for i in range(16)],
        "path": [f'path a "{{keys[{i}]}}{{inside}}"' for i in range(16)],
    },
    "d": {
        "set": ["set a {literal}"], "slice": SLICES, "reverse": ["reverse a -> u"],
        "contains": ["contains a inside", "contains a outside"],
        "eq": ["eq a b", "eq a near"], "cmp": ["cmp a b", "cmp a near"], "print": ["print a"],
    },
    "x": {"clone": [f"get a -> copy{i}" for i in range(8)]},
}
# How many items a row goes over in all: enough for some 70 million instructions of a Rust program.
WORK = {
    "z": 1, "a": 40_000, "e": 25_000, "f_extend": 50_000, "x_clone": 100_000,
    "b_set": 5_000_000, "b_escape": 5_000_000, "b_slice": 2_000_000, "b_reverse": 4_000_000,
    "c_set": 60_000, "c_eq": 400_000, "c_eqnear": 300_000, "c_cmp": 150_000, "c_cmpnear": 150_000, "c_print": 150_000,
    "c_item": 20_000, "c_attr": 20_000, "c_path": 20_000,
    "d_set": 150_000, "d_slice": 800_000, "d_reverse": 1_000_000, "d_contains": 1_000_000,
    "d_eq": 1_500_000, "d_cmp": 1_500_000, "d_print": 200_000,
}
MANY = 25_000  # pairs or items that are gone over twice as often as few are, lest it is their setting that is measured


@dataclass(frozen=True)
class Row:
    part: str
    operation: str
    size: int = 0
    kind: str = ""

    @property
    def name(self):
        size = str(self.size or "")
        if self.part == "b":
            size = f"{self.size // 1000}k".replace("000k", "m")
        return "_".join(filter(None, (self.part, self.operation, size, self.kind)))

    @property
    def heading(self):
        return PARTS[self.part][0]

    @property
    def what(self):
        """What the row is, in words."""
        of, item = PARTS[self.part]
        size = f" of {self.size} {item}s" if self.size else ""
        return f"{of}{size}{', ' + self.kind if self.kind else ''}: `{self.operation}`, {self.turns} times"

    @property
    def bar(self):
        """What may be taken of the best other's instructions at most; none where the row is only told."""
        half = self.part == "b" or self.part == "d" and self.operation in ("eq", "cmp", "print")
        return None if self.part == "x" else 0.5 if half else 1.0

    @property
    def by_chance(self):
        """Whether the cost hangs on the seed of a hashed map: how soon a key is found, or a walk meets the one difference."""
        return self.operation == "eqnear" or self.part == "c" and self.size > FEW

    @property
    def parts(self):
        """How many bytes, pairs or items an operand has."""
        return self.size * (1 + 2 * LEVELS if self.kind == "deep" else 1)

    @property
    def items(self):
        """How many items a line goes over."""
        return 1 if not self.size or self.operation in ("item", "attr", "path") else self.parts

    @property
    def turns(self):
        """How many lines are measured."""
        work = WORK.get(self.part) or WORK[f"{self.part}_{self.operation}"]
        more = 1 + self.parts / MANY if self.part in "cd" else 1
        least = 1 if self.part == "z" else 4
        return max(least, int(work * more / self.items))

    def script(self, share=1):
        """The lines: those that set the operands, and then this share of those that are measured."""
        setting, cycle = MAKERS[self.part](self, random.Random(self.name))
        return itertools.chain(setting, itertools.islice(itertools.cycle(cycle), int(self.turns * share)))


def rows():
    """All rows, in the order of the parts."""
    few = [it for it in LINES["c"] if it not in ("item", "attr", "path")]
    return [
        Row("z", "start"),
        *(Row("a", it) for it in ("small", *SHORT)),
        *(Row("b", it, size) for size in (10_000, 100_000, 1_000_000) for it in LINES["b"]),
        Row("b", "set", 100_000, "ascii"),
        *(
            Row("c", it, size, kind)
            for kind in ("", "deep")
            for size in (10, 100, 1000, 10_000)
            for it in (few if size == 100 else LINES["c"])
        ),
        *(Row("d", it, size) for size in (1000, 10_000, 100_000) for it in LINES["d"]),
        *(Row("e", it) for it in ("arith", *OPERATORS)),
        Row("f", "extend", 1000),
        *(Row("x", "clone", 1000, kind) for kind in ("", "deep")),
    ]


# ---- lines over small values, each drawn by lot


def word(dice):
    return "".join(dice.choices("aeiloprstn", k=dice.randint(2, 6)))


def scalar(dice):
    """A short literal: ten of sixteen are numbers, four texts."""
    made = (
        f"{dice.randint(-999_999, 999_999)}", f"{dice.getrandbits(63)}u64", f"{dice.getrandbits(100)}u128",
        f"-{dice.getrandbits(100)}i128", f'"{" ".join(word(dice) for _ in range(dice.randint(1, 4)))}"', "true", "none",
        f's"<{word(dice)}>"',
    )
    return dice.choices(made, (6, 2, 1, 1, 3, 1, 1, 1))[0]


def short_line(dice, call, names, numbers):
    """A line of that call; of `small` any call of this part."""
    call = dice.choice(SHORT) if call in ("small", "start") else call
    first, second = dice.choices(numbers if call == "add" and dice.random() < 0.9 else names, k=2)
    more = {"set": scalar(dice), "eq": second, "cmp": second, "add": second + dice.choice(("", " -> sum"))}
    return f"{call} {first} {more.get(call, '')}".rstrip()


def short_lines(row, dice):
    names, numbers = [f"v{i}" for i in range(100)], [f"k{i}" for i in range(20)]
    setting = [f"set {it} {scalar(dice)}" for it in names]
    setting += [f"set {it} {dice.randint(-(10**9), 10**9)}" for it in numbers]
    return setting, [short_line(dice, row.operation, names, numbers) for _ in range(row.turns)]


def number_lines(row, dice):
    """Arithmetic; three of four results are kept under a name."""
    setting = [f"set w5_{i} {1 + i}" for i in range(32)]
    for width in (126, 62, 3):
        numbers = [dice.choice((1, -1)) * (dice.getrandbits(width) | 1 << width - 1) for _ in range(32)]
        setting += [f"set w{width}_{i} {it}" for i, it in enumerate(numbers)]
    lines = []
    for _ in range(row.turns):
        call = dice.choice(list(OPERATORS)) if row.operation == "arith" else row.operation
        left, right = (f"w{width}_{dice.randrange(32)}" for width in dice.choice(OPERATORS[call]))
        lines.append(f"{call} {left} {right}{dice.choice(('', ' -> r', ' -> r', ' -> r'))}")
    return setting, lines


def extend_lines(row, dice):
    """Maps of so many names each, out of three times as many."""
    lines = []
    for turn in range(row.turns):
        pairs = (f'"name{it:05}": {it + turn}' for it in dice.sample(range(3 * row.size), row.size))
        lines.append("extend {" + ", ".join(pairs) + "}")
    return [], lines


# ---- lines over operands of one size


def operand_lines(row, dice):
    operands, told = OPERANDS[row.part](row, dice)
    cycle = [line.format(literal=operands["a"], **told) for line in LINES[row.part][row.operation]]
    return [f"set {name} {it}" for name, it in operands.items()], cycle


def text(row, dice):
    """A text with marks, quotes, escapes and characters of up to three bytes, at one word in nine."""
    around = ("<i>{}</i>", '\\"{}\\"', "{}'s &", "{}\\n", "{}ß", "{}日本")
    if row.kind == "ascii":
        around = ("{}<hr>", "{} &", "{}'s")
    parts, length = [], 0
    while length < row.size:
        parts.append((dice.choice(around) if dice.random() < 0.11 else "{}").format(word(dice)))
        length += len(parts[-1].encode()) + 1
    return {"a": f'"{" ".join(parts)}"'}, {"half": row.size // 2}


def key(number):
    return f"part{number:05}"


def map_literal(row, order, greatest="true"):
    """A map of text keys, shuffled by that order but for the greatest key, which stands in the middle."""
    numbers = list(range(row.size - 1))
    random.Random(order).shuffle(numbers)
    numbers.insert(row.size // 2, row.size - 1)
    pairs = []
    for number in numbers:
        kinds = (f"{number * 31}", f'"no. {number}"', f"{number * -17}", "none" if number % 8 == 3 else "true")
        value = kinds[number % 4] if number < row.size - 1 else greatest
        for level in range(LEVELS if row.kind else 0):
            value = f'{{"in": {value}, "up": "l{level}"}}'
        pairs.append(f'"{key(number)}": {value}')
    return "{" + ", ".join(pairs) + "}"


def maps(row, dice):
    """Maps that are set apart, in orders of their own; `near` has another value at its greatest key alone."""
    operands = {"a": map_literal(row, 1)}
    if row.operation in ("eq", "cmp"):
        operands["b"] = map_literal(row, 2)
    if row.operation in ("eqnear", "cmpnear"):
        operands["near"] = map_literal(row, 3, "false")
    keys = [key(dice.randrange(row.size)) for _ in range(15)] + ["nowhere"]
    operands.update((f"k{i}", f'"{it}"') for i, it in enumerate(keys))
    return operands, {"keys": keys, "inside": ".in" * (LEVELS if row.kind else 0)}


def arrays(row, dice):
    """Arrays of integers; `near` has another last item, and `inside` is met after three fourths."""
    items = [dice.randint(-(10**9), 10**9) for _ in range(row.size)]
    operands = {"a": str(items)}
    if row.operation in ("eq", "cmp"):
        operands.update(b=str(items), near=str([*items[:-1], 10**9 + 1]))
    if row.operation == "contains":
        operands.update(inside=items[row.size * 3 // 4], outside=-(10**11))
    return operands, {"half": row.size // 2}


OPERANDS = {"b": text, "c": maps, "d": arrays, "x": maps}
MAKERS = {"z": short_lines, "a": short_lines, "e": number_lines, "f": extend_lines}
MAKERS.update(dict.fromkeys(OPERANDS, operand_lines))
