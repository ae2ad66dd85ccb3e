"""Templates at random with the names that they are shown over, from a seed: the part of the language that ours and jinja2
have in common (docs/PAGE.md).

What is added to the language is added here in one place each: a part of a template to PARTS, an expression to MADE, a sign to
SIGNS, a filter to PIPES, one that stands last to LASTS, a mark that trims to OPENS and CLOSES, and a name that a loop brings to
`loop_names`.
"""
from __future__ import annotations

import random
from typing import Any, Callable, Dict, List, NamedTuple, Tuple, Union

# A shape of values: a kind, an array of a shape or a map of shapes.
Shape = Union[str, Tuple[str, "Shape"], Dict[str, "Shape"]]
Scope = Dict[str, Shape]

HOSTILE = ["<script>alert(1)</script>", '"', "'", "&", "&amp;", "&#39;", "&lt", "<", ">", "</p>", "<!--", "-->", "]]>", '"><b>',
           "' onload='x", "{{ a }}", "{% if a %}", "{# a #}", "\0", "\u2028", "\u2029", "\ufeff", "\r\n", "\t", "`", "=", "/", "\\",
           "\x1b[31m", "\x7f", "\x1f ", "\xa0", "\u2003\x85", "<svg/onload=x>", "javascript:x", "<a href='",
           "%7B%7B", "&NewLine;", "&#x22;", "<\u200b", "￿", "é", "日本", "😀"]
WORDS = ["tea", "cup", "of", "the", "High Street", "Zürich", "42", "", " ", "a b", "100%", "true", "none"]
KINDS = ["text", "text", "text", "number", "number", "truth", "none", "any"]
KEYS = ["id", "name", "title", "price", "tags", "k", "b2", "_x", "items", "keys", "real", "upper"]
LOOSE = ["w", "x", "y"]
TEXTS = ["<p>", "</p>\n", "<a title=\"", "\">", "<li class='", "'>", "</li>", " ", "\n", "plain text ", "&amp; ", "& ", "{ ", " }", "}} ", "%} ", "#} ",
         "100 % # ", "é 日本 ", "\r\n", "&#34;", "\t", "$ ${x} ", "\\n \\ ", "'", "`", "-", "--", "<!-- ", " -->", "- %}"]
LASTS = ["", "", "", "safe", "escape"]
OPENS, CLOSES = ["", "", "-"], ["", "", "-"]
BLANKS = ["", " ", " ", " ", "  ", "\n", "\t"]
NUMBERS = ["0", "1", "2", "2", "3", "3", "5", "7", "10", "10", "42", "60", "100", "1234", "9223372036854775808", "18446744073709551615"]
ODD_NUMBERS = ["007", "18446744073709551616"]
DIGITS = [*['"7"', "'42'", "'+3'", '"007"', '"18446744073709551615"'] * 8, '"-1"', '""', '"7 "', '"18446744073709551616"']
EXPONENTS = ["0", "1", "2", "3", "2", "3", "2", "5", "10", "63", "127", "200"]
DEPTH = 3


class Page(NamedTuple):
    """A template, and the names that it is shown over."""

    template: str
    names: Dict[str, Any]


class Said(NamedTuple):
    """An expression, and how tightly it holds together: a place in LEVELS."""

    text: str
    level: int


class Sign(NamedTuple):
    """What stands between two expressions: its level, and those that the first and the second have at least."""

    level: int
    first: int
    second: int


LEVELS = ORS, ANDS, NOTS, COMPARISONS, SUMS, PRODUCTS, PIPED, OPPOSITES, POWERS, ALONE = range(10)
SIGNS = {
    "or": Sign(ORS, ORS, ANDS), "and": Sign(ANDS, ANDS, NOTS),
    **{sign: Sign(COMPARISONS, SUMS, SUMS) for sign in ("==", "!=", "<", "<=", ">", ">=", "in", "not in")},
    **{sign: Sign(SUMS, SUMS, PRODUCTS) for sign in "+-"},
    **{sign: Sign(PRODUCTS, PRODUCTS, PIPED) for sign in ("*", "//", "%")},
    "**": Sign(POWERS, ALONE, OPPOSITES),
}


class Drawn:
    """What is drawn by one seed. Each name ends in its number, so that pages of several seeds can stand in one."""

    def __init__(self, seed: int) -> None:
        self.chance = random.Random(seed)
        self.number = seed

    def page(self) -> Page:
        """A template with its names."""
        scope = {f"{letter}{self.number}": self.shape(3) for letter in "abcdef"}
        scope[f"f{self.number}"] = ("array", {key: self.shape(1) for key in self.chance.sample(KEYS, 3)})
        names = {name: self.value(shape) for name, shape in scope.items() if self.once_in(20) < 1}
        return Page(self.parts(scope, DEPTH), names)

    def once_in(self, times: int) -> int:
        """1 once in so many times, else 0."""
        return int(self.chance.randrange(times) == 0)

    # Names and values.

    def shape(self, levels: int) -> Shape:
        """What a value is to be like."""
        kind = self.chance.randrange(6) if levels else 0
        if kind == 4:
            return ("array", self.shape(levels - 1))
        if kind == 5:
            return {key: self.shape(levels - 1) for key in self.chance.sample(KEYS, self.chance.randint(1, 4))}
        return self.chance.choice(KINDS)

    def value(self, shape: Shape) -> Any:
        """A value that is like that, but for one in thirty."""
        if shape == "any" or self.once_in(30):
            shape = self.shape(2)
        if isinstance(shape, dict):
            return {key: self.value(part) for key, part in shape.items()}
        if isinstance(shape, tuple):
            parts = [self.value(shape[1]) for _ in range(self.chance.choice([0, 1, 2, 2, 3]))]
            return parts + parts[:self.once_in(4)]  # unique is to find one again
        kinds: Dict[str, Callable[[], Any]] = {"text": self.text, "number": self.integer, "truth": lambda: bool(self.once_in(2)), "none": lambda: None}
        return kinds[shape]() if shape in kinds else None

    def text(self) -> str:
        """A text, often a hostile one."""
        return "".join(self.chance.choice(self.chance.choice([HOSTILE, WORDS])) for _ in range(self.chance.randint(0, 3)))

    def integer(self) -> int:
        """An integer, often at an end of the range."""
        ends = [2**63, 2**64, -2**63, 2**127, 2**128 - 4, -2**127 + 3]
        near = self.chance.choice([3, 7, -7, 42, 1234] if self.chance.randrange(3) else ends)
        return near + self.chance.randint(-3, 3)

    # Parts of a template.

    def parts(self, scope: Scope, depth: int) -> str:
        """Some parts, one behind the other."""
        return "".join(self.part(scope, depth) for _ in range(self.chance.randint(0, 3) if depth < DEPTH else self.chance.randint(2, 5)))

    def part(self, scope: Scope, depth: int) -> str:
        """A part of any kind, and at the greatest depth one without others in it."""
        weights = [weight if depth or not holds else 0 for weight, holds, _ in PARTS]
        _, _, draw = self.chance.choices(PARTS, weights)[0]
        return draw(self, scope, depth)

    def tag(self, inner: str, marks: str = "%") -> str:
        """A tag that says that."""
        opens, closes = self.chance.choice(OPENS), self.chance.choice(CLOSES)
        head, foot = {"%": ("{%", "%}"), "{": ("{{", "}}"), "#": ("{#", "#}")}[marks]
        return head + opens + self.blank() + inner + self.blank() + closes + foot

    def blank(self) -> str:
        """Blanks, or none."""
        return self.chance.choice(BLANKS)

    def plain(self, scope: Scope, depth: int) -> str:
        """Text, that ends where no tag could begin."""
        return "".join(self.chance.choice(TEXTS) for _ in range(self.chance.randint(1, 3)))

    def comment(self, scope: Scope, depth: int) -> str:
        """A comment."""
        return self.tag(self.chance.choice(["", "a comment", "{{ a }}", "{% if %}", "'", "}}", "\n"]), "#")

    def show(self, scope: Scope, depth: int) -> str:
        """A value that is shown."""
        name = self.chance.choice(LASTS)
        said = Said(self.place(scope)[0], ALONE) if self.chance.randrange(3) else self.expression(scope, self.chance.choice(SHOWN), 2)
        shown = self.within(said, self.chance.choice([PIPED, ALONE])) if name and self.chance.randrange(3) else said.text
        return self.tag(shown + (f"{self.blank()}|{self.blank()}{name}" if name else ""), "{")

    def choice(self, scope: Scope, depth: int) -> str:
        """A choice."""
        said = [self.tag(f"if {self.test(scope)}"), self.parts(scope, depth - 1)]
        for _ in range(self.chance.choice([0, 0, 1, 2])):
            said += [self.tag(f"elif {self.test(scope)}"), self.parts(scope, depth - 1)]
        return "".join([*said, self.otherwise(scope, depth), self.tag("endif")])

    def question(self, scope: Scope, depth: int) -> str:
        """A choice by an expression, between two words."""
        said = self.expression(scope, "truth", 3).text
        return self.tag(f"if {said}") + "yes" + self.tag("else") + "no" + self.tag("endif")

    def test(self, scope: Scope) -> str:
        """What a choice asks for."""
        return self.expression(scope, "truth", 3).text if self.chance.randrange(3) else self.place(scope, 6)[0]

    def otherwise(self, scope: Scope, depth: int) -> str:
        """An `else` with its parts, or none."""
        return self.tag("else") + self.parts(scope, depth - 1) if self.once_in(2) else ""

    def setting(self, scope: Scope, depth: int) -> str:
        """A name that is set, which the parts behind it know."""
        name = self.chance.choice([*(f"{letter}{self.number}" for letter in LOOSE), *(name for name in scope if name not in loop_names())])
        place, shape = self.place(scope)
        if self.once_in(2):
            shape = self.chance.choice(["number", "truth", "any"])
            place = self.expression(scope, shape, 2).text
        scope[name] = shape
        return self.tag(f"set {name}{self.blank()}={self.blank()}{place}")

    def loop(self, scope: Scope, depth: int) -> str:
        """A loop, nearly always over an array, or by two names over a map."""
        is_by_two = self.once_in(4)
        kind = dict if is_by_two else tuple
        found = [(place, shape) for place, shape in (self.place(scope, 40) for _ in range(12)) if isinstance(shape, kind)]
        if not found and not self.once_in(12):
            return self.plain(scope, depth)
        place, shape = found[0] if found else self.place(scope)
        names = [self.chance.choice([*LOOSE, *(name for name in scope if name not in loop_names())]) for _ in range(1 + is_by_two)]
        parts: List[Shape] = [shape[1]] if isinstance(shape, tuple) else [*shape.values()] if isinstance(shape, dict) else ["any"]
        inner: Scope = {**scope, names[0]: "text", names[-1]: self.chance.choice(parts), **loop_names()}
        bound = f"{self.blank()},{self.blank()}".join(names)
        over = self.chance.choice([*[place] * 30, f"({self.blank()}{place})", f"{place} or {place}", self.expression(scope, "any", 1).text])
        if kind is tuple and self.once_in(6):
            over = self.through(scope, Said(place, ALONE), self.chance.choice(PIPES["array"]).name).text
        said = [self.tag(f"for {bound} in {over}"), self.parts(inner, depth - 1), self.otherwise({**scope}, depth), self.tag("endfor")]
        return "".join(said)

    def place(self, scope: Scope, missing: int = 60) -> Tuple[str, Shape]:
        """A place, and what is there. Once in so many times there is nothing."""
        if self.once_in(missing):
            name = self.chance.choice([*(name for name in scope if name not in loop_names()), f"z{self.number}"])
            return name + self.chance.choice(["", ".none_such", ".0.k", ".items", ".99"]), "any"
        name = self.chance.choice([*scope])
        place, shape = name, scope[name]
        while isinstance(shape, (tuple, dict)) and self.chance.randrange(5):
            if isinstance(shape, tuple) and self.chance.randrange(4):
                break  # most arrays are looped over
            part: str = "0" if isinstance(shape, tuple) else self.chance.choice([*shape])
            place, shape = f"{place}.{part}", shape[1] if isinstance(shape, tuple) else shape[part]
        return place, shape

    # Expressions.

    def expression(self, scope: Scope, kind: str, depth: int) -> Said:
        """An expression that has a value of that kind, but for one in sixty."""
        if self.once_in(60):
            return Said(self.place(scope, 5)[0], ALONE)
        if kind == "any":
            kind = self.chance.choice(["text", "number", "truth", "none", "array", "map", "item"])
        if kind in MADE and depth and self.chance.randrange(4):
            makers = MADE[kind]
            return self.chance.choices([make for _, make in makers], [weight for weight, _ in makers])[0](self, scope, depth - 1)
        return self.alone(scope, kind)

    def alone(self, scope: Scope, kind: str) -> Said:
        """A place, or a literal."""
        shapes = {"array": tuple, "map": dict}
        drawn = (self.place(scope) for _ in range(6))
        places = [place for place, shape in drawn if (isinstance(shape, shapes[kind]) if kind in shapes else shape == kind)]
        if places and self.chance.randrange(3):
            return Said(places[0], ALONE)
        literals: Dict[str, Callable[[], str]] = {
            "number": lambda: self.chance.choice(ODD_NUMBERS if self.once_in(40) else NUMBERS),
            "truth": lambda: self.chance.choice(["true", "false"]), "none": lambda: "none",
            "digits": lambda: self.chance.choice(DIGITS), "gone": lambda: self.place(scope, 2)[0]}
        return Said(literals.get(kind, self.literal)(), ALONE)

    def literal(self) -> str:
        """A text in quotes, none of which is its own."""
        text = self.chance.choice(self.chance.choice([HOSTILE, WORDS, WORDS]))
        quote = self.chance.choice([quote for quote in "\"'" if quote not in text] or ["'"])
        return quote + text.replace(quote, "") + quote

    def row(self, *words: str) -> str:
        """Words and signs in a row, with blanks or none between them; there are some where two words meet."""
        row = words[0]
        for word in words[1:]:
            row += (self.blank() or " " * (is_word(row[-1]) and is_word(word[0]))) + word
        return row

    def within(self, said: Said, level: int) -> str:
        """An expression where one stands that holds together so tightly: in parentheses where it does not, and once in ten."""
        return self.row("(", said.text, ")") if said.level < level or self.once_in(10) else said.text

    def two(self, sign: str, first: Said, second: Said) -> Said:
        """What is made of two."""
        at = SIGNS[sign]
        return Said(self.row(self.within(first, at.first), *sign.split(), self.within(second, at.second)), at.level)

    def joined(self, scope: Scope, depth: int) -> Said:
        """An `or` or an `and`, mostly of truth values."""
        first, second = (self.expression(scope, self.chance.choice(["truth", "truth", "any"]), depth) for _ in range(2))
        return self.two(self.chance.choice(["or", "and"]), first, second)

    def denied(self, scope: Scope, depth: int) -> Said:
        """A `not`."""
        return Said(self.row("not", self.within(self.expression(scope, "truth", depth), NOTS)), NOTS)

    def compared(self, scope: Scope, depth: int) -> Said:
        """A comparison, mostly of one kind, and often of a value with itself."""
        sign, kind = self.chance.choice(["==", "!=", "<", "<=", ">", ">="]), self.chance.choice(["number", "number", "text", "item", "any"])
        first = self.expression(scope, kind, depth)
        return self.two(sign, first, first if self.once_in(5) else self.expression(scope, kind, depth))

    def contained(self, scope: Scope, depth: int) -> Said:
        """An `in` or a `not in`."""
        kind, container = self.chance.choice([*[("text", "text"), ("text", "map"), ("any", "array")] * 3, ("any", "any")])
        return self.two(self.chance.choice(["in", "not in"]), self.expression(scope, kind, depth), self.expression(scope, container, depth))

    def defined(self, scope: Scope, depth: int) -> Said:
        """A question whether something is there, mostly at a place."""
        said = self.expression(scope, "any", depth) if self.once_in(6) else Said(self.place(scope, 2)[0], ALONE)
        return Said(self.row(self.within(said, SUMS), *self.chance.choice(["is defined", "is not defined"]).split()), COMPARISONS)

    def counted(self, scope: Scope, depth: int) -> Said:
        """Arithmetic. Half of what is divided has a `-`."""
        sign = self.chance.choice(["+", "-", "*", "//", "%", "%"])
        first = self.opposite(scope, depth) if sign in ("//", "%") and self.once_in(2) else self.expression(scope, "number", depth)
        return self.two(sign, first, self.expression(scope, "number", depth))

    def opposite(self, scope: Scope, depth: int) -> Said:
        """A `-` before a number."""
        return Said(self.row("-", self.within(self.expression(scope, "number", depth), OPPOSITES)), OPPOSITES)

    def power(self, scope: Scope, depth: int) -> Said:
        """A power, small enough for Python where it is made of literals."""
        places = [place for place, shape in (self.place(scope) for _ in range(3)) if shape == "number"]
        exponent = Said(self.chance.choice([*EXPONENTS, *places[:1]]), ALONE)
        if self.once_in(6):
            exponent = self.two("**", *(Said(self.chance.choice(EXPONENTS[:4]), ALONE) for _ in range(2)))
        if self.once_in(12):
            exponent = Said(self.row("-", exponent.text), OPPOSITES)
        return self.two("**", self.alone(scope, "number"), exponent)

    def piped(self, scope: Scope, depth: int, kind: str) -> Said:
        """What a filter makes that makes values of that kind. One in sixty is of a value of any kind."""
        pipe = self.chance.choice(PIPES[kind])
        taken = "any" if self.once_in(60) else pipe.takes
        if taken not in HELD:
            return self.through(scope, self.expression(scope, taken, depth), pipe.name)
        found = [(place, shape) for place, shape in (self.place(scope, 100) for _ in range(30)) if HELD[taken](shape)]
        if not found:
            return self.alone(scope, kind)
        said, shape = Said(found[0][0], ALONE), found[0][1]
        if taken != "map" and self.once_in(3):
            said = self.through(scope, said, self.chance.choice(PIPES["array"]).name)
        return self.through(scope, said, pipe.name, [*shape, *shape, "k"] if isinstance(shape, dict) else KEYS)

    def through(self, scope: Scope, said: Said, name: str, keys: List[str] = KEYS) -> Said:
        """A filter behind an expression, and mostly an argument or two where it knows some. One in forty of these is none."""
        drawn = ARGUMENTS.get(name, [])
        given = [(key, self.argument(scope, keys, kind)) for key, kind, times in drawn if self.chance.randrange(40) < times]
        if self.once_in(30):
            key, kind, _ = self.chance.choice([*drawn, *[("x", "any", 1)] * 9, ("loop", "any", 1)])
            given.insert(self.chance.randint(0, len(given)), (key, self.argument(scope, keys, kind)))
        words = [word for key, value in given for word in (",", key, "=", value)][1:]
        if words and self.once_in(40):
            words = self.chance.choice([words[2:], words[:-1], [*words, ","], [*words[:-1], "(", words[-1], ")"], [*words, "+", "1"]])
        braced = ["(", *words, ")"] if words or self.once_in(8) else []
        return Said(self.row(self.within(said, PIPED), "|", name, *braced), PIPED)

    def argument(self, scope: Scope, keys: List[str], kind: str) -> str:
        """What an argument of that kind is given: inside of a loop often its turn."""
        if kind == "key":
            return f'"{self.chance.choice(keys)}"'
        if kind in ("index", "bound") and "loop.index0" in scope and self.once_in(3):
            return "loop.index0"
        if kind == "index":
            return self.chance.choice(["0", "0", "0", "0", "-0", "1", "1", "1", "2", "99"])
        if kind == "bound":
            return self.chance.choice(["0", "1", "1", "2", "-1", "-1", "- 2", "-3", "5", "-18446744073709551615"])
        return self.alone(scope, kind).text

    def glued(self, scope: Scope, depth: int) -> Said:
        """A sum of texts, of which there is none."""
        return self.two("+", self.alone(scope, "text"), self.alone(scope, "text"))


def is_word(character: str) -> bool:
    """Whether it may stand in a word."""
    return character.isascii() and character.isalnum() or character in "_."


def loop_names() -> Scope:
    """The names that a loop brings beside its own."""
    return {"loop.index": "number", "loop.index0": "number", "loop.first": "truth", "loop.last": "truth"}


Maker = Callable[[Drawn, Scope, int], Said]
# The parts of templates: how often each is drawn, whether it holds others, and how it is drawn.
PARTS: List[Tuple[int, bool, Callable[[Drawn, Scope, int], str]]] = [
    (30, False, Drawn.plain), (35, False, Drawn.show), (25, False, Drawn.question), (5, False, Drawn.comment), (14, True, Drawn.choice),
    (16, True, Drawn.loop), (8, False, Drawn.setting),
]


class Pipe(NamedTuple):
    """A filter, and the kind of values that it takes."""

    name: str
    takes: str


# Filters by the kind of values that they make, what of these takes a place that holds, and the arguments that some know, each
# with its kind and how often in forty it is given.
PIPES: Dict[str, List[Pipe]] = {
    "text": [Pipe(name, "text") for name in ("upper", "upper", "lower", "lower", "trim", "trim", "reverse", "slice", "replace", "truncate")]
    + [Pipe("join", "texts")] * 2,
    "number": [*(Pipe("length", takes) for takes in ("text", "array", "array", "map")), *(Pipe("abs", "number"),) * 3, Pipe("int", "number"),
               Pipe("int", "digits")],
    "array": [Pipe(name, "array") for name in ("reverse", "sort", "unique", "slice")],
    "item": [*(Pipe(name, "array") for name in ("first", "last", "nth", "nth")), Pipe("get", "map"), Pipe("get", "map"),
             Pipe("default", "gone"), Pipe("default", "gone")],
    "none_such": [Pipe(name, "text") for name in ("title", "nosuch", "Upper", "escape", "safe", "count")],
}
HELD: Dict[str, Callable[[Shape], bool]] = {
    "array": lambda shape: isinstance(shape, tuple), "map": lambda shape: isinstance(shape, dict),
    "texts": lambda shape: isinstance(shape, tuple) and shape[1] in ("text", "number", "truth"),
}
ARGUMENTS: Dict[str, List[Tuple[str, str, int]]] = {
    "join": [("sep", "text", 30)], "nth": [("n", "index", 39)], "slice": [("start", "bound", 24), ("end", "bound", 24)],
    "get": [("key", "key", 39), ("default", "any", 30)], "default": [("value", "any", 39)],
    "replace": [("from", "text", 39), ("to", "text", 39)], "truncate": [("length", "index", 30), ("end", "text", 20)],
}


def piped(kind: str) -> Maker:
    """What draws filters that make values of a kind."""
    return lambda drawn, scope, depth: drawn.piped(scope, depth, kind)


# What is made of expressions, by the kind of its values: how often each is drawn, and how.
MADE: Dict[str, List[Tuple[int, Maker]]] = {
    "truth": [(4, Drawn.joined), (3, Drawn.denied), (8, Drawn.compared), (3, Drawn.contained), (2, Drawn.defined)],
    "number": [(18, Drawn.counted), (5, Drawn.opposite), (6, Drawn.power), (1, Drawn.glued), (24, piped("number"))],
    "text": [(60, piped("text")), (1, piped("none_such"))],
    "array": [(1, piped("array"))],
    "item": [(1, piped("item"))],
}
SHOWN = ["number", "number", "truth", "text", "text", "array", "item", "any"]


def page(seed: int) -> Page:
    """The page of a seed."""
    return Drawn(seed).page()
