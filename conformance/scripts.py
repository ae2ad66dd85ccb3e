"""Random scripts of the language, by a seed: lines of every call, and lines that may be bad."""
# what is picked is one of several types
# mypy: disable-error-code=no-any-return
from __future__ import annotations

import random
import re
from typing import AbstractSet, Any, Dict, List, Tuple

from . import reference
from .reference import NONE, UNDEFINED, Key, Names, Number, Text, Value

NAMES = "abcdef"
OTHER_NAMES = ["_", "get", "undefined", "u8", "A1_z"]
NEVER_SET = ["g", "never_set", "a1"]
PLAIN = "abz019 .+-_\"\\'<>&/;#,:\t\n\r\0\x01\x1b\x7f" + "éß漢Ω😀"
ODD = PLAIN + "\u0301\u200b\ufeff\u00a0\u00ad\u2028\ue000\U0010ffff\x85"  # a quoted one may be spelled otherwise
PLACE_LIKE = [str(2**64 - 1), str(2**64), "+" + str(2**64), "+", "0", "00", "-0", "1 ", "\u0663"]
KEY_TEXTS = ["", "a", "b", "c", "0", "1", "-1", "+0", "00", "a.b", "true", "18446744073709551616", "é", "\"\\\n"]
BITS = (7, 8, 15, 16, 31, 32, 63, 64, 127, 128)
ENDS = [sign * 2**bits + more for bits in BITS for sign in (1, -1) for more in (-1, 0, 1)]
EDGES = [2**128 - 1, 2**127, 2**127 - 1, 2**126, 2**64, 2**63, 2, 1, 0, -1, -2, -2**63, -2**64, -2**126, -2**127]
KIND_ENDS = [2**63 - 1, 2**63, 2**64 - 1, 2**64, 2**127 - 1, 2**127, 2**128 - 1, -2**63, -2**63 - 1, -2**127]
WIDE = [end for end in ENDS if -2**127 <= end < 2**128]
SMALL = [bound for bound in ENDS if -2**127 <= bound < 2**127]
ESCAPES = {plain: "\\" + short for short, plain in reference.SHORT_ESCAPES.items()}
BYTES = [b"", b"\0", b"\xff", b"hi", "é漢".encode(), b"\xf0\x9f\x98", b"\xed\xa0\x80", b"\xc0\xaf", b"\xe6\xbca", b"\n"]
UTF8_PARTS = ["é".encode(), "😀".encode()] + [
    bytes([byte]) for byte in b"a<\x80\x8f\x90\x9f\xa0\xbf\xc1\xc2\xdf\xe0\xe1\xed\xee\xef\xf0\xf1\xf4\xf5"]
KEPT = [word for word, (form, _) in reference.CALLS.items() if form.endswith(">")]
SKIPPED = [b"", b" ", b"\t \t", b"# set a 1", b" \t# \xff\xfe", b"#"]
SYNTAX = b"\"\"\\[]{},:-> \t\r_sxu0189afnt#\0+.\x0b\xc3\xff"
BAD_LINES = [
    'set', 'set a', 'set a 1 2', 'set a1', 'set 1 a', 'set a-b 1', 'seta 1', 'SET a 1', 'set a 1 -> b', 'frob',
    'frob a', '->', 'get a b', 'get a ->', 'get a -> 1', 'get a->b', 'get a ->b', 'get a-> b', 'get a - > b',
    'get a -> b -> c', 'get a > b', 'get "a"', 'get a\r', 'get a\x0b', 'get\xa0a', '\ufeffget a', 'has a -> b',
    'len a -> b', 'eq a', 'eq a b c', 'eq a b -> c', 'remove a -> b', 'print a -> b', 'contains a b -> c', 'cmp a',
    'try_cmp a b -> c', 'path a b', 'path a', 'path a s"x"', 'path a"x"', 'path a "x', 'path a "x" "y"',
    'path a "x"-> b', 'path a "x" y', 'attr a x"00"', 'item a 1', 'slice a _ _', 'slice a _ _ _ _', 'slice a 1 2 3u64',
    'slice a - _ _', 'slice a +1 _ _', 'slice a -_ _ _', 'slice a __ _ _', 'slice a 1_ _ _',
    'slice a _ _ 170141183460469231731687303715884105728', 'slice a 1,2,3', 'slice a _ _ _-> b',
    'slice a -170141183460469231731687303715884105729 _ _', 'read a u8', 'read u9 a', 'read bool a', 'read U8 a',
    'read u8', 'floor-div a b', 'floordiv a b', 'div a b', 'neg a', 'negate a b', 'mark_safe', 'is_safe a -> b',
    'kind a b', 'fields', 'walk', 'walk a b', 'walk a -> b', 'walk {}', 'walk 1', 'walks a', 'WALK a',
    'extend', 'extend []', 'extend {1: 2}', 'extend {"a": 1, true: 2}', 'extend {s"a": 1}',
    'extend {"a": 1} -> b', 'extend{"a": 1}', 'extend a', 'extend {"a": 1,}', 'extend none', 'extend {"a": {1: 2}} {}',
    'extend {"a": 1, 1: {}}', 'set a"x"', 'set a[]', 'set a nonesuch', 'set a None', 'set a "x', 'set a x"',
    'set a "a"b"', 'set a s "x"', "set a 'x'", 'set a "\\a"', 'set a "\\x41"', 'set a "\\u{}"', 'set a "\\u{1234567}"',
    'set a "\\u{0000041}"', 'set a "\\u{d800}"', 'set a "\\u{dfff}"', 'set a "\\u{110000}"', 'set a "\\u{ffffff}"',
    'set a "\\u{g}"', 'set a "\\u0041"', 'set a "\\U{41}"', 'set a "\\u{41"', 'set a "\\u{ 41}"', 'set a "\\"',
    'set a "\\\'"', 'set a x"0"', 'set a x"0g"', 'set a x"00 00"', 'set a x "00"', 'set a X"00"', 'set a S"x"',
    'set a x"\\0"', 'set a -', 'set a --1', 'set a +1', 'set a - 1', 'set a 1.0', 'set a 1_000', 'set a 0x10',
    'set a 1u8', 'set a 1usize', 'set a 1U64', 'set a 1 u64', 'set a 1i', 'set a -0u64', 'set a -0u128', 'set a -1u64',
    'set a -1u128', 'set a 9223372036854775808i64', 'set a -9223372036854775809i64', 'set a 18446744073709551616u64',
    'set a 170141183460469231731687303715884105728i128', 'set a i64', 'set a -170141183460469231731687303715884105729',
    'set a -170141183460469231731687303715884105729i128', 'set a 340282366920938463463374607431768211456',
    'set a 340282366920938463463374607431768211456u128', 'set a [', 'set a ]', 'set a {', 'set a }', 'set a [1,]',
    'set a [,1]', 'set a [,]', 'set a [1,,2]', 'set a [1 2]', 'set a [1}', 'set a {1]', 'set a [1]]', 'set a [[1]',
    'set a {1}', 'set a {1:}', 'set a {:1}', 'set a {1:2,}', 'set a {,}', 'set a {1:2 3:4}', 'set a {1 2}',
    'set a {1::2}', 'set a {a: 1}', 'set a {none: 1}', 'set a {undefined: 1}', 'set a {s"a": 1}', 'set a {[]: 1}',
    'set a {x"00": 1}', 'set a {1: 2, 3}', 'set a {-1u64: 2}', 'set a {true1: 2}', 'set a {"a" "b"}', 'set a [1]x',
    'set a [1] x', 'set a [\x0b]', 'set a [\r]', 'set a "é', 'set a é', 'set é 1', 'set a 1\u0660', 'set a \u0661',
    'set a x"\u0661\u0661"', 'set a 1#', 'set a 1 # note', '\x0c', '\r', '\0', 'set a 1\0',
]


WORD = re.compile(rb"[ \t]*([A-Za-z_][A-Za-z0-9_]*)")


def word_of(line: bytes) -> str:
    """The first word of a line, or nothing."""
    found = WORD.match(line)
    return found[1].decode() if found else ""


class Maker:
    """Makes lines. It does them too, by the reference, to know what its names hold. No line has a word that is left out."""

    def __init__(self, chance: random.Random, left_out: AbstractSet[str] = frozenset()) -> None:
        self.chance = chance
        self.left_out = left_out
        self.of_one_name = [word for word in reference.CALLS if reference.CALLS[word][0] in ("v", "v>", "Cn", "Cn>")]
        self.makers = {
            self.arithmetic_lines: 11, self.two_lines: 12, self.item_lines: 11, self.contains_lines: 7,
            self.slice_lines: 11, self.path_lines: 12, self.read_lines: 8, self.shown_lines: 20, self.set_lines: 7,
            self.order_lines: 5, self.extend_lines: 3 * ("extend" not in left_out), self.odd_lines: 2, self.skipped_lines: 4}
        self.names: Names = {}
        self.bad_lines: List[str] = []

    def often(self, percent: float) -> bool:
        return self.chance.random() * 100 < percent

    def pick(self, *things: Any) -> Any:
        return self.chance.choice(things)

    # values

    def number(self) -> int:
        if self.often(45):
            return self.chance.choice(WIDE)
        if self.often(75):
            return self.chance.randint(-4, 12)
        number = self.chance.getrandbits(self.chance.randint(1, 127))
        return -number if self.often(40) else number

    def text(self, chars: str = PLAIN) -> str:
        if chars is PLAIN and self.often(35):
            return self.chance.choice(KEY_TEXTS)
        count = self.chance.randint(0, 3) if self.often(60) else self.chance.randint(0, 12)
        return "".join(self.chance.choices(chars, k=2000 if self.often(0.3) else count))

    def text_value(self) -> Text:
        return Text(self.text(), self.often(45))

    def some_bytes(self) -> bytes:
        if self.often(40):
            return self.chance.choice(BYTES)
        if self.often(20):
            return self.chance.randbytes(self.chance.randint(0, 6))
        return b"".join(self.chance.choices(UTF8_PARTS, k=self.chance.randint(0, 5)))

    def leaf(self) -> Any:
        return self.pick(lambda: UNDEFINED, lambda: NONE, lambda: True, lambda: False, self.some_bytes,
                         *[lambda: Number("", self.number())] * 5, *[self.text_value] * 4)()

    def key(self) -> Key:
        if self.often(60):
            return (2, self.chance.choice(KEY_TEXTS[:8]) if self.often(75) else self.text())
        return (0, self.often(50)) if self.often(15) else (1, self.pick(-1, 0, 1, 1, 2, self.number()))

    def of_any_rank(self) -> Any:
        """A value, and one of each kind as often as of the others."""
        number = Number("", self.number())
        return self.pick(True, False, number, self.text_value(), self.array(1), self.map_value(1), self.some_bytes(), NONE,
                         UNDEFINED)

    def array(self, depth: int = 3) -> Tuple[Value, ...]:
        return tuple(self.value(depth - 1) for _ in range(self.chance.randint(0, 4)))

    def map_value(self, depth: int = 3) -> Dict[Key, Value]:
        value = {self.key(): self.value(depth - 1) for _ in range(self.chance.randint(0, 4))}
        if value and self.often(20):
            value[2, reference.printed_key(self.chance.choice(list(value)))] = self.leaf()  # a key that prints alike
        return value

    def value(self, depth: int = 3) -> Any:
        if depth > 0 and self.often(15 * depth):
            return self.pick(self.array, self.map_value)(depth)
        return self.leaf()

    def deep(self, levels: int) -> Any:
        value = self.leaf() if self.often(60) else self.pick((), {})
        for _ in range(levels - (value in ((), {}))):
            value = self.pick((value,), {self.key(): value})
        return value

    def near(self, value: Any) -> Any:
        """A value that is like this one, and often equal to it."""
        if self.often(25):
            return value
        if isinstance(value, Number):
            number = self.pick(value.number, -value.number, value.number + 1, value.number - 1)
            return Number("", number) if -2**127 <= number < 2**128 else Text(str(number), False)
        if isinstance(value, Text):
            text = self.pick(value.text, value.text[:-1], value.text + self.text(), value.text[::-1])
            return Number("", int(text)) if text in ("0", "1", "-1") and self.often(40) else Text(text, self.often(50))
        if isinstance(value, bytes):
            return self.pick(value[:-1], value + b"\0", value[::-1], value)
        if reference.is_array(value) and value:
            place = self.chance.randrange(len(value))
            return self.pick(value[:-1], value[1:], value + (self.value(1),),
                             *[value[:place] + (self.near(value[place]),) + value[place + 1:]] * 3)
        if isinstance(value, dict) and value:
            key = self.chance.choice(list(value))
            without = {one: value[one] for one in value if one != key}
            return self.pick(without, value | {self.key(): self.value(1)}, without | {self.key(): value[key]},
                             *[value | {key: self.near(value[key])}] * 3)
        return self.value(2)

    # spelling

    def blanks(self, least: int = 0) -> str:
        if self.often(75):
            return " " * least
        return "".join(self.chance.choices(" \t", k=self.chance.randint(least, 3)))

    def joined(self, *words: str) -> str:
        line = words[0] + "".join(self.blanks(1) + word for word in words[1:])
        return self.blanks() + line + self.blanks() if self.often(15) else line

    def spell_number(self, number: int) -> str:
        suffix = self.chance.choice(reference.KINDS) if self.often(45) else ""
        minus = "-" if number < 0 or number == 0 and suffix[:1] != "u" and self.often(20) else ""
        low, high = reference.TYPES[suffix] if suffix else (number, number)
        zeros = "0" * self.chance.randint(1, 60) if self.often(6) else ""
        return minus + zeros + str(abs(number)) + (suffix if low <= number <= high else "")

    def spell_character(self, char: str) -> str:
        if char == "\n" or char in "\"\\\0\r\t" and (char in "\"\\" or self.often(60)):
            return ESCAPES[char] if self.often(85) else self.by_number(char)
        return self.by_number(char) if self.often(4) else char

    def by_number(self, char: str) -> str:
        digits = f"{ord(char):x}".zfill(self.pick(1, 2, 4, 6))
        return "\\u{" + (digits.upper() if self.often(40) else digits) + "}"

    def spell_text(self, text: str) -> str:
        return '"' + "".join(map(self.spell_character, text)) + '"'

    def spell_key(self, key: Key) -> str:
        rank, value = key
        return (reference.truth, self.spell_number, self.spell_text)[rank](value)

    def spell_bytes(self, value: bytes) -> str:
        digits = value.hex()
        return 'x"' + (digits.upper() if self.often(30) else digits) + '"'

    def spell_pairs(self, value: Dict[Key, Value]) -> List[str]:
        pairs = list(value.items())
        self.chance.shuffle(pairs)
        for place in reversed(range(len(pairs))) if self.often(15) else []:
            pairs.insert(self.chance.randint(0, place), (pairs[place][0], self.leaf()))  # written over by a later pair
        return [self.spell_key(key) + self.blanks() + ":" + self.blanks() + self.spell(one) for key, one in pairs]

    def bracketed(self, begin: str, parts: List[str], end: str) -> str:
        inner = "".join(self.blanks() + "," + self.blanks(self.often(70)) + part for part in parts)
        return begin + self.blanks() + inner.lstrip(" \t,") + self.blanks() + end

    def spell(self, value: Any) -> str:
        if isinstance(value, Number):
            return self.spell_number(value.number)
        if isinstance(value, Text):
            return "s" * value.safe + self.spell_text(value.text)
        if isinstance(value, bytes):
            return self.spell_bytes(value)
        if isinstance(value, dict):
            return self.bracketed("{", self.spell_pairs(value), "}")
        if reference.is_array(value):
            return self.bracketed("[", list(map(self.spell, value)), "]")
        return reference.truth(value) if isinstance(value, bool) else value.name

    # operands

    def name(self) -> str:
        if self.often(5):
            return self.chance.choice(NEVER_SET)
        return self.chance.choice(OTHER_NAMES if self.often(5) else NAMES)

    def target(self) -> str:
        return self.chance.choice(OTHER_NAMES if self.often(4) else NAMES)

    def other_target(self) -> str:
        """A name that mostly holds none of the larger values."""
        return self.target() if self.often(10) else self.pick("a", "b")

    def holder(self, *types: type) -> Tuple[str, Any, List[str]]:
        """A name that mostly holds a value of one of these types, that value, and the line to set it if need be."""
        names = [name for name in NAMES if type(self.names.get(name)) in types]
        if self.often(10) or names and self.often(65):
            name = self.chance.choice(names or NAMES)
            return name, self.names.get(name, UNDEFINED), []
        makers: Dict[Any, Any] = {tuple: self.array, dict: self.map_value, Text: self.text_value, bytes: self.some_bytes}
        return self.holder_of(makers[self.chance.choice(types)]())

    def holder_of(self, value: Any) -> Tuple[str, Any, List[str]]:
        name = self.pick("c", "d", "e", "f")
        return name, value, [self.set_line(name, value)]

    def place(self, count: int) -> int:
        """An index of something of this length, or one not far off, or far off."""
        return self.chance.choice(SMALL) if self.often(12) else self.chance.randint(-count - 2, count + 2)

    def bound(self, count: int) -> str:
        if self.often(25):
            return "_"
        return self.spell_bound(self.place(count))

    def spell_bound(self, number: int) -> str:
        minus = "-" if number < 0 or number == 0 and self.often(20) else ""
        return minus + "0" * self.often(4) + str(abs(number))

    def path_element(self, value: Any) -> str:
        """An element that leads on from this value, as a rule."""
        if isinstance(value, dict) and value and self.often(90):
            return reference.printed_key(self.chance.choice(list(value)))
        place = str(self.chance.randrange(len(value) or 1 if reference.is_array(value) else 3))
        if self.often(80):
            return self.pick(place, place, "+" + place, "00" + place, "0" * 50 + place)
        return self.pick("++" + place, "-" + place, place + " ", "+", "", self.text(), str(2**64 - 1), str(2**64),
                         "+" + str(2**64), "9" * self.chance.randint(1, 60), "\u0663")

    def path(self, value: Any) -> str:
        elements = []
        while self.often(85 if value and (isinstance(value, dict) or reference.is_array(value)) else 10):
            elements.append(self.path_element(value))
            value = None if value is None else reference.path(value, elements[-1])
        return ".".join(elements)

    # lines

    def set_line(self, name: str, value: Any) -> str:
        return self.joined("set", name, self.spell(value))

    def set_lines(self) -> List[Any]:
        name = self.target()
        if self.often(30):
            return [self.set_line(name, Number("", self.chance.choice(KIND_ENDS))), self.joined("kind", name)]
        value = self.deep(self.pick(2, 10, 63, 64)) if self.often(3) else self.value(self.pick(0, 0, 1, 2, 3, 4))
        return [self.set_line(name, value), self.joined(self.pick("kind", "print", "escape", "get"), name)]

    def extend_lines(self) -> List[Any]:
        names = [self.pick(self.target(), self.target(), "a b", "") for _ in range(self.chance.randint(0, 4))]
        return [self.joined("extend", self.spell({(2, name): self.value(2) for name in names}))]

    def operands(self) -> Any:
        """Two numbers that make refusals and ends of ranges likely."""
        if self.often(15):
            return self.pick(-2**127, -2**127, 2**127), self.pick(-1, -1, 1, 0)
        if self.often(35):
            return self.pick(0, 0, 1, -1, 2, -2, 10, 2**63), self.pick(0, 0, 1, 2, 3, 126, 127, 128, 2**32 - 1, 2**32)
        return self.pick((self.number(), self.number()), (self.chance.choice(EDGES), self.chance.choice(EDGES)))

    def arithmetic_lines(self) -> List[Any]:
        lines = [self.set_line(name, Number("", number)) for name, number in zip("ab", self.operands())]
        if self.often(15):
            lines = [self.set_line(self.pick("a", "b"), self.of_any_rank())]
        for word in self.chance.sample([*reference.OPERATORS, "pow", "rem"], 3):
            lines.append(self.joined(word, *(("a", "b") if self.often(90) else (self.name(), self.name()))))
        return lines + [self.joined("negate", self.pick("a", "b"))] * self.often(40)

    def two_lines(self) -> List[Any]:
        """Two values that may be alike."""
        left, value, lines = self.holder(dict, tuple, Text) if self.often(70) else self.holder_of(self.of_any_rank())
        right = self.other_target()
        other = self.pick(*[self.near(value)] * 2, *[self.near(self.near(value))] * 2, *[self.of_any_rank()] * 2)
        lines += [self.set_line(right, other)] if self.often(85) else []
        for word in self.pick(["eq"], ["cmp"], ["try_cmp"], ["cmp", "try_cmp"], ["eq", "cmp", "try_cmp"]):
            lines.append(self.joined(word, *self.pick((left, right), (right, left))))
        return lines

    def item_lines(self) -> List[Any]:
        (of, value, lines), index = self.holder(dict, tuple, Text), self.other_target()
        if isinstance(value, dict) and value and self.often(70):
            rank, key = self.chance.choice(list(value))
            chosen = (lambda: key, lambda: Number("", key), lambda: Text(key, self.often(50)))[rank]()
            chosen = self.near(chosen) if self.often(30) else chosen
        else:
            chosen = Number("", self.place(reference.size(value) if reference.is_sized(value) else 2))
        lines += [self.set_line(index, self.pick(chosen, chosen, chosen, self.value(1)))] if self.often(85) else []
        if isinstance(value, Text) and self.often(60):
            return lines + [self.joined("item", of, index, "->", "a"), self.joined("is_safe", "a")]
        return lines + [self.joined("item", of, index)]

    def contains_lines(self) -> List[Any]:
        (of, value, lines), needle, chosen = self.holder(dict, tuple, Text), self.other_target(), self.value(1)
        if isinstance(value, Text):
            place = self.chance.randint(0, len(value.text))
            chosen = Text(value.text[place:place + self.chance.randint(0, 3)], self.often(30))
        elif reference.is_array(value) and value:
            chosen = self.near(self.chance.choice(value))
        elif isinstance(value, dict) and value:
            chosen = self.near(Text(reference.printed_key(self.chance.choice(list(value))), False))
        lines += [self.set_line(needle, chosen)] if self.often(85) else []
        return lines + [self.joined("contains", of, needle)]

    def slice_lines(self) -> List[Any]:
        of, value, lines = self.holder(tuple, Text) if self.often(80) else self.holder_of(self.of_any_rank())
        count = reference.size(value) if reference.is_sized(value) else 3
        for _ in range(self.chance.randint(1, 3)):
            step = "0" if self.often(15) else self.bound(2)
            lines.append(self.joined("slice", of, self.bound(count), self.bound(count), step))
        return lines

    def path_lines(self) -> List[Any]:
        of, value, lines = self.holder(dict, dict, tuple) if self.often(75) else self.holder_of(
            self.pick(NONE, self.leaf(), *[{(2, text): self.leaf() for text in PLACE_LIKE}] * 2))
        for word in self.pick(["path"], ["path", "path", "path"], ["attr", "path"]):
            path = self.path_element(value) if word == "attr" else self.path(value)
            lines.append(self.joined(word, of, self.spell_text(path)))
        return lines

    def read_lines(self) -> List[Any]:
        of, (to, ends) = self.target(), self.chance.choice(list(reference.TYPES.items()))
        number = self.chance.choice(ends) + self.pick(-1, 0, 0, 1)
        number = number if -2**127 <= number < 2**128 and self.often(70) else self.number()
        lines = [self.set_line(of, Number("", number))] if self.often(90) else []
        return lines + [self.joined("read", one, of) for one in (to, self.pick(*reference.TYPES))]

    def odd_lines(self) -> List[Any]:
        """Characters whose quoted form is not sure, in texts that are not shown in quotes."""
        lines = [self.set_line(self.pick("w", "z"), Text(self.text(ODD), self.often(30)))]
        for _ in range(3):
            word = self.pick("print", "escape", "len", "is_safe", "truthy", "mark_safe", "kind", "eq", "cmp", "try_cmp",
                             "contains", "slice", "item", "reverse", "get")
            bounds = [self.bound(3), self.bound(3), self.bound(2)] if word == "slice" else []
            arrow = ["->", "z"] if word in ("slice", "item", "reverse", "get") else []
            others = self.pick(*NAMES) if word == "item" else "z" if "vv" in reference.CALLS[word][0] else ""
            lines.append(self.joined(word, "w", *others, *bounds, *arrow))
        return lines + [self.joined("print", "z")]

    def shown_lines(self) -> List[Any]:
        """Calls of one name."""
        word = self.chance.choice(self.of_one_name)
        types: List[Any] = [dict] if word in ("fields", "walk") else [dict, tuple, Text, bytes]
        of, _, lines = self.holder(*types)
        of, lines = (of, lines) if self.often(70) else (self.name(), [])
        if word == "mark_safe" and self.often(40):
            of = self.chance.choice(NEVER_SET)
        if word in ("mark_safe", "remove"):
            return lines + [self.joined(word, of), self.joined(self.pick("has", "get", "is_safe"), of)]
        other_word = self.pick("escape", *self.of_one_name)
        return lines + [self.joined(word, of)] + [self.joined(other_word, of)] * self.often(60)

    def kept(self, line: Any) -> List[Any]:
        """The line with an arrow at its end, for some of the calls that may have one."""
        words = line.split()
        if self.often(60) or not words or words[0] not in KEPT or "->" in words:
            return [line]
        into, after = self.target(), []
        if self.often(75):
            shows = {"read": ["kind"], "reverse": ["is_safe"], "item": ["get", "is_safe"], "slice": ["get", "is_safe"]}
            word = self.pick(*shows.get(words[0], ["get", "get", "kind", "is_safe"]))
            after = [self.joined(word, into)]
        return [line.rstrip(" \t") + self.blanks(1) + "->" + self.blanks(1) + into, *after]

    def order_lines(self) -> List[Any]:
        """A map, the same in another order, and what tells the order and what does not."""
        value = self.map_value(2)
        lines = [self.set_line(name, value) for name in "ab"]
        lines += [self.joined(self.pick("walk", "print", "get", "escape", "fields"), name) for name in "ab"]
        return lines + [self.joined(self.pick("eq", "cmp"), "a", "b"), self.joined("walk", "a")]

    def skipped_lines(self) -> List[Any]:
        return [self.chance.choice(SKIPPED)]

    def lines(self) -> List[bytes]:
        """A few good lines."""
        make = self.chance.choices(list(self.makers), list(self.makers.values()))[0]
        return [kept if isinstance(kept, bytes) else kept.encode() for line in make() for kept in self.kept(line)]

    # lines that may be bad

    def byte(self) -> bytes:
        byte = self.chance.choice(SYNTAX) if self.often(85) else self.chance.randrange(256)
        return bytes([byte]).replace(b"\n", b" ")

    def changed(self, line: bytes) -> bytes:
        place = self.chance.randint(0, len(line))
        end = min(len(line), place + self.pick(1, 1, 1, 2, 5))
        other = self.chance.randint(0, len(line))
        begin, rest = line[:place], line[end:]
        return self.pick(begin, begin + rest, begin + self.byte() + line[place:], begin + self.byte() + rest,
                         line[:end] + line[place:], line[:other] + line[place:end] + line[other:])

    def doubtful(self, line: bytes) -> bytes:
        """A line that may be bad."""
        if self.often(3):
            return f"set a {self.spell(self.deep(self.pick(63, 64, 65, 66)))}".encode()
        if self.often(50):
            return self.bad_line().encode()
        if self.often(10):
            return line + self.pick(b" -> b", b"\t->\t_ ", b"\r\r", b"\xff", b" \xc3", b" ->", b"#", b" #")
        line = self.changed(line)
        return self.changed(line) if self.often(20) else line

    def bad_line(self) -> str:
        """One of those picked by hand; each comes as often as any other."""
        if not self.bad_lines:
            self.bad_lines = [line for line in BAD_LINES if word_of(line.encode()) not in self.left_out]
            self.chance.shuffle(self.bad_lines)
        return self.bad_lines.pop()

    def is_good(self, line: bytes) -> bool:
        try:
            if not reference.is_skipped(line):
                reference.step(self.names, line.decode())
            return True
        except (reference.BadLine, UnicodeDecodeError):
            return False

    def script(self, good: int, doubtful: int) -> Tuple[List[bytes], int]:
        """The lines of a script with their ends, and how many of them are read."""
        self.names = {}
        lines: List[bytes] = []
        while len(lines) < good + doubtful:
            made = [line for line in self.lines() if word_of(line) not in self.left_out]
            if self.left_out and all(word_of(line) in ("set", "") for line in made) and self.often(90):
                continue  # none of the calls that are asked for
            for line in made:
                may_be_bad = len(lines) >= good and self.often(50)
                line = self.doubtful(line) if may_be_bad else line
                if word_of(line) in self.left_out:
                    continue
                lines.append(line + (b"\r\n" if self.often(8) else b"\n"))
                if not self.is_good(reference.lines_of(lines[-1])[0]):
                    behind = [*self.lines(), b"set a 1"]
                    return lines + [line + b"\n" for line in behind if word_of(line) not in self.left_out], len(lines)
        lines[-1] = lines[-1].rstrip(b"\r\n") + self.pick(b"\n", b"\r\n", b"", b"\r")
        return lines, len(lines)
