"""Cases of each call by tables: every kind against every kind, bounds of slices, escapes, ends of types, bad lines."""
from __future__ import annotations

import itertools
import re
from typing import AbstractSet, Callable, Dict, Iterable, Iterator, List, NamedTuple, Union

from . import reference
from .engines import Script
from .reference import CALLS, KINDS, OPERATORS, TYPES, spelled_text
from .scripts import BAD_LINES, EDGES, UTF8_PARTS, WIDE, word_of

# A value of each kind. The last name is never set.
EACH_KIND = {
    "undefined": "undefined", "none": "none", "yes": "true", "i64": "-7", "u64": "1u64", "i128": "2i128", "u128": "0u128",
    "string": '"ab"', "safe": 's"<b>"', "bytes": 'x"6162"', "array": '["ab", 1, [1]]', "map": '{"ab": [1], 2: "x"}'}
# More of each, equal and unequal, empty and at the ends.
MORE = {
    "no": "false", "zero": "0", "one": "1", "least": str(-2**127), "most": str(2**128 - 1), "mid": str(2**127),
    "top": str(2**127 - 1), "end64": str(2**64 - 1), "empty": '""', "safe_ab": 's"ab"', "digit": '"1"', "other": '"é😀<&>"',
    "no_bytes": 'x""', "odd_bytes": 'x"ff61"', "no_items": "[]", "nothings": "[none, undefined]", "numbers": "[1u64, 2]",
    "same_numbers": "[1, 2i128]", "nested": '[{"a": 1}, {}]', "near_nested": '[{"a": 2}, {}]', "no_pairs": "{}",
    "one_pair": '{"ab": [1]}', "turned": '{2u64: "x", "ab": [1]}', "keys": '{true: 1, 1: 2, "1": 3, "true": 4}',
    "deep": '{"a": {"b": [{"c": 1}]}}', "near_deep": '{"a": {"b": [{"c": 2}]}}'}
VALUES = {**EACH_KIND, **MORE}
UNSET = "never_set"
SHOWN = ("get", "kind", "is_safe")
PATHS = ["", "0", "1", "+1", "-1", "00", "1 ", "a", "b", "ab", "ab.0", "a.b", "a.b.0", "a.b.0.c", "0.a", "1.a", ".", "a.", ".a",
         str(2**64 - 1), str(2**64), "+" + str(2**64), "+", "++1", "é", "\u0663", "true", "2"]
NEAR = ["_", *map(str, range(-6, 7)), "-0", "003"]
FAR = [str(sign * 2**bits + more) for bits in (63, 64, 127) for sign in (1, -1) for more in (-1, 0)]
FAR_BOUNDS = [bound for bound in FAR if -2**127 <= int(bound) < 2**127]
STEPS = ["_", "0", "1", "2", "3", "5", "-1", "-2", "-3", "-5", str(2**127 - 1), str(-2**127)]
SLICED = {"text": '"aé漢😀"', "safe": 's"ab"', "empty": '""', "array": "[1, [2], none, 4]", "short": "[1]", "no_items": "[]"}
PAST_ASCII = "éß漢Ω😀\u0301\u200b\ufeff\u00a0\u00ad\u2028\ue000\U0010ffff\x85"
SCALARS = "0 9 41 041 0041 00041 000041 d7ff e000 10ffff 10FFFF 2f 2F e9 1f600"
NO_SCALARS = ["", "0000041", "1234567", "d800", "dbff", "dc00", "dfff", "110000", "ffffff", "g", " 41", "41 ", "-1", "+1"]


class Check(NamedTuple):
    """A part of a run: its name, and its scripts. A script ends at its first bad line, so each such line has its own."""

    name: str
    scripts: List[Script]


Line = Union[str, bytes]


def ended(lines: Iterable[Line]) -> List[bytes]:
    """Lines with their ends."""
    return [(line if isinstance(line, bytes) else line.encode()) + b"\n" for line in lines]


def setting(values: Dict[str, str]) -> List[bytes]:
    """The lines that keep these literals under their names."""
    return ended(f"set {name} {literal}" for name, literal in values.items())


def one_script(name: str, values: Dict[str, str], cases: Iterable[Iterable[Line]]) -> Check:
    """A check of many cases over the same names."""
    return Check(name, [Script(setting(values), [ended(case) for case in cases])])


def alone(name: str, scripts: Iterable[Iterable[Line]]) -> Check:
    """A check of scripts that are run alone, as each may end early."""
    return Check(name, [Script([], [ended(lines)]) for lines in scripts])


def kept(line: str) -> List[str]:
    """A line that keeps what it finds, and what shows what is kept."""
    return ["remove z", f"{line} -> z", "has z", *(f"{word} z" for word in SHOWN)]


# Calls by kinds.


def of_one() -> Iterator[Check]:
    """Each call of one name, on all values, and with its arrow."""
    names = [*VALUES, UNSET]
    for word, (form, _) in CALLS.items():
        if form.strip(">") in ("v", "Cn"):
            after = ["has {0}", "get {0}", "is_safe {0}"] if word in ("remove", "mark_safe") else []
            cases: List[List[Line]] = [[f"{word} {name}", *(line.format(name) for line in after)] for name in names]
            yield one_script(f"{word} of every kind", VALUES, cases)
        if form in ("v>", "Cn>"):
            yield one_script(f"{word} of every kind, kept", VALUES, [kept(f"{word} {name}") for name in names])


def of_two() -> Iterator[Check]:
    """Each call of two names, on all pairs of values, and with its arrow on a value of each kind."""
    pairs = list(itertools.product([*VALUES, UNSET], repeat=2))
    few = list(itertools.product([*EACH_KIND, UNSET], repeat=2))
    for word, (form, _) in CALLS.items():
        if form.startswith("vv"):
            yield one_script(f"{word} of every kind with every kind", VALUES, [[f"{word} {one} {other}"] for one, other in pairs])
        if form == "vv>":
            cases = [kept(f"{word} {one} {other}") for one, other in few]
            yield one_script(f"{word} of every kind with every kind, kept", EACH_KIND, cases)


def of_types() -> Iterator[Check]:
    """`read`, of each type: the ends of all types, and a value of each kind."""
    numbers = {f"n{place}": str(number) for place, number in enumerate(WIDE)}
    for name in TYPES:
        yield one_script(f"read {name} of the ends of types", numbers, [[f"read {name} {one}"] for one in numbers])
        cases = [kept(f"read {name} {one}") for one in [*EACH_KIND, UNSET]]
        yield one_script(f"read {name} of every kind, kept", EACH_KIND, cases)


def of_paths() -> Iterator[Check]:
    """`path` and `attr`, by texts that are places or nearly so."""
    odd = {"odd": "{" + ", ".join(f"{spelled_text(text)}: {place}" for place, text in enumerate(PATHS)) + "}"}
    values = {**VALUES, **odd}
    for word in ("path", "attr"):
        lines = [f"{word} {name} {spelled_text(text)}" for name in [*values, UNSET] for text in PATHS]
        yield one_script(f"{word} of every kind", values, [[line] for line in lines])
        few = [f"{word} {name} {text}" for name in values for text in ('"ab"', '"0"', '""')]
        yield one_script(f"{word} of every kind, kept", values, map(kept, few))


def of_items() -> Iterator[Check]:
    """`item`, by indices around the ends and far off."""
    values = {**SLICED, **{f"at{place}": number for place, number in enumerate([*map(str, range(-6, 7)), *FAR_BOUNDS, *map(str, EDGES)])}}
    indices = [name for name in values if name.startswith("at")]
    yield one_script("item by every index", values, [[f"item {name} {at}"] for name in SLICED for at in indices])


def of_bounds() -> Iterator[Check]:
    """`slice`, by each bound around the ends and far off, and each step; and of every kind."""
    for name, literal in SLICED.items():
        starts = NEAR + FAR_BOUNDS if name in ("text", "array") else NEAR[:8] + FAR_BOUNDS[:2]
        cases = [[f"slice {name} {start} {end} {step}"] for start in starts for end in starts for step in STEPS]
        yield one_script(f"slice by every bound, of {name}", {name: literal}, cases)
    bounds = ["_ _ _", "0 1 1", "_ _ 0", "_ _ -1", "5 2 _"]
    names = [*VALUES, UNSET]
    yield one_script("slice of every kind", VALUES, [[f"slice {name} {bound}"] for name in names for bound in bounds])
    cases_kept = [kept(f"slice {name} {bound}") for name in names for bound in bounds]
    yield one_script("slice of every kind, kept", VALUES, cases_kept)


def of_numbers() -> Iterator[Check]:
    """The six operators and `negate` at the ends of ranges."""
    numbers = {f"n{place}": str(number) for place, number in enumerate([*EDGES, 3, 10, 126, 127, 128, 2**32 - 1, 2**32])}
    for word in OPERATORS:
        cases = [[f"{word} {one} {other}"] for one in numbers for other in numbers]
        yield one_script(f"{word} at the ends of ranges", numbers, cases)
    yield one_script("negate at the ends of ranges", numbers, [[f"negate {one}"] for one in numbers])


def of_names() -> Iterator[Check]:
    """What names hold: set again, taken over, taken away."""
    yield one_script("names are set, taken over and taken away", {}, [
        ["set a 1", "set a 2", "get a"], ["set set 1", "get set", "set none 2", "get none"], ["set _ 1", "get _", "has _"],
        ["set b 1", "remove b", "has b", "get b", "remove b"], ["set c undefined", "has c", "get c", "remove c", "has c"],
        ["set d 1", 'extend {"d": 2, "e": [3]}', "get d", "get e"], ["extend {}"], ['extend {"a b": 1, "": 2}', "has a"],
        ['extend {"f": 1, "f": 2}', "get f"], ["set g [1]", "get g -> h", "set g 2", "get h", "get g"],
        ["get nowhere -> i", "has i"], ["set j 1", "get nowhere -> j", "get j"],
        ['set k "x"', "mark_safe k", "is_safe k", "mark_safe k -> l", "is_safe l"], ["mark_safe nowhere", "has nowhere"],
        ["mark_safe nowhere -> m", "has m", "get m"], ['set n "x"', "mark_safe n -> n", "is_safe n"],
        ["set A1_z 1", "set a1_z 2", "get A1_z"], ["set o [1]", "reverse o -> o", "get o"]])


# How lines and values are written.


def of_literals() -> Iterator[Check]:
    """Numbers with each suffix at the ends of each kind; those that are bad are scripts of their own."""
    good: List[List[Line]] = []
    bad: List[List[Line]] = []
    for number, suffix in itertools.product([*WIDE, -2**127 - 1, 2**128], ["", *KINDS]):
        line = f"set n {number}{suffix}"
        (good if is_good(line) else bad).append([line, "kind n", "get n"])
    good += [[f"set n {digits}", "kind n", "get n"] for digits in ("-0", "-0i64", "-0i128", "007", "007u64", "0" * 50 + "1")]
    yield one_script("numbers with each suffix", {}, good)
    yield alone("numbers that no suffix holds are bad", bad)
    maps = ["{}", "{ }", '{"a":1}', '{ "a" : 1 , 2 : 3 }', "{1: 2, 1u64: 3}", '{"b": 1, "a": 2, "b": 3}', "{true: 1, false: 0}",
            '{-1: 1, "": 2, 340282366920938463463374607431768211455: 3}', "[]", "[ ]", "[1,2]", "[\t1\t,\t[ ]\t]", 'x"0aF9"']
    cases = [[f"set m {literal}", "get m", "print m", "walk m", "fields m", "len m", "kind m"] for literal in maps]
    yield one_script("arrays, maps and bytes are written", {}, cases)
    yield one_script("levels up to 64", {}, [[f"set d {text}", "get d"] for text in (deep(1), deep(2), deep(63), deep(64))])
    lines = [f"set d {deep(65)}", f"set d {'[' * 65 + ']' * 65}", f"set d {deep(200)}", 'extend {"a": ' + deep(64) + "}"]
    yield alone("65 levels are bad", [["has a", line, "has d"] for line in lines])


def deep(levels: int) -> str:
    """Arrays and maps by turns, so many inside each other."""
    text = "1"
    for level in range(levels):
        text = f"[{text}]" if level % 2 else '{"k": ' + text + "}"
    return text


def is_good(line: str) -> bool:
    """Whether a line says a call."""
    try:
        reference.read_call(line)
        return True
    except reference.BadLine:
        return False


def of_escapes() -> Iterator[Check]:
    """Each character printed, quoted and escaped; each escape, and what is none."""
    numbered = [f"\\u{{{ord(char):x}}}" for char in [*map(chr, range(128)), *PAST_ASCII]]
    raw = [chr(code) for code in range(128) if chr(code) not in '"\\\n'] + [*PAST_ASCII]
    short = ["\\" + letter for letter in reference.SHORT_ESCAPES]
    scalars = [f"\\u{{{digits}}}" for digits in SCALARS.split()]
    for name, spellings in (("by its number", numbered), ("as itself", raw), ("by each escape", short + scalars)):
        cases: List[List[Line]] = []
        for text in spellings:
            shows: List[Line] = ["len t", "print t", "escape t", "get t", "escape l", "is_safe t", "fields m", "walk m"]
            cases.append([f'set t "a{text}"', f'set l ["{text}", s"{text}"]', f'set m {{"{text}": 1}}', *shows])
        yield one_script(f"each character {name}", {}, cases)
    wrong = ["\\" + chr(code) for code in range(32, 127) if chr(code) not in reference.SHORT_ESCAPES and chr(code) != "u"]
    wrong += [f"\\u{{{digits}}}" for digits in NO_SCALARS] + ["\\u41", "\\U{41}", "\\u{41", "\\x41", "\\"]
    yield alone("what is no escape is bad", [[f'set t "{text}"', "get t"] for text in wrong])


def of_bytes() -> Iterator[Check]:
    """Bytes that are UTF-8, and that are not, printed and turned."""
    few = [b"a", b"\x80", b"\xbf", b"\xc3", b"\xe0", b"\xed", b"\xf0", b"\xf4"]
    pieces = [[piece] for piece in UTF8_PARTS] + [list(two) for two in itertools.product(UTF8_PARTS, repeat=2)]
    pieces += [list(three) for three in itertools.product(few, repeat=3)]
    pieces += [[b"\xf0", b"\x9f", b"\x98"], [b"\xf0\x9f\x98\x80"], [b"\xe6\xbc\xa2"], [b"\xe6\xbc", b"a"], [b"\xf4\x90\x80\x80"]]
    cases: List[List[Line]] = [[f'set b x"{b"".join(one).hex()}"', "print b", "escape b"] for one in pieces]
    cases += [[f'set b x"{bytes([code]).hex()}"', "print b", "len b", "reverse b", "truthy b"] for code in range(256)]
    yield one_script("bytes are printed", {}, cases)


def of_lines() -> Iterator[Check]:
    """Blanks, ends of lines and skipped lines; bad lines, and their reports."""
    good: List[bytes] = [
        b"", b"\n", b"eq a b", b"eq a b\r", b"eq a b\r\n", b"\r\n# c\r\neq a b\r\n", b"   \t\neq\ta\t \tb \t\n", b" # \xff\xfe\n#\n",
        b"set a 1\r\nset b 1\r\neq a b\r\n", b"set a \"x\"\r", b"eq a b\n\n\n", b"#\0\n\t\t\neq a b\n", b"set a \"\r\"\nlen a\n",
        b"get a\t->\tb\n", b"get a  ->  b  \n", b"has a\n#"]
    yield Check("blanks, ends of lines and skipped lines", [Script([], [re.findall(rb"[^\n]*\n|[^\n]+", script)]) for script in good])
    yield alone("bad lines", [["has a", line, "has a"] for line in BAD_LINES])
    odd = [b"\xff", b"eq a b\xc3", b"# no\nfrob \xc3\xa9\xe6\xbc\xa2", b"frob\tx", b"eq a b\r\r", "set a \"😀".encode(), b"frob" * 300,
           b"\xef\xbb\xbfeq a b", b"has a\n\n#\n \nfrob", b"frob\r"]
    yield Check("reports of bad lines", [Script([], [[b"has a\n", line + end, b"has a\n"]]) for line in odd for end in (b"\n", b"\r\n")]
                + [Script([], [[b"has a\n", line]]) for line in odd])


GRIDS: List[Callable[[], Iterator[Check]]] = [
    of_names, of_one, of_two, of_paths, of_items, of_bounds, of_numbers, of_types, of_literals, of_escapes, of_bytes, of_lines]


def grids() -> Iterator[Check]:
    """All checks by tables."""
    for grid in GRIDS:
        yield from grid()


# Calls that are left out.


def without(check: Check, left_out: AbstractSet[str]) -> Check:
    """The check without lines of these calls, and without cases that do nothing but set names then."""
    scripts = [Script(reduced(script.setup, left_out), [case for case in (kept_case(one, left_out) for one in script.cases) if case])
               for script in check.scripts]
    return Check(check.name, [script for script in scripts if script.cases])


def reduced(lines: List[bytes], left_out: AbstractSet[str]) -> List[bytes]:
    """The lines but those of these calls."""
    return [line for line in lines if word_of(line) not in left_out]


def kept_case(lines: List[bytes], left_out: AbstractSet[str]) -> List[bytes]:
    """What is left of a case, or nothing where only names are set."""
    rest = reduced(lines, left_out)
    return rest if len(rest) == len(lines) or any(word_of(line) not in ("set", "") for line in rest) else []
