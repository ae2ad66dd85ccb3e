"""The module for Python (bindings/python): values go in and come out, and each call of the language is a method.

What a value means, and what a call answers, is asked of the reference.
"""
import contextlib
import copy
import doctest
import enum
import glob
import html
import importlib
import inspect
import os
import pickle
import random
import re
import sys
import threading
import unittest
import unittest.mock

import built
import second
from built import TOP, heard

built.library()
import test_border
import tera  # over the library that is made above
from tera import _library, _literals
from tera import HoldsItself, LoneSurrogate, NotAKey, NotAName, NotAValue, OutOfRange, Pairs, Refused, Safe, Session, TooDeep, Undefined

VALUES = 100_000
EDGES = [0, 1, -1, 2**63 - 1, 2**63, -2**63, -2**63 - 1, 2**64 - 1, 2**64, 2**127 - 1, 2**127, -2**127, 2**128 - 1]
CHARS = list("ab &<>'\"\\{}[],: \t\n\r\0\x01\x1f\x7f\x80éß中\u0301\u2028\ufeff😀\U0010ffff") + ["u{41}", "s\"", "->"]


class Drawn:
    """Values at random, from a seed."""

    def __init__(self, seed):
        self.chance = random.Random(seed)

    def text(self):
        return "".join(self.chance.choice(CHARS) for _ in range(self.chance.randint(0, 8)))

    def number(self):
        near = self.chance.choice(EDGES) + self.chance.randint(-2, 2)
        return near if -2**127 <= near < 2**128 else self.chance.randint(-9, 9)

    def key(self):
        return self.chance.choice([self.text, self.number, lambda: self.chance.random() < 0.5])()

    def plain(self):
        return self.chance.choice([None, Undefined, True, False, self.number(), self.text(), Safe(self.text()), self.text().encode()])

    def value(self, levels=4):
        kind = self.chance.randint(0, 9)
        if levels == 0 or kind < 5:
            return self.plain()
        parts = [self.value(levels - 1) for _ in range(self.chance.randint(0, 4))]
        if kind < 7:
            return parts
        if kind == 7:
            return tuple(parts)
        if kind == 8:
            return {self.key(): it for it in parts}
        return Pairs({(type(key), key): (key, it) for key, it in ((self.key(), it) for it in parts)}.values())


def comes_out(value):
    """What comes out where this goes in."""
    if isinstance(value, (list, tuple)) and not isinstance(value, Pairs):
        return [comes_out(it) for it in value]
    if isinstance(value, (dict, Pairs)):
        pairs = [(key, comes_out(it)) for key, it in (value.items() if isinstance(value, dict) else value)]
        return dict(pairs) if len(dict(pairs)) == len(pairs) else Pairs(pairs)
    return value


def typed(value):
    """The value with the type of each part, so that `True` is not 1."""
    if isinstance(value, dict):
        return dict, [(typed(key), typed(it)) for key, it in value.items()]
    if isinstance(value, (list, tuple)):
        return type(value), [typed(it) for it in value]
    return type(value), value


def in_reference(value):
    """The value as the reference has it."""
    if value is None or value is Undefined:
        return second.NONE if value is None else second.UNDEFINED
    if isinstance(value, (bool, bytes)):
        return value
    if isinstance(value, int):
        return second.Number(next(kind for kind in second.KINDS if second.TYPES[kind][0] <= value <= second.TYPES[kind][1]), value)
    if isinstance(value, str):
        return second.Text(str(value), isinstance(value, Safe))
    if isinstance(value, (dict, Pairs)):
        pairs = value.items() if isinstance(value, dict) else value
        return {second.key_of(in_reference(key)): in_reference(it) for key, it in pairs}
    return tuple(map(in_reference, value))


def nested(levels):
    """So many lists and dicts, one inside another."""
    value = []
    for level in range(levels - 1):
        value = [value] if level % 2 else {"a": value}
    return value


class Literals(unittest.TestCase):
    """The literal of a value, written and read, beside the reference."""

    def test_written(self):
        """what is written says the value, by the reference's reader"""
        drawn = Drawn(1)
        for _ in range(3000):
            value = drawn.value()
            literal = _literals.literal_of(value)
            self.assertEqual(second.read_literal(literal, 0), (in_reference(value), len(literal)))
            self.assertFalse(re.search(r"[\x00-\x1f\x7f]", literal))

    def test_read(self):
        """what the reference writes is read as the value"""
        drawn = Drawn(2)
        for _ in range(3000):
            value = drawn.value()
            self.assertEqual(typed(_literals.value_of(second.spelled(in_reference(value)))), typed(comes_out(value)))

    def test_spellings(self):
        """every other spelling of the language is read too"""
        for literal, value in (('[ 1u64,-0i128 ,"\\u{1F600}\\0"\t]', [1, 0, "😀\0"]), ('{ 1i128 :s"a" , true: x"Ff" }', Pairs([(1, Safe("a")), (True, b"\xff")])),
                               ("-0", 0), ("007", 7), ("{}", {}), ("[ ]", []), ("undefined", Undefined), ("none", None)):
            self.assertEqual(typed(_literals.value_of(literal)), typed(value))


class Values(unittest.TestCase):
    """Values in a session."""

    def setUp(self):
        self.names = Session()
        self.addCleanup(self.names.close)

    def test_round_trip(self):
        """a hundred thousand values at random come out as they went in"""
        drawn = Drawn(3)
        for _ in range(VALUES):
            value = drawn.value()
            self.names["a"] = value
            if typed(self.names["a"]) != typed(comes_out(value)):
                self.fail(f"{value!r} comes out as {self.names['a']!r}")

    def test_kinds(self):
        """each kind goes in as what the language has, and its type comes out"""
        for value, kind in ((None, "none"), (Undefined, "undefined"), (True, "bool"), (5, "i64"), (2**63, "u64"), (-2**63 - 1, "i128"),
                            (2**127, "u128"), ("a", "string"), (Safe("a"), "string"), (b"a", "bytes"), ([], "array"), ((), "array"),
                            ({}, "map/struct"), (Pairs(), "map/struct")):
            with self.subTest(value=value):
                self.names["a"] = value
                self.assertEqual((self.names.kind("a"), self.names.is_safe("a")), (kind, type(value) not in (str, bytes, list, tuple, dict, Pairs)))
                self.assertEqual(typed(self.names["a"]), typed(comes_out(value)))

    def test_classes_below(self):
        """a class below a type of values goes in as that type does"""
        class Markup(str):
            """A text of HTML of another module, which has methods of its own."""

            def __html__(self):
                return self

            def join(self, parts):
                raise AssertionError

            __str__ = isascii = encode = join

        class Count(int):
            """A number that shows itself otherwise."""

            def __repr__(self):
                raise AssertionError

            __str__ = __repr__

        number = enum.IntEnum("number", {"one": 1})
        color = enum.Enum("color", {"red": "r\"ed"}, type=str)
        for given, value in ((Markup('<b>"é'), Safe('<b>"é')), (number.one, 1), (color.red, "r\"ed"), ([Count(1)], [1]),
                             ({number.one: 1, color.red: 2, Markup("a"): 3}, {1: 1, "r\"ed": 2, "a": 3})):
            with self.subTest(value=value):
                self.names["a"] = given
                self.assertEqual(typed(self.names["a"]), typed(value))

    def test_levels(self):
        """64 levels go in and come out"""
        self.names["a"] = nested(64)
        self.assertEqual(self.names["a"], nested(64))

    def test_large(self):
        """a value that is larger than the room that a session keeps comes out"""
        for value in ("a" * 10**6, "é\n" * 10**5, list(range(10**5)), b"\xff" * 10**5):
            self.names["a"] = value
            self.assertEqual(self.names["a"], value)

    def test_pairs(self):
        """what no dict holds apart comes out as pairs, and pairs that a dict holds as a dict"""
        self.names.line('set a {1: "a", true: "b"}')
        self.assertEqual(typed(self.names["a"]), typed(Pairs([(1, "a"), (True, "b")])))
        self.names["a"] = Pairs([("x", 1), ("y", 2), ("x", 3)])
        self.assertEqual(typed(self.names["a"]), typed({"x": 3, "y": 2}))
        self.assertEqual(repr(Pairs([(True, 1)])), "Pairs([(True, 1)])")

    def test_nothing(self):
        """a name that is not there is told apart from one that holds none or undefined"""
        self.names.update(none=None, undefined=Undefined)
        self.assertEqual((self.names["none"], self.names["undefined"]), (None, Undefined))
        with self.assertRaises(KeyError) as fault:
            self.names["nothing"]
        self.assertEqual(fault.exception.args, ("nothing",))

    def test_json(self):
        """JSON goes in and comes out"""
        self.names.set_json("a", '{"b": [1, null, "\\u00e9"], "b2": {}}')
        self.assertEqual(self.names["a"], {"b": [1, None, "é"], "b2": {}})
        self.assertEqual(self.names.get_json("a"), '{"b":[1,null,"é"],"b2":{}}')
        for text in ("{", "1.5", "[1e3]", "[" * 65 + "]" * 65, str(2**128)):
            with self.subTest(text), self.assertRaises(Refused) as refusal:
                self.names.set_json("a", text)
            self.assertRegex(str(refusal.exception), r"\A(?!error)\S.*\S\Z")
        for value in (b"a", [Undefined], {"1": 1, 1: 2}):
            self.names["b"] = value
            with self.subTest(value=value), self.assertRaises(Refused):
                self.names.get_json("b")
        with self.assertRaises(KeyError):
            self.names.get_json("nothing")

    def test_saved(self):
        """a session that is saved is had again by its lines"""
        drawn = Drawn(4)
        for number in range(50):
            self.names[f"n{number}"] = drawn.value()
        with Session() as again:
            for line in self.names.save().split("\n"):
                again.line(line)
            self.assertEqual(again.save(), self.names.save())
            self.assertEqual(list(again), list(self.names))


class Bad(unittest.TestCase):
    """What is no value, and what is no name: each is raised by its own class, and nothing changes."""

    def holds(self, raised, value, name="a", told=""):
        """Setting a name to this raises that, and changes nothing."""
        with Session() as names:
            names["a"] = names["b"] = 1
            with self.assertRaises(raised) as fault:
                names[name] = value
            self.assertIs(type(fault.exception), raised)
            self.assertIn(told, str(fault.exception))
            with self.assertRaises(raised):
                names.extend({"b": 2, "c": value} if raised is not NotAName else {name: value})
            self.assertEqual(dict(names), {"a": 1, "b": 1})

    def test_types(self):
        """what has another type, a float among them"""
        for value in (1.5, float("nan"), 1j, {1, 2}, object(), int, iter([]), bytearray(b"a"), range(3), [1, [2.5]], Pairs([1])):
            with self.subTest(value=value):
                self.holds(NotAValue, value)
        self.holds(NotAValue, {"a": [1, 2.5]}, told="at ['a'][1]: a float is no value: these are None, Undefined, bool, int, str, ")
        self.assertTrue(issubclass(NotAValue, TypeError))

    def test_integers(self):
        """an integer that no kind holds, as a value and as a key"""
        for value in (-2**127 - 1, 2**128, 10**5000, [2**128], {2**128: 1}):
            with self.subTest(bits=value.bit_length() if isinstance(value, int) else value):
                self.holds(OutOfRange, value, told="the integer is not from -2**127 to 2**128 - 1")

    def test_surrogates(self):
        """a lone surrogate, in a text and in a key"""
        for value in ("a\ud800", Safe("\udfff"), ["\ud800"], {"\udc00": 1}, "\ud83d\ude00"):
            with self.subTest(value=value):
                self.holds(LoneSurrogate, value)

    def test_keys(self):
        """a key that is no str, int or bool"""
        for key in (None, 1.5, b"a", (1, 2), Undefined, frozenset()):
            with self.subTest(key=key):
                self.holds(NotAKey, {key: 1})
                self.holds(NotAKey, Pairs([(key, 1)]))

    def test_cycles(self):
        """a list, a dict and pairs that hold themselves"""
        items, held, pairs = [], {}, Pairs()
        items.append([items])
        held["a"] = [held]
        pairs.append((1, pairs))
        for value in (items, held, pairs, [1, [items]]):
            self.holds(HoldsItself, value)
        with Session() as names:
            shared = [1]
            names["a"] = [shared, shared, [shared]]  # of which nothing holds itself
            self.assertEqual(names["a"], [[1], [1], [[1]]])

    def test_levels(self):
        """65 levels"""
        self.holds(TooDeep, nested(65))
        with Session() as names, self.assertRaises(TooDeep):
            names.extend({"a": nested(64)})

    def test_names(self):
        """a name that is no name"""
        for name in ("", "1a", "a b", "a\n", "é", "a-b", "\ud800", "a b\nset a 2", 1, None, b"a"):
            with self.subTest(name=name):
                with Session() as names:
                    names["a"] = 1
                    for ask in (lambda: names.set(name, 1), lambda: names.set_text(name, "b"), lambda: names.set_json(name, "1"),
                                lambda: names.eq("a", name), lambda: names.kind(name), lambda: names.reverse(name), lambda: names.path(name, "a"),
                                lambda: names.add("a", "a", into=name or ""), lambda: names.mark_safe("a", into=name or "")):
                        self.assertRaises(NotAName, ask)
                    self.assertNotIn(name, names)
                    self.assertRaises(KeyError, lambda: names[name])
                    self.assertRaises(KeyError, names.pop, name)
                    self.assertEqual(dict(names), {"a": 1})

    def test_texts(self):
        """what is no text where one is to stand, and what is no bytes"""
        with Session() as names:
            names["a"] = {"k": 1}
            for given in (None, 1, b"k", ["k"]):
                for ask in (lambda: names.set_text("a", given), lambda: names.set_json("a", given), lambda: names.path("a", given),
                            lambda: names.attr("a", given), lambda: names.line(given), lambda: tera.escape(given)):
                    with self.subTest(given=given), self.assertRaises(NotAValue) as fault:
                        ask()
                    self.assertEqual(str(fault.exception), f"a {type(given).__name__} is no text: it has to be a str")
            for given in (None, 1, "get a", bytearray(b"get a")):
                for ask in (lambda: names.line_bytes(given), lambda: tera.replay(given)):
                    with self.subTest(given=given), self.assertRaises(NotAValue) as fault:
                        ask()
                    self.assertIn("is no bytes: ", str(fault.exception))
            self.assertRaises(LoneSurrogate, names.line, 'set a "\ud800"')
            self.assertEqual(dict(names), {"a": {"k": 1}})

    def test_copies(self):
        """a session is neither copied nor pickled"""
        with Session() as names:
            names["a"] = 1
            for ask in (copy.copy, copy.deepcopy, pickle.dumps):
                with self.assertRaises(TypeError) as fault:
                    ask(names)
                self.assertIn("`save` gives the lines that make it again", str(fault.exception))
            self.assertEqual(dict(names), {"a": 1})

    def test_threads(self):
        """a session on another thread"""
        told = []

        def on_another():
            for ask in (lambda: names["a"], lambda: names.__setitem__("a", 2), lambda: names.extend({"b": 2}), names.close):
                try:
                    ask()
                except RuntimeError as fault:
                    told.append(str(fault))

        with Session() as names:
            names["a"] = 1
            thread = threading.Thread(target=on_another)
            thread.start()
            thread.join()
            self.assertEqual(told, ["the session is another thread's: open one on each thread"] * 4)
            self.assertEqual(dict(names), {"a": 1})

    def test_fork(self):
        """what a child does to a session is its own"""
        with Session() as names:
            names["a"] = [1]
            child = os.fork()
            if child == 0:
                is_wrong = True
                try:
                    names["a"] = [2]
                    is_wrong = names["a"] != [2]
                finally:
                    os._exit(is_wrong)
            self.assertEqual((os.waitpid(child, 0)[1], dict(names)), (0, {"a": [1]}))

    def test_statuses(self):
        """a status that no such call answers is never taken for done"""
        with Session() as names, unittest.mock.patch.object(tera._session, "library") as library:
            for status in (tera.BAD, tera.SMALL, tera.CLOSED, 77):
                library.tera_set.return_value = library.tera_set_text.return_value = status
                for value in ("a", [1]):
                    self.assertRaises(tera.TeraError, names.set, "a", value)

    def test_sessions(self):
        """a closed session"""
        names = Session()
        names.close()
        for ask in (lambda: names["a"], lambda: names.__setitem__("a", 1), lambda: list(names), lambda: len(names), lambda: "a" in names,
                    lambda: names.eq("a", "a"), names.save, lambda: names.line("get a"), lambda: names.set_json("a", "1")):
            with self.assertRaises(ValueError):
                ask()
        self.assertEqual(repr(names), "<tera.Session, closed>")


class Mapping(unittest.TestCase):
    """A session as a mapping."""

    def setUp(self):
        self.names = Session()
        self.addCleanup(self.names.close)

    def test_mapping(self):
        """what a mapping does"""
        names = self.names
        names.update({"b": 1}, a=[2], c="x")
        self.assertEqual((list(names), len(names), dict(names)), (["a", "b", "c"], 3, {"a": [2], "b": 1, "c": "x"}))
        self.assertEqual((names.pop("b"), names.pop("b", 7), names.setdefault("a", 3), names.setdefault("d", None)), (1, 7, [2], None))
        del names["c"]
        with self.assertRaises(KeyError):
            del names["c"]
        self.assertEqual(sorted(names.items()), [("a", [2]), ("d", None)])
        self.assertEqual(names, {"a": [2], "d": None})
        names.clear()
        self.assertEqual((len(names), "a" in names, repr(names)), (0, False, "<tera.Session, open>"))

    def test_names_that_extend_brings(self):
        """a name that no line says is looked up and taken away"""
        self.names.extend({"a b": 1, "é": 2, "": 3})
        self.assertEqual(dict(self.names), {"": 3, "a b": 1, "é": 2})
        with self.assertRaises(Refused):
            self.names.save()
        del self.names["a b"], self.names["é"]
        self.assertEqual(self.names.pop(""), 3)
        self.names.extend({"a\nb": 1})
        with self.assertRaises(Refused):
            list(self.names)
        self.assertEqual(self.names["a\nb"], 1)

    def test_undefined(self):
        """there is one Undefined, also where it is copied or pickled"""
        self.assertIs(type(Undefined)(), Undefined)
        for it in (copy.copy(Undefined), copy.deepcopy([Undefined])[0], pickle.loads(pickle.dumps(Undefined))):
            self.assertIs(it, Undefined)
        self.assertEqual((bool(Undefined), repr(Undefined)), (False, "Undefined"))
        self.assertEqual(typed(pickle.loads(pickle.dumps([Safe("a"), Pairs([(1, 2)])]))), typed([Safe("a"), Pairs([(1, 2)])]))


def in_python(value):
    """A value of the reference as it comes out."""
    if isinstance(value, second.Plain):
        return None if value is second.NONE else Undefined
    if isinstance(value, second.Text):
        return Safe(value.text) if value.safe else value.text
    if isinstance(value, dict):
        return comes_out(Pairs((key, in_python(it)) for (_, key), it in value.items()))
    return value.number if isinstance(value, second.Number) else list(map(in_python, value)) if type(value) is tuple else value


ORDER = {"less": -1, "equal": 0, "greater": 1}
# what a call asks of values: what Python has for the reference's answer
ASKS = {
    "eq": lambda left, right: second.meaning(left) == second.meaning(right),
    "cmp": lambda left, right: ORDER[second.order(second.meaning(left), second.meaning(right))],
    "try_cmp": lambda left, right: ORDER.get(second.partial_order(left, right)),
    "contains": lambda left, right: second.contains(left, right) == "true",
    "len": lambda value: second.size(value) if second.is_sized(value) else None,
    "truthy": second.is_truthy,
    "is_safe": second.is_safe,
    "kind": second.kind,
    "print": second.printed,
    "escape": lambda value: Safe(second.escaped(second.printed(value))),
    "fields": lambda value: sorted(set(second.printed_keys(value))),
    "walk": second.printed_keys,
}
# what a call finds
FINDS = {word: call for word, (form, call) in second.CALLS.items() if form.endswith(">") and word not in ("get", "mark_safe")}
CHANGES = {"set", "extend", "remove", "has", "get", "mark_safe"}


class Calls(unittest.TestCase):
    """Each call of the language is a method, which answers as the reference does."""

    def test_each_is_a_method(self):
        """there is a method by the name of each call"""
        self.assertEqual({*ASKS, *FINDS, *CHANGES}, {*second.CALLS})
        for word in second.CALLS:
            self.assertTrue(callable(getattr(Session, word)), word)

    def operands(self, drawn, form):
        """Operands at random: those of the method, where a name is 'a', 'b' or 'c'."""
        draws = {"v": lambda: drawn.chance.choice("abc"), "y": lambda: drawn.chance.choice(list(second.TYPES)),
                 "t": lambda: drawn.chance.choice([drawn.text(), "0", "1", "a", "0.a", "a.a", ""]),
                 "b": lambda: drawn.chance.choice([None, 0, 1, -1, 2, -2, 2**127 - 1, -2**127])}
        return [draws[letter]() for letter in form.strip(">")]

    def test_calls(self):
        """calls of values at random answer as the reference does, and change no more than they are to"""
        drawn = Drawn(5)
        for _ in range(200):
            values = {name: drawn.value(2) for name in "abc" if drawn.chance.random() < 0.9}
            with Session() as names:
                names.extend(values)
                model, saved = {name: in_reference(it) for name, it in values.items()}, names.save()
                for word, call in {**ASKS, **FINDS}.items():
                    form = second.CALLS[word][0]
                    given = self.operands(drawn, form)
                    with self.subTest(word, given=given, values=values):
                        meant = [model.get(it, second.UNDEFINED) if letter == "v" else it for letter, it in zip(form, given)]
                        wanted = self.outcome(lambda: call(*meant), in_python if word in FINDS else lambda it: it)
                        self.assertEqual(self.outcome(lambda: getattr(names, word)(*given)), wanted)
                        if word in FINDS:
                            self.keeps(names, word, given, wanted)
                        self.assertEqual(names.save(), saved)

    def outcome(self, ask, comes_out=lambda it: it):
        """What is found, with its type; or a refusal, or that nothing is found."""
        try:
            found = ask()
        except (Refused, second.Refused) as refusal:
            return "refused", str(refusal)
        except KeyError:
            return "nothing"
        return "nothing" if found is None and comes_out is in_python else typed(comes_out(found))

    def keeps(self, names, word, given, wanted):
        """What is found is kept under a name, and nothing where nothing is."""
        told = self.outcome(lambda: getattr(names, word)(*given, into="kept"))
        if told == typed(None):
            self.assertEqual(typed(names.pop("kept")), wanted)
        else:
            self.assertEqual((told, "kept" in names), (wanted, False))

    def test_changes(self):
        """the calls that change names"""
        with Session() as names:
            names.set("a", "<b>")
            names.get("a", into="b")
            names.mark_safe("a", into="c")
            names.mark_safe("b")
            self.assertEqual(typed(dict(names)), typed({"a": "<b>", "b": Safe("<b>"), "c": Safe("<b>")}))
            self.assertEqual((names.remove("b"), names.has("b"), names.get("b"), names.get("b", 7)), ("<b>", False, None, 7))
            self.assertRaises(KeyError, names.remove, "b")
            self.assertRaises(KeyError, lambda: names.get("b", into="a"))
            names.extend({"a": 1, "b": [2]})
            self.assertEqual(dict(names), {"a": 1, "b": [2], "c": "<b>"})

    def test_texts_stay_in_their_quotes(self):
        """no text of a path or of a key says another call"""
        with Session() as names:
            names["a"] = {'" -> b': 1, "\n": {"x y": 2}}
            self.assertEqual((names.attr("a", '" -> b'), names.path("a", "\n.x y")), (1, 2))
            self.assertEqual(list(names), ["a"])
            self.assertRaises(LoneSurrogate, names.attr, "a", "\ud800")
            self.assertRaises(LoneSurrogate, names.path, "a", "\ud800")

    def test_bounds(self):
        """a bound that no line has"""
        with Session() as names:
            names["a"] = [1, 2, 3]
            for bound in (2**127, -2**127 - 1):
                self.assertRaises(OutOfRange, names.slice, "a", bound)
            for bound in (1.0, "1"):
                self.assertRaises(NotAValue, names.slice, "a", None, bound)
            self.assertRaises(Refused, names.slice, "a", None, None, 0)

    def test_names_in_use(self):
        """what a call finds passes by a name that is free"""
        with Session() as names:
            names.update(_=1, __=2, a=[3])
            self.assertEqual(names.reverse("a"), [3])
            self.assertEqual(dict(names), {"_": 1, "__": 2, "a": [3]})

    def test_a_line_that_is_bad(self):
        """a type that is none makes the line bad"""
        with Session() as names:
            self.assertRaises(tera.BadLine, names.read, "u7", "a")


class Memory(unittest.TestCase):
    """Want of memory in the library, by tests/counted.c below it."""

    ASKS = {
        "set": lambda names: names.__setitem__("a", {"k": ["another text of many bytes", 1]}),
        "set_text": lambda names: names.__setitem__("a", "another text of many bytes"),
        "set_json": lambda names: names.set_json("a", '["another text of many bytes"]'),
        "extend": lambda names: names.extend({"a": "another text of many bytes", "e": [1]}),
        "get": lambda names: names["a"],
        "get_json": lambda names: names.get_json("a"),
        "keys": list,
        "save": lambda names: names.save(),
        "path": lambda names: names.path("a", "k.0"),
        "reverse": lambda names: names.reverse("b"),
        "print": lambda names: names.print("a"),
    }

    def setUp(self):
        self.library = test_border.counted()
        with contextlib.ExitStack() as patches:
            for name in ("_library", "_handle", "_calls", "_session"):
                patches.enter_context(unittest.mock.patch.object(importlib.import_module(f"tera.{name}"), "library", self.library))
            self.addCleanup(patches.pop_all().close)

    def wants(self, ask, number):
        """Whether a call wants memory where the request of that number is refused; what it changed then is nothing."""
        with Session() as names:
            names.update(a={"k": ["a text of many bytes, which is held by itself"]}, b=[1, 2, 3], _=0)
            before = names.save()
            self.library.refuse(number, number)
            try:
                ask(names)
            except MemoryError as why:
                self.library.refuse(0, 0)
                if not (ask is self.ASKS["extend"] and isinstance(why, tera.NoReply)):  # which was run
                    self.assertEqual(names.save(), before)
                return True
            finally:
                self.library.refuse(0, 0)
        return False

    def test_each(self):
        """a call with each of its requests refused in turn raises MemoryError, and changes nothing; no block is lost"""
        for what, ask in self.ASKS.items():
            with self.subTest(what):
                number = 1
                while self.wants(ask, number):
                    number += 1
                self.assertGreater(number, 1)
                self.assertEqual(self.library.blocks(), 0)


class Page:
    """What says of itself how it stands in HTML."""

    def __init__(self, html):
        self.html = html

    def __html__(self):
        return self.html


class Escape(unittest.TestCase):
    """`escape` of texts."""

    TEXTS = ["", "a", "<", "&<>\"'" * 1000, "a" * 10**5, "é<" * 1000, "\0\n😀&", "<" * 10**5]

    def test_escape(self):
        """each text is escaped as by the reference, and the answer is not escaped again"""
        drawn = Drawn(6)
        for text in [*self.TEXTS, *(drawn.text() for _ in range(1000))]:
            escaped = tera.escape(text)
            self.assertEqual(typed(escaped), typed(Safe(second.escaped(text))))
            self.assertIs(tera.escape(escaped), escaped)

    def test_places(self):
        """a special character at each place of a text of each length up to 100 is escaped as Python escapes it, and so is a text of it alone"""
        for special in "&<>\"'":
            for size in range(1, 101):
                for text in [special * size, *(f"{'é' * at}{special}{'a' * (size - at - 1)}" for at in range(size))]:
                    self.assertEqual(tera.escape(text), html.escape(text).replace("&#x27;", "&#39;"))

    def test_html(self):
        """what has `__html__` answers for itself"""
        self.assertEqual(typed(tera.escape(Page("<b>"))), typed(Safe("<b>")))
        self.assertRaises(NotAValue, tera.escape, Page(1))

    def test_bad(self):
        """a lone surrogate, and what is no text"""
        self.assertRaises(LoneSurrogate, tera.escape, "\ud800")
        for it in (None, 1, b"a"):
            self.assertRaises(NotAValue, tera.escape, it)

    def test_threads(self):
        """texts that four threads escape at once are each its own"""
        wrong = []

        def escapes(letter):
            text = f"{letter * 9}<" * 10_000
            wrong.extend(text for _ in range(50) if tera.escape(text) != f"{letter * 9}&lt;" * 10_000)

        threads = [threading.Thread(target=escapes, args=letter) for letter in "abcd"]
        for thread in threads:
            thread.start()
        for thread in threads:
            thread.join()
        self.assertEqual(wrong, [])

    def test_once(self):
        """of a usual text the library is asked once"""
        for text in ("<p>A & B, \"quoted\"</p> and words, words, words of a usual page. " * 200, "a" * 10**6, "<>\"" * 500, "é & è " * 99):
            with unittest.mock.patch.object(_library, "library") as library:
                library.tera_escape.return_value = tera.DONE
                tera.escape(text)
                self.assertEqual(library.tera_escape.call_count, 1)
                size = library.tera_escape.call_args[0][3]
            self.assertGreaterEqual(size, len(second.escaped(text).encode()))


class Module(unittest.TestCase):
    """What the module is to whoever imports it."""

    def test_examples(self):
        """the examples of its pages"""
        runner = doctest.DocTestRunner()
        for it in (tera, *(it for it in Session.__mro__[1:] if it.__module__.startswith("tera."))):
            for each in doctest.DocTestFinder().find(it, it.__name__, False, vars(tera)):
                runner.run(each)
        self.assertEqual((runner.failures, runner.tries), (0, 17))

    def test_readme(self):
        """the lines of its README print what stands there"""
        with open(f"{TOP}/bindings/python/README.md", encoding="utf-8") as file:
            lines = re.search(r"(?s)```python\n(.*?)```", file.read())[1]
        done = heard(sys.executable, "-B", "-c", lines, env={"PYTHONPATH": f"{TOP}/bindings/python"})
        self.assertEqual((done.out.decode(), done.status), (lines.split("# ")[-1], 0))

    def test_public(self):
        """what is public is there, has its page, and names itself by the module"""
        for name in tera.__all__:
            it = getattr(tera, name)
            if inspect.isclass(it) or inspect.isfunction(it):
                self.assertEqual((it.__module__, bool(it.__doc__)), ("tera", True), name)
        for name, it in vars(Session).items():
            if callable(it) and not name.startswith("_"):
                self.assertTrue(it.__doc__, name)
        self.assertTrue(os.path.exists(f"{os.path.dirname(tera.__file__)}/py.typed"))
        with open(f"{TOP}/VERSION", encoding="utf-8") as file:
            self.assertEqual(tera.__version__, file.read().strip())

    def test_types(self):
        """the module is typed, for Python 3.8 on, and so is a caller"""
        built.install("mypy")
        with open(f"{built.ROOM.name}/caller.py", "w", encoding="utf-8") as file:
            file.write(CALLER)
        words = ["mypy", "--strict", "--cache-dir=/dev/null", "--python-version", "3.8"]
        for given in ([f"{TOP}/bindings/python/tera", f"{TOP}/bindings/interface.py"], [f"{built.ROOM.name}/caller.py"]):
            done = heard(*words, *given, env={"MYPYPATH": f"{TOP}/bindings/python"})
            self.assertEqual((done.status, done.out[:8]), (0, b"Success:"), done.out.decode())

    def test_names(self):
        """each name in it is there, and used"""
        built.install("pyflakes3")
        files = [*glob.glob(f"{TOP}/bindings/*.py"), *glob.glob(f"{TOP}/bindings/python/**/*.py", recursive=True)]
        self.assertEqual(heard("pyflakes3", *files), (b"", b"", 0))


CALLER = """from typing import Dict, List, Optional
import tera

ports: List[int] = [80, 443]
cfg: Dict[str, List[int]] = {"ports": ports}
with tera.Session() as names:
    names["cfg"], names["a"], names["safe"] = cfg, None, tera.escape("<")
    first: int = names["cfg"]["ports"][0]
    total: int = names.add("a", "b") + first
    names.add("a", "b", into="c")
    order: Optional[int] = names.try_cmp("a", "b")
    shown: tera.Safe = names.escape("a")
    names["f"] = 1.5  # type: ignore[assignment]
"""

if __name__ == "__main__":
    unittest.main()
