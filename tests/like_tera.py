"""jinja2 as it is, and jinja2 with the differences that docs/PAGE.md names. Each difference is one function or more, which have
its name there, and any of them can be turned on alone: `answer(template, names, ALL)` is what our program has to answer.

A function changes one step of jinja2: `template` the text and the names before they are read, `settings` the environment,
`prints` a value before it is shown, `escapes` an escaped text, `looks` what a path leads to, `repeats` what any loop goes over,
`loops` what one by one name does, `pairs` what one by two does, `joins` what an `or` or an `and` is, `compares`, `holds` and
`counts` what a sign makes of values, `filters` what a filter makes of one, `named` which filters there are, `sets` a tree in
which names are set, and `reads` the parser.
"""
from __future__ import annotations

import contextlib
import operator
import re
from typing import AbstractSet, Any, Callable, Dict, List, NamedTuple, Optional, Set, Tuple, Union

import jinja2
import second
from jinja2 import Undefined, nodes
from jinja2.parser import Parser
from jinja2.runtime import LoopContext
from jinja2.visitor import NodeTransformer
from markupsafe import Markup, escape

LEVELS, SYMBOLS, NUMBERS = 64, 128, 2**64
NO_NAMES = "and false in is loop none not or true".split()
COMMENT_OR_TAG = re.compile(r"\{#.*?#\}|\{\{.*?\}\}|\{%.*?%\}", re.S)
QUOTED = re.compile(r"""("[^"]*"|'[^']*')""")
SYMBOL = re.compile(r"[\w.]+|[=!<>]=|//|\*\*|\S", re.A)
CARRIAGE = "\x1c"  # it stands for a carriage return while jinja2 reads, to which it is a blank and no line end
# What stands for other blanks of Python, to which it is none.
SOLID = {code: 0xE000 + at for at, code in enumerate(code for code in range(0x3001) if chr(code).isspace() and chr(code) not in " \t\r\n")}
OF_SOLID = {solid: blank for blank, solid in SOLID.items()}


Refused = second.Refused  # there is no page


class NoneAtFront:
    """None, where a path begins: all that it leads to is none."""

    def __bool__(self) -> bool:
        return False

    def __str__(self) -> str:
        return ""


class Reason(NamedTuple):
    """A difference: the step that it changes, and how."""

    step: str
    change: Callable[..., Any]


Names = Dict[str, Any]
REASONS: Dict[str, List[Reason]] = {}


def reason(name: str, step: str) -> Callable[[Callable[..., Any]], Callable[..., Any]]:
    """Keeps a function as a difference of that name."""
    def keep(change: Callable[..., Any]) -> Callable[..., Any]:
        REASONS.setdefault(name, []).append(Reason(step, change))
        return change
    return keep


# What prints.


@reason("how values print", "prints")
def truth(value: Any) -> Any:
    """Truth values print in small letters."""
    return second.truth(value) if isinstance(value, bool) else value


@reason("how values print", "prints")
def none(value: Any) -> Any:
    """None prints nothing."""
    return "" if value is None else value


@reason("how values print", "prints")
def parts(value: Any) -> Any:
    """Arrays and maps print as the layer has them: texts in double quotes, and what is in them as it prints alone."""
    return second.printed(held(value)) if isinstance(value, (list, dict)) else value


def held(value: Any) -> Any:
    """A value as the reference holds it."""
    if isinstance(value, dict):
        return {(2, key): held(part) for key, part in value.items()}
    if isinstance(value, list):
        return tuple(map(held, value))
    if isinstance(value, str):
        return second.Text(value, False)
    if isinstance(value, Undefined):
        return second.UNDEFINED
    if value is None or isinstance(value, NoneAtFront):
        return second.NONE
    return value if isinstance(value, bool) else second.Number("", value)


@reason("a double quote", "escapes")
def quote(text: str) -> str:
    """It has the entity that has a name."""
    return text.replace("&#34;", "&quot;")


# What is not there.


@reason("nothing, shown", "prints")
@reason("nothing, looped over", "repeats")
def nothing(value: Any) -> Any:
    """It is refused."""
    if isinstance(value, Undefined):
        raise Refused
    return value


@reason("nothing, led on from", "looks")
def led_on(value: Any, part: Any, found: Any) -> Any:
    """It leads to nothing, and is refused only where it is shown."""
    return jinja2.Undefined() if isinstance(value, Undefined) else found


@reason("a text or a map, looped over", "loops")
def no_array(value: Any) -> Any:
    """It is refused: a loop goes over arrays."""
    if isinstance(value, (str, dict)):
        raise Refused
    return value


@reason("two names, looped over", "pairs")
def pairs(value: Any) -> Any:
    """They are the key and the value of each pair of a map. All else is refused."""
    if not isinstance(value, (dict, Undefined)):
        raise Refused
    return list(value.items()) if isinstance(value, dict) else value


# What a path leads to.


@reason("Python's own members", "looks")
def members(value: Any, part: Any, found: Any) -> Any:
    """There are none: a map has its keys alone, and what is no map has no member."""
    if isinstance(value, (Undefined, NoneAtFront, LoopContext)) or not isinstance(part, str):
        return found
    return value[part] if isinstance(value, dict) and part in value else jinja2.Undefined()


@reason("a place in a text", "looks")
def characters(value: Any, part: Any, found: Any) -> Any:
    """It leads to nothing: arrays have places."""
    return jinja2.Undefined() if isinstance(value, str) and isinstance(part, int) else found


@reason("a path from none", "looks")
def from_none(value: Any, part: Any, found: Any) -> Any:
    """It leads to none."""
    return value if isinstance(value, NoneAtFront) else found


# Expressions.

# What Python makes of values by the signs of jinja2's tree, by the step that changes it.
SIGNS: Dict[str, Dict[str, Callable[..., Any]]] = {
    "compares": {"eq": operator.eq, "ne": operator.ne, "lt": operator.lt, "lteq": operator.le, "gt": operator.gt, "gteq": operator.ge},
    "holds": {"in": lambda left, right: left in right, "notin": lambda left, right: left not in right},
    "counts": {"+": operator.add, "-": operator.sub, "*": operator.mul, "//": operator.floordiv, "%": operator.mod, "**": operator.pow,
               "opposite": operator.neg},
}
WORDS = {sign: word for word, (sign, _) in second.OPERATORS.items()}


@reason("and, or", "joins")
def joined(value: Any) -> bool:
    """They are truth values."""
    return bool(value)


@reason("comparisons", "compares")
def compared(sign: str, left: Any, right: Any) -> bool:
    """They are of what values mean. Values of two ranks are not equal and have no order, and all of one rank have."""
    first, other = second.meaning(held(left)), second.meaning(held(right))
    return bool(SIGNS["compares"][sign](first, other)) and (sign in ("eq", "ne") or first[0] == other[0])


@reason("in", "holds")
def within(sign: str, left: Any, right: Any) -> bool:
    """An array has what is equal to an item, a text has texts, a map has its keys, and nothing else is asked."""
    return bool(second.contains(held(right), held(left)) == second.truth(sign == "in"))


@reason("arithmetic", "counts")
def counted(sign: str, *values: Any) -> int:
    """It is of numbers alone, within bounds, and no rest is below 0."""
    call = second.negate if sign == "opposite" else second.binary(WORDS[sign])
    return int(call(*map(held, values)).number)


# Filters.

Arguments = Dict[str, Any]
Filter = Callable[[Any, Arguments], Any]
# What Rust's `trim` takes away.
WHITE = "\t\n\v\f\r \x85\xa0\u1680" + "".join(map(chr, range(0x2000, 0x200B))) + "\u2028\u2029\u202f\u205f\u3000"


def of_kind(*kinds: type) -> Callable[[Any], Any]:
    """What hands on a value of these kinds, and refuses any other. A truth value is no number."""
    def taken(value: Any) -> Any:
        if not isinstance(value, kinds) or isinstance(value, bool):
            raise Refused
        return value
    return taken


an_array, a_map, a_text, a_number, of_length = of_kind(list), of_kind(dict), of_kind(str), of_kind(int), of_kind(str, list, dict)


def needed(given: Arguments, name: str) -> Any:
    """An argument that has to be there."""
    if name not in given:
        raise Refused
    return given[name]


def within_type(type_name: str, value: Any) -> int:
    """A number of a type of Rust."""
    return int(second.read(type_name, held(value)).number)


def at_place(items: List[Any], place: int) -> Any:
    """The item at a place, counted from the end where it is below 0, or undefined."""
    return items[place] if -len(items) <= place < len(items) else jinja2.Undefined()


def sliced(value: Any, given: Arguments) -> Any:
    """The items or characters between two bounds."""
    start, end = (within_type("i128", given[name]) if name in given else None for name in ("start", "end"))
    return of_kind(str, list)(value)[start:end]


def got(value: Any, given: Arguments) -> Any:
    """What a map has at a key, or what stands in for it."""
    pairs, key = a_map(value), a_text(needed(given, "key"))
    return pairs[key] if key in pairs else needed(given, "default")


def without_sign(value: Any, given: Arguments) -> int:
    """A number without its sign."""
    return int(second.negate(held(value)).number) if a_number(value) < 0 else int(value)


def joined_of(item: Any) -> str:
    """What is joined of an item: a text, a number or a truth value as it prints."""
    if not isinstance(item, (str, int)):
        raise Refused
    return str(truth(item))


def texts_joined(value: Any, given: Arguments) -> str:
    """The items of an array with a text between them."""
    return str(a_text(given.get("sep", ""))).join(map(joined_of, an_array(value)))


def meant(value: Any) -> Any:
    """What a value means."""
    return second.meaning(held(value))


def first_ones(value: Any, given: Arguments) -> List[Any]:
    """Of the items that mean the same the first alone."""
    return [item for at, item in enumerate(an_array(value)) if meant(item) not in map(meant, value[:at])]


def defaulted(value: Any, given: Arguments) -> Any:
    """What stands in for undefined, which has to be there for each value."""
    other = needed(given, "value")
    return other if isinstance(value, Undefined) else value


def replaced(value: Any, given: Arguments) -> str:
    """A text with another in the place of each that is one."""
    return str(a_text(value)).replace(a_text(needed(given, "from")), a_text(needed(given, "to")))


def truncated(value: Any, given: Arguments) -> str:
    """So many characters of a text, and an end where there are more."""
    text, length, end = str(a_text(value)), within_type("usize", given.get("length", 255)), str(a_text(given.get("end", "…")))
    return text if len(text) <= length else text[:length] + end


def whole(value: Any, given: Arguments) -> int:
    """The number that a value is, or that a text writes."""
    if not isinstance(value, str):
        return int(a_number(value))
    if not second.PLACE.fullmatch(value) or int(value) >= NUMBERS:
        raise Refused
    return int(value)


FILTERS: Dict[str, Filter] = {
    "length": lambda value, given: len(of_length(value)),
    "first": lambda value, given: at_place(an_array(value), 0),
    "last": lambda value, given: at_place(an_array(value), -1),
    "nth": lambda value, given: at_place(an_array(value), within_type("usize", needed(given, "n"))),
    "reverse": lambda value, given: str(value)[::-1] if isinstance(value, str) else an_array(value)[::-1],
    "slice": sliced,
    "get": got,
    "abs": without_sign,
    "upper": lambda value, given: str(a_text(value)).upper(),
    "lower": lambda value, given: str(a_text(value)).lower(),
    "trim": lambda value, given: str(a_text(value)).strip(WHITE),
    "join": texts_joined,
    "sort": lambda value, given: sorted(an_array(value), key=meant),
    "unique": first_ones,
    "int": whole,
    "default": defaulted,
    "replace": replaced,
    "truncate": truncated,
}


@reason("filters", "named")
def known(word: str) -> str:
    """There are those of the table alone."""
    if word not in FILTERS:
        raise Refused
    return word


@reason("filters", "filters")
def piped(word: str, value: Any, given: Arguments) -> Any:
    """They make what those of the table make, of arguments with names."""
    return FILTERS[word](value, given)


# The template.


def in_tags(change: Callable[[str], str], template: str) -> str:
    """The template with what stands in its tags changed, but for texts in quotes."""
    def of_tag(tag: str) -> str:
        return tag if tag.startswith("{#") else "".join(part if at % 2 else change(part) for at, part in enumerate(QUOTED.split(tag)))
    return COMMENT_OR_TAG.sub(lambda found: of_tag(found[0]), template)


@reason("how expressions are read", "template")
def symbols(template: str, names: Names) -> Tuple[str, Names]:
    """Texts have no backslash and no end of their mark, there are few symbols, and numbers may begin with zeros."""
    for tag in COMMENT_OR_TAG.findall(template):
        said = QUOTED.sub("\0", tag[2:-2].removeprefix("-").removesuffix("-"))
        expression = re.sub(r"\A\s*(if|elif|for\s.*?\sin)\s|\|\s*(safe|escape)\s*\Z", "", said, flags=re.S)
        is_read = len(SYMBOL.findall(expression)) <= SYMBOLS and not re.search("[\"']", said) and "\\" not in tag
        if not is_read and not tag.startswith("{#"):
            raise Refused
    return in_tags(lambda part: re.sub(r"(?<![\w.])0+(?=[0-9])", "", part), template), names


@reason("how expressions are read", "reads")
class Ours(Parser):
    """jinja2's parser, but for how expressions are read."""

    def parse_tuple(self, simplified: bool = False, with_condexpr: bool = True, extra_end_rules: Any = None,
                    explicit_parentheses: bool = False, **more: Any) -> Any:
        """An expression, and behind one that is shown `safe` or `escape`, of the whole."""
        if simplified:  # the names of a loop
            return super().parse_tuple(simplified, with_condexpr, extra_end_rules, explicit_parentheses, **more)
        read, pipe = self.parse_or(), self.stream.current
        if not with_condexpr or explicit_parentheses or not self.stream.skip_if("pipe"):
            return read
        return nodes.Filter(read, self.stream.expect("name").value, [], [], None, None, lineno=pipe.lineno)

    def parse_set(self) -> Union[nodes.Assign, nodes.AssignBlock]:
        """One name, and a value that is no shown one."""
        read = super().parse_set()
        is_safe = isinstance(read, nodes.Assign) and isinstance(read.node, nodes.Filter) and read.node.name in ("safe", "escape")
        if is_safe or not isinstance(read, nodes.Assign) or not isinstance(read.target, nodes.Name):
            self.fail("no name is set", read.lineno)
        return read

    def parse_compare(self) -> nodes.Expr:
        """A sum, alone or with one comparison or question."""
        left, at = self.parse_math1(), self.stream.current
        if at.test("name:is"):
            return self.parse_test(left)
        if at.test("name:not") and self.stream.look().test("name:in"):
            self.stream.skip()
        elif not at.test("name:in") and at.type not in SIGNS["compares"]:
            return left
        self.stream.skip()
        sign = {"in": "in", "not": "notin"}.get(at.value, at.type)
        return nodes.Compare(left, [nodes.Operand(sign, self.parse_math1())], lineno=at.lineno)

    def parse_pow(self) -> nodes.Expr:
        """What products are made of: an opposite, and filters behind it. `safe` and `escape` are none of these."""
        read = self.parse_opposite()
        while self.stream.current.type == "pipe" and not self.stream.look().test_any("name:safe", "name:escape"):
            lineno = next(self.stream).lineno
            name = self.stream.expect("name").value
            given = self.parse_given() if self.stream.skip_if("lparen") else {}
            read = nodes.Filter(read, name, [], [nodes.Keyword(*it, lineno=lineno) for it in given.items()], None, None, lineno=lineno)
        return read

    def parse_given(self) -> Dict[str, nodes.Expr]:
        """Arguments by their names, of which the last counts, up to the parenthesis behind them."""
        given: Dict[str, nodes.Expr] = {}
        while given or not self.stream.skip_if("rparen"):
            name = self.stream.expect("name")
            if name.value in NO_NAMES:
                self.fail("no name", name.lineno)
            self.stream.expect("assign")
            given[name.value] = self.parse_value()
            if self.stream.skip_if("rparen"):
                break
            self.stream.expect("comma")
        return given

    def parse_value(self) -> nodes.Expr:
        """The value of an argument: what stands alone, or a number with a `-`."""
        token = self.stream.current
        if self.stream.skip_if("sub"):
            return nodes.Neg(nodes.Const(self.stream.expect("integer").value), lineno=token.lineno)
        if token.type not in ("name", "string", "integer"):
            self.fail("no value", token.lineno)
        return self.parse_postfix(self.parse_primary())

    def parse_opposite(self) -> nodes.Expr:
        """What stands alone, maybe with a power, whose exponent may be one; and a `-` before all of it."""
        lineno = self.stream.current.lineno
        if self.stream.skip_if("sub"):
            return nodes.Neg(self.parse_opposite(), lineno=lineno)
        base = self.parse_postfix(self.parse_primary())
        return nodes.Pow(base, self.parse_opposite(), lineno=lineno) if self.stream.skip_if("pow") else base

    def parse_primary(self, **more: Any) -> nodes.Expr:
        """A number has 64 bits."""
        token = self.stream.current
        if token.type == "integer" and int(token.value) >= NUMBERS:
            self.fail("a number past 64 bits", token.lineno)
        return super().parse_primary(**more)


@reason("a member with a digit first", "template")
def digits_first(template: str, names: Names) -> Tuple[str, Names]:
    """It is a member as any other."""
    return in_tags(lambda tag: re.sub(r"\.([0-9]+[A-Za-z_]\w*)", r'["\1"]', tag), template), names


@reason("names of jinja2", "template")
def capitals(template: str, names: Names) -> Tuple[str, Names]:
    """True, False and None are names as any other."""
    words = {"True": "True_", "False": "False_", "None": "None_"}
    named = in_tags(lambda tag: re.sub(r"(?<![.\w])(True|False|None)\b", lambda word: words[word[0]], tag), template)
    return named, {words.get(name, name): value for name, value in names.items()}


@reason("names of jinja2", "settings")
def no_names(environment: jinja2.Environment) -> None:
    """There is no name but those that are given."""
    environment.globals.clear()


@reason("names of jinja2", "sets")
def seen_early(tree: nodes.Template) -> bool:
    """A name is the outer one up to where it is set, in a loop before that too. Says whether such a loop has one."""
    loops = [*tree.find_all(nodes.For)]
    bodies = [tree.body, *(body for loop in loops for body in (loop.body, loop.else_))]
    asked = {name.name for loop in loops for name in loop.find_all(nodes.Name) if name.ctx == "load"}
    names = [[*dict.fromkeys(set_in(body))] for body in bodies]
    for body, found in zip(bodies, names):
        body[:0] = [nodes.Assign(nodes.Name(name, "store"), nodes.Name(name, "load"), lineno=1) for name in found]
    return any(name in asked for found in names for name in found)


def set_in(body: List[nodes.Node]) -> List[str]:
    """The names that a body sets, but for those of its loops."""
    choices = [node for node in body if isinstance(node, nodes.If)]
    inner: List[List[nodes.Node]] = [[*part] for it in choices for part in (it.body, it.elif_, it.else_)]
    names = [it.target.name for it in body if isinstance(it, nodes.Assign) and isinstance(it.target, nodes.Name)]
    return names + [name for part in inner for name in set_in(part)]


@reason("blanks and line ends", "settings")
def last_line_end(environment: jinja2.Environment) -> None:
    """A line end at the end stays."""
    environment.keep_trailing_newline = True


@reason("blanks and line ends", "template")
def other_blanks(template: str, names: Names) -> Tuple[str, Names]:
    """Other blanks are none: a blank is a space, a tab or a line end."""
    return template.translate(SOLID), names


@reason("blanks and line ends", "template")
def carriage_returns(template: str, names: Names) -> Tuple[str, Names]:
    """Carriage returns stay."""
    return template.replace("\r", CARRIAGE), names


def restored(text: str) -> str:
    """A text of a template as it was, before jinja2 read it."""
    return text.replace(CARRIAGE, "\r").translate(OF_SOLID)


@reason("more than 64 levels", "template")
def levels(template: str, names: Names) -> Tuple[str, Names]:
    """They are refused."""
    level = 0
    for verb in re.findall(r"\{%-?\s*(\w+)", template):
        level += verb in ("if", "for", "elif")
        if level > LEVELS:
            raise Refused
        level -= verb in ("endif", "endfor")
    return template, names


ALL = frozenset(REASONS)


class Hooks(NodeTransformer):
    """A template's tree in which loops, paths, filters and what signs make go by the environment's own filters."""

    def __init__(self, name: Callable[[str], bool]) -> None:
        self.is_ours = name

    def visit_For(self, node: nodes.For) -> nodes.Node:
        self.generic_visit(node)
        node.iter = called(node.iter, "paired" if isinstance(node.target, nodes.Tuple) else "looped")
        return node

    def visit_Filter(self, node: nodes.Filter) -> nodes.Node:
        self.generic_visit(node)
        if node.name in ("safe", "escape") or not self.is_ours(node.name):
            return node
        given = [nodes.Const(node.name), *node.args]
        return nodes.Filter(node.node, "filtered", given, node.kwargs, node.dyn_args, node.dyn_kwargs, lineno=node.lineno)

    def visit_Getattr(self, node: nodes.Getattr) -> nodes.Node:
        return self.led(node)

    def visit_Getitem(self, node: nodes.Getitem) -> nodes.Node:
        return self.led(node)

    def led(self, node: Any) -> nodes.Node:
        """A path, whose front is marked."""
        self.generic_visit(node)
        if isinstance(node.node, nodes.Name):
            node.node = called(node.node, "front")
        return node  # type: ignore[no-any-return]

    def visit_Const(self, node: nodes.Const) -> nodes.Node:
        node.value = restored(node.value) if isinstance(node.value, str) else node.value
        return node

    def visit_Compare(self, node: nodes.Compare) -> nodes.Node:
        self.generic_visit(node)
        sign, *others = node.ops
        step = "holds" if sign.op in SIGNS["holds"] else "compares"
        return node if others else called(node.expr, "made", nodes.Const(step), nodes.Const(sign.op), sign.expr)

    def counted(self, node: nodes.BinExpr) -> nodes.Node:
        """Arithmetic."""
        self.generic_visit(node)
        return called(node.left, "made", nodes.Const("counts"), nodes.Const(node.operator), node.right)

    visit_Add = visit_Sub = visit_Mul = visit_FloorDiv = visit_Mod = visit_Pow = counted

    def visit_Neg(self, node: nodes.Neg) -> nodes.Node:
        self.generic_visit(node)
        return called(node.node, "made", nodes.Const("counts"), nodes.Const("opposite"))

    def joined(self, node: nodes.BinExpr) -> nodes.Node:
        """An `or` or an `and`."""
        self.generic_visit(node)
        return called(node, "joined")

    visit_Or = visit_And = joined


def called(node: nodes.Expr, name: str, *others: nodes.Expr) -> nodes.Filter:
    """The call of a filter."""
    return nodes.Filter(node, name, [*others], [], None, None, lineno=node.lineno)


class Changed(jinja2.Environment):
    """jinja2 with these differences. `met` has those that have changed something."""

    def __init__(self, reasons: AbstractSet[str]) -> None:
        # a value that is shown is asked for with the context, and so never before there is one
        super().__init__(autoescape=True, optimized=False, finalize=jinja2.pass_context(lambda _, value: self.shown(value)))
        self.reasons, self.met = reasons, set[str]()
        self.filters.update(escape=self.shown, safe=self.as_printed, looped=self.looped, paired=self.paired, front=self.front,
                            made=self.made, joined=self.joined, filtered=self.filtered)
        for name, change in self.of_step("settings"):
            change(self)

    def of_step(self, step: str) -> List[Tuple[str, Callable[..., Any]]]:
        """The changes of a step, with their names."""
        return [(name, change) for name, changes in REASONS.items() if name in self.reasons for at, change in changes if at == step]

    def changed(self, step: str, value: Any) -> Any:
        """The value after a step."""
        for name, change in self.of_step(step):
            try:
                made = change(value)
            except Refused:
                self.met.add(name)
                raise
            if str(made) != str(value):
                self.met.add(name)
            value = made
        return value

    def printed(self, value: Any) -> str:
        """What a value prints."""
        return str(self.changed("prints", value))

    def as_printed(self, value: Any) -> Markup:
        """The filter `safe`."""
        return value if isinstance(value, Markup) else Markup(self.printed(value))

    def shown(self, value: Any) -> Markup:
        """What a value shows, escaped; the filter `escape` too."""
        return value if isinstance(value, Markup) else Markup(self.changed("escapes", str(escape(self.printed(value)))))

    def looped(self, value: Any) -> Any:
        """What a loop by one name goes over."""
        return self.changed("loops", self.changed("repeats", value))

    def paired(self, value: Any) -> Any:
        """What a loop by two names goes over."""
        return self.changed("pairs", self.changed("repeats", value))

    def joined(self, value: Any) -> Any:
        """What an `or` or an `and` is."""
        return self.changed("joins", value)

    def made(self, first: Any, step: str, sign: str, *others: Any) -> Any:
        """What a sign makes of values. Where there is no page Python is not asked, which could take too long."""
        for name, change in self.of_step(step):
            is_same = False
            try:
                made = change(sign, first, *others)
                with contextlib.suppress(TypeError, jinja2.UndefinedError):
                    is_same = SIGNS[step][sign](first, *others) == made
                return made
            finally:
                self.met.update([] if is_same else [name])
        return SIGNS[step][sign](first, *others)

    def is_known(self, word: str) -> bool:
        """Whether a filter is called here, and not where jinja2 looks it up. What there is not is refused."""
        self.changed("named", word)
        if "filters" in self.reasons and word not in PLAIN.filters:
            self.met.add("filters")
        return "filters" in self.reasons or word in PLAIN.filters

    @jinja2.pass_context
    def filtered(self, context: Any, value: Any, word: str, /, *by_place: Any, **given: Any) -> Any:
        """What a filter makes of a value. Arguments by their place are those of jinja2 alone."""
        def theirs() -> Any:
            return self.call_filter(word, value, by_place, given, context, context.eval_ctx)
        for name, change in [] if by_place else self.of_step("filters"):
            is_same = False
            try:
                made = change(word, value, given)
                with contextlib.suppress(*NO_PAGE, AttributeError):
                    is_same = repr(theirs()) == repr(made)
                return made
            finally:
                self.met.update([] if is_same else [name])
        return theirs()

    def front(self, value: Any) -> Any:
        """The front of a path."""
        return NoneAtFront() if value is None and "a path from none" in self.reasons else value

    def led(self, value: Any, part: Any, found: Callable[[], Any]) -> Any:
        """What a part of a path leads to."""
        try:
            at = found()
        except jinja2.UndefinedError:
            if "nothing, led on from" not in self.reasons:
                raise
            self.met.add("nothing, led on from")
            return jinja2.Undefined()
        for name, change in self.of_step("looks"):
            made = change(value, part, at)
            if made is not at and not (isinstance(made, Undefined) and isinstance(at, Undefined)):
                self.met.add(name)
            at = made
        return at

    def getattr(self, obj: Any, attribute: str) -> Any:
        return self.led(obj, attribute, lambda: jinja2.Environment.getattr(self, obj, attribute))

    def getitem(self, obj: Any, argument: Any) -> Any:
        return self.led(obj, argument, lambda: jinja2.Environment.getitem(self, obj, argument))

    def tree(self, parser: Callable[..., Parser], *source: Any) -> Union[nodes.Template, jinja2.TemplateSyntaxError]:
        """The tree of a template, or why there is none."""
        try:
            return parser(self, *source).parse()
        except jinja2.TemplateSyntaxError as why:
            return why

    def _parse(self, *source: Any) -> nodes.Template:
        read = own = self.tree(Parser, *source)
        for name, parser in self.of_step("reads"):
            read = self.tree(parser, *source)
            if read != own and not (isinstance(read, Exception) and isinstance(own, Exception)):
                self.met.add(name)
        if isinstance(read, jinja2.TemplateSyntaxError):
            raise read
        self.met.update(name for name, change in self.of_step("sets") if change(read))
        return Hooks(self.is_known).visit(read)  # type: ignore[no-any-return]


NO_PAGE = (Refused, jinja2.TemplateError, TypeError, ValueError, ArithmeticError, AssertionError, SyntaxError, RecursionError)
PLAIN = jinja2.Environment(autoescape=True)


def plain_answer(template: str, names: Names) -> Optional[str]:
    """The page that jinja2 itself shows; None where it shows none."""
    try:
        return PLAIN.from_string(template).render(names)
    except NO_PAGE:
        return None


def answer(template: str, names: Names, reasons: AbstractSet[str] = ALL) -> Tuple[Optional[str], Set[str]]:
    """The page that jinja2 shows with these differences, or None, and the differences that have changed something."""
    environment = Changed(reasons)
    met = environment.met
    try:
        for name, change in environment.of_step("template"):
            try:
                made, given = change(template, names)
            except Refused:
                met.add(name)
                raise
            if (made, given) != (template, names):
                met.add(name)
            template, names = made, given
        page = environment.from_string(template).render(names)
        if environment.keep_trailing_newline and template.endswith("\n"):
            met.add("blanks and line ends")
        return restored(page), met
    except NO_PAGE:
        return None, met
