"""What crates/memory_calls answers, from the descriptions of its calls alone: the model of tests/test_hostile.py.

`rows(count)` gives for each line of it, on operands of so many parts: the line's name, what stands behind the name, what
is held there where the call found no memory (or `None` where it holds nothing; a function that gives all that it may be,
where it may be one of several), and whether the call takes memory there.
"""
import sys
from typing import NamedTuple

sys.dont_write_bytecode = True  # no folder beside this file
import second
from second import Number, Text, quoted

INT_MAX, WIDE = second.INT_MAX, 2**128 - 1


class Row(NamedTuple):
    name: str
    answer: str  # as it stands in the line
    held: object = None
    takes: bool = True


def text_of(count):
    return "".join("\u00e9<"[at % 2] for at in range(count))


def names_of(count):
    return [f"k{1000 + number}" for number in range(count)]


def item(number):
    return Number("u64", number) if number % 2 else Text("\u00e9", True)


def items(count):
    return tuple(map(item, range(count)))


def literal(value):
    """The literal of such an item."""
    return f"{value.number}{value.kind}" if isinstance(value, Number) else f"s{quoted(value.text)}"


def debug(value):
    """A value that is no map, and holds none, by Debug."""
    if isinstance(value, second.Plain):
        inner = value.name.capitalize()
    elif isinstance(value, bool):
        inner = f"Bool({second.truth(value)})"
    elif isinstance(value, Number):
        inner = f"{value.kind.upper()}({value.number})"
    elif isinstance(value, Text):
        inner = f"String({second.truth(value.safe)}, {quoted(value.text)})"
    elif isinstance(value, bytes):
        inner = f"Bytes({list(value)})"
    else:
        inner = f"Array([{', '.join(map(debug, value))}])"
    return f"Value {{ inner: {inner} }}"


def map_debug(entries, variant="String"):
    """A map by Debug, in the order in which it holds its pairs."""
    return f"Value {{ inner: Map({{{', '.join(f'{variant}({quoted(key)}): {debug(value)}' for key, value in entries)}}}) }}"


def context(entries):
    return f"Context {{ alloc: Global, values: {{{', '.join(f'{quoted(key)}: {debug(entries[key])}' for key in sorted(entries, key=str.encode))}}} }}"


SPAN = " @ 1:0-1:2 (0..2)"


def report(message, filename, source, notes=()):
    told = ", ".join(f"Note {{ label: {quoted(label)}, filename: {quoted(file)}, source: {quoted(text)}, span: {SPAN} }}" for label, file, text in notes)
    return (f"ReportError {{ message: {quoted(message)}, filename: {quoted(filename)}, source: {quoted(source)}, span: {SPAN}, notes: [{told}] }}")


def part(filename, source):
    """The place and the first line of a source, by the first two columns."""
    return f"{filename}:1:1\n  |\n1 | {source.split(chr(10))[0]}\n  | ^^"


def report_text(message, filename, source, notes=()):
    told = "".join(f"\n\nnote: {label} {part(file, text)}" for label, file, text in notes)
    return f"error: {message}\n --> {part(filename, source)}{told}"


def listed(texts):
    return f"[{', '.join(map(quoted, texts))}]"


def refused(kind, wanted):
    return f"error: Invalid type for the value, expected `{wanted}` but got `{kind}`"


def outside(number, wanted):
    return f"error: Value `{number}` is out of range for `{wanted}`"


def ok(shown):
    return f"ok {shown}"


def errors(count, text, names):
    yield Row("Error::message", f"error: {text}")
    yield Row("Error::message_of", f"error: {'é<' * count}")
    yield Row("Error::chain", ok(f"Error {{ kind: Msg({quoted(text)}), source: Some(a cause) }}"))
    yield Row("Error::invalid_arg_type", refused(text, text))
    yield Row("Error::out_of_range_arg", outside(text, text))
    yield Row("Error::missing_arg", f"error: Missing keyword argument `{text}`")
    yield Row("escape_text", ok(quoted(second.escaped(text))))
    yield Row("Error::circular_extend", f"error: Circular extend detected for template '{text}'. Inheritance chain: `{listed(names)}`")
    yield Row("Error::circular_include", f"error: Circular include detected for template '{text}'. Include chain: `{listed(names)}`")
    yield Row("Error::missing_parent", f"error: Template '{text}' is inheriting from '{text}', which doesn't exist or isn't loaded.")
    yield Row("Error::template_not_found", f"error: Template '{text}' not found")
    yield Row("Error::component_not_found", f"error: Component '{text}' not found")
    yield Row("Error::syntax_error", ok(f"Error {{ kind: SyntaxError({report(text, '', '')}), source: None }}"))
    chain = f"CircularExtend {{ tpl: {quoted(text)}, inheritance_chain: {listed(names)} }}"
    yield Row("ErrorKind::clone of a chain", ok(chain))
    yield Row("ErrorKind::clone of a report", ok(f"SyntaxError({report(text, '', '')})"))
    yield Row("ErrorKind::clone of two texts", ok(f"OutOfRangeArgument {{ value: {quoted(text)}, target_type: {quoted(text)} }}"))


def reports(count, text, names):
    notes = [(name, "b.html", "y") for name in names]
    yield Row("ReportError::new", ok(report(text, text, text)))
    yield Row("ReportError::new_without_source", ok(report(text, "", "")), takes=False)
    yield Row("ReportError::unexpected_end_of_input", ok(report("Unexpected end of input", "", "")))
    yield Row("ReportError::clone", ok(report(text, text, text, notes)))
    yield Row("ReportError::generate_report", ok(quoted(report_text(text, text, text, notes))))
    yield Row("Spanned::new", ok(f"{listed(names)}{SPAN}"))
    yield Row("Spanned::clone", ok(f"{listed(names)}{SPAN}"))
    before = report(text, text, text, notes)
    yield Row("ReportError::set_source", f"ok, held {report(text, 'given.html', text, notes)}", before)
    yield Row("ReportError::add_note", f"ok, held {report(text, text, text, [*notes, (text, 'given.html', text)])}", before)
    yield Row("Growing::new", ok('""'), takes=False)
    yield Row("Growing::with_capacity", ok(quoted(text)))
    yield Row("Growing::put", ok(quoted(text + text)))
    yield Row("Room::new", ok(f"(true, {quoted(text)})"))


def values(count, text, names):
    array, bytes_held = items(count), text.encode() + b"\xff"
    entries = list(zip(names, array))
    yield Row("Value::normal_string", ok(debug(Text(text, False))))
    yield Row("Value::safe_string", ok(debug(Text(text, True))))
    yield Row("Value::empty_map", ok(map_debug([])), takes=False)
    yield Row("Value::as_key", ok(f"String({quoted(text)})"))
    yield Row("Value::as_key of what is no key", "error: Not a valid key type")
    for maker in ("Key::of_text", "Key::of_string"):
        yield Row(maker, ok(f"String({quoted(text)})"))
    yield Row("Key::clone", ok(f"String({quoted(text)})"), takes=False)
    yield Row("Key::as_value", ok(debug(Text(text, False))))
    yield Row("Value::clone of a list", ok(debug(array)))
    yield Row("Value::clone of a map", ok(map_debug(entries)))
    yield Row("Value::clone of a text", ok(debug(Text(text, False))))
    yield Row("Value::clone of bytes", ok(debug(bytes_held)))
    yield Row("Map::new", ok(map_debug([])), takes=False)
    yield Row("Map::with_hasher", ok(map_debug([])), takes=False)
    yield Row("Map::clone", ok(map_debug(entries)))
    yield Row("Map::insert", f"ok, held {map_debug([*entries, ('new', Number('u64', 7))])}", map_debug(entries))


def numbers(count, text, names):
    yield Row("number::add", "error: Only numbers can be used in arithmetic. This is a `string`")
    yield Row("number::sub", f"error: Operand `{WIDE}` is out of range for integer arithmetic (must fit in i128)")
    yield Row("number::mul", "error: Only numbers can be used in arithmetic. This is a `none`")
    yield Row("number::rem", "error: Cannot divide by 0")
    yield Row("number::floor_div", "error: Cannot divide by 0")
    yield Row("number::pow", "error: Exponent -1 is out of range for integer ** (must fit in u32)")
    yield Row("ConversionRefused::into_error", refused("none", "u8"))
    yield Row("ConversionRefused::into_error of a number", outside(300, "u8"))
    yield Row("NotComputed::into_error", "error: Only numbers can be used in arithmetic. This is a `none`")


def given(count, text, names):
    value = ok(debug(Text(text, False)))
    entries = list(zip(names, items(count)))
    texts = ok(debug(tuple(Text(name, False) for name in names)))
    rising = tuple(Number("u64", number) for number in range(count))
    yield Row("char::to_value", ok(debug(Text("\u00e9", False))))
    for source in ("&str", "CowStr", "Key"):
        yield Row(f"{source}::to_value", value)
    yield Row("&char::to_value", ok(debug(Text("\u00e9", False))))
    yield Row("&&str::to_value", value)
    yield Row("&String::to_value", value)
    yield Row("&Value::to_value", ok(debug(items(count))))
    yield Row("&[u8]::to_value", ok(debug(text.encode())))
    yield Row("Option::to_value", value)
    yield Row("Vec::to_value", texts)
    yield Row("BTreeSet::to_value", ok(debug(rising)))
    yield Row("&[Value]::to_value", ok(debug(items(count))))
    yield Row("HashMap::to_value", ok(map_debug(zip(names, rising))))
    yield Row("BTreeMap::to_value", ok(map_debug(entries)))
    yield Row("IndexMap::to_value", ok(map_debug(zip(reversed(names), reversed(rising)))))
    yield Row("FunctionResult::into_result", texts)
    yield Row("Result::into_result", texts)
    yield Row("Result::into_result of an error", f"error: {text}")
    for source in ("String::to_key", "CowStr::to_key", "CowStr::to_key of its own"):
        yield Row(source, ok(f"String({quoted(text)})"))


def arguments(count, text, names):
    array, entries = items(count), list(zip(names, items(count)))
    shown = quoted(second.printed(array))
    yield Row("String::from_value", ok(shown))
    yield Row("CowStr::from_value", ok(f"Some({shown})"))
    yield Row("Value::from_value", ok(debug(array)))
    yield Row("Map::from_value", ok(map_debug(entries)))
    yield Row("Vec::from_value", ok(listed(names)))
    yield Row("Vec::from_value of no array", refused("bytes", "Vec<Value>"))
    yield Row("Vec::from_value of another item", refused("string", "bool") if names else ok("[]"))
    for name, wanted in (("bool", "bool"), ("&str", "&str"), ("Number", "Number")):
        yield Row(f"{name}::from_value", refused("none", wanted))
    yield Row("Number::from_value of a number", f"error: Number `{WIDE}` is out of range for i128")
    yield Row("Map::from_value of none", refused("none", "Map"))
    for name, wanted in (("&Map", "Map"), ("&[Value]", "&[Value]"), ("StringInput", "string")):
        yield Row(f"{name}::from_value", refused("none", wanted))
    for name in second.TYPES:
        yield Row(f"{name}::from_value", outside(-1 if name == "u128" else WIDE, name))
        yield Row(f"{name}::from_value", refused("none", name))


def kwargs(entries, variant="String"):
    return f"KwargsOf {{ values: {map_debug(entries, variant)} }}"


def named(count, text, names):
    entries = list(zip(names, items(count)))
    yield Row("Kwargs::from_pairs", ok(kwargs([("m", Text(text, False)), ("n", Number("u64", 300))], "Str")))
    yield Row("Kwargs::clone", ok(kwargs(entries)))
    yield Row("Kwargs::get", ok('Some("\u00e9")'))
    yield Row("Kwargs::get of another type", refused("u64", "bool"))
    yield Row("Kwargs::must_get", ok('"1"'))
    yield Row("Kwargs::must_get of no argument", "error: Missing keyword argument `absent`")
    yield Row("StringInput::rendered", ok(f"Some({quoted(second.escaped(text))})"))
    yield Row("StringInput::into_value", ok(debug(Text(text, False))))


def contexts(count, text, names):
    held = dict(zip(names, items(count)))
    yield Row("Context::new", ok(context({})), takes=False)
    yield Row("Context::with_hasher", ok(context({})), takes=False)
    yield Row("context!", ok(context({"given": Text(text, False), "bare": Number("i64", 69)})))
    yield Row("Context::clone", ok(context(held)))
    yield Row("Context::insert", f"ok, held {context({**held, 'new': Text(text, False)})}", context(held))
    one = {"k1000": item(0)}
    yield Row("Context::insert of a name that is there", f"ok, held {context({'k1000': Text(text, False)})}", context(one))
    yield Row("Context::entries", ok(f"[{', '.join(f'({quoted(name)}, {debug(value)})' for name, value in sorted(held.items()))}]"), takes=bool(held))
    script = "".join(f"set {name} {literal(value)}\n" for name, value in sorted(held.items()))
    yield Row("script_text", ok(quoted(script)), takes=bool(held))
    said = f'Says(Command {{ request: Set {{ name: "a", value: {debug((Text(text, False),))} }}, into: None }})'
    yield Row("read_line", ok(said))
    yield Row("take_text", ok(f"Some(({quoted(text)}, {len(text.encode()) + 1}))"))
    yield Row("literal_text", ok(quoted(quoted(text))))


def rows(count):
    for part in (errors, reports, values, numbers, given, arguments, named, contexts):
        yield from part(count, text_of(count), names_of(count))


# The calls that change what a caller keeps, with those beside them.
KEPT = {"ReportError::set_source", "ReportError::add_note", "Map::new", "Map::with_hasher", "Map::clone", "Map::insert", "Context::clone", "Context::insert",
        "Context::insert of a name that is there"}


def kept(count):
    """The rows of these calls, with an empty text."""
    for part in (reports, values, contexts):
        yield from (row for row in part(count, "", names_of(count)) if row.name in KEPT)


# What refuses each request of a list of steps.
RUNS = "runs over lists with each request for memory refused in turn"
# Calls whose requests are refused by a test of another file, or by the row of a call that hands them on.
ELSEWHERE = {
    **dict.fromkeys(("step", "Command::into_step"), RUNS),
    "answer": "every call with each request for memory refused in turn",
    "run": RUNS,
    "replay": "every call with each request for memory refused in turn",
    "replay_from": "every call with each request for memory refused in turn",
    "answer_line": "every call with each request for memory refused in turn",
    **dict.fromkeys(("Replayer::take", "Replayer::finish"), "every call with each request for memory refused in turn"),
    "insert_entry!": "context!",
    "Value::of_pairs": "Kwargs::from_pairs",
    "Value::no_array": "Vec::from_value",
    **dict.fromkeys(("Context::insert_value", "Context::insert_owned"), RUNS),
    "Context::extend": "an extend of two names with each request for memory refused in turn",
    **dict.fromkeys((f"Value::{name}" for name in "copy to_text available_fields walk get_item slice reverse contains read_as".split()), RUNS),
    **dict.fromkeys("number::calculate number::negate not_a_number operand_outside_i128 no_result negated_no_number".split(), RUNS),
    **dict.fromkeys("negation_outside_i128 reversed_text sliced_text".split(), RUNS),
}
# Calls whose type lets them want memory, and that never do.
FREE = {"Growing::flush", "Replayer::new"}
# Rows of calls whose type does not tell that they take memory.
BESIDE = {"String::to_key"}
