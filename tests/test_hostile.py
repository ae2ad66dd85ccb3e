"""Public calls and scripts in hostile surroundings, by the built programs of crates/memory_calls and crates/tera_replay.

What is expected comes from tests/calls.py, the reference and the rows below. docs/TESTS.md says what each test shows.
"""
import os
import select
import subprocess
import tempfile
import unittest

import ample
import built
import calls
import refused
import second
from built import TOP
from refused import WANT
from second import quoted

MOST = 20000
PATIENCE = 120  # seconds in which a program has ended
CALLER, REPLAY = "memory_calls", "tera_replay"
# what ends the calls where an operand finds no memory, or where their standard input does
UNMADE = {f"{WANT}\n", "error: Io error while writing rendered value to output: OutOfMemory\n"}
MARK = "\1"  # a request for memory, as tests/refuse.c tells it
ROOM = tempfile.TemporaryDirectory(prefix="hostile-")


class Failed(AssertionError):
    """What is not as it has to be."""


def run(program, script, refuse=None, onwards=False, marked=False):
    """Standard output, standard error, the status, and whether a request for memory was refused. Where it is `marked`,
    each request stands in standard output as MARK."""
    told = f"{ROOM.name}/refused"
    if os.path.exists(told):
        os.remove(told)
    env = dict(os.environ)
    if marked:
        env |= {"LD_PRELOAD": built.refusing(), "MARKED": "1"}
    if refuse:
        env |= {"LD_PRELOAD": built.refusing(), "REFUSE": str(refuse), "REFUSED": told} | ({"ONWARDS": "1"} if onwards else {})
    ran = subprocess.run([built.program(program)], input=script.encode(), capture_output=True, env=env, timeout=PATIENCE)
    out, err = (stream.decode(errors="surrogateescape") for stream in (ran.stdout, ran.stderr))
    return out, err, ran.returncode, os.path.exists(told)


def refusals(program, script, onwards=False):
    """Each run with a request refused, its number first, until one meets no refusal; that one too."""
    for number in range(1, MOST):
        *heard, is_refused = run(program, script, number, onwards)
        yield number, heard, is_refused
        if not is_refused:
            return
    raise Failed(f"a refusal is met at request {MOST}")


def differ(heard, wanted):
    """The first line in which what was heard is another than what was wanted."""
    for at, (one, other) in enumerate(zip(heard + [None] * len(wanted), wanted + [None] * len(heard))):
        if one != other:
            return f"line {at}: {one!r}\n     in the place of {other!r}"
    return None


def same(heard, wanted):
    fault = differ(heard, wanted)
    if fault:
        raise Failed(fault)


def lines_of(text):
    return text.split("\n")[:-1]


# ---- calls that take memory


def called(rows):
    return [f"{row.name}: {row.answer}" for row in rows]


def wants(row):
    """The lines that tell that a row found no memory, and what is held is as it was."""
    if row.held is None:
        return [f"{row.name}: {WANT}"]
    return [f"{row.name}: {WANT}, held {held}" for held in (row.held() if callable(row.held) else [row.held])]


def fault_of_calls(rows, heard, most):
    """What is wrong with the answers of a run in which memory was refused, and the places of the rows that wanted it."""
    out, err, status = lines_of(heard[0]), heard[1], heard[2]
    wanted = called(rows)
    if status == 1 and err in UNMADE:
        # an operand found none: up to it all is answered, and no call is blamed
        wanted = wanted[: len(out)]
    elif (status, err) != (0, ""):
        return f"status {status}, {err!r}", []
    places = [at for at, line in enumerate(out) if at < len(rows) and line != wanted[at] and line in wants(rows[at])]
    rest = [wanted[at] if at in places else line for at, line in enumerate(out)]
    if len(places) > most or (status == 1 and most == 1 and places):
        return f"{len(places)} rows wanted memory, status {status}", []
    return differ(rest, wanted), places


# how many pairs and names are put, of which some make a map or a context grow
GROWN = 30


def sizes_of_growth():
    """Behind how many pairs a map asks for memory for one more; and behind how many names a context does, for more than the
    name itself."""
    out, err, status, _ = run(CALLER, f"growth\n{GROWN}\n", marked=True)
    same([err, str(status)], ["", "0"])
    lines, sizes = lines_of(out), []
    for word in ("map", "context"):
        asked = [lines[lines.index(next(it for it in lines if it.strip(MARK) == f"{word} {count}")) + 1].count(MARK) for count in range(GROWN)]
        grows = [count for count, number in enumerate(asked) if number > min(asked)]
        if len(grows) < 3 or grows[0] != 0:
            raise Failed(f"a {word} grows behind {grows}, by {asked}")
        sizes.append(grows)
    return sizes


def calls_at(given_lines, rows, most, onwards=False):
    """The places of the rows that wanted memory where each request in turn was refused, at most so many at once."""
    seen = set()
    for number, heard, is_refused in refusals(CALLER, given_lines, onwards):
        if not is_refused:
            same(lines_of(heard[0]), called(rows))
            continue
        fault, places = fault_of_calls(rows, heard, most)
        if fault:
            raise Failed(f"{given_lines.split()}, request {number} refused: {fault}")
        seen.update(places)
        free = [rows[at].name for at in places if not rows[at].takes]
        if free:
            raise Failed(f"{given_lines.split()}, request {number}: {free[0]} takes no memory, and wanted some")
    return seen


class Memory(unittest.TestCase):
    """Calls that take memory."""

    def test_calls_of_any_size(self):
        """calls that take memory on operands of 0, 1, 2 and 1,000 parts"""
        for count in (0, 1, 2, 1000):
            out, err, status, _ = run(CALLER, f"{count}\n")
            same([err, str(status), *lines_of(out)], ["", "0", *called(calls.rows(count))])

    def test_calls_refused(self):
        """calls that take memory with each request for it refused in turn"""
        # All calls at the first sizes at which a map or a context grows, and at one at which none
        # does; and those that change what a caller keeps at all the sizes at which one of the two
        # grows.
        maps, contexts = sizes_of_growth()
        grows = {*maps, *contexts}
        seen, few = set(), {*maps[:3], *contexts[:2], next(count for count in range(1, GROWN) if count not in grows)}
        for count in sorted(few):
            rows = list(calls.rows(count))
            seen |= calls_at(f"{count}\n", rows, 1)
        missing = [row.name for at, row in enumerate(rows) if row.takes and at not in seen]
        if missing:
            raise Failed(f"these wanted no memory: {', '.join(missing)}")
        for count in sorted(grows - few):
            rows = list(calls.kept(count))
            seen = {rows[at].name for at in calls_at(f"kept\n{count}\n", rows, 1)}
            grown = {"Map::insert"} if count in maps else {"Context::insert"}
            if grown - seen:
                raise Failed(f"kept {count}: {', '.join(grown - seen)} wanted no memory")

    def test_calls_refused_onwards(self):
        """calls that take memory with all memory refused from a request on"""
        rows = list(calls.rows(2))
        calls_at("2\n", rows, len(rows), onwards=True)


# ---- requests that are counted

# the calls of the list that make requests, and how many
COUNTED = {"ReportError::generate_report": 1, "Key::of_text": 2}
# how many calls there are at least
CALLS_COUNTED = 200


def replies(lines):
    """The reply to each line, which is sent once the one before it is answered, with the requests that stand before it."""
    env = {**os.environ, "LD_PRELOAD": built.refusing(), "MARKED": "1"}
    with subprocess.Popen([built.program(REPLAY)], stdin=subprocess.PIPE, stdout=subprocess.PIPE, bufsize=0, env=env) as running:
        for line in lines:
            running.stdin.write(f"{line}\n".encode())
            heard = b""
            while not heard.endswith(b"\n"):
                is_heard = select.select([running.stdout], [], [], PATIENCE)[0]
                part = os.read(running.stdout.fileno(), 4096) if is_heard else b""
                if not part:
                    running.kill()
                    raise Failed(f"`{line}` has no answer")
                heard += part
            yield heard.decode()[:-1]


LOOK_UPS = ["get l", "get absent", 'path m "other.in"', 'path absent "a"', 'attr m "k"', 'attr m "absent"', "item m key", "item m one", "item l one",
            "print t", "print l", "print m", "print n", " \t get l ", f'attr m "{"a text of more than thirty-one bytes, " * 3}"', "has l", "len m", "truthy t",
            "kind l", "is_safe s", "eq m copy", "cmp l m", "try_cmp l n", "contains m key", "contains l item"]


class Counted(unittest.TestCase):
    """Requests that are counted."""

    def test_requests_counted(self):
        """calls that take no memory ask for none, and a report asks once"""
        # The calls that take no memory ask for none, not even for some that they let go; a report
        # asks once.
        for count in (2, 13, 30):
            out, err, status, _ = run(CALLER, f"free\n{count}\n", marked=True)
            same([err, str(status)], ["", "0"])
            told, is_counted, before, unlike = 0, False, 0, []
            for line in lines_of(out):
                name = line.strip(MARK).split(": ")[0]
                if is_counted:
                    told += 1
                    if line.count(MARK) != COUNTED.get(name, 0):
                        unlike.append(f"{name} made {line.count(MARK)} requests")
                    if ": error" in line:
                        unlike.append(f"{name} was refused")
                else:
                    before += line.count(MARK)
                is_counted = name == "made" or is_counted and name != "making"
            if unlike or told < CALLS_COUNTED or not before:
                raise Failed("\n     ".join([f"size {count}, {told} calls, {before} requests for operands:", *unlike]))

    def test_look_ups_counted(self):
        """what is lent, asked or weighed asks for no memory"""
        # A line without an escape whose answer is lent, or is no text, asks for no memory, from its
        # line to its reply.
        sets = [f"set {name} {literal}" for name, literal in refused.VALUES.items()]
        lines = [*sets, *LOOK_UPS * 2]
        heard = list(replies(lines))
        same([it.strip(MARK) for it in heard], refused.answers(lines))
        asked = [f"`{line}` makes {it.count(MARK)} requests" for line, it in zip(lines, heard) if line not in sets and MARK in it]
        if asked or not all(MARK in it for it in heard[: len(sets)]):
            raise Failed("\n     ".join(["look-ups, or lines that set none:", *asked]))


# ---- lists of steps through `run`

# On every call that heeds no name for what is found there may be one all the same.
IGNORED = ["@has l", "@eq l l", "@cmp l m", "@try_cmp l m", "@contains m key", "@len m", "@truthy m", "@fields m", "@walk m", "@kind l",
           "@print t", "@escape t", "@is_safe t", "@set extra [1, \"<\"]", "@remove extra", "@extend {\"extra\": \"a text of more than twenty bytes\"}",
           "has ignored", "@get l", "@negate t", "@mark_safe t", "@read u8 u", "has ignored"]


# What the calls of the program's script do not find, refuse or compute.
BESIDE = ["item m none", "item m l", "item l t", "item t one", "item t none", "negate u", "set wide 170141183460469231731687303715884105727",
          "mul wide wide", "pow one wide", "sub u n", "contains none one", "reverse none", "slice none _ _ _"]


def plain(line):
    """A line as the language has it: where `@` stands before it, what its call finds is kept under `ignored`."""
    if not line.startswith("@"):
        return line
    return line[1:] + (" -> ignored" if second.CALLS[line[1:].split()[0]][0].endswith(">") else "")


def parts_of_value(value, path=()):
    """The paths to all parts of a value that texts and places lead to, the value's own first."""
    yield path
    pairs = enumerate(value) if second.is_array(value) else [(key[1], held) for key, held in value.items() if key[0] == 2] if isinstance(value, dict) else ()
    for key, held in pairs:
        yield from parts_of_value(held, (*path, str(key)))


def deep_questions(lines):
    """Lines that tell the kind and the mark of each part of each name that the lines set or keep."""
    names = {}
    for line in lines:
        second.step(names, line)
    for name in [*names]:
        for path in parts_of_value(names[name]):
            if path:
                yield from (f'path {name} "{".".join(path)}" -> part', "get part", "kind part", "is_safe part")
    yield from (f"{word} {name}" for name in names if second.NAME.fullmatch(name) for word in ("get", "kind", "is_safe"))


class ListRuns(refused.Runs):
    """Lists that are run one after another; a request is refused in the runs themselves, or where a list is made."""

    # `run` gives what is found or printed away
    lends = False

    def __init__(self, lists):
        self.lists = lists
        self.lines = [plain(line) for one in lists for line in one]
        self.given = "run\n" + "--\n".join("".join(f"{line}\n" for line in one) for one in lists)
        self.whole = refused.answers(self.lines)
        self.starts = [sum(map(len, lists[:at])) for at in range(len(lists))]
        self.wanting, self.unreserved = set(), set()
        self.asks_again = refused.asks_again(self.lines)

    def without(self, number):
        """What is answered where this list found no memory for its answers."""
        left = [line for at, one in enumerate(self.lists) if at != number for line in one]
        given = refused.answers([plain(line) for line in left])
        return given[: self.starts[number]] + [f"run: {WANT}"] + given[self.starts[number] :]

    def judge(self, out, err, status):
        """What is wrong with a run with one request refused."""
        if status == 1 and err in UNMADE:
            ends = [*self.starts, len(self.lines)]
            return None if out == self.whole[: len(out)] and len(out) in ends else f"{len(out)} answers before a list that was not made"
        if (status, err) != (0, ""):
            return f"status {status}, {err!r}"
        if self.asks_again and out == self.whole:
            return None
        for number in range(len(self.lists)):
            if out == self.without(number):
                self.unreserved.add(number)
                return None
        places = [at for at, answer in enumerate(out) if answer == WANT]
        if len(places) != 1:
            return f"{len(places)} answers are want of memory"
        if refused.answers(self.lines, places[0]) != out:
            return f"`{self.lines[places[0]]}` wanted memory, and the rest is not as if it was left out"
        self.wanting.add(places[0])
        return None


ROWS_OF_EXTEND = ["set a 1", "set b 2", 'extend {"b": 3, "d": 4}', "get a", "get b", "get d"]


class Lists(unittest.TestCase):
    """Lists of steps through `run`."""

    def test_runs_refused(self):
        """runs over lists with each request for memory refused in turn"""
        first = refused.every_call() + BESIDE + IGNORED
        runs = ListRuns([first, list(deep_questions([plain(line) for line in first]))])
        for number, heard, is_refused in refusals(CALLER, runs.given):
            out = lines_of(heard[0])
            fault = runs.judge(out, *heard[1:]) if is_refused else differ(out, runs.whole)
            if fault:
                raise Failed(f"request {number} refused: {fault}")
        missing = [line for line in runs.missing() if line in map(plain, first)]
        if missing:
            raise Failed("\n".join(["these lines wanted no memory, or may not have:", *missing]))
        if runs.unreserved != {0, 1}:
            raise Failed("no run found no memory for its answers")

    def test_row_of_extend(self):
        """an extend of two names with each request for memory refused in turn"""
        # The two names that are taken over, refused at each request: none of them, or both with
        # success, where room for one more was found.
        runs = ListRuns([ROWS_OF_EXTEND])
        for number, heard, is_refused in refusals(CALLER, runs.given):
            out = lines_of(heard[0])
            fault = runs.judge(out, *heard[1:]) if is_refused else differ(out, runs.whole)
            if fault:
                raise Failed(f"request {number} refused: {fault}")

    def test_runs_of_any_size(self):
        """runs over lists on operands of 0, 1 and 1,000 parts"""
        lines = [*ample.script()]
        wanted = second.replay("".join(f"{line}\n" for line in lines).encode())[0].decode()
        out, err, status, _ = run(CALLER, "run\n" + "".join(f"{line}\n" for line in lines))
        same([err, str(status), *lines_of(out)], ["", "0", *lines_of(wanted)])


# ---- what lines say, by their Debug

def named(word):
    """The variant of a call's word."""
    return word.title().replace("_", "")


ONE, TWO = 'of: "a"', 'left: "a", right: "b"'
CALLS = [
    ("get a -> b", 'Get { name: "a" }', "b"), ("get a", 'Get { name: "a" }'), ("has a", 'Has { name: "a" }'),
    ("set a 7u64", 'Set { name: "a", value: Value { inner: U64(7) } }'), ("remove a", 'Remove { name: "a" }'),
    *((f"{word} a", f"{named(word)} {{ {ONE} }}") for word, (form, _) in second.CALLS.items() if form in ("v", "v>")),
    ("mark_safe a -> b", f"MarkSafe {{ {ONE} }}", "b"),
    ("eq a b", f"Equal {{ {TWO} }}"), ("cmp a b", f"Compare {{ {TWO} }}"), ("try_cmp a b", f"TryCompare {{ {TWO} }}"),
    ("contains a b", f'Contains {{ {ONE}, needle: "b" }}'), ('path a "b.0"', f'Path {{ {ONE}, path: "b.0" }}'),
    ('attr a "\u00e9\\""', f'Attr {{ {ONE}, attr: "\u00e9\\"" }}'), ("item a b", f'Item {{ {ONE}, item: "b" }}'),
    ("slice a -1 _ 2", f"Slice {{ {ONE}, start: Some(-1), end: None, step: Some(2) }}"),
    *((f"{word} a b", f"Binary {{ op: {named(word)}, {TWO} }}") for word in second.OPERATORS),
    ("negate a -> c", f"Negate {{ {ONE} }}", "c"),
    *((f"read {name} a", f"Read {{ {ONE}, to: {name.title()} }}") for name in second.TYPES)]
# the names of a context stand in the order of their bytes
NAMES = ["b", "\u00e9", "", "ab"]


# how many pairs stand before one whose key is equal to that of one of them; a list has 12 keys at most, and then a set has them
PAIRS = (1, 2, 11, 12, 13, 14, 24, 25, 60)


def equal_keys():
    """Maps of so many numbers in 64 bits, and then one of these in 128: the first key stays, where it is, at the later value."""
    for count in PAIRS:
        for number in {0, count // 2, count - 1}:
            pairs = ", ".join(f"{at}u64: none" for at in range(count))
            held = ", ".join(f"U64({at}): Value {{ inner: {'Bool(true)' if at == number else 'None'} }}" for at in range(count))
            yield f"set a {{{pairs}, {number}i128: true}}", f'Set {{ name: "a", value: Value {{ inner: Map({{{held}}}) }} }}'


class Debug(unittest.TestCase):
    """What lines say, by their Debug."""

    def test_lines_by_debug(self):
        """what lines say, by their debug text"""
        # Each call and each of its operands stands in the debug text of what a line says.
        rows = [(line, f"Step {{ call: {call}, into: {f'Some({quoted(into[0])})' if into else None} }}") for line, call, *into in [*CALLS, *equal_keys()]]
        source = calls.context(dict.fromkeys(NAMES, second.NONE))
        rows.append((f"extend {{{', '.join(f'{quoted(name)}: none' for name in NAMES)}}}", f"Step {{ call: Extend {{ source: {source} }}, into: None }}"))
        rows += [("# get a", "Skipped"), (" ", "Skipped"), ("has \u00e9", "Bad"), ("frob a", "Bad")]
        out, err, status, _ = run(CALLER, "read\n" + "".join(f"{line}\n" for line, _ in rows))
        same([err, str(status), *lines_of(out)], ["", "0", *(f"read_line: ok {said}" for _, said in rows)])


# ---- writers that fail

WRITTEN = ["true", "-12345i128", "18446744073709551615u64", "-9223372036854775808i64", '"text\\u{e9}<&\'\\">"', 's"<b>"', '""', "none", 'x"ff41"', '["\\u{e9}\\n", [x"ff", 7], s"a\\"b"]',
           '{"\\u{e9}": {"k": [none, 1]}}', "170141183460469231731687303715884105728"]
FAULTS = ['kind: StorageFull, error: "the shelf is full"', 'kind: BrokenPipe, error: "nobody reads on"', 'kind: Other, error: "odd"']
# what std answers for `{}` where a write takes nothing, and what these crates answer
NONE_SHOWN, NONE_TAKEN = 'Error { kind: WriteZero, message: "failed to write whole buffer" }', "Kind(WriteZero)"
OWN = ("Value::format", "Value::format_inside", "Key::format", "escape_html")


# A value is printed by way of a stage of 256 bytes: these fill several.
WRITTEN += ['"' + "a text \\u{e9}<" * 70 + '"', "[" + ", ".join(["1234567890"] * 80) + "]",
            "{" + ", ".join(f"{at}: [{at}, none]" for at in range(60)) + "}"]


def rooms(size):
    """Rooms for no byte, for one, .., and behind 200 for every 61st, up to the first in which so many have place."""
    room = 0
    while room < size:
        yield room
        room += 1 if room < 200 else 61
    yield room


def written(name, text):
    """What is told of a text that goes to writers with room for no byte, for one, .., and to one that takes none."""
    for step in (2**64 - 1, 1, 3):
        *short, enough = rooms(len(text.encode()))
        for room in short:
            yield f"{name} by {step} in {room}: {list(text.encode()[:room])}, Custom {{ {FAULTS[room % 3]} }}"
        yield f"{name} by {step} in {enough}: ok {quoted(text)}"
    yield f"{name} by 0: " + (f"[], {NONE_TAKEN if name in OWN else NONE_SHOWN}" if text else 'ok ""')


def texts_written():
    """Each way in which a text is written, with its text."""
    for literal in WRITTEN:
        value, _ = second.read_literal(literal, 0)
        text = second.printed(value)
        yield from (("Value::format", text), ("Value::format_inside", second.printed((value,))[1:-1]), ("Value", text))
        if isinstance(value, second.Text):
            yield "escape_html", second.escaped(text)
        if second.key_of(value) is not None:
            yield from (("Key::format", text), ("Key", text))
        else:
            yield from (("Error", "Not a valid key type"), ("ErrorKind", "Not a valid key type"))
    yield from (("Span", " @ 1:0-1:2"), ("Number", "-75"), ("ConversionRefused", "Value `300` is out of range for `u8`"))
    chain = "Circular extend detected for template 't'. Inheritance chain: `[\"a\\n\u00e9\"]`"
    not_found = "Io error while writing rendered value to output: NotFound"
    report = calls.report_text("bad", "a.html", "\t{{ y", [("\u00e9", "b.html", "z")])
    for text in (chain, not_found, report):
        yield from (("Error", text), ("ErrorKind", text))


class Writers(unittest.TestCase):
    """Writers that fail."""

    def test_writers_that_fail(self):
        """writers that fail at each byte, take one a write, are interrupted or take none"""
        out, err, status, _ = run(CALLER, "write\n" + "".join(f"set a {literal}\n" for literal in WRITTEN))
        same([err, str(status), *lines_of(out)], ["", "0", *(line for each in texts_written() for line in written(*each))])


# ---- scripts, by rows: a script, what it answers, and the status


def answered(lines, wanted, status=0):
    """The program gives these answers, and tests/second.py too."""
    script = "".join(f"{line}\n" for line in lines)
    out, err, ended, _ = run(REPLAY, script)
    same([str(ended), *lines_of(out)], [str(status), *wanted])
    model = second.replay(script.encode())
    same([out, err, str(ended)], [model[0].decode(), model[1].decode(), str(model[2])])


def nested(levels, inner, turns=("[", "{")):
    """A literal of so many levels, from the outermost on by turns of these brackets."""
    literal = inner
    for level in reversed(range(levels)):
        literal = f"[{literal}]" if turns[level % len(turns)] == "[" else f'{{"k": {literal}}}'
    return literal


# the types by their ends, with the kinds that a number of each has
ENDS = [
    ("u8", 0, 255, "u64"), ("u16", 0, 65535, "u64"), ("u32", 0, 4294967295, "u64"), ("u64", 0, 18446744073709551615, "u64"),
    ("usize", 0, 18446744073709551615, "u64"), ("u128", 0, 340282366920938463463374607431768211455, "u128"),
    ("i8", -128, 127, "i64"), ("i16", -32768, 32767, "i64"), ("i32", -2147483648, 2147483647, "i64"),
    ("i64", -9223372036854775808, 9223372036854775807, "i64"), ("isize", -9223372036854775808, 9223372036854775807, "i64"),
    ("i128", -170141183460469231731687303715884105728, 170141183460469231731687303715884105727, "i128")]
HELD = (-170141183460469231731687303715884105728, 340282366920938463463374607431768211455)


# the numbers of each kind of a value
KINDS = [("u64", 0, 2**64 - 1), ("i64", -2**63, 2**63 - 1), ("u128", 0, 2**128 - 1), ("i128", -2**127, 2**127 - 1)]


def in_each_kind(number):
    """The literals of the number: without a kind, and in each that holds it."""
    kinds = [kind for kind, low, high in KINDS if low <= number <= high]
    return [f"{number}{kind}" for kind in ["", *kinds]] if kinds else []


# literals of each kind, with how many parts there are, and the texts that are the keys of a map
BY_KIND = [*((literal, None, []) for literal in ("undefined", "none", "true", "7u64", "7i64", "7u128", "7i128")),
           *((literal, 2, []) for literal in ('"ab"', 's"ab"', 'x"6162"', '["a", {"b": 1}]')), ('{"b": 1, "a": 2}', 2, ["b", "a"])]


# Values of each rank, the ranks and the values of one rising; of maps alone the partial order says nothing.
RISING = [["false", "true"], ["-1i128", "0u64", "7u128"], ['""', '"a"', 's"b"'], ["[]", "[1]", "[1, 1]", "[2]"], ["{}", '{"a": 1}', '{"b": 0}'],
          ['x""', 'x"00"', 'x"01"'], ["none"], ["undefined"]]
APART = [("[1]", '["a"]', "less", "undecided"), ('["a"]', "[1, 2]", "greater", "undecided"), ("[{}]", "[{}]", "equal", "undecided"),
         ('[1, "a"]', "[2, 1]", "less", "less"), ("[none, {}]", "[none]", "greater", "greater")]


class Scripts(unittest.TestCase):
    """Scripts, by rows: a script, what it answers, and the status."""

    def test_deep_values(self):
        """values of 64 levels"""
        # 64 levels, by turns of arrays and maps, are set, copied, compared, shown, walked down and
        # let go; so are all others.
        for turns in (("[", "{"), ("{", "["), ("[",), ("{",)):
            one, other = nested(64, "1", turns), nested(64, "2", turns)
            down = ".".join("0" if turns[level % len(turns)] == "[" else "k" for level in range(64))
            lines = [f"set a {one}", f"set b {other}", "get a -> c", "eq a c", "cmp a c", "eq a b", "cmp a b", "cmp b a", "print a", "escape a",
                     "get c", f'path a "{down}"', f'path b "{down}"', f'path a "{down}.0"', "contains a c", "truthy a", "len a", "kind a", "remove a",
                     "has a", "remove b", "walk c", "fields c", "get c", "set c 1", "get c"]
            escaped = one.replace('"', "&quot;")
            is_map = turns[0] == "{"
            keys = '["k"]' if is_map else "[]"
            answered(lines, ["ok", "ok", "ok", "true", "equal", "false", "less", "greater", f"text {one}", f"text {escaped}", f"value {one}",
                                    "value 1", "value 2", "nothing", "false", "true", "size 1", "kind map/struct" if is_map else "kind array",
                                    f"value {one}", "false", f"value {other}", f"walk {keys}", f"fields {keys}", f"value {one}", "ok", "value 1"])

    def test_too_deep(self):
        """65 levels are a bad line"""
        # 65 levels are a bad line, wherever they stand; 64 are none.
        for turns in (("[", "{"), ("{", "["), ("[",), ("{",)):
            deep, inner = nested(65, "1", turns), nested(64, "1", turns)
            bad = [f"set a {deep}", f"set a [1, {inner}]", f'set a {{"a": 1, "b": {inner}}}', f'extend {{"a": {inner}}}', f"set a {nested(65, '1', turns)} -> b"]
            for line in bad:
                answered(["set b 1", line, "get b"], ["ok"], 2)
            answered([f"set a {inner}", f'set a [{nested(63, "1", turns)}]', f'extend {{"a": {nested(63, "1", turns)}}}', "kind a"],
                     ["ok", "ok", "ok", "kind map/struct" if turns[0] == "{" else "kind array"])
        # a container that is no key is bad at any depth
        for key in ("[1]", "{}", nested(64, "1"), nested(65, "1")):
            answered([f"set a {{{key}: 1}}"], [], 2)

    def test_ends_of_types(self):
        """the ends of the twelve integer types"""
        # Each type reads its least and its greatest number from each kind, in its own, and refuses
        # the next where a value holds it.
        lines, wanted = [], []
        for name, low, high, kind in ENDS:
            for number in (low, high):
                for literal in in_each_kind(number):
                    lines += [f"set a {literal}", f"read {name} a -> b", "get b", "kind b", f"read {name} a"]
                    wanted += ["ok", "ok", f"value {number}", f"kind {kind}", f"value {number}"]
            for number in (low - 1, high + 1, *HELD):
                for literal in in_each_kind(number) if not low <= number <= high else ():
                    lines += [f"set a {literal}", f"read {name} a", f"read {name} a -> b", "get b"]
                    wanted += ["ok", *[f"error: Value `{number}` is out of range for `{name}`"] * 2, f"value {high}"]
            for literal, held in (('"1"', "string"), ("none", "none"), ("[1]", "array"), ("true", "bool")):
                lines += [f"set a {literal}", f"read {name} a"]
                wanted += ["ok", f"error: Invalid type for the value, expected `{name}` but got `{held}`"]
        answered(lines, wanted)
        told = "error: Value `340282366920938463463374607431768211455` is out of range for `i128`"
        answered(["set a 340282366920938463463374607431768211455", "read i128 a"], ["ok", told])

    def test_rows_by_kind(self):
        """sizes, fields and walks of each kind"""
        # Fields and a walk are of maps alone; texts, bytes and arrays have a size too.
        lines, wanted = [], []
        for literal, size, keys in BY_KIND:
            lines += [f"set a {literal}", "len a", "fields a", "walk a"]
            wanted += ["ok", "nothing" if size is None else f"size {size}", f"fields {calls.listed(sorted(keys))}", f"walk {calls.listed(keys)}"]
        answered(lines, wanted)

    def test_orders_of_values(self):
        """the two orders of values of each rank"""
        # The two orders of each value and each other: the partial one is the total one, or says
        # nothing.
        all_values = [(rank, literal) for rank, literals in enumerate(RISING) for literal in literals]
        rows = list(APART)
        for at, (rank, one) in enumerate(all_values):
            for place, (other_rank, other) in enumerate(all_values):
                order = second.order(at, place)
                is_decided = rank == other_rank and not one.startswith("{")
                rows.append((one, other, order, order if is_decided else "undecided"))
        lines = [line for one, other, *_ in rows for line in (f"set a {one}", f"set b {other}", "cmp a b", "try_cmp a b")]
        answered(lines, [it for *_, total, partial in rows for it in ("ok", "ok", total, partial)])

    def test_lines_that_are_not_bad(self):
        """odd lines that are not bad"""
        answered(["set a 00018446744073709551615", "kind a", 'set a {1: "a", 1u64: "b"}', "print a"], ["ok", "kind u64", "ok", 'text {1: "b"}'])
        for literal in ("1", '"a"', "[]", "none"):
            answered([f"set a {literal}", "slice a _ _ 0"], ["ok", "error: Slicing step cannot be 0"])
        no_slice = "error: Slicing can only be used on arrays or strings, not on `undefined`."
        answered(["slice a _ _ 0", "slice a -170141183460469231731687303715884105728 _ _"], ["error: Slicing step cannot be 0", no_slice])
        for script, wanted in (("eq a b", "true\n"), ("eq a b\r\n", "true\n"), ("eq a b\r\nhas a", "true\nfalse\n")):
            out, err, status, _ = run(REPLAY, script)
            same([out, err, str(status)], [wanted, "", "0"])

    def test_cut_anywhere(self):
        """the worked script cut at every byte"""
        # Cut at any byte, the worked script answers each line that is left, and the last as far as
        # it is one; or reports it.
        with open(f"{TOP}/examples/worked.replay", encoding="utf-8") as it:
            script = it.read()
        if not script.isascii():
            raise Failed("a character of the script may be cut")
        for at in range(len(script) + 1):
            out, err, status, _ = run(REPLAY, script[:at])
            wanted = second.replay(script[:at].encode())
            if (out.encode(), err.encode(), status) != wanted or status not in (0, 2):
                raise Failed(f"cut at byte {at}: status {status} and {out!r} in the place of {wanted[2]} and {wanted[0]!r}")


if __name__ == "__main__":
    unittest.main()
