#!/usr/bin/env python3
"""Every line of the language with operands of 0, 1 and 1,000 parts and ample memory.

`python3 tests/ample.py PROGRAM`: the program answers as tests/second.py does, and no answer is want of memory. The same
lines go through `run` in tests/test_hostile.py.
"""
import subprocess
import sys

import second

COUNTS = (0, 1, 1000)
TYPES = "u8 u16 u32 u64 u128 usize i8 i16 i32 i64 i128 isize".split()


def literals(count):
    """A literal of each kind that has parts, and a number of that many digits at most 38."""
    items = [f'[{i}, "t{i}"]' for i in range(count)]
    pairs = [f'"k{i:04}": {i}' for i in range(count)]
    text = "".join("aé<"[i % 3] for i in range(count))
    return {
        "text": f'"{text}"',
        "safe": f's"{text}"',
        "bytes": f'x"{"7f" * count}"',
        "array": f"[{', '.join(items)}]",
        "map": f"{{{', '.join(pairs)}}}",
        "number": "9" * min(max(count, 1), 38),
    }


def calls(*forms):
    """The words of the calls whose operands are of one of these forms."""
    return [word for word, (form, _) in second.CALLS.items() if form in forms]


# of one name, which they leave as it is; of two
OF_ONE = [word for word in calls("v", "v>", "Cn", "Cn>") if word not in ("remove", "mark_safe")]
OF_TWO = calls("vv", "vv>")


def asked(name, others, numbers):
    """Each line of a name, and each of two with the others; what is found with a number, or the name itself, is kept too."""
    yield from (f"{verb} {name}" for verb in OF_ONE)
    yield from (f"{verb} {name} -> kept" for verb in calls("v>", "Cn>"))
    yield from (f"read {kind} {name}{into}" for kind in TYPES for into in ("", " -> kept"))
    yield from (f"slice {name} {bounds}{into}" for bounds in ("_ _ _", "_ _ -1", "1 -1 2") for into in ("", " -> kept"))
    for text in ("", "k0999", "999.1", "0", "t0"):
        yield from (f'{verb} {name} "{text}"{into}' for verb in ("path", "attr") for into in ("", " -> kept"))
    for other in others:
        for verb in OF_TWO:
            yield f"{verb} {name} {other}"
    for other in (name, *numbers):
        yield from (f"{verb} {name} {other} -> kept" for verb in calls("vv>"))


def last_parts(count):
    """Lines that heed the last of so many parts: what is looked for stands there alone, and another value differs there."""
    held = literals(count)
    places = {"array": f'[{count - 1}, "t{count - 1}"]', "map": f'"k{count - 1:04}"', "ended": '"!"'}
    yield f'set ended {held["text"][:-1]}!"'
    for name, place in places.items():
        of = name if name == "ended" else f"{name}{count}"
        yield from (f"set last {place}", f"contains {of} last", f"set last {len(held['text']) - 2 if name == 'ended' else count - 1}")
        yield from (f"item {of} last", f'path {of} "{count - 1}"', f"slice {of} -1 _ _", f'attr {of} "k{count - 1:04}"')
    others = {"text": f'{held["text"][:-2]}!"', "bytes": f'{held["bytes"][:-3]}7e"', "array": held["array"][:-3] + '!"]]', "map": held["map"][:-1] + "1}"}
    for name, other in others.items():
        yield f"set last {other}"
        yield from (f"{verb} {pair}" for verb in ("eq", "cmp", "try_cmp") for pair in (f"{name}{count} last", f"last {name}{count}"))


def script():
    names = {f"{kind}{count}": literal for count in COUNTS for kind, literal in literals(count).items()}
    yield from (f"set {name} {literal}" for name, literal in names.items())
    numbers = [name for name in names if name.startswith("number")]
    for name in names:
        for line in asked(name, names, numbers):
            yield line
            if line.endswith(" -> kept"):
                yield from ("kind kept", "len kept", "is_safe kept")
        yield from (f"mark_safe {name}", f"is_safe {name}")
    for count in COUNTS[1:]:
        yield from last_parts(count)
    for count in COUNTS:
        yield f"extend {literals(count)['map']}"
        yield from (f"remove k{max(count - 1, 0):04}", f"has k{max(count - 1, 0):04}")


def main():
    lines = [*script()]
    given = "".join(f"{line}\n" for line in lines).encode()
    ran = subprocess.run([sys.argv[1]], input=given, capture_output=True)
    wanted = second.replay(given)
    if (ran.stdout, ran.stderr, ran.returncode) != wanted or wanted[2] != 0 or b"error: Out of memory\n" in ran.stdout:
        sys.exit("the answers differ, or a line is bad, or memory was wanted")
    print(f"ample: end, {len(lines)} lines")


if __name__ == "__main__":
    main()
