#!/usr/bin/env python3
"""Keeps one description of the interface, include/tera.h: writes what the modules for Python and Rust declare from it, and looks
whether the exports of the crate are those of the header.

    bindings/interface.py            tells what is not as the header says; the status is 0 where all is
    bindings/interface.py --write    writes bindings/python/tera/_interface.py and bindings/rust/src/interface.rs anew
"""
import glob
import os
import re
import sys
from typing import Dict, Iterator, List, NamedTuple, Tuple

TOP = os.path.dirname(os.path.dirname(os.path.abspath(__file__)))
HEADER = "include/tera.h"
CRATE = "crates/tera_c/src"
STATUSES = f"{CRATE}/status.rt"
# what the header names that is no status
NO_STATUS = ("TERA_VERSION", "TERA_STACK")
WRITTEN = "What include/tera.h declares. `bindings/interface.py --write` writes this file."


class Kind(NamedTuple):
    """A type of C as the other two languages spell it."""

    python: str
    rust: str


ANSWERS = {"uint8_t": Kind("ctypes.c_uint8", "u8"), "uint32_t": Kind("ctypes.c_uint32", "u32"), "void": Kind("None", "()")}
KINDS = {
    "tera_session **": Kind("SESSION", "*mut *mut Held"),
    "const uint8_t *": Kind("ctypes.c_char_p", "*const u8"),
    "const uint8_t [16]": Kind("ctypes.c_char_p", "*const u8"),
    "uint8_t *": Kind("ctypes.c_void_p", "*mut u8"),
    "uint8_t": Kind("ctypes.c_uint8", "u8"),
    "size_t": Kind("ctypes.c_size_t", "usize"),
    "size_t *": Kind("LENGTH", "*mut usize"),
}
# what a parameter of the crate's exports is in C
IN_CRATE: Dict[str, List[str]] = {
    "Global": [],
    "&mut Session": ["tera_session **"],
    "&[u8]": ["const uint8_t *", "size_t"],
    "&[u8; 16]": ["const uint8_t [16]"],
    "&mut [u8]": ["uint8_t *", "size_t"],
    "&mut usize": ["size_t *"],
    "u8": ["uint8_t"],
}
ANSWERS_IN_CRATE = {"u8": "uint8_t", "u32": "uint32_t", "": "void"}


class Function(NamedTuple):
    """A function: what it answers, and the types and names of what it takes."""

    answers: str
    takes: List[Tuple[str, str]]

    @property
    def types(self) -> List[str]:
        """What it answers, and the types of what it takes."""
        return [self.answers, *(kind for kind, _ in self.takes)]


class Interface(NamedTuple):
    """What a header declares: the numbers behind its names, and its functions."""

    numbers: Dict[str, int]
    functions: Dict[str, Function]


def read(path: str) -> str:
    """The text of a file of the repository."""
    with open(f"{TOP}/{path}", encoding="utf-8") as file:
        return file.read()


def parameter(text: str) -> Tuple[str, str]:
    """The type and the name of a parameter in C."""
    found = re.fullmatch(r"\s*(.*?)\s*(\**)(\w+)(\[\d+\])?\s*", text, re.DOTALL)
    if found is None:
        raise ValueError(f"{HEADER}: no parameter is written as `{text}`")
    kind, stars, name, array = found.groups(default="")
    return " ".join(filter(None, (kind, stars, array))), name


def parsed(header: str) -> Interface:
    """What the text of a header declares."""
    text = re.sub(r"/\*.*?\*/", "", header, flags=re.DOTALL)
    numbers = {name: int(number) for name, number in re.findall(r"\b(TERA_\w+) =? ?(\d+)", text)}
    functions = {}
    for answers, name, takes in re.findall(r"(?m)^(\w+) (tera_\w+)\(([^)]*)\);", text):
        parts = [] if takes == "void" else takes.split(",")
        functions[name] = Function(answers, [parameter(part) for part in parts])
    return Interface(numbers, functions)


def in_python(interface: Interface) -> str:
    """The module for Python that declares the same."""
    lines = [f'"""{WRITTEN}"""', "import ctypes", "from typing import Any, Dict, List, Tuple", ""]
    lines += [f"{name[len('TERA_'):]} = {number}" for name, number in interface.numbers.items()]
    lines += ["", "SESSION = ctypes.POINTER(ctypes.c_void_p)", "LENGTH = ctypes.POINTER(ctypes.c_size_t)", ""]
    lines += ["# of each function what it answers, and what it takes", "FUNCTIONS: Dict[str, Tuple[Any, List[Any]]] = {"]
    for name, function in interface.functions.items():
        takes = ", ".join(KINDS[kind].python for kind, _ in function.takes)
        lines.append(f'    "{name}": ({ANSWERS[function.answers].python}, [{takes}]),')
    return "\n".join([*lines, "}", ""])


def rust_function(name: str, function: Function) -> str:
    """A declaration in Rust, as rustfmt lays it out."""
    takes = [f"{name}: {KINDS[kind].rust}" for kind, name in function.takes]
    answers = "" if function.answers == "void" else f" -> {ANSWERS[function.answers].rust}"
    line = f"    pub(crate) fn {name}({', '.join(takes)}){answers};"
    if len(line) <= 100:
        return line
    return "\n".join([f"    pub(crate) fn {name}(", *(f"        {it}," for it in takes), f"    ){answers};"])


def in_rust(interface: Interface) -> str:
    """The module for Rust that declares the same."""
    lines = [f"//! {WRITTEN}", "#![allow(dead_code)] // not all of it is called", ""]
    lines += ["/// A session of the library.", "#[repr(C)]", "#[derive(Debug)]", "pub(crate) struct Held {", "    _private: [u8; 0],", "}", ""]
    for name, number in interface.numbers.items():
        kind = "u32" if name in NO_STATUS else "u8"
        lines.append(f"pub(crate) const {name[len('TERA_'):]}: {kind} = {number};")
    functions = [rust_function(name, function) for name, function in interface.functions.items()]
    return "\n".join([*lines, "", 'extern "C" {', *functions, "}", ""])


WRITES = {"bindings/python/tera/_interface.py": in_python, "bindings/rust/src/interface.rs": in_rust}


def exported(source: str) -> Dict[str, List[str]]:
    """The exports of a source of the crate, by the types of C of what they answer and take."""
    types: Dict[str, List[str]] = {}
    for name, takes, answers in re.findall(r'no_mangle\)\]\s*pub extern "C" fn (\w+)\(([^)]*)\)(?: -> (\w+))?', source):
        kinds = [kind.strip() for kind in re.findall(r"\w+:([^,]+)", takes)]
        types[name] = [ANSWERS_IN_CRATE.get(answers, answers), *(it for kind in kinds for it in IN_CRATE.get(kind, [kind]))]
    return types


def apart(interface: Interface, exports: Dict[str, List[str]]) -> Iterator[str]:
    """Where the exports of the crate are not as the header declares them."""
    for name in sorted({*interface.functions} | {*exports}):
        if name not in exports:
            yield f"{CRATE}: it exports no `{name}`, which {HEADER} declares"
        elif name not in interface.functions:
            yield f"{CRATE}: it exports `{name}`, which {HEADER} does not declare"
        elif interface.functions[name].types != exports[name]:
            yield f"{CRATE}: `{name}` is of {exports[name]}, and by {HEADER} of {interface.functions[name].types}"


def statuses_apart(interface: Interface, source: str) -> Iterator[str]:
    """Where the crate has another number for a status than the header."""
    declared = {name[len("TERA_"):]: number for name, number in interface.numbers.items() if name not in NO_STATUS}
    held = {name: int(number) for name, number in re.findall(r"const (\w+): u8 = (\d+);", source)}
    for name in sorted({*declared} | {*held}):
        if declared.get(name) != held.get(name):
            yield f"{STATUSES}: `{name}` is {held.get(name)}, and by {HEADER} {declared.get(name)}"


def faults() -> Iterator[str]:
    """What is not as the header says."""
    interface = parsed(read(HEADER))
    for path, made in WRITES.items():
        if not os.path.exists(f"{TOP}/{path}") or read(path) != made(interface):
            yield f"{path}: it is not what {HEADER} declares: `bindings/interface.py --write` writes it anew"
    exports: Dict[str, List[str]] = {}
    for path in sorted(glob.glob(f"{TOP}/{CRATE}/**/*.rt", recursive=True)):
        exports.update(exported(read(os.path.relpath(path, TOP))))
    yield from apart(interface, exports)
    yield from statuses_apart(interface, read(STATUSES))


def main() -> int:
    """Does what the command line asks."""
    if sys.argv[1:] == ["--write"]:
        for path, made in WRITES.items():
            with open(f"{TOP}/{path}", "w", encoding="utf-8") as file:
                file.write(made(parsed(read(HEADER))))
        return 0
    if sys.argv[1:]:
        print("interface.py: it takes the one argument --write, or none", file=sys.stderr)
        return 2
    found = list(faults())
    print("".join(f"interface: {it}\n" for it in found), end="")
    return 1 if found else 0


if __name__ == "__main__":
    sys.exit(main())
