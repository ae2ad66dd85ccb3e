"""What include/tera.h declares. `bindings/interface.py --write` writes this file."""
import ctypes
from typing import Any, Dict, List, Tuple

VERSION = 512
STACK = 98304
DONE = 0
WANTED = 1
BAD = 2
SMALL = 3
NO_MEMORY = 4
NO_REPLY = 5
CLOSED = 6
OPEN = 7
MISSING = 8
REFUSED = 9

SESSION = ctypes.POINTER(ctypes.c_void_p)
LENGTH = ctypes.POINTER(ctypes.c_size_t)

# of each function what it answers, and what it takes
FUNCTIONS: Dict[str, Tuple[Any, List[Any]]] = {
    "tera_version": (ctypes.c_uint32, []),
    "tera_open": (ctypes.c_uint8, [SESSION]),
    "tera_open_seeded": (ctypes.c_uint8, [SESSION, ctypes.c_char_p]),
    "tera_line": (ctypes.c_uint8, [SESSION, ctypes.c_char_p, ctypes.c_size_t, LENGTH]),
    "tera_reply": (ctypes.c_uint8, [SESSION, ctypes.c_void_p, ctypes.c_size_t, LENGTH]),
    "tera_close": (None, [SESSION]),
    "tera_set": (ctypes.c_uint8, [SESSION, ctypes.c_char_p, ctypes.c_size_t, ctypes.c_char_p, ctypes.c_size_t]),
    "tera_set_text": (ctypes.c_uint8, [SESSION, ctypes.c_char_p, ctypes.c_size_t, ctypes.c_char_p, ctypes.c_size_t, ctypes.c_uint8]),
    "tera_set_json": (ctypes.c_uint8, [SESSION, ctypes.c_char_p, ctypes.c_size_t, ctypes.c_char_p, ctypes.c_size_t]),
    "tera_get": (ctypes.c_uint8, [SESSION, ctypes.c_char_p, ctypes.c_size_t, ctypes.c_void_p, ctypes.c_size_t, LENGTH]),
    "tera_get_json": (ctypes.c_uint8, [SESSION, ctypes.c_char_p, ctypes.c_size_t, ctypes.c_void_p, ctypes.c_size_t, LENGTH]),
    "tera_has": (ctypes.c_uint8, [SESSION, ctypes.c_char_p, ctypes.c_size_t]),
    "tera_remove": (ctypes.c_uint8, [SESSION, ctypes.c_char_p, ctypes.c_size_t]),
    "tera_names": (ctypes.c_uint8, [SESSION, ctypes.c_void_p, ctypes.c_size_t, LENGTH]),
    "tera_save": (ctypes.c_uint8, [SESSION, ctypes.c_void_p, ctypes.c_size_t, LENGTH]),
    "tera_replay": (ctypes.c_uint8, [ctypes.c_char_p, ctypes.c_size_t, ctypes.c_void_p, ctypes.c_size_t, LENGTH, ctypes.c_void_p, ctypes.c_size_t, LENGTH]),
    "tera_replay_seeded": (ctypes.c_uint8, [ctypes.c_char_p, ctypes.c_size_t, ctypes.c_char_p, ctypes.c_void_p, ctypes.c_size_t, LENGTH, ctypes.c_void_p, ctypes.c_size_t, LENGTH]),
    "tera_escape": (ctypes.c_uint8, [ctypes.c_char_p, ctypes.c_size_t, ctypes.c_void_p, ctypes.c_size_t, LENGTH]),
}
