"""Keys and names that collide where the hashes go by std's fixed seed cost no more than others.

For each way in which a script makes many keys, the instructions that a program takes on keys made to collide are at most
twice those on as many random ones. tests/test_fuzz.py asks this of the program, tests/test_border.py of a session
(tests/flood.c).
"""
import random
import re
import subprocess
import tempfile

COUNT = 20000
LIMIT = 120  # seconds under valgrind; random keys take some ten
SEED, MULTIPLIER = 0x243F_6A88_85A3_08D3, 0x9E37_79B9_7F4A_7C15  # of std's FoldHasher
WORD = 2**64 - 1
LETTERS = "abcdefghijklmnopqrstuvwxyzABCDEFGHIJKLMNOPQRSTUVWXYZ"
OF_NAMES = frozenset(f"{LETTERS}0123456789_".encode())


def folded(left, right):
    """Both halves of a product of 128 bits as one word."""
    product = left * right
    return (product & WORD) ^ (product >> 64)


def head(draw):
    """24 characters of a name behind which a text of 32 hashes to the same word, whatever its last eight are."""
    while True:
        first = "".join(draw.choices(LETTERS, k=16)).encode()
        low, high = (int.from_bytes(first[at : at + 8], "little") for at in (0, 8))
        # the state behind 16 bytes; where the next word is equal to it, the last product is 0
        state = folded(low ^ (SEED + 32) & WORD, high ^ MULTIPLIER).to_bytes(8, "little")
        if OF_NAMES.issuperset(state):
            return (first + state).decode()


def colliding_texts(draw):
    start = head(draw)
    return [start + tail for tail in distinct(draw, 8)]


def distinct(draw, length):
    """So many distinct words of that many letters."""
    found = {}
    while len(found) < COUNT:
        found["".join(draw.choices(LETTERS, k=length))] = True
    return list(found)


def colliding_integers(draw):
    """Integers of one low word: a product by it is 0, whatever the high word is."""
    low = (folded(SEED, MULTIPLIER ^ 2) + 16) & WORD
    return [(high << 64) | low for high in draw.sample(range(1, 2**63), COUNT)]


def keys(draw, collide):
    """Texts that are names too, and integers."""
    if collide:
        return colliding_texts(draw), colliding_integers(draw)
    return distinct(draw, 32), [draw.randrange(2**64, 2**127) for _ in range(COUNT)]


def scripts(texts, integers):
    """A script for each way in which keys or names are made, looked up and copied."""
    pairs = ", ".join(f'"{text}": 1' for text in texts)
    numbers = ", ".join(f"{number}: 1" for number in integers)
    return {
        "texts as keys": f"set m {{{pairs}}}\n",
        "integers as keys": f"set m {{{numbers}}}\n",
        "names": "".join(f"set {text} 1\n" for text in texts),
        "an extend": f"extend {{{pairs}}}\n",
        "copies of a map": f"set m {{{pairs}}}\nget m -> n\nget n -> o\neq m o\n",
    }


def instructions(program, script):
    """How many a program takes on a script, by callgrind; `None` where it does not end in time or ends badly."""
    words = ["valgrind", "--tool=callgrind", "--callgrind-out-file=/dev/null", program]
    with tempfile.TemporaryFile() as source:
        source.write(script.encode())
        source.seek(0)
        try:
            done = subprocess.run(words, stdin=source, stdout=subprocess.DEVNULL, stderr=subprocess.PIPE, timeout=LIMIT, check=True)
        except (subprocess.TimeoutExpired, subprocess.CalledProcessError):
            return None
    return int(re.search(rb"Collected : (\d+)", done.stderr)[1])


def rows(program, of):
    """For each way whether the program holds it, and what it took."""
    draw = random.Random(1)
    colliding, others = scripts(*keys(draw, True)), scripts(*keys(draw, False))
    for way, script in colliding.items():
        taken, bound = instructions(program, script), instructions(program, others[way])
        holds = taken is not None and bound is not None and taken <= 2 * bound
        yield holds, f"{way} that collide, in {of}: {taken} instructions, {bound} at random"
