#!/usr/bin/env python3
"""cases.py [check]: the files that the program krl_cases runs the program on, their names, and the text that has to be written of them, by
tools/plain.py. Writes them into crates/krl_cases; with `check`, says whether what is there is the same.
"""

import os
import sys

sys.dont_write_bytecode = True
from plain import file_of, pieces, text_of

HOME = os.path.join(os.path.dirname(os.path.dirname(os.path.abspath(__file__))), "crates", "krl_cases")
DIGITS = bytes(range(1, 10))
NONE = (0, 0)


def at(digit):
    """A key of one byte in the pool 01 02 .. 09."""
    return (digit - 1, 1)


def two(code, a, b):
    return (code, 0, at(a), at(b))


def key(a):
    return (0, 0, at(a), NONE)


def longest():
    """Two keys of 255 bytes: the longest line."""
    pool = bytes([1]) * 255 + bytes([2]) * 255
    return file_of(pool, [(9, 0, (0, 255), (255, 255))], [])


def keyless():
    """RangeTo - and [01,09] of ours; (05,05 00), (09,09 00) and RangeFrom 09 00 of theirs."""
    pool = bytes((1, 5, 0, 9, 0))
    ours = [(5, 0, NONE, (0, 0)), (2, 0, (0, 1), (3, 1))]
    theirs = [(8, 0, (1, 1), (1, 2)), (8, 0, (3, 1), (3, 2)), (4, 0, (3, 2), NONE)]
    return file_of(pool, ours, theirs)


CASES = (
    # 01 m7.3: the document's own input; P7 and P8
    ("document", file_of(bytes((1, 5, 3)), [(1, 0, (0, 1), (1, 1))], [(0, 0, (2, 1), NONE)])),
    ("P7", file_of(DIGITS, [two(2, 1, 3), two(2, 7, 9)], [two(2, 2, 8)])),
    ("P8", file_of(DIGITS, [], [key(4)])),
    # every kind of item, wrapped ones and the empty key among them
    ("kinds", file_of(DIGITS, [(5, 1, NONE, (0, 0)), key(1), two(1, 2, 3), (8, 2, at(4), at(6)), (9, 0, at(6), at(7)), (7, 3, at(8), NONE)], [(6, 0, NONE, at(2)), two(2, 5, 9)])),
    # 02 §2.4: P6's two items as lists; and of each kind of range that holds no key, one by itself and one that cuts
    ("P6", file_of(DIGITS, [(3, 0, NONE, NONE)], [(4, 0, (0, 0), NONE)])),
    ("keyless", keyless()),
    ("longest", longest()),
    # refused: an unknown code; a key past the pool; an item that is not upright; items that touch; 2,049 pieces; a byte too many
    ("refused_1", file_of(DIGITS, [key(1), two(10, 2, 3)], [])),
    ("refused_2", file_of(DIGITS, [], [key(1), (0, 0, (9, 1), NONE)])),
    ("refused_3", file_of(DIGITS, [two(1, 5, 5)], [two(10, 2, 3)])),
    ("refused_4", file_of(DIGITS, [key(9)], [two(2, 1, 5), two(2, 5, 9)])),
    ("refused_6", pieces(2048)),
    ("refused_10", file_of(DIGITS, [key(1)], [key(2)]) + b"\n"),
)


def all_files():
    """What stands in crates/krl_cases, by path."""
    yield "args", "".join(f"{name}\n" for name, _ in CASES).encode()
    yield "stdout", "".join(f"{name}\n{text_of(file)}" for name, file in CASES).encode()
    for name, file in CASES:
        yield os.path.join("data", name), file


def same(path, content):
    try:
        with open(os.path.join(HOME, path), "rb") as file:
            return file.read() == content
    except FileNotFoundError:
        return False


def main():
    if sys.argv[1:] == ["check"]:
        others = [path for path, content in all_files() if not same(path, content)]
        sys.exit(f"cases: not as tools/plain.py has them: {', '.join(others)}" if others else 0)
    os.makedirs(os.path.join(HOME, "data"), exist_ok=True)
    for path, content in all_files():
        with open(os.path.join(HOME, path), "wb") as out:
            out.write(content)


if __name__ == "__main__":
    main()
