"""Counts of what holds, and the rows of the tables that all bindings are tested with."""
import os
import sys

_TABLES = os.path.join(os.path.dirname(os.path.abspath(__file__)), "..", "..")
_passed = _failed = 0


def check(holds, what):
    global _passed, _failed
    if holds:
        _passed += 1
    else:
        _failed += 1
        print("Python:", what)


def end():
    """Prints the counts, and ends the program."""
    print(f"Python: {_passed} passed, {_failed} failed")
    sys.exit(_failed != 0)


def unescaped(data):
    made, at = bytearray(), 0
    while at < len(data):
        if data[at] != 0x5C:
            made.append(data[at])
        elif data[at + 1 : at + 2] == b"x":
            made.append(int(data[at + 2 : at + 4], 16))
            at += 3
        else:
            made += {b"n": b"\n", b"t": b"\t", b"r": b"\r", b"\\": b"\\"}[data[at + 1 : at + 2]]
            at += 1
        at += 1
    return bytes(made)


def rows_of(name):
    """The fields of each row of a table."""
    with open(os.path.join(_TABLES, name), "rb") as file:
        return [[unescaped(field) for field in row.rstrip(b"\n").split(b"\t")] for row in file if not row.startswith(b"#")]
