#!/usr/bin/env python3
"""Writes the journals that the program fullheader_cases reads and what it must write under the gate, from the model.
With --check it writes nothing and says whether the files are those.

A case is a name, the heights that its author saw go in, and the input. Where the model writes something else, or where no case notices one
of the misreadings below, nothing is written."""
import re
import sys
from unittest.mock import patch

import fullheader
from filed import CRATES, file

PROGRAM = CRATES / "fullheader"
KEY = bytes(range(0, 256, 8)).hex().encode()
LINES = b"0\t1111222233334444\t1\t2500\tab\n\n\0\xff\r\n" + b"x" * 2100 + b"\nkes\t" + KEY + b"\n"


def headers():
    """Any two-field header is written out in full as 6 and 6."""
    for word in b"kes", b"kes2":
        name, short = word.decode(), word + b"\t" + KEY
        yield f"{name}-short", "6 6", short + b"\n" + LINES
        yield f"{name}-short-alone", "6 6", short + b"\n"
        yield f"{name}-full", None, word + b"\t6\t6\t" + KEY + b"\n" + LINES
        yield f"{name}-full-8-4", None, word + b"\t8\t4\t" + KEY + b"\n" + LINES
        yield f"{name}-unended", None, short
        yield f"{name}-crlf", None, short + b"\r\n" + LINES
        yield f"{name}-extra-tab", None, short + b"\t\n" + LINES
        yield f"{name}-key-63-digits", None, short[:-1] + b"\n" + LINES
        yield f"{name}-key-65-digits", None, short + b"0\n" + LINES
        yield f"{name}-key-upper", None, short.upper().replace(word.upper(), word) + b"\n" + LINES
    for name, word in ("upper", b"KES"), ("upper-2", b"KES2"), ("1", b"kes1"), ("22", b"kes22"), ("short", b"ke"), ("none", b""):
        yield f"word-{name}", None, word + b"\t" + KEY + b"\n" + LINES


def all_else():
    """All else as found."""
    yield "no-input", None, b""
    yield "lf-alone", None, b"\n"
    yield "header-on-line-2", None, b"\nkes\t" + KEY + b"\n"
    yield "no-header", None, LINES
    yield "unended-last-line", "6 6", b"kes2\t" + KEY + b"\n" + LINES + b"unended"
    yield "binary-tail", "6 6", b"kes\t" + KEY + b"\n" + bytes(range(256)) * 10
    for size in 2047, 2048, 2049, 5000:
        yield f"line-1-of-{size}-bytes", None, b"kes\t" + KEY.ljust(size - 5, b"0") + b"\n" + LINES
    for size in 2047, 2048, 2049, 4096:
        yield f"input-of-{size}-bytes", "6 6", (b"kes2\t" + KEY + b"\n").ljust(size, b"x")
        yield f"no-lf-in-{size}-bytes", None, (b"kes2\t" + KEY).ljust(size, b"x")


CASES = [*headers(), *all_else()]


def misread(old, new):
    """The model with one text of what it writes replaced."""
    right = fullheader.in_full
    return patch.object(fullheader, "in_full", lambda data: data if right(data) == data else right(data).replace(old, new, 1))


def shorts(also):
    """The model that takes other lines for a header too, or fewer."""
    right = fullheader.is_short
    return patch.object(fullheader, "is_short", lambda line: also(line, right(line)))


MISREADINGS = {
    "8 and 4 are written": misread(b"\t6\t6\t", b"\t8\t4\t"),
    "the place is before the tab": misread(b"\t6\t6\t", b"6\t6\t\t"),
    "kes2 is left out": shorts(lambda line, is_short: is_short and not line.startswith(b"kes2")),
    "kes is left out": shorts(lambda line, is_short: is_short and line.startswith(b"kes2")),
    "a bad key is a header too": shorts(lambda line, is_short: re.fullmatch(rb"kes2?\t[^\t]*", line) is not None),
    "a full header is written anew": shorts(lambda line, is_short: is_short or re.fullmatch(rb"kes2?\t8\t4\t.*", line) is not None),
    "any word is a header": shorts(lambda line, is_short: is_short or re.fullmatch(rb"[^\t]*\t[0-9a-f]{64}", line) is not None),
    "an unended header counts": patch.object(fullheader, "in_full", lambda data, right=fullheader.in_full: right(data + b"\n")[:-1]),
    "a last LF is added": patch.object(fullheader, "in_full", lambda data, right=fullheader.in_full: re.sub(rb"(?<=[^\n])\Z", b"\n", right(data))),
    "NULs are dropped": patch.object(fullheader, "in_full", lambda data, right=fullheader.in_full: right(data).replace(b"\0", b"")),
    "over-long lines are cut": patch.object(fullheader, "in_full", lambda data, right=fullheader.in_full: re.sub(rb"([^\n]{2047})[^\n]+", rb"\1", right(data))),
}


def as_read(data, heights):
    """The input with the heights that its author saw go in behind the first tab."""
    return data if heights is None else data.replace(b"\t", b"\t%s\t" % heights.replace(" ", "\t").encode(), 1)


def sound():
    """Each case has a name of its own and is written as its author read it, and each misreading is noticed."""
    for name, heights, data in CASES:
        if fullheader.in_full(data) != as_read(data, heights):
            sys.exit(f"fullheader cases: {name} is written otherwise by the model")
    assert len({name for name, _, _ in CASES}) == len(CASES)
    assert (PROGRAM / "stdout").read_bytes() == fullheader.in_full((PROGRAM / "stdin").read_bytes())
    for words, misreading in MISREADINGS.items():
        with misreading:
            if all(fullheader.in_full(data) == as_read(data, heights) for _, heights, data in CASES):
                sys.exit(f"fullheader cases: none notices this misreading: {words}")


sound()
file("fullheader_cases", CASES, fullheader.in_full, f"fullheader cases: {len(CASES)} journals are written out as by the model; {len(MISREADINGS)} planted misreadings are noticed")
