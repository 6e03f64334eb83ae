#!/usr/bin/env python3
"""Hostile journals, judged by build/journal, salvaged by build/salvage, and both by the independent models, byte for byte. They reach the programs in
pieces. Both sides ask libsodium for Ed25519, so what is compared are these programs. Needs desk/build before.
    hostile_journals.py [--seed S] [--seconds N] [--case N] [--planted]"""
import collections
import contextlib
import functools
import pathlib
import random
import re
import signal
import subprocess
import sys
import tempfile

HOST = pathlib.Path(__file__).resolve().parents[1]
sys.dont_write_bytecode = True
sys.path[:0] = [str(HOST / "test"), str(HOST / "model")]
import corpus
import kes
import salvage
from journal import LONGEST_LINE, Judge, message
from journals import HEIGHTS, WORDS, Day
from journals import drawn as damaged
from misread import MISREADINGS
from mutate import spoiled
from rounds import Different, NoAnswer, main

BUILD = HOST.parent / "build"
TIME_LIMIT = 20
DAYS = [Day(random.Random(h1), h1, h2, 6, word, corpus.SCHEME) for h1, h2 in [*HEIGHTS, (6, 6), (8, 4)] for word in WORDS]
NUMERALS = [b"", b"0", b"00", b"01", b"1", b"2", b"-1", b"+1", b" 1", b"1e3", b"12", b"13", b"2000000", b"2000001", b"4294967295", b"4294967296",
            b"18446744073709551615", b"18446744073709551616", b"9" * 30]
# drawn too seldom to be noticed here; host/model/journal_cases.py has a journal for each
SELDOM = ["step up to T", "step up to T - 2", "what follows 2048 bytes is a line", "fields after the fifth are ignored", "fields of line 1 after the fourth are ignored",
          "tabs around and beside each other are one", "blanks part fields", "KES is kes"]
BYTES = [b"\t", b"\n", b"\r", b"\r\n", b"\0", b" ", b"\xff", b"\t\t", b"\n\n"]


def chosen(draw):
    """A journal of one line, at any heights, under a key that was chosen to fit the line's signature."""
    word, h1, h2 = draw.choice(WORDS), draw.randrange(kes.TALLEST + 1), draw.randrange(kes.TALLEST + 1)
    step, card, amount = draw.randrange(kes.steps(h1, h2)), b"%016d" % draw.randrange(10**16), b"%d" % draw.randrange(1, 2_000_001)
    signature, key = corpus.chosen(draw, (h1, h2), step, message(word, card, b"1", amount))
    head = b"%s\t%d\t%d\t%s\n" % (word, h1, h2, key.hex().encode())
    return head + b"%d\t%s\t1\t%s\t%s\n" % (step, card, amount, signature.hex().encode())


def inserted(draw, data, other):
    at = draw.randrange(len(data) + 1)
    run = b"x" * draw.choice([1, 100, LONGEST_LINE - 1, LONGEST_LINE, 2 * LONGEST_LINE, 9000])
    return data[:at] + draw.choice([run, draw.choice(BYTES), draw.choice(BYTES), draw.choice(BYTES)]) + data[at:]


def numeral_set(draw, data, other):
    """A field that is a numeral, written otherwise."""
    found = [match.span() for match in re.finditer(rb"(?<=\t)[0-9]+(?=\t)|(?<=\n)[0-9]+(?=\t)", data)]
    if not found:
        return data
    first, end = draw.choice(found)
    return data[:first] + draw.choice(NUMERALS) + data[end:]


def range_moved(draw, data, other):
    """A stretch of bytes taken out, or doubled."""
    first, end = sorted(draw.randrange(len(data) + 1) for _ in range(2))
    return data[:first] + draw.choice([b"", data[first:end] * 2]) + data[end:]


def long(draw, data):
    """A journal of thousands of lines."""
    head, _, rest = data.partition(b"\n")
    return head + b"\n" + (rest or b"\n") * draw.randrange(100, 1000)


def hostile(draw):
    data = chosen(draw) if draw.random() < 0.3 else damaged(draw, DAYS)
    for _ in range(draw.choice([0, 0, 1, 1, 2, 3])):
        way = draw.choice([spoiled, inserted, numeral_set, numeral_set, range_moved])
        data = way(draw, data, lambda: damaged(draw, DAYS))
    return long(draw, data) if draw.random() < 0.005 else data


def pieces(draw, data):
    """data in up to four pieces."""
    cuts = sorted(draw.randrange(len(data) + 1) for _ in range(draw.choice([0, 0, 1, 3])))
    return [data[a:b] for a, b in zip([0, *cuts], [*cuts, len(data)])]


def on_alarm(*_):
    raise NoAnswer(f"a program does not end within {TIME_LIMIT} s")


def feed(process, parts):
    """Writes the parts; a program that has judged line 1 need not read on."""
    try:
        for part in parts:
            process.stdin.write(part)
        process.stdin.close()
    except BrokenPipeError:
        pass


def read_again(file):
    file.seek(0)
    return file.read()


def wrote(program, parts):
    """What the program writes to its two outputs; these are files, so that it never waits for us."""
    with tempfile.TemporaryFile() as out, tempfile.TemporaryFile() as other, subprocess.Popen(
            [BUILD / program], stdin=subprocess.PIPE, stdout=out, stderr=other, bufsize=0) as process:
        signal.alarm(TIME_LIMIT)
        try:
            feed(process, parts)
            status = process.wait()
        finally:
            signal.alarm(0)
            process.kill()
        if status != 0:
            raise NoAnswer(f"build/{program} ended with status {status}")
        return read_again(out), read_again(other)


class Comparison:
    """The programs beside their models. A case is a journal and its pieces."""

    def __init__(self, misreading=contextlib.nullcontext()):
        self.judge, self.show, self.misreading = Judge(corpus.SCHEME), repr, misreading

    def case(self, draw):
        return pieces(draw, hostile(draw))

    def check(self, parts):
        data = b"".join(parts)
        with self.misreading:
            expected = {"journal": (self.judge.output(data), b""), "salvage": salvage.outputs(self.judge, data)}
        for program, outputs in expected.items():
            found = wrote(program, parts)
            if found != outputs:
                raise Different(f"{parts!r}\n{program} {found!r}\nmodel   {outputs!r}")
        return collections.Counter(f"letter {letter.decode()}" for letter in re.findall(rb"^\d+\t([A-Z])$", expected["journal"][0], re.M))


if __name__ == "__main__":
    signal.signal(signal.SIGALRM, on_alarm)
    main(__file__, Comparison, {words: functools.partial(Comparison, MISREADINGS[words]) for words in MISREADINGS if words not in SELDOM})
