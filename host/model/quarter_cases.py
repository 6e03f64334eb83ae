#!/usr/bin/env python3
"""Writes the journals of crates/quarter, the names that the program is given under the gate and what it must write, from the model with the
stand-in. With --check it writes nothing and says whether the files are those.

A case is a name, the fields that its author worked out by hand (H, or the numbers), and the journal that stands there. Where the model writes
something else, or where the run does not notice one of the misreadings below, nothing is written."""
import re
import sys
from unittest.mock import patch

import quarter
import standin
from desk import Desk
from filed import keep
from journal import Judge
from kes import Module, Scheme

SCHEME = Scheme(Module(standin))
JUDGE = Judge(SCHEME)
ONE, EIGHT, SHORT, TABBED, TABBED_SHORT = (
    Desk(SCHEME, h1, h2, range(32), word) for h1, h2, word in ((0, 0, b"kes"), (1, 2, b"kes"), (6, 6, b"kes"), (0, 0, b"kes2"), (8, 4, b"kes2")))


def ended(*lines):
    return b"".join(line + b"\n" for line in lines)


def day(desk, *amounts):
    """A journal of good lines with these amounts."""
    return ended(desk.header, *(desk.line(serial=n, amount=amount) for n, amount in enumerate(amounts, 1)))


def forged(line):
    """A line with a cent more than was signed."""
    step, card, serial, amount, signature = line.split(b"\t")
    return b"\t".join([step, card, serial, b"%d" % (int(amount) + 1), signature])


def good_days():
    """Name, lines after the header, good lines, sum of cents, smallest and largest good amount, mean as whole cents, remainder, count."""
    yield "one-line", "1 1 2500 2500 2500 2500 0 1", day(ONE, 2500)
    yield "smallest-first", "3 3 6000 1000 3000 2000 0 3", day(ONE, 1000, 2000, 3000)
    yield "smallest-last", "3 3 6002 1000 3000 2000 2 3", day(TABBED, 3000, 2002, 1000)
    yield "least-amounts", "3 3 4 1 2 1 1 3", day(ONE, 1, 2, 1)
    yield "most-amounts", "3 3 6000000 2000000 2000000 2000000 0 3", day(TABBED, *[2_000_000] * 3)
    yield "mean-below-half", "4 4 9 1 6 2 1 4", day(ONE, 1, 1, 6, 1)
    yield "mean-above-half", "4 4 11 1 6 2 3 4", day(ONE, 1, 6, 3, 1)
    yield "short-kes", "2 2 700 300 400 350 0 2", ended(b"kes\t" + SHORT.key, SHORT.line(amount=300), SHORT.line(4095, serial=2, amount=400))
    yield "short-kes2", "2 2 701 300 401 350 1 2", ended(b"kes2\t" + TABBED_SHORT.key, TABBED_SHORT.line(amount=300), TABBED_SHORT.line(4095, serial=2, amount=401))
    yield "all", "1 1 77 77 77 77 0 1", day(ONE, 77)


def other_days():
    """Lines that are not good count as lines alone."""
    first, second = EIGHT.line(3, amount=5000), EIGHT.line(3, serial=2, amount=70)
    bad = b"", EIGHT.line(2, serial=2, amount=1), EIGHT.line(3, serial=3, amount=2_000_000), forged(EIGHT.line(3, serial=2, amount=9))
    yield "every-letter", "6 2 5070 70 5000 2535 0 2", ended(EIGHT.header, first, *bad, second)
    yield "unended-last-line", "2 1 2500 2500 2500 2500 0 1", day(ONE, 2500, 2500)[:-1]
    yield "over-long-line", "2 1 10 10 10 10 0 1", ended(ONE.header, b"0" * 5000, ONE.line(amount=10))
    yield "no-good-line", "3 0 0 - - - - 0", ended(EIGHT.header, *bad[1:])
    yield "one-unended-line", "1 0 0 - - - - 0", day(ONE, 2500)[:-1]
    yield "header-alone", "0 0 0 - - - - 0", day(ONE)


def refused():
    """A file that can't be opened or has a wrong header prints its name and H and adds nothing."""
    yield "wrong-word", "H", day(ONE, 400).replace(b"kes", b"kes3", 1)
    yield "no-header", "H", ended(ONE.line(amount=500))
    yield "header-unended", "H", ONE.header
    yield "empty-file", "H", b""
    yield "missing", "H", None
    yield ".", "H", None
    yield "", "H", None
    yield "tab\tin\tname", "H", None
    yield "one-line\0", "H", None
    yield "\xff", "H", None


CASES = [*good_days(), *other_days(), *refused()]


def long_name(name, size):
    """A name of so many bytes for the file of that name."""
    return b"./" * ((size - len(name)) // 2) + b"/" * ((size - len(name)) % 2) + name


def cut_names():
    """Each cut to 255 bytes: opened so and printed so."""
    yield long_name(b"most-amounts", 254)
    yield long_name(b"most-amounts", 255)
    yield long_name(b"most-amounts", 255) + b"x"
    yield long_name(b"most-amounts", 256)
    yield long_name(b"most-amounts", 255) + b"\0" * 3000


FIRST = [name.encode("latin-1") for name, _, _ in CASES] + list(cut_names())
# the same journals again, up to the 64th name, and three names after it: good ones, the last without LF
AGAIN = [name.encode() for name, fields, _ in [*good_days(), *other_days()] if fields != "H"]
NAMES = [*FIRST, *(AGAIN * 3)[: 64 - len(FIRST)], b"most-amounts", b"one-line", b"least-amounts"]
INPUT = b"\n".join(NAMES)
FILES = {name.encode("latin-1"): data for name, _, data in CASES if data is not None}


def read(name):
    """As a system opens files: a NUL is in no name, and steps to the present folder change nothing."""
    return FILES.get(re.fullmatch(rb"(?:\./+)*(.*)", name, re.S)[1])


def written():
    return quarter.output(JUDGE, INPUT, read)


def otherwise(name, wrong):
    """The model with one function replaced; wrong gets the right one, and then its arguments."""
    right = getattr(quarter, name)
    return patch.object(quarter, name, lambda *given: wrong(right, *given))


class Takes:
    """A judge for whom lines of this letter are good."""

    def __init__(self, letter):
        self.letter = letter

    def output(self, data):
        return JUDGE.output(data).replace(b"\t%s\n" % self.letter, b"\tG\n")


def counts(letter):
    return otherwise("judged", lambda right, judge, data: right(Takes(letter), data))


def means_of_means(right, counted):
    """All journals by their means."""
    return right([(lines, amounts and [quarter.mean(amounts)[0]] * len(amounts)) for lines, amounts in counted])


MISREADINGS = {
    "a 65th name is opened": patch.object(quarter, "NAMES", 65),
    "the 64th name is not opened": patch.object(quarter, "NAMES", 63),
    "refused names do not count among the 64": patch.object(quarter, "NAMES", 64 + sum(fields == "H" for _, fields, _ in CASES)),
    "names after the 64th are left out": otherwise("names", lambda right, data: right(data)[:64]),
    "names have 256 bytes": patch.object(quarter, "NAME_BYTES", 256),
    "names have 254 bytes": patch.object(quarter, "NAME_BYTES", 254),
    "names are not cut": patch.object(quarter, "NAME_BYTES", 10_000),
    "a long name is several": otherwise("names", lambda right, data: right(re.sub(rb"([^\n]{255})(?=[^\n])", rb"\1\n", data))),
    "a name without LF is none": otherwise("names", lambda right, data: right(data.rpartition(b"\n")[0] + b"\n")),
    "an empty line is no name": otherwise("names", lambda right, data: [name for name in right(data) if name]),
    "a name ends at a NUL": otherwise("names", lambda right, data: [name.partition(b"\0")[0] for name in right(data)]),
    "a name ends at a tab": otherwise("names", lambda right, data: [name.partition(b"\t")[0] for name in right(data)]),
    "a name counts once": otherwise("names", lambda right, data: list(dict.fromkeys(right(data)))),
    "the header is a line": otherwise("judged", lambda right, *given: (lambda found: found and (found[0] + 1, found[1]))(right(*given))),
    "only good lines are lines": otherwise("judged", lambda right, *given: (lambda found: found and (len(found[1]), found[1]))(right(*given))),
    "an unended line is none": otherwise("judged", lambda right, judge, data: right(judge, re.sub(rb"(?<=\n)[^\n]+\Z", b"", data))),
    "a wrong header has no lines": otherwise("judged", lambda right, *given: right(*given) or (0, [])),
    "a journal without good lines is refused": otherwise("judged", lambda right, *given: (lambda found: found if found and found[1] else None)(right(*given))),
    "lines that are O count": counts(b"O"),
    "lines that are S count": counts(b"S"),
    "lines that are B count": counts(b"B"),
    "the mean is rounded": otherwise("mean", lambda right, amounts: (round(sum(amounts) / len(amounts)), right(amounts)[1])),
    "the mean is rounded up": otherwise("mean", lambda right, amounts: (-(-sum(amounts) // len(amounts)), right(amounts)[1])),
    "mean and remainder are swapped": otherwise("mean", lambda right, amounts: right(amounts)[::-1]),
    "smallest and largest are swapped": otherwise("row", lambda right, *given: re.sub(rb"\t(\d+)\t(\d+)(?=(\t\d+){3}\n)", rb"\t\2\t\1", right(*given))),
    "the smallest begins at 0": otherwise("row", lambda right, name, lines, amounts: re.sub(rb"\t\d+(?=(\t\d+){4}\n)", b"\t0", right(name, lines, amounts))),
    "zeros stand for hyphens": otherwise("row", lambda right, *given: right(*given).replace(b"\t-", b"\t0")),
    "the count is a hyphen too": otherwise("row", lambda right, *given: right(*given).replace(b"-\t0\n", b"-\t-\n")),
    "there is no second count": otherwise("row", lambda right, *given: right(*given).rpartition(b"\t")[0] + b"\n"),
    "blanks stand for tabs": otherwise("row", lambda right, *given: right(*given).replace(b"\t", b" ")),
    "all is the mean of means": otherwise("joined", means_of_means),
    "all forgets the last journal": otherwise("joined", lambda right, counted: right(counted[:-1])),
    "all counts journals without good lines out": otherwise("joined", lambda right, counted: right([found for found in counted if found[1]])),
}


def as_read():
    """The lines that the authors of the cases worked out."""
    return b"".join(b"\t".join([name.encode("latin-1"), *fields.encode().split(b" ")]) + b"\n" for name, fields, _ in CASES)


def made():
    """The files of the crate."""
    return {**{f"data/{name.decode()}": data for name, data in FILES.items()}, "stdin": INPUT, "stdout": written()}


def sound():
    """There are 67 names, the cases are written as their authors worked them out, and each misreading is noticed."""
    right = written()
    assert len(NAMES) == 67 and right.count(b"\n") == 68 and len(set(FIRST)) == len(FIRST)
    if not right.startswith(as_read()):
        sys.exit(f"quarter cases: the model writes otherwise:\n{right.decode('latin-1')}")
    assert [line.endswith(b"\tH") for line in right.splitlines()[-4:]] == [True, True, True, False]
    assert [line.endswith(b"\tH") for line in right.splitlines()[len(CASES) :][:5]] == [False, False, False, True, False]
    for words, misreading in MISREADINGS.items():
        with misreading:
            if written() == right:
                sys.exit(f"quarter cases: none notices this misreading: {words}")


sound()
keep("quarter", made(), f"quarter cases: {len(NAMES)} names and what is written of them are those of the model; {len(MISREADINGS)} planted misreadings are noticed")
