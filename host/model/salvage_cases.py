#!/usr/bin/env python3
"""Writes the damaged journals that the program salvage_cases reads and what it must write under the gate, from the model with the stand-in; and the
journal that the program salvage is given there. With --check it writes nothing and says whether the files are those.

A case is a name, the letters that its author read, one for each line below line 1, and the journal. What is saved and listed is worked out from the
letters, and again by the model: where the two differ, or where no case notices one of the misreadings below, nothing is written."""
import re
import sys
from unittest.mock import patch

import journal
import salvage
import standin
from desk import Desk
from filed import file, keep
from journal import LONGEST_LINE, Judge
from kes import Module, Scheme, steps

SCHEME = Scheme(Module(standin))
JUDGE = Judge(SCHEME)
ONE, EIGHT, SHORT, TABBED, TABBED_SHORT = (
    Desk(SCHEME, h1, h2, range(32), word) for h1, h2, word in ((0, 0, b"kes"), (1, 2, b"kes"), (6, 6, b"kes"), (0, 0, b"kes2"), (8, 4, b"kes2")))
THREE = [ONE.line(serial=n) for n in (1, 2, 3)]


def ended(*lines):
    return b"".join(line + b"\n" for line in lines)


def under(desk, *lines):
    return ended(desk.header, *lines)


def scribbled(data, first, scribble):
    """An input with these bytes over those that stood from this index on."""
    return data[:first] + scribble + data[first + len(scribble) :]


def at_line(data, n):
    """The index at which line n starts."""
    return sum(len(line) for line in data.splitlines(keepends=True)[: n - 1])


def forged(line):
    """A line with a cent more than was signed."""
    step, card, serial, amount, signature = line.split(b"\t")
    return b"\t".join([step, card, serial, b"%d" % (int(amount) + 1), signature])


def scribbles():
    """A card slot scribbled over part of a journal: a damaged line costs no line after the next LF."""
    day = under(ONE, *THREE)
    second = at_line(day, 3)
    yield "no-damage", "GGG", day
    yield "inside-a-line", "GMG", scribbled(day, second + 20, b"#")
    yield "inside-a-signature", "GBG", scribbled(day, second + 60, b"0000000000000000")
    yield "over-an-lf", "MG", scribbled(day, second - 1, b"x")
    yield "over-two-lfs", "M", scribbled(scribbled(day, second - 1, b"x"), at_line(day, 4) - 1, b"x")
    yield "over-a-whole-line", "GMG", scribbled(day, second, b"~" * len(THREE[1]))
    yield "over-a-line-and-its-lf", "GM", scribbled(day, second, b"~" * (len(THREE[1]) + 1))
    yield "over-parts-of-two-lines", "MG", scribbled(day, second - 30, b"~" * 60)
    yield "an-lf-in-a-line", "GMMG", scribbled(day, second + 40, b"\n")
    yield "lfs-in-a-line", "GMMMG", scribbled(scribbled(day, second + 40, b"\n"), second + 80, b"\n")
    yield "an-lf-in-front", "GMMG", scribbled(day, second, b"\n")
    yield "nothing-but-lfs", "MMMMMMMM", under(ONE) + b"\n" * 8
    yield "nuls-in-a-line", "GMG", scribbled(day, second + 20, b"\0" * 10)
    yield "nuls-over-all-below", "M", scribbled(day, at_line(day, 2), b"\0" * (len(day) - at_line(day, 2)))
    yield "every-byte", "MMG", under(ONE, bytes(range(256)), THREE[0])
    yield "cr-before-lf", "GMG", under(ONE, THREE[0], THREE[1] + b"\r", THREE[2])


def last_lines():
    """A last line without LF is M, whatever its bytes."""
    yield "last-line-cut", "GGM", under(ONE, *THREE)[:-100]
    yield "last-lf-cut", "GGM", under(ONE, *THREE)[:-1]
    yield "last-line-one-byte", "GM", under(ONE, THREE[0]) + b"0"
    yield "last-line-unended-long", "GM", under(ONE, THREE[0]) + b"0" * 5000
    yield "header-alone", "", under(ONE)


def sizes():
    """Over-long is M; no record is longer than 2,030 bytes, so that one of 2,048 is M by its fields."""
    for size in LONGEST_LINE, LONGEST_LINE + 1, 2 * LONGEST_LINE, 2 * LONGEST_LINE + 1:
        yield f"line-of-{size}-bytes", "GMG", under(ONE, THREE[0], THREE[1].ljust(size - 1, b"0"), THREE[2])
    yield "good-tail-of-over-long", "MMG", under(ONE, b"0" * (LONGEST_LINE - 1) + THREE[0], b"0" * LONGEST_LINE + THREE[1], THREE[2])
    yield "empty-lines", "MGMGM", under(ONE, b"", THREE[0], b"", THREE[1], b"")
    yield "step-t", "MGM", under(EIGHT, EIGHT.line(8, at=0), EIGHT.line(7), EIGHT.line(15, serial=2, at=7))


def orders():
    """Order of steps and serials is not judged here."""
    yield "steps-fall", "GGG", under(EIGHT, EIGHT.line(5), EIGHT.line(3, serial=2), EIGHT.line(0, serial=3))
    yield "serials-fall", "GGG", under(ONE, *THREE[::-1])
    yield "serials-skip", "GG", under(ONE, ONE.line(serial=7), ONE.line(serial=2**32 - 1))
    yield "lines-repeated", "GGGGG", under(ONE, THREE[0], THREE[0], THREE[1], THREE[1], THREE[0])
    yield "order-and-damage", "GBMGG", under(EIGHT, EIGHT.line(5, serial=9), forged(EIGHT.line(4, serial=2)), b"x", EIGHT.line(1), EIGHT.line(1))


def signatures():
    """Every well-formed line whose signature is accepted under the header, and B for the others."""
    yield "forged-amount", "GBG", under(ONE, THREE[0], forged(THREE[1]), THREE[2])
    yield "all-forged", "BBB", under(ONE, *map(forged, THREE))
    yield "another-key", "BBB", under(Desk(SCHEME, 0, 0, range(1, 33)), *THREE)
    yield "kes2-line-below-kes", "BGB", under(ONE, TABBED.line(), THREE[1], TABBED.line(serial=3))
    yield "kes-line-below-kes2", "BGB", under(TABBED, THREE[0], TABBED.line(serial=2), THREE[2])


def forms():
    """The header line in its own form."""
    last = steps(6, 6) - 1
    yield "kes-short", "GMG", ended(b"kes\t" + SHORT.key, SHORT.line(0), b"?", SHORT.line(last, serial=2))
    yield "kes2-short", "GMG", ended(b"kes2\t" + TABBED_SHORT.key, TABBED_SHORT.line(0), b"?", TABBED_SHORT.line(last, serial=2))
    yield "kes2-full", "GMGB", under(TABBED, TABBED.line(), b"?", TABBED.line(serial=2), forged(TABBED.line(serial=3)))
    yield "header-line-again", "GMG", under(ONE, THREE[0], ONE.header, THREE[1])


def wrong_headers():
    """A wrong header gives an empty journal and a list of `1`, tab, `H`."""
    day = under(ONE, *THREE)
    yield "no-input", "H", b""
    yield "lf-alone", "H", b"\n"
    yield "header-scribbled", "H", scribbled(day, 20, b"#")
    yield "header-lf-scribbled", "H", scribbled(day, at_line(day, 2) - 1, b"x")
    yield "header-cut", "H", day[10:]
    yield "header-unended", "H", ONE.header
    yield "header-on-line-2", "H", b"\n" + day
    yield "no-header", "H", ended(*THREE)
    for size in LONGEST_LINE, LONGEST_LINE + 1:
        yield f"header-of-{size}-bytes", "H", ended(ONE.header.ljust(size - 1, b"0"), *THREE)


SENTENCES = [scribbles, last_lines, sizes, orders, signatures, forms, wrong_headers]
CASES = [case for sentence in SENTENCES for case in sentence()]


def shown(pair):
    """What the program of cases writes of a journal's two outputs."""
    return b"-- list\n".join(pair)


def as_read(letters, data):
    """The two outputs by the letters that a case's author read."""
    if letters == "H":
        return b"", b"1\tH\n"
    lines = re.findall(rb"[^\n]*\n|[^\n]+", data)
    assert len(lines) == len(letters) + 1, (letters, len(lines))
    saved = [line for line, case in zip(lines[1:], letters) if case == "G"]
    return lines[0] + b"".join(saved), "".join(f"{n}\t{case}\n" for n, case in enumerate(letters, 2) if case != "G").encode()


def written(data):
    return salvage.outputs(JUDGE, data)


def otherwise(name, wrong, module=salvage):
    """The model with one function replaced; wrong gets the right one, and then its arguments."""
    right = getattr(module, name)
    return patch.object(module, name, lambda *given: wrong(right, *given))


def in_order(right, judge, data):
    """Lines that the program journal does not call good are none."""
    letters = re.findall(rb"^\d+\t([MOSBG])$", judge.output(data), re.M)
    saved, others = right(judge, data)
    if not saved:
        return saved, others
    lines = data.split(b"\n")
    good = [line + b"\n" for line, case in zip(lines[1:], letters) if case == b"G"]
    return lines[0] + b"\n" + b"".join(good), b"".join(b"%d\t%s\n" % (n, case) for n, case in enumerate(letters, 2) if case != b"G")


def to_first_bad(right, judge, data):
    """A bad line ends the run."""
    saved, others = right(judge, data)
    number = int(others.split(b"\t")[0]) if others else None
    return (saved, others) if number in (None, 1) else (b"".join(line + b"\n" for line in data.split(b"\n")[: number - 1]), others.partition(b"\n")[0] + b"\n")


def in_full(right, judge, data):
    """A short header is written out in full."""
    saved, others = right(judge, data)
    return re.sub(rb"\A(kes2?)\t(?=[0-9a-f]{64}\n)", lambda word: word[0] + (b"8\t4\t" if word[1] == b"kes2" else b"6\t6\t"), saved), others


def changed(saved=lambda text: text, others=lambda text: text):
    """The model with each output made over."""
    return otherwise("outputs", lambda right, *given: (lambda pair: (saved(pair[0]), others(pair[1])))(right(*given)))


MISREADINGS = {
    "steps and serials are judged": otherwise("outputs", in_order),
    "a bad line ends the run": otherwise("outputs", to_first_bad),
    "B is kept": otherwise("letter", lambda right, *given: right(*given).replace(b"B", b"G")),
    "M and B are swapped": otherwise("listed", lambda right, n, case: right(n, {b"M": b"B", b"B": b"M"}.get(case, case))),
    "all that is listed is M": otherwise("listed", lambda right, n, case: right(n, b"M" if case == b"B" else case)),
    "an unended line counts": otherwise("cut_lines", lambda right, data: right(re.sub(rb"(?<=[^\n])\Z", b"\n", data)), journal),
    "an unended line is none": otherwise("cut_lines", lambda right, data: right(re.sub(rb"[^\n]+\Z", b"", data)), journal),
    "empty lines are skipped": otherwise("cut_lines", lambda right, data: right(re.sub(rb"\n+", b"\n", data.lstrip(b"\n"))), journal),
    "an over-long line is several": otherwise("cut_lines", lambda right, data: right(re.sub(rb"([^\n]{2047})(?=[^\n])", rb"\1\n", data)), journal),
    "what follows 2048 bytes is a line": otherwise("cut_lines", lambda right, data: right(re.sub(rb"(?m)^[^\n]{2048}(?=[^\n])", b"", data)), journal),
    "a NUL ends a line": otherwise("cut_lines", lambda right, data: right(re.sub(rb"\0+", b"\n", data)), journal),
    "a CR before LF is dropped": otherwise("cut_lines", lambda right, data: right(data.replace(b"\r\n", b"\n")), journal),
    "numbers are one less": otherwise("listed", lambda right, n, case: right(n if case == b"H" else n - 1, case)),
    "numbers are those of the list": changed(others=lambda text: b"".join(b"%d\t%s\n" % (n, line[-1:]) for n, line in enumerate(text.splitlines(), 2)) if text != b"1\tH\n" else text),
    "a blank stands for the tab": changed(others=lambda text: text.replace(b"\t", b" ")),
    "the list says which are good": changed(others=lambda text: text or b"2\tG\n"),
    "the header has no LF": changed(saved=lambda text: text.replace(b"\n", b"", 1)),
    "the header is dropped": changed(saved=lambda text: text.partition(b"\n")[2]),
    "the header is written in full": otherwise("outputs", in_full),
    "a wrong header is kept": otherwise("outputs", lambda right, judge, data: (lambda pair: pair if pair[0] else (data.partition(b"\n")[0], pair[1]))(right(judge, data))),
    "below a wrong header lines are listed": otherwise("outputs", lambda right, judge, data: (lambda pair: pair if pair[0] else (b"", pair[1] + b"2\tM\n" * (data.count(b"\n") > 1)))(right(judge, data))),
    "repeated lines are kept once": changed(saved=lambda text: b"".join(dict.fromkeys(text.splitlines(keepends=True)))),
    "lines are sorted by serial": changed(saved=lambda text: b"".join(text.splitlines(keepends=True)[:1] + sorted(text.splitlines(keepends=True)[1:], key=lambda line: int(line.split(b"\t")[2])))),
    "the last good line is lost": changed(saved=lambda text: b"".join(text.splitlines(keepends=True)[:-1] if text.count(b"\n") > 1 else [text])),
    "there is a closing line": changed(others=lambda text: text + b"total\n"),
}


def day():
    """What the program salvage is given under the gate: a day with each kind of line."""
    good = [EIGHT.line(n, serial=n + 1) for n in range(8)]
    return under(EIGHT, good[0], good[2], b"#" * 700, good[1], forged(good[3]), good[3], good[3], b"", b"\0" * 3000, good[7]) + good[4]


def made():
    """The files of the program salvage."""
    return {"stdin": day(), "stdout": written(day())[0]}


def sound():
    """Each case has a name of its own and the outputs that its author read, a second run gives back the first, and each misreading is noticed."""
    for name, letters, data in CASES:
        pair = written(data)
        if pair != as_read(letters, data):
            sys.exit(f"salvage cases: {name} is {as_read(letters, data)} as read and {pair} by the model")
        assert not pair[0] or written(pair[0]) == (pair[0], b"")
    assert len({name for name, _, _ in CASES}) == len(CASES)
    assert written(day())[1] == b"4\tM\n6\tB\n9\tM\n10\tM\n12\tM\n"
    for words, misreading in MISREADINGS.items():
        with misreading:
            if all(written(data) == as_read(letters, data) for _, letters, data in CASES):
                sys.exit(f"salvage cases: none notices this misreading: {words}")


sound()
keep("salvage", made(), "salvage: what the program reads and writes is the model's")
file("salvage_cases", CASES, lambda data: shown(written(data)), f"salvage cases: {len(CASES)} damaged journals are salvaged as by the model; {len(MISREADINGS)} planted misreadings are noticed")
