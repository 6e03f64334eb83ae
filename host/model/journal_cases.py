#!/usr/bin/env python3
"""Writes the journals that the program journal_cases reads and what it must write under the gate, from the model with the stand-in.
With --check it writes nothing and says whether the files are those.

Each group below is a sentence of document 01, "The top-up journal", or of request 2 or 10, and each case a name, the letters that the sentence gives its lines,
and the journal. The letters are the author's reading, the output is the model's: where the two differ, or where no case notices one of the
misreadings of misread.py, nothing is written. Not run: that reading ends after line 4,294,967,295. A line of 2,048 bytes is M like one of
2,049, since no record is longer than 2,030."""
import re
import sys

import standin
from desk import Desk
from filed import file
from journal import LONGEST_LINE, Judge
from kes import Module, Scheme, steps
from misread import MISREADINGS

SCHEME = Scheme(Module(standin))
# desks whose keys have 1, 8, 4,096 and 2^24 steps, and some that write `kes2`
ONE, EIGHT, SHORT, TALLEST = (Desk(SCHEME, h1, h2, range(32)) for h1, h2 in ((0, 0), (1, 2), (6, 6), (12, 12)))
TABBED, TABBED_SHORT, TABBED_SIXES, TABBED_OTHER = (Desk(SCHEME, h1, h2, range(32), b"kes2") for h1, h2 in ((0, 0), (8, 4), (6, 6), (4, 8)))
STEP, CARD, SERIAL, AMOUNT, SIGNATURE = range(5)
GOOD = ONE.line()


def ended(*lines):
    return b"".join(line + b"\n" for line in lines)


def under(desk, *lines):
    return ended(desk.header, *lines)


def below(header):
    """A line 1, and a line that would be good below the right one."""
    return ended(header, GOOD)


def changed(line, at, field):
    """A line with another field, or its own field made over, after it was signed."""
    fields = line.split(b"\t")
    fields[at] = field(fields[at]) if callable(field) else field
    return b"\t".join(fields)


def put(at, byte):
    return lambda text: text[:at] + byte + text[at + 1 :]


def flipped(at):
    """A digit of hex changed."""
    return lambda text: put(at, b"1" if text[at : at + 1] == b"0" else b"0")(text)


def lines_of_text():
    """Lines of text, one record a line, fields parted by tabs, each ended by LF, at most 2,048 bytes with it."""
    yield "one-record", "G", under(ONE, GOOD)
    yield "two-records-on-a-line", "MG", under(ONE, GOOD + b"\t" + ONE.line(serial=2), GOOD)
    yield "missing-field", "MG", under(ONE, GOOD.rpartition(b"\t")[0], GOOD)
    yield "extra-field", "MG", under(ONE, GOOD + b"\t0", GOOD)
    yield "extra-tab", "MMMG", under(ONE, b"\t" + GOOD, GOOD + b"\t", GOOD.replace(b"\t", b"\t\t", 1), GOOD)
    yield "spaces-for-tabs", "MG", under(ONE, GOOD.replace(b"\t", b" "), GOOD)
    yield "other-order-of-fields", "MG", under(ONE, b"\t".join(GOOD.split(b"\t")[::-1]), GOOD)
    yield "crlf", "MG", under(ONE, GOOD + b"\r", GOOD)
    yield "nul-byte", "MMG", under(ONE, GOOD + b"\0", changed(GOOD, CARD, put(15, b"\0")), GOOD)
    yield "line-2048-bytes", "MG", under(ONE, GOOD.ljust(LONGEST_LINE - 1, b"0"), GOOD)
    yield "line-2049-bytes", "MG", under(ONE, GOOD.ljust(LONGEST_LINE, b"0"), GOOD)
    yield "line-5000-bytes", "MG", under(ONE, GOOD.ljust(4999, b"0"), GOOD)
    yield "good-tail-of-over-long", "MMG", under(ONE, b"0" * (LONGEST_LINE - 1) + GOOD, b"0" * LONGEST_LINE + GOOD, GOOD)


def headers():
    """Line 1: `kes`, h1, h2 (0 to 12 each), verification key."""
    yield "header-alone", "", under(ONE)
    yield "header-heights-12-12", "GM", under(TALLEST, TALLEST.line(steps(12, 12) - 1), TALLEST.line(steps(12, 12), serial=2, at=0))
    yield "header-heights-12-13", "H", below(b"kes\t12\t13\t" + ONE.key)
    yield "header-heights-13-12", "H", below(b"kes\t13\t12\t" + ONE.key)
    yield "header-height-past-64-bits", "H", below(b"kes\t0\t%d\t%s" % (2**64, ONE.key))
    yield "header-height-empty", "H", below(b"kes\t\t0\t" + ONE.key)
    yield "header-word-upper", "H", below(b"KES\t0\t0\t" + ONE.key)
    yield "header-word-short", "H", below(b"ke\t0\t0\t" + ONE.key)
    yield "header-word-long", "H", below(b"kess\t0\t0\t" + ONE.key)
    yield "header-key-63-digits", "H", below(ONE.header[:-1])
    yield "header-key-65-digits", "H", below(ONE.header + b"0")
    yield "header-one-field", "H", below(b"kes")
    yield "header-three-fields", "H", below(b"kes\t0\t" + ONE.key)
    yield "header-five-fields", "H", below(ONE.header + b"\t0")
    yield "header-crlf", "H", below(ONE.header + b"\r")
    yield "header-other-key", "B", below(changed(ONE.header, 3, flipped(63)))


def short_headers():
    """Or `kes`, verification key, which means heights 6 and 6."""
    last = steps(6, 6) - 1
    yield "header-short", "GGM", ended(b"kes\t" + SHORT.key, SHORT.line(0), SHORT.line(last, serial=2), SHORT.line(last + 1, serial=3, at=0))
    yield "header-short-over-other-heights", "M", below(b"kes\t" + ONE.key)


def other_lines():
    """Other lines: step, card (16 digits), serial (1 to 4,294,967,295), amount in cents (1 to 2,000,000), signature."""
    yield "card-15-digits", "MG", under(ONE, ONE.line(card=b"111122223333444"), GOOD)
    yield "card-17-digits", "MG", under(ONE, ONE.line(card=b"11112222333344445"), GOOD)
    yield "card-nines", "G", under(ONE, ONE.line(card=b"9" * 16))
    yield "card-no-digit", "MMG", under(ONE, ONE.line(card=b"111122223333444/"), ONE.line(card=b":111222233334444"), GOOD)
    yield "serial-0", "MG", under(ONE, ONE.line(serial=0), GOOD)
    yield "serial-4294967295", "SG", under(ONE, ONE.line(serial=2**32 - 1), GOOD)
    yield "serial-4294967296", "MG", under(ONE, ONE.line(serial=2**32), GOOD)
    yield "serial-1-past-32-and-64-bits", "MMG", under(ONE, ONE.line(serial=2**32 + 1), ONE.line(serial=2**64 + 1), GOOD)
    yield "amount-0", "MG", under(ONE, ONE.line(amount=0), GOOD)
    yield "amount-1", "G", under(ONE, ONE.line(amount=1))
    yield "amount-2000000", "G", under(ONE, ONE.line(amount=2_000_000))
    yield "amount-2000001", "MG", under(ONE, ONE.line(amount=2_000_001), GOOD)
    yield "amount-1-past-32-and-64-bits", "MMG", under(ONE, ONE.line(amount=2**32 + 1), ONE.line(amount=2**64 + 1), GOOD)
    yield "empty-fields", "MMMMMG", under(ONE, *(changed(GOOD, at, b"") for at in range(5)), GOOD)


def numbers():
    """Numbers have no leading zero (step and heights may be "0"; the card may start with zeros)."""
    yield "leading-zero-step", "MMG", under(EIGHT, EIGHT.line(b"00", at=0), EIGHT.line(b"01", at=1), EIGHT.line(1))
    yield "leading-zero-serial-and-amount", "MMG", under(ONE, ONE.line(serial=b"01"), ONE.line(amount=b"02500"), GOOD)
    yield "leading-zero-height", "H", below(b"kes\t00\t0\t" + ONE.key)
    yield "card-leading-zeros", "GG", under(ONE, ONE.line(card=b"0000222233334444"), ONE.line(serial=2, card=b"0" * 16))
    yield "signs-and-blanks", "MMMG", under(ONE, ONE.line(b"-0", at=0), ONE.line(serial=b"+1"), ONE.line(amount=b" 2500"), GOOD)
    yield "number-no-digit", "MMMG", under(ONE, ONE.line(b":", at=0), ONE.line(serial=b"1/"), ONE.line(amount=b"25:0"), GOOD)
    yield "step-0-past-32-and-64-bits", "MMG", under(ONE, ONE.line(2**32, at=0), ONE.line(2**64, at=0), GOOD)
    yield "step-1500-digits", "MG", under(ONE, ONE.line(b"1" + b"0" * 1499, at=0), GOOD)


def hexes():
    """Hex is lower case, full length."""
    yield "hex-upper", "MG", under(ONE, changed(GOOD, SIGNATURE, bytes.upper), GOOD)
    yield "hex-upper-in-header", "H", below(changed(ONE.header, 3, bytes.upper))
    yield "hex-no-digit", "MMMMG", under(ONE, *(changed(GOOD, SIGNATURE, put(447, bytes([c]))) for c in b"/:`g"), GOOD)
    yield "signature-short", "MMG", under(ONE, GOOD[:-1], GOOD[:-2], GOOD)
    yield "signature-long", "MMG", under(ONE, GOOD + b"0", GOOD + b"00", GOOD)


def messages():
    """The signed message is the digits of card, serial and amount, run together."""
    yield "digits-run-together", "G" * 11, moved_digit(ONE)
    yield "signed-with-tabs", "BG", under(ONE, changed(GOOD, SIGNATURE, ONE.signature(0, b"\t".join(GOOD.split(b"\t")[1:4]))), GOOD)
    yield "forged-card", "BG", under(ONE, changed(GOOD, CARD, b"1111222233334445"), GOOD)
    yield "forged-serial", "GBG", under(ONE, GOOD, changed(GOOD, SERIAL, b"2"), ONE.line(serial=2))
    yield "forged-amount", "BG", under(ONE, changed(GOOD, AMOUNT, b"2501"), GOOD)


def moved_digit(desk):
    """Ten records, and then the first one's signature with a digit gone from its amount to its serial."""
    ten = [desk.line(serial=1, amount=12500)] + [desk.line(serial=n) for n in range(2, 11)]
    return under(desk, *ten, changed(changed(ten[0], SERIAL, b"11"), AMOUNT, b"2500"))


def editions():
    """Request 2: such journals start with `kes2`."""
    yield "kes2-header-alone", "", under(TABBED)
    yield "kes2-full", "GGSMG", under(TABBED, *(TABBED.line(serial=n) for n in (1, 2, 4)), TABBED.line(serial=3, amount=0), TABBED.line(serial=3))
    yield "kes2-short-over-other-heights", "M", ended(b"kes2\t" + TABBED.key, TABBED.line())
    yield "kes2-three-fields", "H", ended(b"kes2\t0\t" + TABBED.key, TABBED.line())
    for name, word in ("upper", b"KES2"), ("1", b"kes1"), ("3", b"kes3"), ("22", b"kes22"), ("blank", b"kes 2"):
        yield f"kes2-word-{name}", "H", ended(changed(TABBED.header, 0, word), TABBED.line())


def new_short_headers():
    """Request 10: under `kes2` it shall mean 8 and 4, under `kes` still 6 and 6. T and the lengths are the same, so only G and B tell them apart."""
    last = steps(8, 4) - 1
    ends = lambda desk, second=2: [desk.line(0), desk.line(last, serial=second), desk.line(last + 1, serial=second + 1, at=0)]
    yield "kes2-short", "GGM", ended(b"kes2\t" + TABBED_SHORT.key, *ends(TABBED_SHORT))
    yield "kes2-short-over-6-6", "BBM", ended(b"kes2\t" + TABBED_SIXES.key, *ends(TABBED_SIXES, second=1))
    yield "kes2-short-over-4-8", "BBM", ended(b"kes2\t" + TABBED_OTHER.key, *ends(TABBED_OTHER, second=1))
    yield "kes2-full-6-6", "GGM", under(TABBED_SIXES, *ends(TABBED_SIXES))
    yield "kes-short-over-8-4", "B", ended(b"kes\t" + TABBED_SHORT.key, changed(TABBED_SHORT.line(), SIGNATURE, TABBED_SHORT.signature(0, b"111122223333444412500")))


def tabbed_messages():
    """Request 2: it shall be card, serial and amount, one tab between; a `kes` journal is still judged by the old text."""
    line, signed = TABBED.line(), [b"1111222233334444", b"1", b"2500"]
    others = b"".join(signed), b" ".join(signed), b"\t\t".join(signed), b"\t" + b"\t".join(signed), b"\t".join(signed) + b"\t"
    one_tab = b"1111222233334444\t12500", b"11112222333344441\t2500"
    yield "kes2-card-leading-zeros", "GG", under(TABBED, TABBED.line(card=b"0000222233334444"), TABBED.line(serial=2, card=b"0" * 16))
    yield "kes2-signed-run-together", "BG", under(TABBED, changed(line, SIGNATURE, TABBED.signature(0, others[0])), line)
    yield "kes2-signed-otherwise", "BBBBBBG", under(TABBED, *(changed(line, SIGNATURE, TABBED.signature(0, text)) for text in (*others[1:], *one_tab)), line)
    yield "kes2-forged", "BBBG", under(TABBED, *(changed(line, at, text) for at, text in ((CARD, b"1111222233334445"), (AMOUNT, b"2501"), (AMOUNT, b"250"))), line)
    yield "kes2-digit-moved", "G" * 10 + "B", moved_digit(TABBED)
    yield "kes-line-below-kes2", "BG", under(TABBED, GOOD, line)
    yield "kes2-line-below-kes", "BG", under(ONE, line, GOOD)


def letters():
    """For each later line it prints the line's number, a tab and one letter."""
    yield "day-of-every-step", "G" * 8, under(EIGHT, *(EIGHT.line(step, serial=step + 1) for step in range(8)))
    yield "day-with-jumps", "GGGG", under(EIGHT, *(EIGHT.line(step, serial=n) for n, step in enumerate((1, 3, 4, 7), 1)))
    yield "lines-3000", "M" * 3000, under(ONE, *[b""] * 3000)


def malformed():
    """M malformed (also a step at or past T, an over-long line, an empty line, a last line without LF)."""
    yield "step-t-minus-1", "G", under(EIGHT, EIGHT.line(7))
    yield "step-t", "MMG", under(EIGHT, EIGHT.line(8, at=0), EIGHT.line(15, at=7), EIGHT.line(7))
    yield "empty-line", "MGM", under(ONE, b"", GOOD, b"")
    yield "unended-good-last-line", "GM", under(ONE, GOOD, ONE.line(serial=2))[:-1]
    yield "unended-over-long-last-line", "GM", under(ONE, GOOD, b"0" * 3000)[:-1]


def steps_below():
    """O step below the last good line's."""
    yield "step-falls", "GOG", under(EIGHT, EIGHT.line(3), EIGHT.line(2, serial=2), EIGHT.line(3, serial=2))
    yield "step-same", "GG", under(EIGHT, EIGHT.line(3), EIGHT.line(3, serial=2))
    yield "step-below-a-bad-line", "GBG", under(EIGHT, EIGHT.line(2), changed(EIGHT.line(6, serial=2), AMOUNT, b"1"), EIGHT.line(3, serial=2))


def other_serials():
    """S serial not one more than the last good line's (the first is 1)."""
    yield "first-serial-2", "SG", under(ONE, ONE.line(serial=2), GOOD)
    yield "serial-skipped", "GSG", under(ONE, GOOD, ONE.line(serial=3), ONE.line(serial=2))
    yield "serial-same", "GSG", under(ONE, GOOD, GOOD, ONE.line(serial=2))
    yield "serial-falls", "GGS", under(ONE, GOOD, ONE.line(serial=2), GOOD)
    yield "serial-after-a-bad-line", "GBSG", under(ONE, GOOD, changed(ONE.line(serial=2), AMOUNT, b"1"), ONE.line(serial=3), ONE.line(serial=2))


def not_accepted():
    """B signature not accepted, G good."""
    yield "signature-changed", "BBBBBG", under(ONE, *(changed(GOOD, SIGNATURE, flipped(n)) for n in (0, 64, 192, 256, 384)), GOOD)
    yield "witness-changed", "BBBG", under(EIGHT, *(changed(EIGHT.line(), SIGNATURE, flipped(n)) for n in (192, 448, 512)), EIGHT.line())
    yield "signature-of-other-step", "BBG", under(EIGHT, EIGHT.line(1, at=0), EIGHT.line(0, at=4), EIGHT.line(0))


def first_that_applies():
    """The first that applies, in this order."""
    good, forged = EIGHT.line(3), changed(EIGHT.line(3, serial=2), AMOUNT, b"1")
    ill = EIGHT.line(2, serial=2, amount=0), EIGHT.line(3, serial=3, amount=0), changed(forged, AMOUNT, b"0")
    yield "m-before-o-s-b", "GMMM", under(EIGHT, good, *ill)
    yield "o-before-s-b", "GOO", under(EIGHT, good, EIGHT.line(2, serial=3), changed(forged, STEP, b"2"))
    yield "s-before-b", "GS", under(EIGHT, good, changed(forged, SERIAL, b"3"))


def wrong_headers():
    """A wrong or missing line 1 prints `1`, tab, `H`; that is then the whole output."""
    yield "no-input", "H", b""
    yield "no-header", "H", ended(GOOD, ONE.line(serial=2))
    yield "header-unended", "H", ONE.header
    yield "header-on-line-2", "H", b"\n" + under(ONE, GOOD)
    yield "header-2048-bytes", "H", below(ONE.header.ljust(LONGEST_LINE - 1, b"0"))
    yield "header-2049-bytes", "H", below(ONE.header.ljust(LONGEST_LINE, b"0"))
    yield "header-tail-of-over-long", "H", below(b"0" * LONGEST_LINE + ONE.header)


def totals():
    """Otherwise the last line is `total`, the count of good lines, the sum of their cents, tabs between."""
    yield "total-of-good-lines", "GGG", under(ONE, *(ONE.line(serial=n, amount=2_000_000) for n in (1, 2, 3)))
    bad = changed(ONE.line(serial=2), AMOUNT, b"9"), ONE.line(serial=3), ONE.line(serial=2, amount=0)
    yield "total-without-bad-lines", "GBSM", under(ONE, GOOD, *bad)


def example():
    """Input (tabs shown as gaps): `kes 0 0` and 64 zeros; `0 1111222233334444 1 2500 ab`; `0 1111222233334444 2 2500` and 448 zeros."""
    yield "example", "MS", ended(b"kes\t0\t0\t" + b"0" * 64, changed(GOOD, SIGNATURE, b"ab"), changed(ONE.line(serial=2), SIGNATURE, b"0" * 448))


SENTENCES = [
    lines_of_text, headers, short_headers, other_lines, numbers, hexes, messages, letters, malformed, steps_below, other_serials,
    not_accepted, first_that_applies, wrong_headers, totals, example, editions, new_short_headers, tabbed_messages,
]
JUDGE = Judge(SCHEME)
CASES = [case for sentence in SENTENCES for case in sentence()]


def found(output):
    return "".join(re.findall(r"^\d+\t([A-Z])$", output.decode(), re.M))


def sound():
    """Each case has a name of its own and the letters that its author read, every letter occurs, and each misreading is noticed."""
    for name, letters_read, data in CASES:
        if found(JUDGE.output(data)) != letters_read:
            sys.exit(f"journal cases: {name} is {letters_read} as read and {found(JUDGE.output(data))} by the model")
    assert len({name for name, _, _ in CASES}) == len(CASES)
    assert {letter for _, letters_read, _ in CASES for letter in letters_read} == set("HMOSBG")
    for words, misreading in MISREADINGS.items():
        with misreading:
            if all(found(JUDGE.output(data)) == letters_read for _, letters_read, data in CASES):
                sys.exit(f"journal cases: none notices this misreading: {words}")


sound()
file("journal_cases", CASES, JUDGE.output, f"journal cases: {len(CASES)} journals and their output are those of the model; {len(MISREADINGS)} planted misreadings are noticed")
