"""Misreadings of document 01's "The top-up journal" and of requests 2 and 10, each planted in the model, so that cases can show that they
notice it."""
import operator
import re
from unittest.mock import patch

import journal


def planted(name, wrong):
    """The model with one function replaced; wrong gets the right one, and then its arguments."""
    right = getattr(journal, name)
    return patch.object(journal, name, lambda *given: wrong(right, *given))


def made_over(name, change):
    """The model with a function that gets its text changed."""
    return planted(name, lambda right, text, *rest: right(text if text is None else change(text), *rest))


def limits(limit, more_low, more_high):
    """The numbers that have this upper limit get others."""
    def wrong(right, text, low, high):
        return right(text, low + more_low, high + more_high) if high == limit else right(text, low, high)
    return planted("number", wrong)


def wrapped(bits):
    return made_over("number", lambda text: b"%d" % (int(text) % 2**bits) if re.fullmatch(rb"[1-9][0-9]*", text) else text)


def card(change):
    """The second field of a line made over."""
    return made_over("record", lambda line: re.sub(rb"(?<=\t)[0-9]*", lambda field: change(field[0]), line, count=1))


def words(change):
    """The first field of line 1 made over."""
    return made_over("header", lambda line: b"\t".join([change(line.split(b"\t")[0]), *line.split(b"\t")[1:]]))


def tabbed(change):
    """What is signed below `kes2` made over."""
    return planted("message", lambda right, word, *fields: change(right(word, *fields)) if word == b"kes2" else right(word, *fields))


def letters(order="OSB", below=operator.lt, follows=lambda serial, last: serial == last + 1):
    """The tests of a well-formed line in this order."""
    def letter(judge, head, found, last_step, last_serial):
        if found is None:
            return "M"
        _, h1, h2, key = head
        step, serial, _, signed, signature = found
        refused = judge.verify(h1, h2, key, step, signed, signature) != journal.DONE
        fails = {"O": below(step, last_step), "S": not follows(serial, last_serial), "B": refused}
        return next((case for case in order if fails[case]), "G")
    return patch.object(journal.Judge, "letter", letter)


MISREADINGS = {
    "height up to 13": limits(12, 0, 1),
    "height up to 11": limits(12, 0, -1),
    "step up to T": limits(7, 0, 1),
    "step up to T - 2": limits(7, 0, -1),
    "serial up to 2^32": limits(2**32 - 1, 0, 1),
    "serial up to 2^32 - 2": limits(2**32 - 1, 0, -1),
    "serial from 0": limits(2**32 - 1, -1, 0),
    "serial from 2": limits(2**32 - 1, 1, 0),
    "amount up to 2000001": limits(2_000_000, 0, 1),
    "amount up to 1999999": limits(2_000_000, 0, -1),
    "amount from 0": limits(2_000_000, -1, 0),
    "amount from 2": limits(2_000_000, 1, 0),
    "numbers wrap at 32 bits": wrapped(32),
    "numbers wrap at 64 bits": wrapped(64),
    "leading zeros pass": made_over("number", lambda text: text.lstrip(b"0") or text[:1]),
    "a sign passes": made_over("number", lambda text: text.lstrip(b"+-")),
    "blanks around a number pass": made_over("number", bytes.strip),
    "an empty number is 0": made_over("number", lambda text: text or b"0"),
    "upper-case hex passes": made_over("unhex", bytes.lower),
    "short hex is filled": planted("unhex", lambda right, text, size: right(text.ljust(2 * size, b"0"), size)),
    "long hex is cut": planted("unhex", lambda right, text, size: right(text[: 2 * size], size)),
    "a short card is filled": card(lambda digits: digits.rjust(16, b"0")),
    "a long card is cut": card(lambda digits: digits[:16]),
    "a CR before LF is dropped": made_over("cut_lines", lambda data: data.replace(b"\r\n", b"\n")),
    "an unended line counts": made_over("cut_lines", lambda data: re.sub(rb"(?<=[^\n])\Z", b"\n", data)),
    "empty lines are skipped": made_over("cut_lines", lambda data: re.sub(rb"\n+", b"\n", data.lstrip(b"\n"))),
    "an over-long line is several": made_over("cut_lines", lambda data: re.sub(rb"([^\n]{2047})(?=[^\n])", rb"\1\n", data)),
    "what follows 2048 bytes is a line": made_over("cut_lines", lambda data: re.sub(rb"(?m)^[^\n]{2048}(?=[^\n])", b"", data)),
    "fields after the fifth are ignored": made_over("record", lambda line: b"\t".join(line.split(b"\t")[:5])),
    "fields of line 1 after the fourth are ignored": made_over("header", lambda line: b"\t".join(line.split(b"\t")[:4])),
    "tabs around and beside each other are one": made_over("record", lambda line: re.sub(rb"\t+", b"\t", line.strip(b"\t"))),
    "blanks part fields": made_over("record", lambda line: line.replace(b" ", b"\t")),
    "KES is kes": made_over("header", lambda line: re.sub(rb"\AKES\b", b"kes", line)),
    "KES2 is kes2": words(lambda word: word.lower() if word == b"KES2" else word),
    "kes22 is kes2": words(lambda word: word[:4]),
    "kes1 is kes": words(lambda word: b"kes" if word == b"kes1" else word),
    "kes3 is kes2": words(lambda word: b"kes2" if word == b"kes3" else word),
    "kes 2 is kes2": words(lambda word: word.replace(b" ", b"")),
    "kes2 is unknown": words(lambda word: b"" if word == b"kes2" else word),
    "kes2 needs four fields": made_over("header", lambda line: b"" if re.fullmatch(rb"kes2\t[^\t]*", line) else line),
    "kes2 is judged by the old text": patch.dict(journal.GAPS, {b"kes2": b""}),
    "kes is judged by the new text": patch.dict(journal.GAPS, {b"kes": b"\t"}),
    "a blank stands between": patch.dict(journal.GAPS, {b"kes2": b" "}),
    "one tab is left out": tabbed(lambda signed: b"".join(signed.rsplit(b"\t", 1))),
    "a tab stands before the card": tabbed(lambda signed: b"\t" + signed),
    "a tab stands after the amount": tabbed(lambda signed: signed + b"\t"),
    "leading zeros of the card are not signed": tabbed(lambda signed: signed.lstrip(b"0")),
    "the short header means heights 0 and 0": patch.dict(journal.SHORT_HEIGHTS, {b"kes": (0, 0)}),
    "the short kes2 header still means 6 and 6": patch.dict(journal.SHORT_HEIGHTS, {b"kes2": (6, 6)}),
    "the short kes header means 8 and 4": patch.dict(journal.SHORT_HEIGHTS, {b"kes": (8, 4)}),
    "the short kes2 header means 4 and 8": patch.dict(journal.SHORT_HEIGHTS, {b"kes2": (4, 8)}),
    "S before O": letters("SOB"),
    "B before S": letters("OBS"),
    "B before O": letters("BOS"),
    "no O": letters("SB"),
    "no S": letters("OB"),
    "no B": letters("OS"),
    "a line that is B counts": patch.object(journal.Judge, "counted", "GB"),
    "the same step is below": letters(below=operator.le),
    "a serial need only rise": letters(follows=operator.gt),
    "the first serial is any": letters(follows=lambda serial, last: last == 0 or serial == last + 1),
}
