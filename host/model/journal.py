"""The top-up journal, judged a second time from the text of document 01 and of requests 2 and 10, sharing no code."""
import functools
import re

from kes import DONE, TALLEST, signature_size, steps

LONGEST_LINE = 2048
LAST_LINE = 2**32 - 1
# the heights that the short form means, by the word of line 1
SHORT_HEIGHTS = {b"kes": (6, 6), b"kes2": (8, 4)}
# what stands between card, serial and amount where they are signed, by the word of line 1
GAPS = {b"kes": b"", b"kes2": b"\t"}


def number(text, low, high):
    """The number that a field writes, without leading zeros and in its range, or None."""
    if not re.fullmatch(rb"0|[1-9][0-9]*", text) or len(text) > 20:
        return None
    value = int(text)
    return value if low <= value <= high else None


def unhex(text, size):
    """The bytes that a field of lower-case hex, full length, writes, or None."""
    return bytes.fromhex(text.decode()) if re.fullmatch(rb"[0-9a-f]{%d}" % (2 * size), text) else None


def cut_lines(data):
    """The lines: bytes without their LF, or None for one that is over-long or unended."""
    *ended, last = data.split(b"\n")
    lines = [line if len(line) < LONGEST_LINE else None for line in ended]
    return lines + [None] if last else lines


def header(line):
    """Word, heights and verification key of line 1, or None."""
    fields = line.split(b"\t") if line is not None else []
    if len(fields) not in (2, 4) or fields[0] not in GAPS:
        return None
    heights = SHORT_HEIGHTS[fields[0]] if len(fields) == 2 else tuple(number(field, 0, TALLEST) for field in fields[1:3])
    key = unhex(fields[-1], 32)
    return None if None in heights or key is None else (fields[0], *heights, key)


def message(word, card, serial, amount):
    """What is signed of a record's fields below this word."""
    return GAPS[word].join([card, serial, amount])


def record(line, word, h1, h2):
    """Step, serial, amount, signed message and signature of a later line, or None."""
    fields = line.split(b"\t") if line is not None else []
    if len(fields) != 5:
        return None
    step, card, serial, amount, signature = fields
    found = (number(step, 0, steps(h1, h2) - 1), number(serial, 1, 2**32 - 1), number(amount, 1, 2_000_000), message(word, card, serial, amount),
             unhex(signature, signature_size(h1, h2)))
    return found if re.fullmatch(rb"[0-9]{16}", card) and None not in found else None


class Judge:
    """Judges journals with a scheme."""

    # the letters of lines whose step, serial and cents count
    counted = "G"

    def __init__(self, scheme):
        # a fixed function of its input, so no verdict is worked out twice
        self.verify = functools.lru_cache(maxsize=2**12)(scheme.verify)

    def output(self, data, first=2):
        """What is written of a journal, whose later lines begin at number first."""
        lines = cut_lines(data)
        head = header(lines[0]) if lines else None
        if head is None:
            return b"1\tH\n"
        word, h1, h2, _ = head
        last_step = last_serial = count = cents = 0
        out = []
        for n, line in zip(range(first, LAST_LINE + 1), lines[1:]):
            found = record(line, word, h1, h2)
            letter = self.letter(head, found, last_step, last_serial)
            if letter in self.counted:
                last_step, last_serial, count, cents = found[0], found[1], count + 1, cents + found[2]
            out.append(f"{n}\t{letter}\n")
        return "".join(out + [f"total\t{count}\t{cents}\n"]).encode()

    def letter(self, head, found, last_step, last_serial):
        """The first that applies: M, O, S, B, G."""
        if found is None:
            return "M"
        step, serial, _, signed, signature = found
        if step < last_step:
            return "O"
        if serial != last_serial + 1:
            return "S"
        _, h1, h2, key = head
        return "G" if self.verify(h1, h2, key, step, signed, signature) == DONE else "B"
