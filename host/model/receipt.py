"""A fair's certificate and its receipts, a second time from the text of docs/HOST.md, sharing no code with the example desk."""
import base64
import re

from fair import MOST, SIGNATURE
from journal import number, unhex
from kes import DONE, TALLEST, signature_size, steps


def short(data):
    """Base64url without padding."""
    return base64.urlsafe_b64encode(data).rstrip(b"=")


def unshort(text, size):
    """The bytes that a field in the short form, full length, writes, or None, also where the last character's spare bits are not zero."""
    if not re.fullmatch(rb"[A-Za-z0-9_-]{%d}" % len(short(bytes(size))), text):
        return None
    data = base64.urlsafe_b64decode(text + b"=" * (-len(text) % 4))
    return data if short(data) == text else None


def fields(line, count):
    """The fields of a line that has its LF, or as many empty ones."""
    found = line[:-1].split(b"\t")
    return found if line.endswith(b"\n") and len(found) == count else [b""] * count


def certificate_text(n, master):
    return b"fair\t%d\t%s" % (n, master.hex().encode())


def certificate_line(n, master, step, signature):
    return b"%s\t%d\t%s\n" % (certificate_text(n, master), step, short(signature))


def sale_message(key, desk_step, card, cents):
    return b"%s\t%d\t%s\t%d" % (key.hex().encode(), desk_step, card, cents)


def sale_line(desk_step, step, card, cents, signature):
    return b"%d\t%d\t%s\t%d\t%s\n" % (desk_step, step, card, cents, short(signature))


class Checker:
    """Checks under one desk's verification key, over the model of the key and that of the cache."""

    def __init__(self, scheme, fair, h1, h2, key):
        self.scheme, self.fair, self.heights, self.key = scheme, fair, (h1, h2), key

    def certificate(self, line):
        """N, the master key and the desk's step, if this desk certified them, or None."""
        word, n, master, step, signature = fields(line, 5)
        n, master, step = number(n, 1, MOST), unhex(master, 32), number(step, 0, steps(*self.heights) - 1)
        signature = unshort(signature, signature_size(*self.heights))
        if word != b"fair" or None in (n, master, step, signature):
            return None
        accepted = self.scheme.verify(*self.heights, self.key, step, certificate_text(n, master), signature) == DONE
        return (n, master, step) if accepted else None

    def sale(self, certificate, line):
        """The sale's step, card and cents, if it was made at this fair, or None."""
        desk_step, step, card, cents, signature = fields(line, 5)
        desk_step, step, cents = number(desk_step, 0, 2 ** (2 * TALLEST) - 1), number(step, 0, MOST - 1), number(cents, 1, 2_000_000)
        signature = unshort(signature, SIGNATURE)
        if None in (desk_step, step, cents, signature) or len(card) != 16 or not card.isdigit():
            return None
        n, master, certified = certificate
        message = sale_message(self.key, desk_step, card, cents)
        good = desk_step == certified and self.fair.verify(n, master, step, message, signature) == DONE
        return (step, card, cents) if good else None
