"""A desk in the model: its key, and the journal lines that it signs."""
from journal import message
from kes import signature_size, table_size


class Desk:
    def __init__(self, scheme, h1, h2, seed, word=b"kes"):
        self.scheme, self.heights, self.word = scheme, (h1, h2), word
        self.table, key = bytearray(table_size(h1, h2)), bytearray(32)
        scheme.make(h1, h2, bytearray(seed), self.table)
        scheme.read_key(self.table, key)
        scheme.free(self.table)
        self.key = key.hex().encode()
        self.header = b"%s\t%d\t%d\t%s" % (word, h1, h2, self.key)

    def signature(self, step, message):
        """By the fresh key, whose windows have released every step, moved to this one."""
        table, signature = bytearray(self.table), bytearray(signature_size(*self.heights))
        self.scheme.move(table, step)
        self.scheme.sign(table, message, signature)
        return signature.hex().encode()

    def line(self, step=0, card=b"1111222233334444", serial=1, amount=2500, at=None):
        """A record of these fields, numbers or text, signed as its journal's word has it, at its step or at another."""
        fields = [field if isinstance(field, bytes) else b"%d" % field for field in (step, card, serial, amount)]
        return b"\t".join([*fields, self.signature(step if at is None else at, message(self.word, *fields[1:]))])
