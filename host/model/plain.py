"""The plain engine, written a second time from the text of requests 7 and 4, sharing no code: the other side of every comparison.

A table is grown from the leaves upwards, a level at a time. The calls take bytearrays and write to them as the ticket says, so that
what stands in them afterwards is part of the answer. Each rule is a method of its own: a test that plants an error overrides one.
"""
from kes import DONE, H, HEIGHT, LENGTH, LONGEST, PAST_END, SEED_OR_KEY, TOO_LONG, UNANSWERED, asking, cut, left, right, sum_size

HIGHEST = 8


def table_size(h):
    return 128 * 2**h - 32


class Plain:
    """The whole tree over a module's calls: public_key, sign."""

    def __init__(self, module):
        self.module = module

    def halves(self, seed):
        return left(seed), right(seed)

    def secrets(self, seed, h):
        """Each leaf's, which is its seed."""
        seeds = [seed]
        for _ in range(h):
            seeds = [half for one in seeds for half in self.halves(one)]
        return seeds

    def levels(self, vks):
        """The hashes of each level, from the root."""
        found = [[H(vk) for vk in vks]]
        while len(found[0]) > 1:
            below = found[0]
            found.insert(0, [H(a + b) for a, b in zip(below[::2], below[1::2])])
        return found

    def laid(self, levels, secrets, vks):
        """All node hashes, level by level from the root, then each leaf's secret and vk."""
        return b"".join(sum(levels, [])) + b"".join(secret + vk for secret, vk in zip(secrets, vks))

    def spend(self, seed):
        """What filling leaves of the lent seed."""
        seed[:] = bytes(len(seed))

    def node(self, table, level, index):
        return bytes(table[32 * (2**level - 1 + index) :][:32])

    def pair(self, table, h, leaf):
        """Secret and vk."""
        return cut(table[32 * (2 ** (h + 1) - 1) + 64 * leaf :], 32, 32)

    def witnesses(self, table, h, leaf):
        """From the leaf upwards: of each pair of nodes the one that the path does not go through."""
        return [self.node(table, h - up, leaf >> up ^ 1) for up in range(h)]

    def misfit(self, h, table, out, size):
        """1, 4: of the calls that read."""
        if h > HIGHEST:
            return HEIGHT
        return LENGTH if len(table) != table_size(h) or len(out) != size(h) else DONE

    @asking(UNANSWERED)
    def fill(self, h, seed, table):
        """1, 2, 4, 9."""
        if h > HIGHEST:
            return HEIGHT
        if len(seed) != 32:
            return SEED_OR_KEY
        if len(table) != table_size(h):
            return LENGTH
        secrets = self.secrets(bytes(seed), h)
        vks = [self.module.public_key(secret) for secret in secrets]
        table[:] = self.laid(self.levels(vks), secrets, vks)
        self.spend(seed)
        return DONE

    def root(self, h, table, out):
        """1, 4."""
        number = self.misfit(h, table, out, lambda h: 32)
        if number == DONE:
            out[:] = self.node(table, 0, 0)
        return number

    def path(self, h, table, leaf, out):
        """1, 4, 6."""
        number = self.misfit(h, table, out, lambda h: 32 * h)
        if number != DONE:
            return number
        if leaf >= 2**h:
            return PAST_END
        out[:] = b"".join(self.witnesses(table, h, leaf))
        return DONE

    @asking(UNANSWERED)
    def sign(self, h, table, leaf, message, out):
        """1, 4, 7, 6, 9."""
        number = self.misfit(h, table, out, sum_size)
        if number != DONE:
            return number
        if len(message) > LONGEST:
            return TOO_LONG
        if leaf >= 2**h:
            return PAST_END
        secret, vk = self.pair(table, h, leaf)
        out[:] = vk + self.module.sign(secret, bytes(message)) + b"".join(self.witnesses(table, h, leaf))
        return DONE
