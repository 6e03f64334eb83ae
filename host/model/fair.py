"""The fair-day cache, written a second time from the text of requests 3 and 4, sharing no code: the other side of every comparison.

The calls take bytearrays and write to them as the ticket says, so that what stands in them afterwards is part of the answer.
Each rule is a method of its own: a test that plants an error overrides one.
"""
from kes import DONE, ENTRIES, LENGTH, LONGEST, NOT_ACCEPTED, NOT_LATER, PAST_END, SEED_OR_KEY, TABLE, TOO_LONG, UNANSWERED, asking, cut

MOST = 256
ENTRY = 128
SIGNATURE = 160


def fits(n):
    return 1 <= n <= MOST


def cache_size(n):
    return 4 + ENTRY * n


def header(n, step):
    return n.to_bytes(2, "little") + step.to_bytes(2, "little")


def read_header(cache):
    """N and the present step, or None where the number is 3."""
    if len(cache) < 4:
        return None
    n, step = (int.from_bytes(part, "little") for part in cut(cache, 2, 2))
    if not fits(n) or step >= n or len(cache) != cache_size(n):
        return None
    return n, step


def entry_at(cache, step):
    """The master's signature, the secret and vk."""
    return cut(cache[4 + ENTRY * step :], 64, 32, 32)


class Fair:
    """The linear scheme over a module's calls: public_key, sign, verify."""

    def __init__(self, module):
        self.module = module

    def vouched(self, i, vk):
        """What the master signs for entry i."""
        return i.to_bytes(4, "little") + vk

    def entry(self, master, i, seed):
        vk = self.module.public_key(seed)
        return self.module.sign(master, self.vouched(i, vk)) + seed + vk

    def made(self, master, seeds):
        """The body of a fresh cache."""
        return b"".join(self.entry(master, i, seed) for i, seed in enumerate(seeds))

    def spend(self, master, seeds):
        """What making leaves of the lent seeds."""
        master[:] = bytes(len(master))
        seeds[:] = bytes(len(seeds))

    @asking(UNANSWERED)
    def make(self, n, master, seeds, cache, key):
        """8, 2, 4, 9."""
        if not fits(n):
            return ENTRIES
        if len(master) != 32 or len(seeds) != 32 * n:
            return SEED_OR_KEY
        if len(cache) != cache_size(n) or len(key) != 32:
            return LENGTH
        known = self.module.public_key(bytes(master))
        cache[:] = header(n, 0) + self.made(bytes(master), cut(seeds, *[32] * n))
        key[:] = known
        self.spend(master, seeds)
        return DONE

    def moved(self, body, now, step):
        """The entries after a move: those below the new step are zeros."""
        return bytes(ENTRY * step) + body[ENTRY * step :]

    def move(self, cache, step):
        """3, 6, 5."""
        found = read_header(cache)
        if found is None:
            return TABLE
        n, now = found
        if step >= n:
            return PAST_END
        if step <= now:
            return NOT_LATER
        cache[:] = header(n, step) + self.moved(bytes(cache[4:]), now, step)
        return DONE

    @asking(UNANSWERED)
    def sign(self, cache, message, out):
        """3, 7, 4, 9."""
        found = read_header(cache)
        if found is None:
            return TABLE
        if len(message) > LONGEST:
            return TOO_LONG
        if len(out) != SIGNATURE:
            return LENGTH
        masters, secret, vk = entry_at(cache, found[1])
        out[:] = masters + vk + self.module.sign(secret, bytes(message))
        return DONE

    def verify(self, n, key, step, message, signature):
        """8, 2, 4, 7, 6; then 0 or 100."""
        if not fits(n):
            return ENTRIES
        if len(key) != 32:
            return SEED_OR_KEY
        if len(signature) != SIGNATURE:
            return LENGTH
        if len(message) > LONGEST:
            return TOO_LONG
        if step >= n:
            return PAST_END
        return DONE if self.verdict(bytes(key), step, bytes(message), signature) else NOT_ACCEPTED

    def verdict(self, key, step, message, signature):
        """Figure 6.1: the master's over the step and vk, then vk's over the message."""
        masters, vk, last = cut(signature, 64, 32, 64)
        return self.module.verify(key, self.vouched(step, vk), masters) and self.module.verify(vk, message, last)
