"""The evolving key, written a second time from the text of document 01 and requests 1, 4, 8 and 11, sharing no code: the other side of every comparison.

Inside, a tree, a signature and a table are bytes, and a key is a list of heights, two or three. The calls take bytearrays and write to
them as 01 says, so that what stands in them afterwards is part of the answer. Each rule is a method of its own: a test that plants an
error overrides one.
"""
import functools
import hashlib

DONE, HEIGHT, SEED_OR_KEY, TABLE, LENGTH, NOT_LATER, PAST_END, TOO_LONG, ENTRIES, UNANSWERED, WINDOW, LOWERED, NOT_RELEASED = range(13)
FULL, CARD_OR_AMOUNT, COUNT_FULL = 13, 14, 15
NOT_ACCEPTED = 100

# the limit of heights, by how many trees there are: 01, and request 11
TALLEST, TALLEST3 = 12, 8
LIMITS = {2: TALLEST, 3: TALLEST3}
LONGEST = 4096
ZEROS = bytes(32)
# request 8
HEADER = 16


def H(data):
    return hashlib.blake2b(data, digest_size=32).digest()


def left(seed):
    """Rule 1."""
    return H(b"\0" + seed)


def right(seed):
    """Rule 1."""
    return H(b"\1" + seed)


def highest_difference(a, b):
    """Rule 5: the highest bit in which two steps differ."""
    return (a ^ b).bit_length() - 1


def tree_size(h):
    return 96 * h + 64


def sum_size(h):
    """Rule 6."""
    return 96 + 32 * h


def steps(*heights):
    """Rule 7, and request 11: T."""
    return 2 ** sum(heights)


def split(heights, t):
    """Rule 7, and t = i Tj Tk + j Tk + k of request 11: the top tree's step, and the step of what is below."""
    return divmod(t, steps(*heights[1:]))


def steps_of(heights, t):
    """The step of each tree."""
    if len(heights) == 1:
        return [t]
    i, inner = split(heights, t)
    return [i, *steps_of(heights[1:], inner)]


def signature_size(*heights):
    """Rule 8, and request 11: the sum signatures, then the roots below the top one."""
    return sum(map(sum_size, heights)) + 32 * (len(heights) - 1)


def part_size(*heights):
    """The trees, and behind each but the last its sum signature and the next seed."""
    return sum(tree_size(h) + sum_size(h) + 32 for h in heights[:-1]) + tree_size(heights[-1])


def table_size(*heights):
    return HEADER + part_size(*heights)


def fit(heights):
    return max(heights) <= LIMITS[len(heights)]


def header(heights, step, *numbers):
    """Requests 8 and 11: step, and for window 0 and 1 the first step that it still needs; where none are given, both have released all."""
    h1, h2, *third = heights
    numbers = numbers or (steps(*heights), steps(*heights))
    return bytes([h1, h2, 2, *third] if third else [h1, h2, 1, 0]) + b"".join(n.to_bytes(4, "little") for n in (step, *numbers))


def numbers_in(table):
    """The windows' numbers."""
    return [int.from_bytes(table[at : at + 4], "little") for at in (8, 12)]


def heights_in(table):
    """Byte 2 says how many trees there are: two and byte 3 zero, or three and byte 3 the third height. None where it says neither."""
    h1, h2, kind, third = table[:4]
    heights = (h1, h2, third) if kind == 2 else (h1, h2) if (kind, third) == (1, 0) else None
    return heights if heights and fit(heights) else None


def read_header(table):
    """The heights and the step, or None where the number is 3."""
    heights = heights_in(table) if len(table) >= HEADER else None
    if heights is None or len(table) != table_size(*heights):
        return None
    step = int.from_bytes(table[4:8], "little")
    return (heights, step) if step < steps(*heights) and max(numbers_in(table)) <= steps(*heights) else None


def cut(data, *sizes):
    """data in parts of these sizes, one after the other."""
    parts = []
    for size in sizes:
        parts.append(bytes(data[:size]))
        data = data[size:]
    return parts


def seam(part, heights):
    """The top tree of a part, its sum signature, the next seed, and the part below."""
    return cut(part, tree_size(heights[0]), sum_size(heights[0]), 32, part_size(*heights[1:]))


def hash_call(message, out):
    """BLAKE2b as a caller has it: 7, 4."""
    if len(message) > LONGEST:
        return TOO_LONG
    if len(out) != 32:
        return LENGTH
    out[:] = H(message)
    return DONE


class Silent(Exception):
    """A module call that was not answered."""


class Module:
    """Request 4: the outside calls of ed in a module that can drop out. A public key and a signature are asked for at the tally, which is
    then one more; answered says of each number whether the call made at it is answered. Verification always answers."""

    def __init__(self, ed, answered=lambda number: True, tally=0):
        self.ed, self.answered, self.tally = ed, answered, tally
        # a fixed function of its input, so a key pair need not be made twice
        self.key_of = functools.lru_cache(maxsize=2**16)(ed.public_key)

    def ask(self):
        number, self.tally = self.tally, (self.tally + 1) % 2**64
        if not self.answered(number):
            raise Silent

    def public_key(self, secret):
        self.ask()
        return self.key_of(secret)

    def sign(self, secret, message):
        self.ask()
        return self.ed.sign(secret, message)

    def verify(self, key, message, signature):
        return self.ed.verify(key, message, signature)


def asking(silence):
    """A call that asks the module, and ends with this answer at the first silence. It writes when it has asked for the last time."""

    def over(call):
        @functools.wraps(call)
        def asked(*lent):
            try:
                return call(*lent)
            except Silent:
                return silence

        return asked

    return over


class Scheme:
    """The scheme over a module's calls: public_key, sign, verify."""

    def __init__(self, module):
        self.module = module

    # One tree: rules 2 to 6.

    def leaf(self, seed):
        """Rule 2: the leaf's secret is the seed, vk its public key."""
        return seed + self.module.public_key(seed)

    def subtree_hash(self, seed, h):
        """Rule 3."""
        if h == 0:
            return H(self.module.public_key(seed))
        return H(self.subtree_hash(left(seed), h - 1) + self.subtree_hash(right(seed), h - 1))

    def spent(self, seed):
        """Rule 4: what stands in a right seed's place once the path goes right."""
        return ZEROS

    def tree_at(self, seed, h, t):
        """Rule 4: the tree at step t, root first. Each leaf's key is asked for once."""
        if h == 0:
            return self.leaf(seed)
        goes_right, below = divmod(t, 2 ** (h - 1))
        path = self.tree_at(right(seed) if goes_right else left(seed), h - 1, below)
        inside, beside = self.root(path, h - 1), self.subtree_hash(left(seed) if goes_right else right(seed), h - 1)
        if goes_right:
            return self.spent(right(seed)) + beside + inside + path
        return right(seed) + inside + beside + path

    def root(self, tree, h):
        """Rule 3, as stored: from the top level's two hashes, at height 0 from vk."""
        return H(tree[32:64]) if h == 0 else H(tree[32:96])

    def moved(self, tree, h, a, b):
        """Rule 5: the tree at step a, whatever its bytes, moved forward to step b."""
        bit = highest_difference(a, b)
        above, seed, hashes = cut(tree, 96 * (h - 1 - bit), 32, 64)
        return above + self.spent(seed) + hashes + self.tree_at(seed, bit, b % 2**bit)

    def witnesses(self, tree, h, t):
        """Rule 6, as stored: from the leaf upwards, the left hash where the path goes right, else the right hash."""
        found = []
        for bit in range(h):
            _, left_hash, right_hash = cut(tree[96 * (h - 1 - bit) :], 32, 32, 32)
            found.append(left_hash if t >> bit & 1 else right_hash)
        return found

    def sum_signature(self, tree, h, t, message):
        """Rule 6."""
        secret, vk = cut(tree[96 * h :], 32, 32)
        return vk + self.module.sign(secret, message) + b"".join(self.witnesses(tree, h, t))

    def climb(self, x, witnesses, t):
        """Rule 6: x on the left where that bit of t is 0, lowest bit first."""
        for bit, witness in enumerate(witnesses):
            x = H(witness + x) if t >> bit & 1 else H(x + witness)
        return x

    def sum_verdict(self, root, h, t, message, signature):
        """Rule 6: the path fits, and Ed25519 says yes."""
        return self.path_fits(root, h, t, signature) and self.leaf_accepts(message, signature)

    def path_fits(self, root, h, t, signature):
        vk, _, *witnesses = cut(signature, 32, 64, *[32] * h)
        return self.climb(H(vk), witnesses, t) == root

    def leaf_accepts(self, message, signature):
        return self.module.verify(signature[:32], message, signature[32:96])

    def count_new(self, h):
        return 2**h

    def count_move(self, a, b):
        """Entering the right half of a subtree of height k grows 2^(k-1); then the move inside that half."""
        if a == b:
            return 0
        k = highest_difference(a, b) + 1
        return 2 ** (k - 1) + self.count_move(0, b % 2 ** (k - 1))

    # A part of the key, of one tree or more: rules 7 and 8, and request 11 by the same rules at each seam.

    def chain(self, stored, parent_steps):
        """Rule 7: the seed of what is below and the seed that is then stored, after so many steps of the tree above."""
        for _ in range(parent_steps):
            child, stored = left(stored), right(stored)
        return child, stored

    def without_secret(self, tree, h):
        """Rule 7: the leaf's secret made zero."""
        levels, _, vk = cut(tree, 96 * h, 32, 32)
        return levels + ZEROS + vk

    def seal(self, heights, t, tree, next_seed, below):
        """Rule 7: the leaf signs the root of what is below, and its secret goes."""
        signature = self.sum_signature(tree, heights[0], t, self.root(below, heights[1]))
        return self.without_secret(tree, heights[0]) + signature + next_seed + below

    def chain_from(self, seed):
        """Rule 7, and request 11 of a replaced middle tree: where the chain below a new tree begins."""
        return right(seed)

    def part_at(self, seed, heights, t):
        """The part that grows from a seed, at step t: its tree from the left of the seed."""
        if len(heights) == 1:
            return self.tree_at(seed, heights[0], t)
        i, inner = split(heights, t)
        child_seed, next_seed = self.chain(self.chain_from(seed), i + 1)
        tree, below = self.tree_at(left(seed), heights[0], i), self.part_at(child_seed, heights[1:], inner)
        return self.seal(heights, i, tree, next_seed, below)

    def moved_part(self, part, heights, a, b):
        """Moved forward, whatever its bytes. Where the top tree's step stays, so does all of its seam."""
        if len(heights) == 1:
            return self.moved(part, heights[0], a, b)
        (i, inner), (new_i, new_inner) = split(heights, a), split(heights, b)
        tree, signature, stored, below = seam(part, heights)
        if i == new_i:
            return tree + signature + stored + self.moved_part(below, heights[1:], inner, new_inner)
        return self.crossed(heights, tree, i, new_i, stored, new_inner)

    def crossed(self, heights, tree, i, new_i, stored, inner):
        """The top tree moves, and what is below grows anew, at its step."""
        child_seed, next_seed = self.chain(stored, new_i - i)
        tree, below = self.moved(tree, heights[0], i, new_i), self.part_at(child_seed, heights[1:], inner)
        return self.seal(heights, new_i, tree, next_seed, below)

    def count_grown(self, heights, t):
        """A new part at step t: each tree new, and moved."""
        if len(heights) == 1:
            return self.count_new(heights[0]) + self.count_move(0, t)
        i, inner = split(heights, t)
        return self.count_new(heights[0]) + self.count_move(0, i) + self.count_grown(heights[1:], inner)

    def count_moved(self, heights, a, b):
        if len(heights) == 1:
            return self.count_move(a, b)
        (i, inner), (new_i, new_inner) = split(heights, a), split(heights, b)
        if i == new_i:
            return self.count_moved(heights[1:], inner, new_inner)
        return self.count_move(i, new_i) + self.count_grown(heights[1:], new_inner)

    def signed(self, part, heights, t, message):
        """Rule 8: the sum signatures, the stored ones and the last tree's over the message; and the roots below the top one."""
        if len(heights) == 1:
            return [self.sum_signature(part, heights[0], t, message)], []
        _, signature, _, below = seam(part, heights)
        sums, roots = self.signed(below, heights[1:], split(heights, t)[1], message)
        return [signature, *sums], [self.root(below, heights[1]), *roots]

    def laid(self, sums, roots):
        """Rule 8, and request 11."""
        return b"".join(sums + roots)

    def taken(self, signature, heights):
        """The same, taken apart."""
        cuts = cut(signature, *map(sum_size, heights), *[32] * (len(heights) - 1))
        return cuts[: len(heights)], cuts[len(heights) :]

    def product_verdict(self, heights, key, step, message, signature):
        """Rule 8: each tree's signature, at its step, under the root that the one above signed, over the root of the one below; the last
        over the message. Paths come first: a bad one should cost no Ed25519 check."""
        sums, roots = self.taken(signature, heights)
        fits = all(self.path_fits(*path) for path in zip([key, *roots], heights, steps_of(heights, step), sums))
        return fits and self.leaves_accept([*roots, message], sums)

    def leaves_accept(self, messages, sums):
        return all(self.leaf_accepts(*leaf) for leaf in zip(messages, sums))

    # The calls.

    def header(self, *given):
        return header(*given)

    def found(self, table):
        """Requests 8 and 11, as read."""
        return read_header(table)

    def make(self, h1, h2, seed, table):
        return self.make_with((h1, h2), seed, table)

    def make3(self, h1, h2, h3, seed, table):
        return self.make_with((h1, h2, h3), seed, table)

    @asking((UNANSWERED, 0))
    def make_with(self, heights, seed, table):
        """1, 2, 4, 9. Answers the number and the count; a made key zeroes the lent seed."""
        if not fit(heights):
            return HEIGHT, 0
        if len(seed) != 32:
            return SEED_OR_KEY, 0
        if len(table) != table_size(*heights):
            return LENGTH, 0
        table[:] = self.header(heights, 0, 0, 0) + self.part_at(bytes(seed), heights, 0)
        seed[:] = ZEROS
        return DONE, self.count_grown(heights, 0)

    def read_key(self, table, key):
        """3, 4. The verification key is the top tree's root."""
        found = self.found(table)
        if found is None:
            return TABLE
        if len(key) != 32:
            return LENGTH
        key[:] = self.root(bytes(table[HEADER:]), found[0][0])
        return DONE

    @asking((UNANSWERED, 0))
    def move(self, table, step):
        """3, 6, 5, 12, 9. Answers the number and the count."""
        return self.asked_for(table, step, NOT_LATER)

    @asking((UNANSWERED, 0))
    def catch_up(self, table, step):
        """Request 1: 3, 6, 12, 9; a step that is not later is done with count 0, and the table stays."""
        return self.asked_for(table, step, DONE)

    def asked_for(self, table, step, early):
        """Both, up to the number that a step gets which is not later."""
        found = self.found(table)
        if found is None:
            return TABLE, 0
        heights, now = found
        if step >= steps(*heights):
            return PAST_END, 0
        if step <= now:
            return early, 0
        if not self.released(table, step):
            return NOT_RELEASED, 0
        table[:] = self.header(heights, step, *numbers_in(table)) + self.moved_part(bytes(table[HEADER:]), heights, now, step)
        return DONE, self.count_moved(heights, now, step)

    def released(self, table, step):
        """Request 8: both windows' numbers are at the step or above."""
        return step <= min(numbers_in(table))

    def release(self, table, window, step):
        """Request 8: 3, 10, 11. Sets the window's number in its four bytes, at most T and never lower than it stood."""
        found = self.found(table)
        if found is None:
            return TABLE
        if window > 1:
            return WINDOW
        if step < numbers_in(table)[window] or step > steps(*found[0]):
            return LOWERED
        at = 8 + 4 * window
        table[at : at + 4] = step.to_bytes(4, "little")
        return DONE

    def free(self, table):
        """Both windows release all, as a desk with none of them does."""
        for window in (0, 1):
            self.release(table, window, steps(*self.found(table)[0]))

    @asking(UNANSWERED)
    def sign(self, table, message, out):
        """3, 7, 4, 9."""
        found = self.found(table)
        if found is None:
            return TABLE
        if len(message) > LONGEST:
            return TOO_LONG
        heights, step = found
        if len(out) != signature_size(*heights):
            return LENGTH
        out[:] = self.laid(*self.signed(bytes(table[HEADER:]), heights, step, bytes(message)))
        return DONE

    def verify(self, h1, h2, key, step, message, signature):
        return self.judge((h1, h2), key, step, message, signature)

    def verify3(self, h1, h2, h3, key, step, message, signature):
        return self.judge((h1, h2, h3), key, step, message, signature)

    def judge(self, heights, key, step, message, signature):
        """1, 2, 4, 7, 6; then 0 or 100."""
        if not fit(heights):
            return HEIGHT
        if len(key) != 32:
            return SEED_OR_KEY
        if len(signature) != signature_size(*heights):
            return LENGTH
        if len(message) > LONGEST:
            return TOO_LONG
        if step >= steps(*heights):
            return PAST_END
        return DONE if self.product_verdict(heights, key, step, bytes(message), signature) else NOT_ACCEPTED
