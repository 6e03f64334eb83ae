"""Document 01's "Errors that look right", and some that only hostile input shows, each planted in the model, so that tests can show
that a comparison notices it. Below them the same for the fair's cache, the plain engine and the card index."""
from cards import CARDS, Index, LAST_CARD, MOST_LINES
from fair import ENTRY, Fair, fits
from kes import DONE, HEIGHT, LENGTH, LIMITS, TABLE, ZEROS, Scheme, fit, numbers_in, read_header, seam, signature_size, split, steps
from plain import HIGHEST, Plain


class StepModulo(Scheme):
    """The verifier takes the step modulo T, where number 6 is due."""

    def judge(self, heights, key, step, message, signature):
        return super().judge(heights, key, step % steps(*heights) if fit(heights) else step, message, signature)


class SeedKept(Scheme):
    """The right seed stays after the path has gone right."""

    def spent(self, seed):
        return seed


class ChainOnce(Scheme):
    """A jumped-to child grows from the stored seed once, not once per parent step."""

    def chain(self, stored, parent_steps):
        return super().chain(stored, 1)


class FromTheRoot(Scheme):
    """Witnesses from the root down, in signing and in verifying."""

    def witnesses(self, tree, h, t):
        return super().witnesses(tree, h, t)[::-1]

    def climb(self, x, witnesses, t):
        return super().climb(x, witnesses[::-1], t)


class SecretKept(Scheme):
    """The parent leaf's secret stays until the next parent step."""

    def without_secret(self, tree, h):
        return tree


PLANTED = [StepModulo, SeedKept, ChainOnce, FromTheRoot, SecretKept]


class StepCut(Scheme):
    """A step is cut to 32 bits."""

    def asked_for(self, table, step, early):
        return super().asked_for(table, step % 2**32, early)

    def release(self, table, window, step):
        return super().release(table, window, step % 2**32)


class LengthFirst(Scheme):
    """Signing judges 4 before 7."""

    def sign(self, table, message, out):
        found = read_header(table)
        return LENGTH if found and len(out) != signature_size(*found[0]) else super().sign(table, message, out)


class SeedGone(Scheme):
    """A refused make zeroes the seed, too."""

    def make_with(self, heights, seed, table):
        answer = super().make_with(heights, seed, table)
        seed[:] = bytes(len(seed))
        return answer


class NextSeedGone(Scheme):
    """At a tree's last step no next seed is stored."""

    def seal(self, heights, t, tree, next_seed, below):
        return super().seal(heights, t, tree, ZEROS if t == 2 ** heights[0] - 1 else next_seed, below)


class BodyJudged(Scheme):
    """A table whose child leaf's secret and vk do not fit is refused with 3."""

    def sign(self, table, message, out):
        secret, vk = bytes(table[-64:-32]), bytes(table[-32:])
        return TABLE if read_header(table) and self.module.key_of(secret) != vk else super().sign(table, message, out)


class StayRefused(Scheme):
    """A catch-up to a step that is not later is refused with 5."""

    def catch_up(self, table, step):
        return self.move(table, step)


class StayCounts(Scheme):
    """A catch-up that stays counts 1."""

    def catch_up(self, table, step):
        number, count = super().catch_up(table, step)
        return number, max(count, int(number == DONE))


class StayWrites(Scheme):
    """A catch-up writes the step where it stays, too."""

    def catch_up(self, table, step):
        answer = super().catch_up(table, step)
        if answer == (DONE, 0):
            table[4:8] = step.to_bytes(4, "little")
        return answer


class OtherWindow(Scheme):
    """A release writes the other window's bytes."""

    def release(self, table, window, step):
        return super().release(table, window ^ 1 if window < 2 else window, step)


class OneWindow(Scheme):
    """One window is enough."""

    def released(self, table, step):
        return step <= max(numbers_in(table))


class Below(Scheme):
    """A window has to have released more than the step."""

    def released(self, table, step):
        return step < min(numbers_in(table))


class PastT(Scheme):
    """A release past T is done, as one of T."""

    def release(self, table, window, step):
        return super().release(table, window, min(step, steps(*read_header(table)[0]))) if read_header(table) else TABLE


class Lowers(Scheme):
    """A release may lower the number."""

    def release(self, table, window, step):
        if read_header(table) and window < 2 and step < numbers_in(table)[window]:
            table[8 + 4 * window : 12 + 4 * window] = step.to_bytes(4, "little")
            return DONE
        return super().release(table, window, step)


WINDOWS = [OtherWindow, OneWindow, Below, PastT, Lowers]

HOSTILE = [StepCut, LengthFirst, SeedGone, NextSeedGone, BodyJudged, StayRefused, StayCounts, StayWrites]


class ChainKept(Scheme):
    """A replaced middle tree goes on with the chain of the old one."""

    stored = None

    def moved_part(self, part, heights, a, b):
        if len(heights) == 3 and split(heights, a)[0] != split(heights, b)[0]:
            self.stored = seam(seam(part, heights)[3], heights[1:])[2]
        try:
            return super().moved_part(part, heights, a, b)
        finally:
            self.stored = None

    def chain_from(self, seed):
        return self.stored or super().chain_from(seed)


class RootsSwapped(Scheme):
    """The right tree's root stands before the middle's, in signing and in verifying."""

    def laid(self, sums, roots):
        return super().laid(sums, roots[::-1])

    def taken(self, signature, heights):
        sums, roots = super().taken(signature, heights)
        return sums, roots[::-1]


class MiddleSecretLeft(Scheme):
    """The middle leaf's secret stays."""

    def make_with(self, heights, seed, table):
        self.three = len(heights) == 3
        return super().make_with(heights, seed, table)

    def asked_for(self, table, step, early):
        self.three = table[2:3] == b"\2"
        return super().asked_for(table, step, early)

    def seal(self, heights, t, tree, next_seed, below):
        sealed, at = super().seal(heights, t, tree, next_seed, below), 96 * heights[0]
        return sealed[:at] + tree[at : at + 32] + sealed[at + 32 :] if self.three and len(heights) == 2 else sealed


class ThirdInByte1(Scheme):
    """The third height stands in byte 1, and the second in byte 3."""

    def swapped(self, table):
        return bytes([table[0], table[3], 2, table[1]]) + table[4:] if table[2:3] == b"\2" else table

    def header(self, *given):
        return self.swapped(super().header(*given))

    def found(self, table):
        return super().found(self.swapped(table))


class TooHighThree(Scheme):
    """Three trees may be as high as two."""

    def judge(self, heights, key, step, message, signature):
        number = super().judge(heights, key, step, message, signature)
        return LENGTH if number == HEIGHT and max(heights) <= LIMITS[2] else number


class MiddleNotChecked(Scheme):
    """The middle leaf's signature is not checked."""

    def leaves_accept(self, messages, sums):
        return super().leaves_accept(messages[::2], sums[::2]) if len(sums) == 3 else super().leaves_accept(messages, sums)


class MiddleUncounted(Scheme):
    """A new middle tree is not counted."""

    def count_moved(self, heights, a, b):
        new = len(heights) == 3 and split(heights, a)[0] != split(heights, b)[0]
        return super().count_moved(heights, a, b) - (self.count_new(heights[1]) if new else 0)


# the first four leave a key whose own signatures are accepted
TRIPLE = [ChainKept, RootsSwapped, MiddleSecretLeft, ThirdInByte1, TooHighThree, MiddleNotChecked, MiddleUncounted]


class TwoBytes(Fair):
    """The master signs i in two bytes."""

    def vouched(self, i, vk):
        return i.to_bytes(2, "little") + vk


class HighestFirst(Fair):
    """The master signs i highest byte first."""

    def vouched(self, i, vk):
        return i.to_bytes(4, "big") + vk


class KeyFirst(Fair):
    """The master signs vk, then i."""

    def vouched(self, i, vk):
        return super().vouched(i, vk)[4:] + super().vouched(i, vk)[:4]


class SecretAlone(Fair):
    """A move zeroes the secrets of entries alone."""

    def moved(self, body, now, step):
        entries = [body[at : at + 64] + ZEROS + body[at + 96 : at + ENTRY] for at in range(0, ENTRY * step, ENTRY)]
        return b"".join(entries) + body[ENTRY * step :]


class FromTheOldStep(Fair):
    """A move zeroes the entries from the old step on."""

    def moved(self, body, now, step):
        return body[: ENTRY * now] + super().moved(body, now, step)[ENTRY * now :]


class SeedsLeft(Fair):
    """Making leaves the lent seeds."""

    def spend(self, master, seeds):
        super().spend(master, bytearray(seeds))


class FairStepModulo(Fair):
    """The fair's verifier takes the step modulo N, where number 6 is due."""

    def verify(self, n, key, step, message, signature):
        return super().verify(n, key, step % n if fits(n) else step, message, signature)


FAIR = [TwoBytes, HighestFirst, KeyFirst, SecretAlone, FromTheOldStep, SeedsLeft, FairStepModulo]


class HalvesSwapped(Plain):
    """A plain tree grows its left half from the right seed, and its right half from the left."""

    def halves(self, seed):
        return super().halves(seed)[::-1]


class LeavesFirst(Plain):
    """A plain table begins with the level of the leaves."""

    def laid(self, levels, secrets, vks):
        return super().laid(levels[::-1], secrets, vks)


class KeyBeforeSecret(Plain):
    """A plain table has a leaf's vk before its secret."""

    def laid(self, levels, secrets, vks):
        return super().laid(levels, vks, secrets)


class PlainSeedLeft(Plain):
    """Filling leaves the seed."""

    def spend(self, seed):
        pass


class OwnHash(Plain):
    """A witness is the hash of the node on the path."""

    def node(self, table, level, index):
        return super().node(table, level, index ^ 1 if level else index)


class NotHalved(Plain):
    """Each level is read at the leaf's own index."""

    def witnesses(self, table, h, leaf):
        return [self.node(table, h - up, leaf ^ 1) for up in range(h)]


class WitnessesDown(Plain):
    """Witnesses come from the root down."""

    def witnesses(self, table, h, leaf):
        return super().witnesses(table, h, leaf)[::-1]


class LeafZero(Plain):
    """Every leaf signs with the secret of leaf 0."""

    def pair(self, table, h, leaf):
        return super().pair(table, h, 0)[:1] + super().pair(table, h, leaf)[1:]


class LeafModulo(Plain):
    """A leaf is taken modulo 2^h, where number 6 is due."""

    def path(self, h, table, leaf, out):
        return super().path(h, table, leaf % 2**h if h <= HIGHEST else leaf, out)


class TooHigh(Plain):
    """A height of 9 is told as a wrong length."""

    def misfit(self, h, table, out, size):
        return LENGTH if h == HIGHEST + 1 else super().misfit(h, table, out, size)


PLAIN = [HalvesSwapped, LeavesFirst, KeyBeforeSecret, PlainSeedLeft, OwnHash, NotHalved, WitnessesDown, LeafZero, LeafModulo, TooHigh]


class RangeFirst(Index):
    """A line out of range is refused 14 before a damaged index 3."""

    def refused(self, table, held, fits):
        return super().refused(table, held if fits or len(table) != CARDS else 0, fits)


class RisingLoosely(Index):
    """A card may be held twice."""

    def strictly_rising(self, cards):
        return all(a <= b for a, b in zip(cards, cards[1:]))


class CardPastLast(Index):
    """A card of 17 digits is in range."""

    def in_range(self, card, cents):
        return super().in_range(min(card, LAST_CARD), cents)


class FullForAll(Index):
    """A full index refuses a card that it holds."""

    def enter(self, table, held, card, cents):
        number, now, after = super().enter(table, held, card, cents)
        return (13, 0, table) if number == DONE and held == CARDS else (number, now, after)


class CountOneLess(Index):
    """15 is given at a count of 4,294,967,294."""

    def enter(self, table, held, card, cents):
        number, now, after = super().enter(table, held, card, cents)
        counts = [count for c, count, _ in after[:now] if c == card]
        return (15, 0, table) if number == DONE and counts == [MOST_LINES] else (number, now, after)


class AtTheEnd(Index):
    """A new card goes behind all others."""

    def noted(self, in_use, card, cents):
        return super().noted(in_use, card, cents) if card in [c for c, _, _ in in_use] else [*in_use, (card, 1, cents)]


class CentsKept(Index):
    """The cents of a line more are not added."""

    def noted(self, in_use, card, cents):
        sums = {c: total for c, _, total in in_use}
        return [(c, count, sums.get(c, total)) for c, count, total in super().noted(in_use, card, cents)]


INDEX = [RangeFirst, RisingLoosely, CardPastLast, FullForAll, CountOneLess, AtTheEnd, CentsKept]
