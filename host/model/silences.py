"""Errors in what a call does of which the module does not answer all, each planted in the model, so that tests can show that a
comparison notices it. Below them the same for the fair's cache and the plain engine."""
from fair import Fair
from kes import DONE, ENTRIES, HEADER, UNANSWERED, ZEROS, Scheme, Silent
from plain import Plain


class TallyLeft(Scheme):
    """A call that is not answered leaves the tally."""

    def sign(self, table, message, out):
        tally, number = self.module.tally, super().sign(table, message, out)
        self.module.tally = tally if number == UNANSWERED else self.module.tally
        return number


class GoesOn(Scheme):
    """A make asks on after a silence."""

    def make_with(self, heights, seed, table):
        tally, answer = self.module.tally, super().make_with(heights, seed, table)
        if answer[0] == UNANSWERED:
            self.module.tally = (tally + self.count_grown(heights, 0) + len(heights) - 1) % 2**64
        return answer


class KeyTwice(Scheme):
    """The key of the leaf at the path's end is asked for twice."""

    def leaf(self, seed):
        self.module.public_key(seed)
        return super().leaf(seed)


class SilenceWritten(Scheme):
    """A signature that was not given is written out as zeros."""

    def sum_signature(self, tree, h, t, message):
        try:
            return super().sum_signature(tree, h, t, message)
        except Silent:
            return tree[96 * h + 32 :] + bytes(64) + b"".join(self.witnesses(tree, h, t))


class ClearedBySilence(Scheme):
    """A move that is not answered clears the table behind its header."""

    def move(self, table, step):
        answer = super().move(table, step)
        if answer[0] == UNANSWERED:
            table[HEADER:] = bytes(len(table) - HEADER)
        return answer


class SeedGoneBySilence(Scheme):
    """A make that is not answered zeroes the seed."""

    def make_with(self, heights, seed, table):
        answer = super().make_with(heights, seed, table)
        if answer[0] == UNANSWERED:
            seed[:] = ZEROS
        return answer


class NineForNothing(Scheme):
    """A make whose last number is the one before a silence gives 9."""

    def make_with(self, heights, seed, table):
        kept, answer = (bytes(seed), bytes(table)), super().make_with(heights, seed, table)
        if answer[0] == DONE and not self.module.answered(self.module.tally):
            seed[:], table[:] = kept
            return UNANSWERED, 0
        return answer


class NineAsEight(Scheme):
    """A move that is not answered gives 8."""

    def move(self, table, step):
        answer = super().move(table, step)
        return (ENTRIES, 0) if answer[0] == UNANSWERED else answer


SILENCES = [TallyLeft, GoesOn, KeyTwice, SilenceWritten, ClearedBySilence, SeedGoneBySilence, NineForNothing, NineAsEight]


class FairGoesOn(Fair):
    """Making a cache asks on after a silence."""

    def make(self, n, *lent):
        tally, number = self.module.tally, super().make(n, *lent)
        if number == UNANSWERED:
            self.module.tally = (tally + 2 * n + 1) % 2**64
        return number


class MasterGoneBySilence(Fair):
    """Making a cache that is not answered zeroes the master seed."""

    def make(self, n, master, *lent):
        number = super().make(n, master, *lent)
        if number == UNANSWERED:
            master[:] = ZEROS
        return number


class SaleWritten(Fair):
    """A sale that was not signed is written out as zeros."""

    def sign(self, cache, message, out):
        number = super().sign(cache, message, out)
        if number == UNANSWERED:
            out[96:] = bytes(64)
        return number


FAIR_SILENCES = [FairGoesOn, MasterGoneBySilence, SaleWritten]


class FillGoesOn(Plain):
    """Filling asks on after a silence."""

    def fill(self, h, *lent):
        tally, number = self.module.tally, super().fill(h, *lent)
        if number == UNANSWERED:
            self.module.tally = (tally + 2**h) % 2**64
        return number


class TableGoneBySilence(Plain):
    """Filling that is not answered clears the table."""

    def fill(self, h, seed, table):
        number = super().fill(h, seed, table)
        if number == UNANSWERED:
            table[:] = bytes(len(table))
        return number


class LessonWritten(Plain):
    """A leaf's signature that was not given is written out as zeros."""

    def sign(self, h, table, leaf, message, out):
        number = super().sign(h, table, leaf, message, out)
        if number == UNANSWERED:
            out[32:96] = bytes(64)
        return number


PLAIN_SILENCES = [FillGoesOn, TableGoneBySilence, LessonWritten]
