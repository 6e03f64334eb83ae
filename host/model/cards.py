"""The card index, written a second time from the text of request 9, sharing no code: the other side of every comparison.

A table is a list of entries (card, count, cents), of which the first `held` are in use. Each rule is a method of its own: a test that
plants an error overrides one."""
from kes import CARD_OR_AMOUNT, COUNT_FULL, DONE, FULL, LENGTH, TABLE

CARDS = 1024
LAST_CARD = 9_999_999_999_999_999
MOST_CENTS = 2_000_000
MOST_LINES = 4_294_967_295


def summary(lines):
    """Card, number of lines and sum of cents, sorted by card, worked out afresh from (card, cents)."""
    had = {}
    for card, cents in lines:
        had.setdefault(card, []).append(cents)
    return [(card, len(each), sum(each)) for card, each in sorted(had.items())]


class Index:
    def strictly_rising(self, cards):
        return all(a < b for a, b in zip(cards, cards[1:]))

    def well_formed(self, table, held):
        if held > CARDS:
            return False
        in_use = table[:held]
        return self.strictly_rising([card for card, _, _ in in_use]) and all(
            0 <= card <= LAST_CARD and 1 <= count <= MOST_LINES and count <= cents <= MOST_CENTS * count for card, count, cents in in_use)

    def in_range(self, card, cents):
        return 0 <= card <= LAST_CARD and 1 <= cents <= MOST_CENTS

    def refused(self, table, held, fits):
        """4, 3 or 14, or DONE."""
        if len(table) != CARDS:
            return LENGTH
        if not self.well_formed(table, held):
            return TABLE
        return DONE if fits else CARD_OR_AMOUNT

    def noted(self, in_use, card, cents):
        """The summary with a line more."""
        had = {c: (count, total) for c, count, total in in_use}
        count, total = had.get(card, (0, 0))
        had[card] = count + 1, total + cents
        return [(c, *had[c]) for c in sorted(had)]

    def enter(self, table, held, card, cents):
        """The number, the number held now (0 where refused), and the table."""
        number = self.refused(table, held, self.in_range(card, cents))
        if number != DONE:
            return number, 0, table
        counts = {c: count for c, count, _ in table[:held]}
        if counts.get(card) == MOST_LINES:
            return COUNT_FULL, 0, table
        if card not in counts and held == CARDS:
            return FULL, 0, table
        in_use = self.noted(table[:held], card, cents)
        return DONE, len(in_use), in_use + table[len(in_use) :]

    def find(self, table, held, card):
        """The number, and the place + 1 of the card's entry, or 0."""
        number = self.refused(table, held, 0 <= card <= LAST_CARD)
        if number != DONE:
            return number, 0
        cards = [c for c, _, _ in table[:held]]
        return DONE, cards.index(card) + 1 if card in cards else 0
