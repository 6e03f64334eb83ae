#!/usr/bin/env python3
"""The model of the card index against the words of request 9. A line for each group, with the cases it ran."""
import itertools
import random

import cards
from cards import CARDS, LAST_CARD, MOST_CENTS, MOST_LINES, Index
from kes import CARD_OR_AMOUNT, COUNT_FULL, DONE, FULL, LENGTH, TABLE

MODEL = Index()
JUNK = (2**64 - 1, 0, 2**64 - 1)
EMPTY = [JUNK] * CARDS


def table(*in_use):
    return [*in_use, *EMPTY[len(in_use) :]]


def entered(lines, model=MODEL):
    """The table and the number held after lines, none of which may be refused."""
    index, held = EMPTY, 0
    for card, cents in lines:
        number, held, index = model.enter(index, held, card, cents)
        assert number == DONE
    return index, held


def any_order():
    """The index equals the summary worked out afresh, in any order; what is past it stays as found."""
    lines = [(7, 5), (3, 1), (7, 2), (9, 4)]
    for shuffled in itertools.permutations(lines):
        index, held = entered(shuffled)
        assert (index, held) == (table((3, 1, 1), (7, 2, 7), (9, 1, 4)), 3) and index[:held] == cards.summary(lines)
    draw = random.Random(9)
    for _ in range(50):
        lines = [(draw.randrange(20), draw.randrange(1, MOST_CENTS + 1)) for _ in range(draw.randrange(40))]
        index, held = entered(lines)
        assert index == table(*cards.summary(lines)) and held == len({card for card, _ in lines})
        for card in range(21):
            number, place = MODEL.find(index, held, card)
            mine = [cents for c, cents in lines if c == card]
            assert number == DONE and (index[place - 1] == (card, len(mine), sum(mine)) if mine else place == 0)
    return 24 + 50


def edges():
    """Both sides of each edge, for entering and for looking up."""
    good = table((3, 1, 1), (7, 2, 7))
    sides = [
        (EMPTY, 0, DONE), (EMPTY[1:], 0, LENGTH), (EMPTY + [JUNK], 0, LENGTH), (good, 2, DONE), (good, 3, TABLE), (good, 2**64 - 1, TABLE),
        (table((7, 1, 1), (7, 1, 1)), 2, TABLE), (table((8, 1, 1), (7, 1, 1)), 2, TABLE), (table((LAST_CARD, 1, 1)), 1, DONE), (table((LAST_CARD + 1, 1, 1)), 1, TABLE),
        (table((7, 0, 0)), 1, TABLE), (table((7, MOST_LINES, MOST_LINES)), 1, DONE), (table((7, MOST_LINES + 1, MOST_LINES + 1)), 1, TABLE),
        (table((7, 2, 1)), 1, TABLE), (table((7, 2, 2)), 1, DONE), (table((7, 2, 2 * MOST_CENTS)), 1, DONE), (table((7, 2, 2 * MOST_CENTS + 1)), 1, TABLE),
    ]
    for index, held, due in sides:
        assert MODEL.enter(index, held, 5, 1)[0] == due and MODEL.find(index, held, 5)[0] == due, (index[:3], held)
    for card, cents, due in [(0, 1, DONE), (LAST_CARD, MOST_CENTS, DONE), (LAST_CARD + 1, 1, CARD_OR_AMOUNT), (5, 0, CARD_OR_AMOUNT), (5, MOST_CENTS + 1, CARD_OR_AMOUNT)]:
        assert MODEL.enter(good, 2, card, cents)[0] == due
        assert MODEL.find(good, 2, card)[0] == (CARD_OR_AMOUNT if card > LAST_CARD else DONE)
    return len(sides) + 5


def order():
    """4, 3, 14, 15, 13: the first that applies; a refusal holds none and leaves the table."""
    full = [(card, MOST_LINES if card == 3 else 1, MOST_LINES if card == 3 else 1) for card in range(CARDS)]
    assert MODEL.enter(full[1:], 2, LAST_CARD + 1, 0) == (LENGTH, 0, full[1:])
    assert MODEL.enter(full[::-1], 2, LAST_CARD + 1, 0) == (TABLE, 0, full[::-1])
    assert MODEL.enter(full, CARDS, LAST_CARD + 1, 1) == (CARD_OR_AMOUNT, 0, full)
    assert MODEL.enter(full, CARDS, 3, 0) == (CARD_OR_AMOUNT, 0, full)
    assert MODEL.enter(full, CARDS, 3, 1) == (COUNT_FULL, 0, full)
    assert MODEL.enter(full, CARDS, CARDS, 1) == (FULL, 0, full)
    assert MODEL.enter(full, CARDS, 4, 1)[:2] == (DONE, CARDS)
    assert MODEL.find(full, CARDS, CARDS) == (DONE, 0) and MODEL.find(full, CARDS, 3) == (DONE, 4)
    return 8


for group in (any_order, edges, order):
    print(f"cards: {group.__doc__.split(':')[0].split('.')[0]}: {group()} cases")
