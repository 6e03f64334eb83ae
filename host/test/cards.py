#!/usr/bin/env python3
"""The card index of the C library between guard pages, against the independent model: both sides of each edge, 1,024 and 1,025 cards, the
same lines in other orders, and random calls over indexes whole and damaged. Errors planted in the model are noticed by the same calls.
Reproducible: cards.py [SEED [CALLS]]. Needs desk/build before."""
import pathlib
import random
import struct
import sys
import tempfile
import time

sys.dont_write_bytecode = True
sys.path.insert(0, str(pathlib.Path(__file__).resolve().parents[1] / "model"))
import cards
from cards import CARDS, LAST_CARD, MOST_CENTS, MOST_LINES
from kes import COUNT_FULL, DONE, FULL
from lib.library import CARD_ENTER, CARD_FIND, Library
from planted import INDEX

ENTRY = struct.Struct("<QQQ")
EDGE_CARDS = [0, 1, LAST_CARD - 1, LAST_CARD, LAST_CARD + 1, 2**64 - 1]
EDGE_CENTS = [0, 1, MOST_CENTS, MOST_CENTS + 1, 2**64 - 1]
EDGE_HELD = [0, 1, 2, CARDS - 1, CARDS, CARDS + 1, 2**32, 2**64 - 1]


class Differs(Exception):
    """The library and the model do not agree."""


class Both:
    """Each call of the library, and the same of the model."""

    def __init__(self, library, model):
        self.library, self.model, self.calls = library, model, 0

    def call(self, op, held, card, cents, table):
        data = b"".join(ENTRY.pack(*entry) for entry in table)
        answer, _, (left,) = self.library.call(op, held, card, cents, [data])
        self.calls += 1
        return answer, [entry for entry in ENTRY.iter_unpack(left)]

    def enter(self, table, held, card, cents):
        number, now, after = self.model.enter(table, held, card, cents)
        if self.call(CARD_ENTER, held, card, cents, table) != (number + (now << 32), after):
            raise Differs(f"cards: enter held={held} card={card} cents={cents} differs from the model, which answers {number} and {now}: {table[:4]}")
        return number, now, after

    def find(self, table, held, card):
        number, place = self.model.find(table, held, card)
        if self.call(CARD_FIND, held, card, 0, table) != (number + (place << 32), table):
            raise Differs(f"cards: find held={held} card={card} differs from the model, which answers {number} and {place}: {table[:4]}")
        return number, place


def junk(draw, n=CARDS):
    return [(draw.getrandbits(64), draw.getrandbits(64), draw.getrandbits(64)) for _ in range(n)]


def filled(draw, held, n=CARDS):
    """An index of so many cards, with junk past them."""
    in_use = []
    for card in sorted(draw.sample(range(LAST_CARD + 1), held)):
        count = draw.choice([1, 2, 1000, MOST_LINES - 1, MOST_LINES])
        in_use.append((card, count, draw.choice([count, count * MOST_CENTS, draw.randrange(count, count * MOST_CENTS + 1)])))
    return in_use + junk(draw, n - held)


def edges(both, draw):
    """Both sides of each edge of what is lent, held, in an entry and in a line."""
    for n in (0, 1, CARDS - 1, CARDS, CARDS + 1):
        table = filled(draw, min(n, 2), n)
        for held in EDGE_HELD:
            for card, cents in ((5, 1), (5, 0), (LAST_CARD + 1, 1)):
                both.enter(table, held, card, cents)
                both.find(table, held, card)
    for card in EDGE_CARDS:
        for held in (0, 3):
            table = filled(draw, 3)
            both.find(table, held, card)
            for cents in EDGE_CENTS:
                both.enter(table, held, card, cents)
    for at in (0, 1, 2):
        for count in (0, 1, 2, MOST_LINES, MOST_LINES + 1, 2**64 - 1):
            for cents in {max(count - 1, 0), count, min(MOST_CENTS * count, 2**64 - 1), min(MOST_CENTS * count + 1, 2**64 - 1)}:
                table = filled(draw, 3)
                table[at] = table[at][0], count, cents
                both.enter(table, 3, table[at][0], 1)
                both.find(table, 3, table[at][0])
        for near in (-1, 0, 1):
            table = filled(draw, 3)
            table[at] = max(table[(at + 1) % 3][0] + near, 0), 1, 1
            both.enter(table, 3, 5, 1)


def full(both, draw):
    """1,024 cards are held and the 1,025th is refused 13; a count of 4,294,967,295 is refused 15, also there; all others still grow."""
    wanted = draw.sample(range(LAST_CARD + 1), CARDS + 1)
    table, held = junk(draw), 0
    for card in wanted[:CARDS]:
        number, held, table = both.enter(table, held, card, draw.randrange(1, MOST_CENTS + 1))
        assert number == DONE
    assert held == CARDS and both.enter(table, held, wanted[CARDS], 1)[0] == FULL
    assert both.enter(table, held, wanted[0], MOST_CENTS)[:2] == (DONE, CARDS) and both.find(table, held, wanted[CARDS]) == (DONE, 0)
    place = both.find(table, held, wanted[3])[1] - 1
    planted = [*table[:place], (wanted[3], MOST_LINES, MOST_LINES), *table[place + 1 :]]
    assert both.enter(planted, held, wanted[3], 1)[0] == COUNT_FULL
    planted[place] = wanted[3], MOST_LINES - 1, MOST_LINES - 1
    assert both.enter(planted, held, wanted[3], 1)[2][place][1] == MOST_LINES


def shuffled(both, draw):
    """The same lines in three orders leave the same summary, and what is past it as found."""
    pool = draw.sample(range(LAST_CARD + 1), draw.choice([1, 3, 40]))
    lines = [(draw.choice(pool), draw.randrange(1, MOST_CENTS + 1)) for _ in range(60)]
    for _ in range(3):
        start = table = junk(draw)
        held = 0
        for card, cents in lines:
            _, held, table = both.enter(table, held, card, cents)
        assert table == cards.summary(lines) + start[held:]
        draw.shuffle(lines)


def lives(both, draw, calls):
    """Random calls over indexes that live on from call to call, some of them damaged on the way."""
    while both.calls < calls:
        held = draw.choice([0, 1, 5, 5, 5, 300, CARDS - 1, CARDS])
        table = filled(draw, held)
        for _ in range(12):
            known = table[draw.randrange(max(held, 1))][0]
            card = draw.choice([known, known, known + 1, draw.randrange(LAST_CARD + 1), draw.choice(EDGE_CARDS)]) % 2**64
            both.find(table, held, card)
            _, now, table = both.enter(table, held, card, draw.choice([draw.randrange(1, MOST_CENTS + 1), draw.choice(EDGE_CENTS)]))
            held = now or held
            if draw.random() < 0.15:
                at = draw.randrange(max(held, 1))
                entry = list(table[at])
                entry[draw.randrange(3)] = draw.choice([0, 1, MOST_LINES, MOST_LINES + 1, LAST_CARD, LAST_CARD + 1, draw.getrandbits(64)])
                table = [*table[:at], tuple(entry), *table[at + 1 :]]


def compared(library, model, draw, calls):
    """How many calls were made; some more at random up to that many."""
    both = Both(library, model)
    edges(both, draw)
    full(both, draw)
    for _ in range(3):
        shuffled(both, draw)
    lives(both, draw, calls)
    return both.calls


def notices(library, model, draw):
    try:
        compared(library, model, draw, 0)
    except (Differs, AssertionError):
        return True
    return False


def main():
    seed = int(sys.argv[1]) if len(sys.argv) > 1 else int(time.time())
    calls = int(sys.argv[2]) if len(sys.argv) > 2 else 6000
    draw = random.Random(seed)
    with tempfile.TemporaryDirectory() as folder:
        library = Library(folder)
        try:
            made = compared(library, cards.Index(), draw, calls)
        except Differs as difference:
            sys.exit(f"{difference} (seed {seed})")
        print(f"cards: {made} calls over card indexes answer and leave what the model does (seed {seed})")
        if missed := [planted.__name__ for planted in INDEX if not notices(library, planted(), draw)]:
            sys.exit(f"cards: these calls do not notice {missed} (seed {seed})")
        print(f"cards: {len(INDEX)} errors planted in the model are noticed")


main()
