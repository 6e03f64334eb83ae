#!/usr/bin/env python3
"""The model against request 4's own words, with the stand-in behind the module. A line for each group, with the cases it ran."""
import itertools
import random

import fair
import kes
import standin
from fair import Fair, cache_size
from kes import UNANSWERED, Module, Scheme, signature_size, steps, sum_size, table_size
from plain import Plain
from plain import table_size as plain_size
from silences import FAIR_SILENCES, PLAIN_SILENCES, SILENCES

HEIGHTS = [(0, 0), (1, 0), (0, 1), (2, 2), (0, 0, 0), (1, 1, 1)]
MODULE = Module(standin)
# where a tally may begin: nothing near, and close to where it, or its lower half, begins anew
STARTS = [5, 2**32 - 3, 2**64 - 3]


class Asking:
    """A good call that asks the module: the most numbers that it may pass, and how it is lent what it takes, afresh each time."""

    def __init__(self, name, most, call, *lent):
        self.name, self.most, self.call, self.lent = name, most, call, lent

    def run(self, answered, tally, scheme=Scheme, cache=Fair, engine=Plain):
        """What it answers and leaves, the tally with it."""
        MODULE.answered, MODULE.tally = answered, tally
        lent = [bytearray(x) if isinstance(x, bytes) else x for x in self.lent]
        over = {"fair": cache, "plain": engine}.get(self.name.split()[0], scheme)
        answer = getattr(over(MODULE), self.call)(*lent)
        return answer, MODULE.tally, [bytes(x) if isinstance(x, bytearray) else x for x in lent]


def always(number):
    return True


def table_at(heights, step):
    """With every answer given."""
    MODULE.answered, table, scheme = always, bytearray(table_size(*heights)), Scheme(MODULE)
    scheme.make_with(heights, bytearray(range(32)), table)
    scheme.free(table)
    scheme.move(table, step)
    return bytes(table)


def move_most(heights, a, b):
    """The rules' count, and one for each root that is signed: those below the topmost tree whose step changes."""
    count = Scheme(MODULE).move(bytearray(table_at(heights, a)), b)[1]
    top = next(n for n, (t, u) in enumerate(zip(kes.steps_of(heights, a), kes.steps_of(heights, b))) if t != u)
    return count + len(heights) - 1 - top


def keys():
    for heights in HEIGHTS:
        make = "make" if len(heights) == 2 else "make3"
        most = sum(2**h for h in heights) + len(heights) - 1
        yield Asking(f"make {heights}", most, make, *heights, bytes(range(1, 33)), b"\5" * table_size(*heights))
        yield Asking(f"sign {heights}", 1, "sign", table_at(heights, steps(*heights) - 1), b"text", b"\5" * signature_size(*heights))
        for a, b in itertools.combinations(range(steps(*heights)), 2):
            for call in ("move", "catch_up"):
                yield Asking(f"{call} {heights} {a} {b}", move_most(heights, a, b), call, table_at(heights, a), b)


def fairs():
    for n in (1, 3):
        lent = bytes(range(32)), bytes(range(7, 7 + 32 * n)), b"\5" * cache_size(n), b"\5" * 32
        yield Asking(f"fair make {n}", 2 * n + 1, "make", n, *lent)
        cache = Asking("fair", 0, "make", n, *lent).run(always, 0)[2][3]
        yield Asking(f"fair sign {n}", 1, "sign", cache, b"text", b"\5" * fair.SIGNATURE)


def plains():
    for h in (0, 1, 3):
        lent = bytes(range(32)), b"\5" * plain_size(h)
        yield Asking(f"plain fill {h}", 2**h, "fill", h, *lent)
        table = Asking("plain", 0, "fill", h, *lent).run(always, 0)[2][2]
        yield Asking(f"plain sign {h}", 1, "sign", h, table, 2**h - 1, b"text", b"\5" * sum_size(h))


ASKING = [*keys(), *fairs(), *plains()]


def refused(answer):
    return answer if isinstance(answer, tuple) else (answer, 0)


def places():
    """Each place at which a call can fail: 9, the count 0, the number of the silence passed and no more, and nothing else changed. The
    same call again, with the tally left, is what it is where every answer is given."""
    cases = 0
    for asking, start in itertools.product(ASKING, STARTS):
        sound = asking.run(always, start)
        passed = (sound[1] - start) % 2**64
        assert refused(sound[0])[0] == kes.DONE and 0 < passed <= asking.most, asking.name
        for k in range(passed):
            silent = (start + k) % 2**64
            answer, tally, left = asking.run(lambda number: number != silent, start)
            assert (refused(answer), tally, left) == ((UNANSWERED, 0), (silent + 1) % 2**64, list(asking.lent)), (asking.name, k)
            again = asking.run(lambda number: number != silent, tally)
            assert (again[0], again[1], again[2]) == (sound[0], (tally + passed) % 2**64, sound[2])
            cases += 1
    return cases


def exactly():
    """Whatever the module answers: 9 exactly where a number passed, from the tally at entry up to but without that at exit, is silent."""
    draw, seen = random.Random(4), {True: 0, False: 0}
    for asking in ASKING:
        start, silent = draw.choice([0, 2**32, 2**64 - 1, draw.randrange(2**64)]), {draw.randrange(12) for _ in range(2)}
        answer, tally, _ = asking.run(lambda number: (number - start) % 2**64 not in silent, start)
        passed = range((tally - start) % 2**64)
        nine = refused(answer) == (UNANSWERED, 0)
        assert nine == any(k in silent for k in passed) and len(passed) <= asking.most, asking.name
        seen[nine] += 1
    assert all(seen.values())
    return sum(seen.values())


def other_refusals():
    """They come first, whatever the module would do, and leave the tally."""
    cases = 0
    for asking in ASKING:
        short = [x[:-1] if isinstance(x, bytes) else x for x in asking.lent]
        answer, tally, left = Asking(asking.name, 0, asking.call, *short).run(lambda number: False, 7)
        assert refused(answer)[0] in (kes.SEED_OR_KEY, kes.TABLE, kes.LENGTH) and refused(answer)[1] == 0 and tally == 7 and left == short
        cases += 1
    return cases


def straight():
    """Demand 3: after any moves, answered or not, the table is the first one moved once, with every answer given, to the last step reached."""
    draw, scheme, seen = random.Random(3), Scheme(MODULE), {}
    for heights in HEIGHTS * 10:
        table, reached = bytearray(table_at(heights, 0)), 0
        for _ in range(8):
            step, MODULE.tally = draw.randrange(steps(*heights) + 1), draw.randrange(2**64 - 8, 2**64)
            MODULE.answered = lambda number: number % 4 != 1
            number, _ = scheme.move(table, step)
            reached = step if number == kes.DONE else reached
            assert table == table_at(heights, reached), (heights, step)
            seen[number] = seen.get(number, 0) + 1
    assert seen.keys() == {kes.DONE, kes.NOT_LATER, kes.PAST_END, UNANSWERED}
    return sum(seen.values())


def errors():
    """Each error in what a silence does is noticed."""

    def seen(**planted):
        return [asking.run(lambda number: number != 6, start, **planted) for asking in ASKING for start in (3, 4, 5, 6)]

    sound = seen()
    wrong = [{"scheme": error} for error in SILENCES] + [{"cache": error} for error in FAIR_SILENCES]
    wrong += [{"engine": error} for error in PLAIN_SILENCES]
    for planted in wrong:
        assert seen(**planted) != sound, planted
    return len(wrong)


for group in [places, exactly, other_refusals, straight, errors]:
    print("silences: %s: %d cases" % (group.__name__, group()))
