#!/usr/bin/env python3
"""Request 1's law, from C and against the independent model: at four pairs of heights and two of three every two steps, those past the end too, are
caught up to in both orders and twice, on good tables and on damaged ones, whose bytes behind a good header are anything, with windows that have released all or a part. The table is
the same in either order, a second asking is done with count 0 and leaves table and tally, and 5 is never answered. Needs desk/build before."""
import itertools
import random
import sys
import tempfile

sys.dont_write_bytecode = True
from lib.library import CATCH_UP, Library, making
from lib.modelled import Model, kes, show

HEIGHTS = [(2, 2), (1, 0), (0, 1), (1, 2), (1, 1, 1), (0, 1, 0)]


class Timers:
    def __init__(self, library, model):
        self.library, self.model, self.calls = library, model, 0

    def ask(self, table, step):
        """What a catch-up answers, by library and model, and the table left."""
        request = CATCH_UP, 0, 0, step, [table]
        given, expected = self.library.call(*request), self.model.call(*request)
        self.calls += 1
        if given != expected:
            sys.exit(f"timers: the library and the model differ at\n{show(request)}\nlibrary {given}\nmodel {expected}")
        answer, (*_, tally), (left,) = given
        if answer & 0xFFFFFFFF == kes.NOT_LATER:
            sys.exit(f"timers: a catch-up gives 5 at\n{show(request)}")
        return answer, tally, left

    def once(self, table, step):
        """The table left by a step, which is asked for a second time."""
        answer, _, left = self.ask(table, step)
        if self.ask(left, step) != (answer & 0xFFFFFFFF, 0, left):
            sys.exit(f"timers: step {step} asked twice is not step {step} asked once, on {table.hex()}")
        return left

    def orders(self, table, steps):
        """Every two of the steps give one table in both orders."""
        left = {step: self.once(table, step) for step in steps}
        for a, b in itertools.combinations(steps, 2):
            if self.ask(left[a], b)[2] != self.ask(left[b], a)[2]:
                sys.exit(f"timers: steps {a} and {b} do not give one table in both orders, on {table.hex()}")


def tables(model, draw, heights):
    """Good ones at two steps, and damaged ones: any bytes behind a good header, and behind a bad one; with windows that have released all or a part."""
    end = kes.steps(*heights)
    _, _, (_, fresh) = model.call(*making(heights, [bytes(range(32)), bytes(kes.table_size(*heights))]))
    yield kes.header(heights, 0, end - 1, end // 2 + 1) + fresh[kes.HEADER :]
    fresh = kes.header(heights, 0) + fresh[kes.HEADER :]
    yield fresh
    yield model.call(CATCH_UP, 0, 0, end // 3, [fresh])[2][0]
    yield kes.header(heights, end // 3, end - 1, end) + draw.randbytes(len(fresh) - kes.HEADER)
    yield kes.header(heights, end) + fresh[kes.HEADER :]


def main():
    draw = random.Random(1)
    with tempfile.TemporaryDirectory() as folder:
        model = Model()
        timers = Timers(Library(folder), model)
        for heights in HEIGHTS:
            for table in tables(model, draw, heights):
                timers.orders(table, [*range(kes.steps(*heights) + 1), 2**64 - 1])
    print(f"timers: {timers.calls} catch-ups, every two steps at {len(HEIGHTS)} choices of heights in both orders, are those of the model")


main()
