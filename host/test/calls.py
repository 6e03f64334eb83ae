#!/usr/bin/env python3
"""Random calls of the C library, good and damaged, some of them not answered by the module, byte for byte against the independent model:
the answer, the end value of every buffer and of the tally, and how often Ed25519 was asked. Reproducible: calls.py [SEED [CASES]]. Needs desk/build before."""
import random
import sys
import tempfile
import time

sys.dont_write_bytecode = True
from lib.library import CATCH_UP, FAIR_MAKE, FAIR_MOVE, FAIR_SIGN, FAIR_VERIFY, HASH, MOVE, READ_KEY, RELEASE, SIGN, Library, making, verifying
from lib.library import PLAIN_FILL, PLAIN_PATH, PLAIN_ROOT, PLAIN_SIGN
from lib.modelled import NAMES, Model, fair, kes, plain, show


class Drawing:
    """What every drawing of calls needs."""

    def __init__(self, draw, model):
        self.draw, self.model = draw, model
        self.key, self.signed = bytes(32), None

    def odd(self, data):
        """data, mostly as it is; else with a byte changed, cut, longer or empty."""
        way = self.draw.random()
        if way < 0.7 or not data:
            return data
        if way < 0.85:
            at = self.draw.randrange(len(data))
            return data[:at] + bytes([self.draw.randrange(256)]) + data[at + 1 :]
        return self.draw.choice([data[:-1], data + b"\0", b""])

    def module(self):
        """A tally, mostly near an edge, and the numbers that the module leaves unanswered: mostly none."""
        near = self.draw.choice([0, 2**32, 2**64]) + self.draw.randrange(-20, 20)
        every = self.draw.choice([0, 0, 0, 1, 2, 5, 11, 30])
        return near % 2**64, every, self.draw.randrange(every) if every else 0

    def message(self):
        return self.draw.randbytes(self.draw.choice([0, 1, 32, 40, 129, 4096, 4097]))


class Desk(Drawing):
    """Draws calls around keys, of two trees and of three, that live on from call to call."""

    heights, table = (0, 0), b""

    def height(self, trees):
        return self.draw.choice([0, 1, 2, 3, 0, 1, 2, self.draw.choice([kes.LIMITS[trees] + 1, 255, 2**32, 2**63 + 1])])

    def step(self):
        last = kes.steps(*self.heights)
        return self.draw.choice([self.draw.randrange(last), self.draw.randrange(last), last - 1, last, 0, 2**32, 2**64 - 1])

    def make(self):
        """At times for no window: then both have released all."""
        trees = self.draw.choice([2, 3])
        heights = tuple(self.height(trees) for _ in range(trees))
        size = kes.table_size(*heights) if kes.fit(heights) else 272
        seed = self.odd(bytes([self.draw.randrange(8)]) * 32)
        request = making(heights, [seed, self.odd(bytes(size)), b""], self.module())
        answer, _, (_, table, _) = self.model.call(*request)
        if answer & 0xFFFFFFFF == 0:
            table, key = bytearray(table), bytearray(32)
            self.model.scheme.read_key(table, key)
            if self.draw.random() < 0.5:
                self.model.scheme.free(table)
            self.heights, self.table, self.key, self.signed = heights, bytes(table), bytes(key), None
        return request

    def read_key(self):
        return READ_KEY, 0, 0, 0, [self.odd(self.table), self.odd(bytes(32)), b""]

    def move(self):
        """By a move, or by a catch-up."""
        op, heights = self.draw.choice([MOVE, CATCH_UP]), self.heights
        if self.draw.random() < 0.1 and max(heights) < 3:
            body = self.draw.randbytes(kes.part_size(*heights))
            return op, 0, 0, self.step(), [kes.header(heights, self.draw.randrange(kes.steps(*heights))) + body, b"", b""], self.module()
        request = op, 0, 0, self.step(), [self.odd(self.table), b"", b""], self.module()
        answer, _, (table, _, _) = self.model.call(*request)
        if answer & 0xFFFFFFFF == 0 and request[4][0] == self.table:
            self.table = table
        return request

    def release(self):
        """Mostly by a window, and mostly to a number at which it may stand."""
        window = self.draw.choice([0, 0, 1, 1, 0, 1, 2, 2**32])
        request = RELEASE, window, 0, self.step(), [self.odd(self.table), b"", b""]
        answer, _, (table, _, _) = self.model.call(*request)
        if answer == 0 and request[4][0] == self.table:
            self.table = table
        return request

    def sign(self):
        size = kes.signature_size(*self.heights)
        request = SIGN, 0, 0, 0, [self.odd(self.table), self.message(), self.odd(bytes(size))], self.module()
        answer, _, (table, message, signature) = self.model.call(*request)
        if answer == 0 and table == self.table:
            self.signed = kes.read_header(table)[1], message, signature
        return request

    def verify(self):
        heights = self.heights
        step, message, signature = self.signed or (0, b"", bytes(kes.signature_size(*heights)))
        if self.draw.random() < 0.3:
            step = self.step()
        if self.draw.random() < 0.1:
            message = self.message()
        if self.draw.random() < 0.1:
            heights = (*heights[:-1], self.height(len(heights)))
        return verifying(heights, step, [self.odd(self.key), message, self.odd(signature)])

    def hash(self):
        return HASH, 0, 0, 0, [self.message(), self.odd(bytes(32)), b""]

    def next(self):
        if not self.table:
            return self.make()
        return self.draw.choice([self.make, self.read_key, self.move, self.move, self.move, self.move, self.release, self.release, self.release, self.sign, self.sign, self.verify, self.verify, self.hash])()


class Fair(Drawing):
    """Draws calls around caches that live on from call to call."""

    n, cache = 1, b""

    def count(self):
        return self.draw.choice([1, 2, 3, 4, 5, 5, 5, self.draw.choice([0, 257, 2**32 + 2, 2**59, 2**64 - 1])])

    def step(self):
        return self.draw.choice([self.draw.randrange(self.n), self.draw.randrange(self.n), self.n - 1, self.n, 0, 2**16, 2**32, 2**64 - 1])

    def make(self, n=None):
        n = n or self.count()
        size = min(n, fair.MOST)
        master, seeds = bytes([self.draw.randrange(8)]) * 32, self.draw.randbytes(32 * size)
        request = FAIR_MAKE, n, 0, 0, [self.odd(master), self.odd(seeds), self.odd(bytes(fair.cache_size(size))), self.odd(bytes(32))], self.module()
        answer, _, (_, _, cache, key) = self.model.call(*request)
        if answer == 0:
            self.n, self.cache, self.key, self.signed = n, cache, key, None
        return request

    def move(self):
        if self.draw.random() < 0.1:
            header = fair.header(self.n, self.draw.randrange(self.n))
            return FAIR_MOVE, 0, 0, self.step(), [header + self.draw.randbytes(fair.ENTRY * self.n)]
        request = FAIR_MOVE, 0, 0, self.step(), [self.odd(self.cache)]
        answer, _, (cache,) = self.model.call(*request)
        if answer == 0 and request[4][0] == self.cache:
            self.cache = cache
        return request

    def sign(self):
        request = FAIR_SIGN, 0, 0, 0, [self.odd(self.cache), self.message(), self.odd(bytes(fair.SIGNATURE))], self.module()
        answer, _, (cache, message, signature) = self.model.call(*request)
        if answer == 0 and cache == self.cache:
            self.signed = fair.read_header(cache)[1], message, signature
        return request

    def verify(self):
        n, (step, message, signature) = self.n, self.signed or (0, b"", bytes(fair.SIGNATURE))
        if self.draw.random() < 0.3:
            step = self.step()
        if self.draw.random() < 0.1:
            message = self.message()
        if self.draw.random() < 0.1:
            n = self.count()
        return FAIR_VERIFY, n, 0, step, [self.odd(self.key), message, self.odd(signature)]

    def next(self):
        if not self.cache:
            return self.make(fair.MOST)
        return self.draw.choice([self.make, self.move, self.move, self.sign, self.sign, self.verify, self.verify])()


class Plain(Drawing):
    """Draws calls around a plain tree that lives on from call to call."""

    h, table = 0, b""

    def height(self):
        return self.draw.choice([0, 1, 2, 3, 4, 5, self.draw.choice([9, 57, 255, 2**32 + 2, 2**63 + 1])])

    def size(self, h):
        return plain.table_size(h) if h <= plain.HIGHEST else self.draw.choice([0, 96, 480])

    def at(self):
        """Mostly the tree's own height, and its table."""
        return (self.h if self.draw.random() < 0.9 else self.height()), self.odd(self.table)

    def leaf(self):
        last = 2**self.h
        return self.draw.choice([*[self.draw.randrange(last) for _ in range(4)], last - 1, last, 2**32, 2**64 - 1])

    def fill(self, h=None):
        h = self.height() if h is None else h
        request = PLAIN_FILL, h, 0, 0, [self.odd(bytes([self.draw.randrange(8)]) * 32), self.odd(self.draw.randbytes(self.size(h)))], self.module()
        answer, _, (_, table) = self.model.call(*request)
        if answer == 0:
            self.h, self.table = h, table
        return request

    def root(self):
        h, table = self.at()
        return PLAIN_ROOT, h, 0, 0, [table, self.odd(bytes(32))]

    def path(self):
        h, table = self.at()
        return PLAIN_PATH, h, 0, self.leaf(), [table, self.odd(bytes(32 * self.h))]

    def sign(self):
        h, table = self.at()
        return PLAIN_SIGN, h, 0, self.leaf(), [table, self.message(), self.odd(bytes(kes.sum_size(self.h)))], self.module()

    def next(self):
        if not self.table:
            return self.fill(plain.HIGHEST)
        return self.draw.choice([self.fill, self.root, self.path, self.path, self.sign, self.sign])()


def main():
    seed = int(sys.argv[1]) if len(sys.argv) > 1 else 1
    cases = int(sys.argv[2]) if len(sys.argv) > 2 else 2500
    began, seen = time.time(), {}
    with tempfile.TemporaryDirectory() as folder:
        library, model = Library(folder), Model()
        draw = random.Random(seed)
        desk, fair_day, tree = Desk(draw, model), Fair(draw, model), Plain(draw, model)
        for _ in range(cases):
            request = draw.choice([desk, desk, desk, fair_day, fair_day, tree]).next()
            given, expected = library.call(*request), model.call(*request)
            if given != expected:
                sys.exit(f"calls: the library and the model differ at\n{show(request)}\nlibrary {given}\nmodel {expected}")
            name = NAMES[request[0]], given[0] & 0xFFFFFFFF
            seen[name] = seen.get(name, 0) + 1
    for (name, number), times in sorted(seen.items()):
        print(f"calls: {name}: answer {number}: {times} times")
    print(f"calls: {cases} calls are those of the model, with every buffer, every Ed25519 call and the tally ({time.time() - began:.0f} s)")


main()
