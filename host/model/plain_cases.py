#!/usr/bin/env python3
"""Writes what the program plain_cases must print under the gate, from the model with the stand-in.
With --check it writes nothing and says whether the file is that."""
import itertools

import standin
from filed import keep_lines
from kes import H, Module, sum_size
from plain import Plain, table_size

# from this tally on the stand-in answers for long; from SILENT - k on the k-th call is not answered
ANSWERED, SILENT = 1000, 2**32 + 100
MODULE = Module(standin, standin.answered, ANSWERED)
MODEL = Plain(MODULE)
WIDE = 2**64 - 1
# the trees, each with the stride of the leaves that are read
TREES = [(0, 1), (1, 1), (2, 1), (3, 1), (4, 5), (5, 11), (6, 21), (7, 42), (8, 51)]


def nines(size):
    return bytearray(b"\x09" * size)


def chained(data):
    """The digests of pieces of 4,096 bytes, each hashed onto those before it."""
    chain = bytes(32)
    for at in range(0, len(data), 4096):
        chain = H(chain + H(data[at : at + 4096]))
    return chain.hex()


def fill(h, own=32, size=480, tally=ANSWERED):
    """A fill from this tally on, and the same again with the tally left: each time its answer, the tally, and what was lent."""
    MODULE.tally, seed, table = tally, nines(own), nines(size)
    words = ["fill", h, own, size, tally]
    for _ in range(2):
        words += [MODEL.fill(h, seed, table), MODULE.tally, chained(seed), chained(table)]
    return " ".join(map(str, words))


def filled(h):
    table = bytearray(table_size(h))
    MODULE.tally = ANSWERED
    MODEL.fill(h, nines(32), table)
    return table


def read(table, h, leaf, lent=None, root=32, path=None, size=6, sums=None, tally=ANSWERED):
    """Root, path and signature, with nines behind the table where more of it is lent than there is."""
    lent, path, sums = (len(table) if lent is None else lent, 32 * h if path is None else path, sum_size(h) if sums is None else sums)
    words = ["read", h, leaf, lent, size]
    lent = (table + nines(1))[:lent]
    out = nines(root)
    words += [MODEL.root(h, lent, out), chained(out)]
    out = nines(path)
    words += [MODEL.path(h, lent, leaf, out), chained(out)]
    out, MODULE.tally = nines(sums), tally
    words += [MODEL.sign(h, lent, leaf, nines(size), out), MODULE.tally, chained(out)]
    return " ".join(map(str, words))


def trees():
    for h, stride in TREES:
        yield fill(h, size=table_size(h))
        yield from (read(filled(h), h, leaf) for leaf in range(0, 2**h, stride))


def mixes(*choices):
    """Every mix of a right and a wrong choice; the first changes fastest."""
    return (mix[::-1] for mix in itertools.product(*choices[::-1]))


def fills():
    yield from (fill(*mix) for mix in mixes((2, 9), (32, 31), (480, 479)))
    yield from (fill(2, *lengths) for lengths in [(33, 480), (32, 481), (32, 0)])
    yield from (fill(h, 32, size) for h, size in [(258, 480), (2**32 + 2, 480), (57, 0), (WIDE, 480)])


def reads():
    table = filled(2)
    for h, lent, more, size, leaf in mixes((2, 9), (480, 479), (0, 1), (4096, 4097), (3, 4)):
        yield read(table, h, leaf, lent, 32 + more, 64 + more, size, 160 + more)
    yield read(table, 2, 1, 481)
    yield read(table, 2, 1, 0)
    yield read(table, 2, 1, root=31, path=63, sums=159)
    yield read(table, 2, 1, size=0)
    yield from (read(table, 2, leaf) for leaf in (257, 2**32 + 1, WIDE))
    yield from (read(table, h, 1, path=64, sums=160) for h in (258, 2**32 + 2, 8))


def unanswered():
    """Every place at which filling at height 2 or signing can fail, and the edges of the tally."""
    yield from (fill(2, tally=SILENT - k) for k in range(5))
    yield from (fill(2, tally=tally) for tally in (97, 2**32 - 3, 2**64 - 3))
    # silent at 100, after the tally has begun anew
    yield fill(8, size=table_size(8), tally=2**64 - 201)
    yield from (read(filled(2), 2, 2, tally=tally) for tally in (SILENT, SILENT - 1, WIDE))


def lines():
    for group in (trees, fills, reads, unanswered):
        yield from group()


keep_lines("plain_cases", lines())
