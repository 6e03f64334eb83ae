"""Hostile calls of the plain engine: good ones, which hostile_calls.py spoils."""
import functools

import corpus
import plain
import sodium
from lib.library import PLAIN_FILL, PLAIN_PATH, PLAIN_ROOT, PLAIN_SIGN

PLAIN = plain.Plain(corpus.kes.Module(sodium))


@functools.lru_cache(maxsize=2**8)
def filled(h, seed):
    table = bytearray(plain.table_size(h))
    PLAIN.fill(h, bytearray([seed]) * 32, table)
    return bytes(table)


def some_height(draw):
    return draw.choice([0, 1, 2, 3, 4, draw.randrange(plain.HIGHEST + 1)])


def some_table(draw):
    """An honest table of some height, or any bytes of its length."""
    h = some_height(draw)
    return h, filled(h, draw.randrange(4)) if draw.random() < 0.7 else draw.randbytes(plain.table_size(h))


def fill(draw):
    h = some_height(draw)
    return [PLAIN_FILL, h, 0, 0, [bytes([draw.randrange(4)]) * 32, draw.randbytes(plain.table_size(h))]]


def root(draw):
    h, table = some_table(draw)
    return [PLAIN_ROOT, h, 0, 0, [table, draw.randbytes(32)]]


def path(draw):
    h, table = some_table(draw)
    return [PLAIN_PATH, h, 0, draw.randrange(2**h), [table, draw.randbytes(32 * h)]]


def sign(draw, message):
    h, table = some_table(draw)
    return [PLAIN_SIGN, h, 0, draw.randrange(2**h), [table, message, draw.randbytes(corpus.kes.sum_size(h))]]
