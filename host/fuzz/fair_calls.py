"""Hostile calls of the fair's cache: good ones, which hostile_calls.py spoils, and ways to spoil a cache's header."""
import functools

import corpus
import fair
import sodium
from lib.library import FAIR_MAKE, FAIR_MOVE, FAIR_SIGN, FAIR_VERIFY
from mutate import edge

FAIR = fair.Fair(corpus.kes.Module(sodium))


@functools.lru_cache(maxsize=2**10)
def made(n, seed):
    """An honest fresh cache, and its key."""
    cache, key = bytearray(fair.cache_size(n)), bytearray(32)
    seeds = b"".join(bytes([seed, i]) * 16 for i in range(n))
    FAIR.make(n, bytearray([seed]) * 32, bytearray(seeds), cache, key)
    return bytes(cache), bytes(key)


@functools.lru_cache(maxsize=2**10)
def cache_at(n, seed, step):
    cache = bytearray(made(n, seed)[0])
    FAIR.move(cache, step)
    return bytes(cache)


def some_count(draw):
    return draw.choice([1, 2, 3, 4, 4, draw.choice([24, fair.MOST])])


def some_cache(draw):
    """An honest cache, one whose header says another step, or any bytes behind a good header."""
    n, seed, way = some_count(draw), draw.randrange(4), draw.random()
    step = draw.randrange(n)
    if way < 0.6:
        return cache_at(n, seed, step)
    if way < 0.8:
        return fair.header(n, step) + cache_at(n, seed, draw.randrange(n))[4:]
    return fair.header(n, step) + draw.randbytes(fair.ENTRY * n)


def make(draw):
    n = some_count(draw)
    lent = [bytes([draw.randrange(4)]) * 32, draw.randbytes(32 * n), draw.randbytes(fair.cache_size(n)), draw.randbytes(32)]
    return [FAIR_MAKE, n, 0, 0, lent]


def move(draw):
    cache = some_cache(draw)
    n, now = fair.read_header(cache)
    return [FAIR_MOVE, 0, 0, draw.choice([now + 1, draw.randrange(now, n)]), [cache]]


def sign(draw, message):
    return [FAIR_SIGN, 0, 0, 0, [some_cache(draw), message, draw.randbytes(fair.SIGNATURE)]]


def honest(draw, n, step, message):
    """A signature and its key; at times with the first half of another step."""
    seed, signature = draw.randrange(4), bytearray(fair.SIGNATURE)
    FAIR.sign(cache_at(n, seed, step), message[: corpus.kes.LONGEST], signature)
    if draw.random() < 0.2:
        masters, _, vk = fair.entry_at(made(n, seed)[0], draw.randrange(n))
        signature[:96] = masters + vk
    return bytes(signature), made(n, seed)[1]


def chosen(draw, step, message):
    """A signature by any signer for a vk of any signer, and the key of the first."""
    vk, last = draw.choice(corpus.SIGNERS)(draw, message)
    key, masters = draw.choice(corpus.SIGNERS)(draw, FAIR.vouched(step, vk))
    return masters + vk + last, key


def verify(draw, message):
    n = some_count(draw)
    step = draw.randrange(n)
    signature, key = honest(draw, n, step, message) if draw.random() < 0.7 else chosen(draw, step, message)
    return [FAIR_VERIFY, n, 0, step, [key, message, signature]]


def header_spoiled(draw, cache):
    """N or the step at an edge value; a new N mostly with a length that fits it, so that the same bytes are read otherwise."""
    if len(cache) < 4:
        return cache
    n, step = int.from_bytes(cache[:2], "little"), int.from_bytes(cache[2:4], "little")
    if draw.random() < 0.5:
        return cache[:2] + (edge(draw, step, n) % 2**16).to_bytes(2, "little") + cache[4:]
    n = draw.choice([0, 1, 2, 3, fair.MOST, fair.MOST + 1, (n + fair.MOST) % 2**16, 2**16 - 1])
    cache = n.to_bytes(2, "little") + cache[2:]
    if n > fair.MOST + 1 or draw.random() < 0.3:
        return cache
    size = fair.cache_size(n)
    return cache[:size] + draw.randbytes(max(0, size - len(cache)))
