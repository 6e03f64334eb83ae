#!/usr/bin/env python3
"""The model of the fair's cache against the ticket's own words, with the stand-in. A line for each group, with the cases it ran."""
import itertools
import types

import fair
import kes
import standin
from fair import ENTRY, Fair, cache_size
from orders import order
from planted import FAIR

MODEL = Fair(kes.Module(standin))
MASTER = bytes(range(1, 33))
MESSAGE = b"a sale"


def seeds(n):
    return b"".join(kes.H(b"seed %d" % i) for i in range(n))


def made(n, model=MODEL):
    """A fresh cache and its key."""
    cache, key = bytearray(cache_size(n)), bytearray(32)
    assert model.make(n, bytearray(MASTER), bytearray(seeds(n)), cache, key) == kes.DONE
    return cache, key


def moved(cache, step, model=MODEL):
    later = bytearray(cache)
    assert model.move(later, step) == kes.DONE
    return later


def at(n, step, model=MODEL):
    """The cache of a step, moved straight."""
    cache = made(n, model)[0]
    return moved(cache, step, model) if step > 0 else cache


def signed(cache, message=MESSAGE, model=MODEL):
    signature = bytearray(160)
    assert model.sign(cache, message, signature) == kes.DONE
    return signature


def layout():
    """A fresh cache byte for byte, and zeros in the place of what was lent."""
    for n, first in [(1, b"\1\0\0\0"), (3, b"\3\0\0\0"), (256, b"\0\1\0\0")]:
        master, lent, cache, key = bytearray(MASTER), bytearray(seeds(n)), bytearray(4 + 128 * n), bytearray(32)
        assert MODEL.make(n, master, lent, cache, key) == kes.DONE
        assert (master, lent, key) == (bytes(32), bytes(32 * n), standin.public_key(MASTER))
        assert cache[:4] == first
        for i in range(n):
            seed = seeds(n)[32 * i : 32 * i + 32]
            vk = standin.public_key(seed)
            assert cache[4 + 128 * i :][:128] == standin.sign(MASTER, bytes([i, 0, 0, 0]) + vk) + seed + vk
    return 1 + 3 + 256


def outside_calls():
    """Making asks 2N + 1 times."""
    for n in (1, 3, 256):
        asked = []
        counted = types.SimpleNamespace(
            public_key=lambda secret: asked.append("key") or standin.public_key(secret),
            sign=lambda secret, message: asked.append("sign") or standin.sign(secret, message),
        )
        made(n, Fair(counted))
        assert (asked.count("key"), asked.count("sign")) == (n + 1, n)
    return 3


def moves():
    """However the day is cut into moves, the cache is the one that a single move gives: zeros below the step, all else as it was."""
    cases, n = 0, 6
    fresh = made(n)[0]
    for size in range(1, n):
        for stops in itertools.combinations(range(1, n), size):
            cache = fresh
            for step in stops:
                cache = moved(cache, step)
            last = stops[-1]
            assert cache == at(n, last) == bytes([n, 0, last, 0]) + bytes(ENTRY * last) + fresh[4 + ENTRY * last :]
            cases += 1
    return cases


def any_bytes():
    """Nothing after byte 3 is judged: whatever stands there, entries below the step become zeros and the others stay."""
    found = bytes([5, 0, 2, 0]) + bytes(i * 37 % 255 + 1 for i in range(5 * ENTRY))
    for step in (3, 4):
        assert moved(found, step) == bytes([5, 0, step, 0]) + bytes(ENTRY * step) + found[4 + ENTRY * step :]
    return 2


def signatures():
    """A signature is accepted at its step alone; it is the entry's two public parts and a signature by its secret."""
    cases = 0
    for n in (1, 3, 6):
        key = made(n)[1]
        for t, u in itertools.product(range(n), repeat=2):
            signature, entry = signed(at(n, t)), made(n)[0][4 + ENTRY * t :]
            assert signature == entry[:64] + entry[96:128] + standin.sign(bytes(entry[64:96]), MESSAGE)
            assert MODEL.verify(n, key, u, MESSAGE, signature) == (kes.DONE if t == u else kes.NOT_ACCEPTED)
            cases += 1
    return cases


def damaged():
    """A bit changed in any byte of key, message or signature is noticed."""
    good = [made(3)[1], bytearray(MESSAGE), signed(at(3, 1))]
    cases = 0
    for data in good:
        for i in range(len(data)):
            data[i] ^= 1
            assert MODEL.verify(3, good[0], 1, good[1], good[2]) == kes.NOT_ACCEPTED
            data[i] ^= 1
            cases += 1
    return cases


def bad_caches():
    """Each way in which a cache is none."""
    good = at(3, 1)
    headers = [(0, 0, 0, 0), (2, 0, 1, 0), (4, 0, 1, 0), (3, 1, 1, 0), (3, 0, 3, 0), (3, 0, 255, 0), (3, 0, 1, 1)]
    tall = bytearray([1, 1, 0, 0]) + bytearray(ENTRY * 257)
    return [good[:size] for size in range(4)] + [good[:-1], good + b"\0", bytearray(4), tall] + [bytearray(h) + good[4:] for h in headers]


def refusals():
    """Every number, in every mix."""
    cache, key, signature = at(3, 1), made(3)[1], signed(at(3, 1))
    counts = [{"n": n} for n in (0, 257, 2**32 + 3, 2**59, 2**64 - 1)]
    caches = [{"cache": bad} for bad in bad_caches()]
    late = [{"step": step} for step in (3, 2**16 + 2, 2**32 + 2, 2**64 - 1)]
    long = [{"message": bytes(4097)}]

    def sizes(name, *wrong):
        return [{name: bytearray(size)} for size in wrong]

    make = {"n": 3, "master": bytearray(MASTER), "seeds": bytearray(seeds(3)), "cache": bytearray(388), "key": bytearray(32)}
    lent = sizes("master", 0, 31, 33) + sizes("seeds", 0, 32, 95, 97)
    cases = order(MODEL.make, make, {8: counts, 2: lent, 4: sizes("cache", 0, 387, 389) + sizes("key", 0, 31, 33)})
    cases += order(MODEL.move, {"cache": cache, "step": 2}, {3: caches, 6: late, 5: [{"step": step} for step in (0, 1)]})
    sign = {"cache": cache, "message": MESSAGE, "out": bytearray(160)}
    cases += order(MODEL.sign, sign, {3: caches, 7: long, 4: sizes("out", 0, 159, 161)})
    verify = {"n": 3, "key": key, "step": 1, "message": MESSAGE, "signature": signature}
    wrong = {8: counts, 2: sizes("key", 0, 31, 33), 4: sizes("signature", 0, 159, 161), 7: long, 6: late}
    return cases + order(MODEL.verify, verify, wrong)


def edges():
    """256 entries reached to the last; messages of no byte and of 4,096."""
    cache, key = made(256)
    cache = moved(moved(cache, 255 - 1), 255)
    assert cache[:4] == b"\0\1\xff\0"
    for message in (b"", bytes(4096)):
        assert MODEL.verify(256, key, 255, message, signed(cache, message)) == kes.DONE
    return 2


def day(model):
    """Lent seeds, caches, signatures and verdicts of a fair of three, with a cache whose past still stands."""
    master, lent, cache, key = bytearray(MASTER), bytearray(seeds(3)), bytearray(388), bytearray(32)
    model.make(3, master, lent, cache, key)
    stale = moved(bytearray(b"\3\0\1\0") + cache[4:], 2, model)
    yield master, lent, stale
    for step in range(3):
        cache = moved(cache, step, model) if step > 0 else cache
        signature = signed(cache, MESSAGE, model)
        verdicts = [model.verify(3, key, u, MESSAGE, signature) for u in range(6)]
        assert verdicts[step] == kes.DONE
        yield bytes(cache), signature, verdicts


def errors():
    """Each error that looks right accepts its own signatures, and yet is noticed."""
    sound = list(day(MODEL))
    for planted in FAIR:
        assert list(day(planted(kes.Module(standin)))) != sound, planted
    return len(FAIR)


for group in [layout, outside_calls, moves, any_bytes, signatures, damaged, refusals, edges, errors]:
    print("fair model: %s: %d cases" % (group.__name__, group()))
